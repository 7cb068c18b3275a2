//! The channel bits of ACELP CC1, as `phy::acelp_cc1` has them.
//!
//! `mr74::Parameters` is not here: a frame's speech is its 148 bits in the codec's order. A caller
//! of the original writes `encode(&parameters.codec_bits())` and
//! `Parameters::from_codec_bits(&frame.speech)`. An error also has its
//! [`number`](DecodeError::number).
//!
//! ```
//! use bts136::acelp_cc1::{self, Interleaving};
//!
//! let frame = acelp_cc1::encode(&[true; acelp_cc1::FRAME_BITS]);
//! let slot = acelp_cc1::interleave(&[frame; 3], Interleaving::One);
//! let heard = acelp_cc1::deinterleave(&[slot; 3], Interleaving::One);
//! let decoded = acelp_cc1::decode(&heard)?;
//! assert!(decoded.crc_valid);
//! assert_eq!(decoded.speech, [true; acelp_cc1::FRAME_BITS]);
//! # Ok::<(), acelp_cc1::DecodeError>(())
//! ```
// Names and the texts of errors are those of 136-bts, acelp_cc1.rs (see NOTICE).
use crate::bits::{bools, byte_list, bytes, written};
use crate::flat;
use crate::refusal::{Refusal, never};
use std::error::Error;
use std::fmt;

/// The bits of a frame's speech; `codec::mr74` has it.
pub const FRAME_BITS: usize = 148;
/// The bits of a frame, and of a slot.
pub const CHANNEL_BITS: usize = 260;
/// The coded bits of a frame; those after them are sent as they are.
pub const PROTECTED_BITS: usize = 208;

/// A frame decoded.
#[derive(Debug, Clone, PartialEq, Eq)]
pub struct DecodedFrame {
    /// The speech bits in the codec's order.
    pub speech: [bool; FRAME_BITS],
    /// Whether the checksum is right.
    pub crc_valid: bool,
    /// How many protected bits disagree with the word's.
    pub corrected_coded_bits: u16,
}

/// Why a frame is refused.
#[derive(Debug, Clone, Copy, PartialEq, Eq)]
pub enum DecodeError {
    /// Two different words are equally near.
    Ambiguous,
}

impl DecodeError {
    /// The number: 5.
    pub fn number(self) -> u8 {
        Refusal::from(self).number()
    }
}

impl From<DecodeError> for Refusal {
    fn from(DecodeError::Ambiguous: DecodeError) -> Self {
        Self::Ambiguous
    }
}

impl fmt::Display for DecodeError {
    fn fmt(&self, f: &mut fmt::Formatter<'_>) -> fmt::Result {
        write!(f, "ACELP CC1 decode failed: {self:?}")
    }
}

impl Error for DecodeError {}

/// Codes a frame (TIA/EIA-136-410).
pub fn encode(speech: &[bool; FRAME_BITS]) -> [bool; CHANNEL_BITS] {
    bools(&written(|frame| flat::acelp_encode(&bytes(speech), frame)))
}

/// Decodes a frame to the nearest word.
pub fn decode(channel: &[bool; CHANNEL_BITS]) -> Result<DecodedFrame, DecodeError> {
    let mut speech = [0; FRAME_BITS];
    let answer = flat::acelp_decode(&bytes(channel), &mut speech);
    match answer.refusal {
        0 => Ok(DecodedFrame {
            speech: bools(&speech),
            crc_valid: answer.valid,
            corrected_coded_bits: answer.corrected,
        }),
        5 => Err(DecodeError::Ambiguous),
        other => never(other),
    }
}

/// Over how many slots a frame is spread.
#[derive(Debug, Clone, Copy, PartialEq, Eq)]
pub enum Interleaving {
    /// One slot.
    One,
    /// Two slots.
    Two,
    /// Three slots.
    Three,
}

/// The slot to send after three frames, oldest first.
pub fn interleave(history: &[[bool; CHANNEL_BITS]; 3], mode: Interleaving) -> [bool; CHANNEL_BITS] {
    let call = match mode {
        Interleaving::One => flat::acelp_interleave_one,
        Interleaving::Two => flat::acelp_interleave_two,
        Interleaving::Three => flat::acelp_interleave_three,
    };
    bools(&written(|slot| {
        call(&byte_list(history.as_flattened()), slot)
    }))
}

/// The frame that three slots carry, oldest first.
pub fn deinterleave(slots: &[[bool; CHANNEL_BITS]; 3], mode: Interleaving) -> [bool; CHANNEL_BITS] {
    let call = match mode {
        Interleaving::One => flat::acelp_deinterleave_one,
        Interleaving::Two => flat::acelp_deinterleave_two,
        Interleaving::Three => flat::acelp_deinterleave_three,
    };
    bools(&written(|frame| {
        call(&byte_list(slots.as_flattened()), frame)
    }))
}
