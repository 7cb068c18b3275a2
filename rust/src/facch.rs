//! FACCH words and the slots that carry them, as `phy::facch` has them.
//!
//! Nothing is left out. An error also has its [`number`](FacchError::number).
//!
//! ```
//! use bts136::facch::{self, WordHalf};
//!
//! let message = [true; facch::MESSAGE_BITS];
//! let coded = facch::encode(false, &message, 0x5a);
//!
//! // One slot carries half of the word, which is enough where it is clean.
//! let slot = facch::interleave(&[false; facch::CODED_BITS], &coded);
//! let half = facch::observe_half(&slot, WordHalf::Start);
//! let word = facch::decode_erased(&half, 0x5a)?;
//! assert_eq!((word.message, word.observed_coded_bits), (message, 130));
//! # Ok::<(), facch::FacchError>(())
//! ```
// Names and the texts of errors are those of 136-bts, facch.rs (see NOTICE).
use crate::bits::{bools, bytes, packed, unpacked, written};
use crate::refusal::{Refusal, never};
use crate::{flat, sys};
use std::error::Error;
use std::fmt;

/// The bits of a message.
pub const MESSAGE_BITS: usize = 48;
/// The bits of a coded word, and of a slot.
pub const CODED_BITS: usize = 260;
/// The byte that stands for a bit that was not observed.
const UNOBSERVED: u8 = 2;

/// Which half of a word a slot carries.
#[derive(Debug, Clone, Copy, PartialEq, Eq)]
pub enum WordHalf {
    /// The start, in the odd rows of its first slot.
    Start,
    /// The end, in the even rows of its second slot.
    End,
}

/// A word decoded.
#[derive(Debug, Clone, PartialEq, Eq)]
pub struct FacchWord {
    /// The first bit of the word.
    pub continuation: bool,
    /// The message, first sent bit first.
    pub message: [bool; MESSAGE_BITS],
    /// How many observed bits disagree with the word's.
    pub corrected_coded_bits: u16,
    /// How many bits were observed.
    pub observed_coded_bits: usize,
}

/// Why a word is refused.
#[derive(Debug, Clone, Copy, PartialEq, Eq)]
pub enum FacchError {
    /// Fewer than 65 bits were observed.
    InsufficientObservations,
    /// Two different words are equally near.
    Ambiguous,
    /// The checksum of the nearest word differs.
    Crc,
}

impl FacchError {
    /// The number: 4, 5 or 3.
    pub fn number(self) -> u8 {
        Refusal::from(self).number()
    }
}

impl From<FacchError> for Refusal {
    fn from(error: FacchError) -> Self {
        match error {
            FacchError::InsufficientObservations => Self::InsufficientObservations,
            FacchError::Ambiguous => Self::Ambiguous,
            FacchError::Crc => Self::Crc,
        }
    }
}

impl fmt::Display for FacchError {
    fn fmt(&self, f: &mut fmt::Formatter<'_>) -> fmt::Result {
        write!(f, "FACCH decode failed: {self:?}")
    }
}

impl Error for FacchError {}

fn word(answer: sys::FacchWord) -> Result<FacchWord, FacchError> {
    match answer.refusal {
        0 => Ok(FacchWord {
            continuation: answer.continuation,
            message: unpacked(answer.message),
            corrected_coded_bits: answer.corrected,
            observed_coded_bits: answer.observed.into(),
        }),
        3 => Err(FacchError::Crc),
        4 => Err(FacchError::InsufficientObservations),
        5 => Err(FacchError::Ambiguous),
        other => never(other),
    }
}

/// Codes a word (IS-54-B 2.7.3.1.1.4).
pub fn encode(continuation: bool, message: &[bool; MESSAGE_BITS], dvcc: u8) -> [bool; CODED_BITS] {
    let message = packed(message);
    bools(&written(|coded| {
        flat::facch_encode(continuation, message, dvcc, coded)
    }))
}

/// Decodes a word of which every bit was observed.
pub fn decode(coded: &[bool; CODED_BITS], dvcc: u8) -> Result<FacchWord, FacchError> {
    word(flat::facch_decode(&bytes(coded), dvcc))
}

/// Decodes a word by the bits that were observed: the one word nearest to them.
pub fn decode_erased(
    coded: &[Option<bool>; CODED_BITS],
    dvcc: u8,
) -> Result<FacchWord, FacchError> {
    let bytes = coded.map(|bit| bit.map_or(UNOBSERVED, u8::from));
    word(flat::facch_decode_erased(&bytes, dvcc))
}

/// The slot that finishes the previous word and starts the current one.
pub fn interleave(
    previous: &[bool; CODED_BITS],
    current: &[bool; CODED_BITS],
) -> [bool; CODED_BITS] {
    let (previous, current) = (bytes(previous), bytes(current));
    bools(&written(|slot| {
        flat::facch_interleave(&previous, &current, slot)
    }))
}

/// What a slot tells of the word that starts or ends in it.
pub fn observe_half(slot: &[bool; CODED_BITS], half: WordHalf) -> [Option<bool>; CODED_BITS] {
    let call = match half {
        WordHalf::Start => flat::facch_observe_start,
        WordHalf::End => flat::facch_observe_end,
    };
    let observed: [u8; CODED_BITS] = written(|coded| call(&bytes(slot), coded));
    observed.map(|byte| (byte != UNOBSERVED).then_some(byte != 0))
}

/// The word that starts in the first slot and is finished in the second.
pub fn deinterleave(first: &[bool; CODED_BITS], second: &[bool; CODED_BITS]) -> [bool; CODED_BITS] {
    let (first, second) = (bytes(first), bytes(second));
    bools(&written(|coded| {
        flat::facch_deinterleave(&first, &second, coded)
    }))
}
