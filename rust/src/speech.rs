//! The channel bits of VSELP, as `phy::speech` has them.
//!
//! A failed checksum is a status of an accepted frame. So `decode`, which makes an error of it, and
//! `SpeechError::Crc` are not here; a caller of `decode` matches on [`SpeechCandidate::crc`]. An
//! error also has its [`number`](SpeechError::number).
//!
//! ```
//! use bts136::speech::{self, CrcStatus, SpeechBits};
//!
//! let bits = SpeechBits { class_one: [true; 77], class_two: [false; 82] };
//! let mut frame = speech::encode(&bits);
//! frame[1] = !frame[1];
//! let candidate = speech::decode_candidate(&frame)?;
//! assert_eq!(candidate.crc, CrcStatus::Valid);
//! assert_eq!(candidate.frame.bits, bits);
//! assert_eq!(candidate.frame.corrected_coded_bits, 1);
//! # Ok::<(), speech::SpeechError>(())
//! ```
// Names and the texts of errors are those of 136-bts, speech.rs (see NOTICE).
use crate::bits::{bools, bytes, written};
use crate::flat;
use crate::refusal::{Refusal, never};
use std::error::Error;
use std::fmt;

/// The protected bits of a frame.
pub const CLASS_ONE_BITS: usize = 77;
/// The bits that are sent as they are.
pub const CLASS_TWO_BITS: usize = 82;
/// The bits of a frame, and of a slot.
pub const CHANNEL_BITS: usize = 260;
/// The coded bits of a frame.
pub const PROTECTED_BITS: usize = 178;

/// The speech bits of a frame.
#[derive(Debug, Clone, PartialEq, Eq)]
pub struct SpeechBits {
    /// CL1\[4..=80\], without checksum and tail.
    pub class_one: [bool; CLASS_ONE_BITS],
    /// CL2\[0..=81\].
    pub class_two: [bool; CLASS_TWO_BITS],
}

/// A frame decoded.
#[derive(Debug, Clone, PartialEq, Eq)]
pub struct SpeechFrame {
    /// Its speech bits.
    pub bits: SpeechBits,
    /// How many protected bits disagree with the word's.
    pub corrected_coded_bits: u16,
}

/// Whether the checksum is right; it covers twelve bits of class one.
#[derive(Debug, Clone, Copy, PartialEq, Eq)]
pub enum CrcStatus {
    /// It is right.
    Valid,
    /// It differs.
    Failed,
}

/// A frame, and whether its checksum is right.
#[derive(Debug, Clone, PartialEq, Eq)]
pub struct SpeechCandidate {
    /// The frame, also where its checksum differs.
    pub frame: SpeechFrame,
    /// Whether the checksum is right.
    pub crc: CrcStatus,
}

/// Why a frame is refused.
#[derive(Debug, Clone, Copy, PartialEq, Eq)]
pub enum SpeechError {
    /// Two different words are equally near.
    Ambiguous,
}

impl SpeechError {
    /// The number: 5.
    pub fn number(self) -> u8 {
        Refusal::from(self).number()
    }
}

impl From<SpeechError> for Refusal {
    fn from(SpeechError::Ambiguous: SpeechError) -> Self {
        Self::Ambiguous
    }
}

impl fmt::Display for SpeechError {
    fn fmt(&self, f: &mut fmt::Formatter<'_>) -> fmt::Result {
        write!(f, "VSELP channel decode failed: {self:?}")
    }
}

impl Error for SpeechError {}

/// Codes a frame (IS-54-B 2.1.3.3).
pub fn encode(bits: &SpeechBits) -> [bool; CHANNEL_BITS] {
    let (one, two) = (bytes(&bits.class_one), bytes(&bits.class_two));
    bools(&written(|frame| flat::speech_encode(&one, &two, frame)))
}

/// Decodes a frame to the nearest word. With a failed checksum its bits are for masking, not for
/// synthesis.
pub fn decode_candidate(channel: &[bool; CHANNEL_BITS]) -> Result<SpeechCandidate, SpeechError> {
    let (mut one, mut two) = ([0; CLASS_ONE_BITS], [0; CLASS_TWO_BITS]);
    let answer = flat::speech_decode_candidate(&bytes(channel), &mut one, &mut two);
    match answer.refusal {
        0 => Ok(SpeechCandidate {
            frame: SpeechFrame {
                bits: SpeechBits {
                    class_one: bools(&one),
                    class_two: bools(&two),
                },
                corrected_coded_bits: answer.corrected,
            },
            crc: match answer.valid {
                true => CrcStatus::Valid,
                false => CrcStatus::Failed,
            },
        }),
        5 => Err(SpeechError::Ambiguous),
        other => never(other),
    }
}

/// The slot that finishes the previous frame and starts the current one.
pub fn interleave(
    previous: &[bool; CHANNEL_BITS],
    current: &[bool; CHANNEL_BITS],
) -> [bool; CHANNEL_BITS] {
    let (previous, current) = (bytes(previous), bytes(current));
    bools(&written(|slot| {
        flat::speech_interleave(&previous, &current, slot)
    }))
}

/// The frame that starts in the first slot and is finished in the second.
pub fn deinterleave(
    first: &[bool; CHANNEL_BITS],
    second: &[bool; CHANNEL_BITS],
) -> [bool; CHANNEL_BITS] {
    let (first, second) = (bytes(first), bytes(second));
    bools(&written(|frame| {
        flat::speech_deinterleave(&first, &second, frame)
    }))
}
