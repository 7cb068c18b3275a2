//! DCCH blocks, as `phy::dcch` has them.
//!
//! `decode_soft` and `checksum` are public here, and [`checksum_from`] is new; `transition` is in
//! [`flat`], since it refuses a state above 31. An error also has its [`number`](BlockError::number).
//!
//! ```
//! use bts136::dcch::{self, BlockFormat, CrcMode};
//!
//! let information = [true; 109];
//! let mut block = dcch::encode(BlockFormat::Forward, &information, 0x5a, CrcMode::Addressed)?;
//! block[100] = !block[100];
//! let decoded = dcch::decode(BlockFormat::Forward, &block, 0x5a, CrcMode::Addressed)?;
//! assert_eq!(decoded.information, information);
//! assert_eq!(decoded.corrected_coded_bits, 1);
//! # Ok::<(), dcch::BlockError>(())
//! ```
// Names and the texts of errors are those of 136-bts, dcch.rs (see NOTICE).
use crate::bits::{bool_list, byte_list};
use crate::flat;
use crate::refusal::{Refusal, never};
use crate::sys::{Block, Crc, Written};
use std::error::Error;
use std::fmt;

/// The three formats of a block.
#[derive(Debug, Clone, Copy, PartialEq, Eq)]
pub enum BlockFormat {
    /// 260 coded bits, 109 of information.
    Forward,
    /// 244 coded bits, 101 of information.
    ReverseNormal,
    /// 200 coded bits, 79 of information.
    ReverseAbbreviated,
}

impl BlockFormat {
    /// The bits of a block.
    pub fn encoded_bits(self) -> usize {
        match self {
            Self::Forward => 260,
            Self::ReverseNormal => 244,
            Self::ReverseAbbreviated => 200,
        }
    }
    /// The bits of its information.
    pub fn information_bits(self) -> usize {
        match self {
            Self::Forward => 109,
            Self::ReverseNormal => 101,
            Self::ReverseAbbreviated => 79,
        }
    }
}

/// Whether the checksum is complemented.
#[derive(Debug, Clone, Copy, PartialEq, Eq)]
pub enum CrcMode {
    /// Complemented.
    Broadcast,
    /// As it is.
    Addressed,
}

/// Why a block is refused.
#[derive(Debug, Clone, Copy, PartialEq, Eq)]
pub enum BlockError {
    /// What was given has not the format's length.
    Length {
        /// The format's length.
        expected: usize,
        /// The length that was given.
        actual: usize,
    },
    /// The checksum of the nearest word differs, or a reliability is not finite.
    Crc,
}

impl BlockError {
    /// The number: 1 or 3.
    pub fn number(self) -> u8 {
        Refusal::from(self).number()
    }
}

impl From<BlockError> for Refusal {
    fn from(error: BlockError) -> Self {
        match error {
            BlockError::Length { expected, actual } => Self::Length { expected, actual },
            BlockError::Crc => Self::Crc,
        }
    }
}

impl fmt::Display for BlockError {
    fn fmt(&self, f: &mut fmt::Formatter<'_>) -> fmt::Result {
        match self {
            Self::Length { expected, actual } => {
                write!(f, "DCCH block requires {expected} bits, received {actual}")
            }
            Self::Crc => f.write_str("DCCH CRC mismatch"),
        }
    }
}

impl Error for BlockError {}

/// A block decoded.
#[derive(Debug, Clone, PartialEq, Eq)]
pub struct DecodedBlock {
    /// As many bits as the format has.
    pub information: Vec<bool>,
    /// How many bits of the block disagree with the word's.
    pub corrected_coded_bits: u16,
}

/// What is read, DVCC, Broadcast, what is written.
type Call<T, A> = fn(&[T], u8, bool, &mut [u8]) -> A;

impl BlockFormat {
    fn encode(self) -> Call<u8, Written> {
        match self {
            Self::Forward => flat::dcch_encode_forward,
            Self::ReverseNormal => flat::dcch_encode_reverse_normal,
            Self::ReverseAbbreviated => flat::dcch_encode_reverse_abbreviated,
        }
    }
    fn decode(self) -> Call<u8, Block> {
        match self {
            Self::Forward => flat::dcch_decode_forward,
            Self::ReverseNormal => flat::dcch_decode_reverse_normal,
            Self::ReverseAbbreviated => flat::dcch_decode_reverse_abbreviated,
        }
    }
    fn decode_soft(self) -> Call<f64, Block> {
        match self {
            Self::Forward => flat::dcch_decode_soft_forward,
            Self::ReverseNormal => flat::dcch_decode_soft_reverse_normal,
            Self::ReverseAbbreviated => flat::dcch_decode_soft_reverse_abbreviated,
        }
    }
}

/// A number with the lengths that go with it, as an error.
fn accepted(refusal: u8, expected: usize, actual: usize) -> Result<(), BlockError> {
    match refusal {
        0 => Ok(()),
        1 => Err(BlockError::Length { expected, actual }),
        3 => Err(BlockError::Crc),
        other => never(other),
    }
}

/// Makes a decoding call.
fn decoded<T>(
    function: Call<T, Block>,
    input: &[T],
    dvcc: u8,
    mode: CrcMode,
    format: BlockFormat,
) -> Result<DecodedBlock, BlockError> {
    let mut information = vec![0; format.information_bits()];
    let answer = function(input, dvcc, mode == CrcMode::Broadcast, &mut information);
    accepted(answer.refusal, answer.expected, answer.actual)?;
    Ok(DecodedBlock {
        information: bool_list(&information),
        corrected_coded_bits: answer.corrected,
    })
}

/// Codes the information of a block (IS-136.1-A 4.4.3 and 5.2.6).
pub fn encode(
    format: BlockFormat,
    information: &[bool],
    dvcc: u8,
    mode: CrcMode,
) -> Result<Vec<bool>, BlockError> {
    let mut block = vec![0; format.encoded_bits()];
    let broadcast = mode == CrcMode::Broadcast;
    let answer = format.encode()(&byte_list(information), dvcc, broadcast, &mut block);
    accepted(answer.refusal, answer.expected, answer.actual)?;
    Ok(bool_list(&block))
}

/// Decodes the bits of a block to the nearest word; among words equally near, the one with a zero
/// at the last place where they differ.
pub fn decode(
    format: BlockFormat,
    encoded: &[bool],
    dvcc: u8,
    mode: CrcMode,
) -> Result<DecodedBlock, BlockError> {
    decoded(format.decode(), &byte_list(encoded), dvcc, mode, format)
}

/// Decodes the reliabilities of a block: a positive one favours zero, a negative one favours one,
/// and zero is an erasure, which is counted as a received zero.
///
/// Costs are summed in doubles, in the original's order. Where they are whole numbers of size at
/// most 2^40, nothing rounds and the word is one of least cost, ties as in [`decode`].
///
/// ```
/// use bts136::dcch::{self, BlockFormat, CrcMode};
///
/// let unheard = [0.0; 260];
/// let block = dcch::decode_soft(BlockFormat::Forward, &unheard, 0, CrcMode::Addressed)?;
/// assert_eq!(block.information, [false; 109]);
/// # Ok::<(), dcch::BlockError>(())
/// ```
pub fn decode_soft(
    format: BlockFormat,
    encoded: &[f64],
    dvcc: u8,
    mode: CrcMode,
) -> Result<DecodedBlock, BlockError> {
    decoded(format.decode_soft(), encoded, dvcc, mode, format)
}

/// The checksum of any number of bits under a colour code.
///
/// ```
/// use bts136::dcch::{CrcMode, checksum};
///
/// assert_eq!(checksum(&[], 1, CrcMode::Addressed), 4129);
/// ```
pub fn checksum(information: &[bool], dvcc: u8, mode: CrcMode) -> u16 {
    let broadcast = mode == CrcMode::Broadcast;
    value(flat::checksum(&byte_list(information), dvcc, broadcast))
}

/// The register of the checksum after any number of bits, from a given one, not complemented. FACCH
/// and SACCH have the same register. Over one run of bits and then over a second it ends as over
/// both joined, so that the register of a colour code can be held and its eight bits run once.
///
/// ```
/// use bts136::dcch::{CrcMode, checksum, checksum_from};
///
/// let colour = 0x5a_u8;
/// let held = checksum_from(0, &std::array::from_fn::<_, 8, _>(|i| colour >> (7 - i) & 1 == 1));
/// let information = [true; 109];
/// let register = checksum_from(held, &information);
/// assert_eq!(register, checksum(&information, colour, CrcMode::Addressed));
/// assert_eq!(!register, checksum(&information, colour, CrcMode::Broadcast));
/// ```
pub fn checksum_from(register: u16, information: &[bool]) -> u16 {
    value(flat::checksum_from(register, &byte_list(information)))
}

/// The value of an answer; bits are never refused.
fn value(answer: Crc) -> u16 {
    match answer.refusal {
        0 => answer.value,
        other => never(other),
    }
}
