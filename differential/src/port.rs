//! The port's calls on steps, checksums, searches and DCCH blocks, as the crate in `rust/` has them:
//! bits are bytes of 0 or 1, and a refusal is 0 or a number of document 01.
use crate::phy::dcch::BlockFormat;
use bindings::flat;
pub use bindings::flat::{acelp_transition, dcch_transition, facch_transition};
pub use bindings::flat::{checksum, checksum_from, checksum7, viterbi, viterbi_free};
pub use bindings::sys::{Block, Crc as Checksum, Search, Step};
use bindings::sys::{FacchWord, Frame, SacchWord, Written};

/// A state or an answer of the port, made of what the Rust or another call has.
pub trait Of<T> {
    fn of(given: T) -> Self;
}

/// An answer that may be a refusal.
pub trait Refused {
    /// With this number and nothing else; 0 where nothing is refused.
    fn refused(refusal: u8) -> Self;
    /// For a length: the one that was expected and the one that came.
    fn length(expected: usize, actual: usize) -> Self;
}

macro_rules! refused {
    ($($answer:ty),*) => {$(
        impl Refused for $answer {
            fn refused(refusal: u8) -> Self {
                Self { refusal, ..Self::default() }
            }
            fn length(expected: usize, actual: usize) -> Self {
                Self { expected, actual, ..Self::refused(1) }
            }
        }
    )*};
}

refused!(FacchWord, SacchWord, Frame);

impl Of<Written> for Block {
    fn of(written: Written) -> Self {
        let Written {
            refusal,
            expected,
            actual,
        } = written;
        Block {
            refusal,
            expected,
            actual,
            corrected: 0,
        }
    }
}

pub fn dcch_encode(
    format: BlockFormat,
    information: &[u8],
    dvcc: u8,
    broadcast: bool,
    block: &mut [u8],
) -> Written {
    let call = match format {
        BlockFormat::Forward => flat::dcch_encode_forward,
        BlockFormat::ReverseNormal => flat::dcch_encode_reverse_normal,
        BlockFormat::ReverseAbbreviated => flat::dcch_encode_reverse_abbreviated,
    };
    call(information, dvcc, broadcast, block)
}

pub fn dcch_decode(
    format: BlockFormat,
    block: &[u8],
    dvcc: u8,
    broadcast: bool,
    information: &mut [u8],
) -> Block {
    let call = match format {
        BlockFormat::Forward => flat::dcch_decode_forward,
        BlockFormat::ReverseNormal => flat::dcch_decode_reverse_normal,
        BlockFormat::ReverseAbbreviated => flat::dcch_decode_reverse_abbreviated,
    };
    call(block, dvcc, broadcast, information)
}
