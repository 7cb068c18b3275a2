//! Why a call is refused.
use std::error::Error;
use std::fmt;

/// Why a call of the library is refused, with the number that the library answers.
///
/// The order in which they are looked for: every length in the order of the arguments, the state,
/// the symbols; then what the search tells: 4, 5, 6, 3. A refused call writes nothing and leaves a
/// state as it was.
#[derive(Debug, Clone, Copy, PartialEq, Eq)]
pub enum Refusal {
    /// 1: a slice has not the exact length.
    Length {
        /// The length that it must have.
        expected: usize,
        /// The length that it has.
        actual: usize,
    },
    /// 2: a byte that is no bit, or a number that is too large for what it stands for.
    Symbol,
    /// 3: the checksum differs; for a soft block also a reliability that is not finite.
    Crc,
    /// 4: fewer than 65 bits of a FACCH word were observed.
    InsufficientObservations,
    /// 5: two different words are equally near.
    Ambiguous,
    /// 6: the second bit of a SACCH word is set.
    Reserved,
    /// 7: a line that the program `frames` does not know. No call of the library answers it.
    Line,
    /// 8: a state out of its range.
    State,
}

impl Refusal {
    /// The number, from 1 to 8.
    pub const fn number(self) -> u8 {
        match self {
            Self::Length { .. } => 1,
            Self::Symbol => 2,
            Self::Crc => 3,
            Self::InsufficientObservations => 4,
            Self::Ambiguous => 5,
            Self::Reserved => 6,
            Self::Line => 7,
            Self::State => 8,
        }
    }
}

impl fmt::Display for Refusal {
    fn fmt(&self, f: &mut fmt::Formatter<'_>) -> fmt::Result {
        match self {
            Self::Length { expected, actual } => write!(f, "{expected} wanted, {actual} given"),
            Self::Symbol => f.write_str("a byte or a number that stands for nothing"),
            Self::Crc => f.write_str("checksum differs"),
            Self::InsufficientObservations => f.write_str("fewer than 65 bits observed"),
            Self::Ambiguous => f.write_str("two words equally near"),
            Self::Reserved => f.write_str("reserved bit set"),
            Self::Line => f.write_str("unknown line"),
            Self::State => f.write_str("state out of its range"),
        }
    }
}

impl Error for Refusal {}

/// Stops at an answer that the library's contracts rule out.
pub(crate) fn never(refusal: u8) -> ! {
    unreachable!("the library answered {refusal}, which its contract rules out here")
}
