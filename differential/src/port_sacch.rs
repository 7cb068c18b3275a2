//! The port's calls on SACCH, as port.rs has the others, and the Rust's states and answers as the
//! port has them.
use crate::phy::sacch::probe::{self, State};
use crate::phy::sacch::{ReceiveOutcome, SacchError, SacchWord};
use crate::port::{Of, Refused};
pub use bindings::flat::sacch_decode as decode;
pub use bindings::sys::{Deinterleaver, Encoder, Field, Fields, Pushed, Receiver, Row};
pub use bindings::sys::{PENDING, REFUSED, REJECTED, SacchWord as Word, UNLOCKED, WORD};

pub fn number(bits: &[bool]) -> u64 {
    bits.iter()
        .fold(0, |number, bit| number * 2 + u64::from(*bit))
}

pub fn unpacked<const N: usize>(number: u64) -> [bool; N] {
    std::array::from_fn(|place| number >> (N - 1 - place) & 1 != 0)
}

pub fn packed<const N: usize>(rows: [[bool; 12]; N]) -> [u16; N] {
    rows.map(|row| number(&row) as u16)
}

impl Of<(u8, [[bool; 12]; 12], usize)> for Encoder {
    fn of((memory, history, cursor): (u8, [[bool; 12]; 12], usize)) -> Self {
        Encoder {
            memory,
            rows: packed(history),
            cursor,
        }
    }
}

/// `received` stops at 12.
impl Of<probe::Fields> for Deinterleaver {
    fn of((history, cursor, received): probe::Fields) -> Self {
        Deinterleaver {
            fields: packed(history),
            cursor,
            received: received.min(12),
        }
    }
}

/// `received` stops at 12.
impl Of<&State> for Receiver {
    fn of(state: &State) -> Self {
        Receiver {
            fields: packed(state.fields),
            field_cursor: state.field_cursor,
            received: state.received.min(12),
            rows: packed(state.rows),
            row_cursor: state.cursor,
            available: state.available,
            phase: state.phase as u8,
            lock: state.locked.map_or(UNLOCKED, |phase| phase as u8),
        }
    }
}

impl Of<&Result<SacchWord, SacchError>> for Word {
    fn of(rust: &Result<SacchWord, SacchError>) -> Self {
        match rust {
            Ok(word) => Word {
                continuation: word.continuation,
                message: number(&word.message),
                corrected: word.corrected_coded_bits,
                ending: word.final_encoder_state,
                ..Word::refused(0)
            },
            Err(error) => Word::refused(refusal(*error)),
        }
    }
}

pub fn refusal(error: SacchError) -> u8 {
    match error {
        SacchError::Crc => 3,
        SacchError::Ambiguous => 5,
        SacchError::Reserved => 6,
    }
}

/// An answer without a word.
pub fn nothing(kind: u8, refusal: u8, receiver: Receiver) -> Pushed {
    Pushed {
        kind,
        refusal,
        continuation: false,
        message: 0,
        corrected: 0,
        ending: 0,
        receiver,
    }
}

impl Of<(&ReceiveOutcome, Receiver)> for Pushed {
    fn of((rust, receiver): (&ReceiveOutcome, Receiver)) -> Self {
        match rust {
            ReceiveOutcome::Pending => nothing(PENDING, 0, receiver),
            ReceiveOutcome::Rejected(error) => nothing(REJECTED, refusal(*error), receiver),
            ReceiveOutcome::Word(word) => Pushed {
                continuation: word.continuation,
                message: number(&word.message),
                corrected: word.corrected_coded_bits,
                ending: word.final_encoder_state,
                ..nothing(WORD, 0, receiver)
            },
        }
    }
}

/// What `push` answers: a word or nothing.
pub fn word_only(pushed: Pushed) -> Pushed {
    match pushed.kind {
        REJECTED => nothing(PENDING, 0, pushed.receiver),
        _ => pushed,
    }
}
