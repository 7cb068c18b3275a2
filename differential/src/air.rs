//! What two SACCH ends can be given: states of every kind, and streams of fields as sent, with
//! what happens to them on the way.
use crate::phy::sacch::probe::{State, deinterleaver, encoder};
use crate::phy::sacch::{SacchDeinterleaver, SacchEncoder};
use crate::port_sacch::{number, unpacked};
use crate::prng::Prng;

pub const MESSAGES: u64 = 1 << 48;

pub fn any_encoder(p: &mut Prng) -> SacchEncoder {
    let history = std::array::from_fn(|_| p.array());
    encoder(p.below(32) as u8, history, p.below(12))
}

/// Any receiver that is not refused with 8. The Rust's count of fields has no end.
pub fn any_receiver(p: &mut Prng) -> State {
    let counts = [12, 13, 1000, usize::MAX];
    State {
        fields: std::array::from_fn(|_| p.array()),
        field_cursor: p.below(12),
        received: if p.bit() {
            p.below(12)
        } else {
            counts[p.below(4)]
        },
        rows: std::array::from_fn(|_| p.array()),
        cursor: p.below(11),
        available: if p.bit() { p.below(12) } else { 11 },
        phase: p.below(11),
        locked: p.bit().then(|| p.below(11)),
    }
}

/// Any deinterleaver that is not refused with 8.
pub fn any_deinterleaver(p: &mut Prng) -> SacchDeinterleaver {
    let state = any_receiver(p);
    deinterleaver((state.fields, state.field_cursor, state.received))
}

/// A word as it is given to the encoder.
#[derive(Clone, Copy, Debug, PartialEq, Eq)]
pub struct Given {
    pub continuation: bool,
    pub message: u64,
}

pub fn any_word(p: &mut Prng) -> Given {
    // Few ones and few zeros too: rows of one another's shape make false words likelier.
    let message = match p.below(4) {
        0 => 1 << p.below(48),
        1 => MESSAGES - 1 - (1 << p.below(48)),
        _ => p.draw() % MESSAGES,
    };
    Given {
        continuation: p.bit(),
        message,
    }
}

/// The fields of words from an encoder.
pub fn fields(encoder: &mut SacchEncoder, words: &[Given], dvcc: u8) -> Vec<u16> {
    let word = |given: &Given| {
        let fields = encoder.encode_word(given.continuation, &unpacked(given.message), dvcc);
        fields.map(|field| number(&field) as u16)
    };
    words.iter().flat_map(word).collect()
}
