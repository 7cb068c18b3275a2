//! SACCH's encoder over lists of calls from any state: fields, and the whole state after each call.
use crate::air::{MESSAGES, any_encoder};
use crate::phy::sacch::SacchEncoder;
use crate::phy::sacch::probe::encoder_state;
use crate::port::Of;
use crate::port_sacch::{Encoder, Field, Fields, packed, unpacked};
use crate::prng::Prng;

pub fn state(rust: &SacchEncoder) -> Encoder {
    Encoder::of(encoder_state(rust))
}

/// A call of `encode_word` on both; the port's state after it.
#[track_caller]
pub fn word(p: &mut Prng, rust: &mut SacchEncoder, port: Encoder) -> Encoder {
    let (continuation, message, dvcc) = (p.bit(), p.draw() % MESSAGES, p.byte());
    let fields = rust.encode_word(continuation, &unpacked(message), dvcc);
    let wanted = Fields {
        refusal: 0,
        encoder: state(rust),
        fields: packed(fields),
    };
    let answer = port.encode_word(continuation, message, dvcc);
    assert_eq!(answer, wanted, "{port:?} {continuation} {message} {dvcc}");
    answer.encoder
}

/// A call of `encode_bits` on both; the port's state after it.
#[track_caller]
pub fn bits(six: u8, rust: &mut SacchEncoder, port: Encoder) -> Encoder {
    let [field] = packed([rust.encode_bits(unpacked(six.into()))]);
    let wanted = Field {
        refusal: 0,
        encoder: state(rust),
        field,
    };
    let answer = port.encode_bits(six);
    assert_eq!(answer, wanted, "{port:?} {six}");
    answer.encoder
}

#[track_caller]
pub fn refused_bits(encoder: Encoder, six: u8, refusal: u8) {
    let wanted = Field {
        refusal,
        encoder,
        field: 0,
    };
    assert_eq!(encoder.encode_bits(six), wanted, "{six}");
}

#[track_caller]
pub fn refused_word(p: &mut Prng, encoder: Encoder, message: u64, refusal: u8) {
    let wanted = Fields {
        refusal,
        encoder,
        fields: [0; 11],
    };
    let answer = encoder.encode_word(p.bit(), message, p.byte());
    assert_eq!(answer, wanted, "{message}");
}

/// Both calls refused with Symbol.
#[track_caller]
pub fn refused_symbols(p: &mut Prng, port: Encoder) {
    let six = 64 + p.below(192) as u8;
    let message = MESSAGES + p.draw() % (u64::MAX - MESSAGES);
    refused_bits(port, six, 2);
    refused_word(p, port, message, 2);
}

/// Both calls refused with State, also before Symbol; a reset gives the fresh encoder.
#[track_caller]
pub fn refused_state(p: &mut Prng, port: Encoder, six: u8, message: u64) {
    refused_bits(port, six, 8);
    refused_word(p, port, message, 8);
    assert_eq!(port.reset(), Encoder::fresh(), "{port:?}");
}

/// How often each call was made.
#[derive(Default)]
pub struct Calls {
    pub words: u64,
    pub sixes: u64,
    pub refusals: u64,
    pub resets: u64,
}

/// A list of calls from this state.
#[track_caller]
pub fn list(p: &mut Prng, calls: &mut Calls, mut rust: SacchEncoder) {
    let mut port = state(&rust);
    for _ in 0..40 {
        match p.below(8) {
            0..=3 => {
                port = word(p, &mut rust, port);
                calls.words += 1;
            }
            4..=5 => {
                port = bits(p.below(64) as u8, &mut rust, port);
                calls.sixes += 1;
            }
            6 => {
                refused_symbols(p, port);
                calls.refusals += 2;
            }
            _ => {
                rust.reset();
                port = port.reset();
                assert_eq!(port, state(&rust));
                calls.resets += 1;
            }
        }
    }
}

/// Any accepted state with its memory, its cursor or a row out of its range.
pub fn bad_memory(p: &mut Prng, memory: u8) -> Encoder {
    Encoder {
        memory,
        ..state(&any_encoder(p))
    }
}

pub fn bad_cursor(p: &mut Prng, cursor: usize) -> Encoder {
    Encoder {
        cursor,
        ..state(&any_encoder(p))
    }
}

pub fn bad_row(p: &mut Prng, place: usize, row: u16) -> Encoder {
    let mut port = state(&any_encoder(p));
    port.rows[place] = row;
    port
}
