//! SACCH's deinterleaver over lists of calls from any state: rows, and the whole state after each
//! call.
use crate::air::any_deinterleaver;
use crate::phy::sacch::SacchDeinterleaver;
use crate::phy::sacch::probe::deinterleaver_state;
use crate::port::Of;
use crate::port_sacch::{Deinterleaver, Row, number, unpacked};
use crate::prng::Prng;

pub fn state(rust: &SacchDeinterleaver) -> Deinterleaver {
    Deinterleaver::of(deinterleaver_state(rust))
}

/// How often each answer came.
#[derive(Default)]
pub struct Calls {
    pub rows: u64,
    pub pending: u64,
    pub refusals: u64,
    pub resets: u64,
}

/// A field pushed on both sides.
#[track_caller]
pub fn push(calls: &mut Calls, rust: &mut SacchDeinterleaver, field: u16) {
    let port = state(rust);
    let row = rust.push(unpacked(field.into()));
    let wanted = Row {
        refusal: 0,
        complete: row.is_some(),
        row: row.map_or(0, |row| number(&row) as u16),
        deinterleaver: state(rust),
    };
    assert_eq!(port.push(field), wanted, "{port:?} {field}");
    match row {
        Some(_) => calls.rows += 1,
        None => calls.pending += 1,
    }
}

/// A refused field leaves the deinterleaver.
#[track_caller]
pub fn refused(port: Deinterleaver, field: u16, refusal: u8) {
    let wanted = Row {
        refusal,
        complete: false,
        row: 0,
        deinterleaver: port,
    };
    assert_eq!(port.push(field), wanted, "{port:?} {field}");
}

/// A list of calls from this state.
#[track_caller]
pub fn list(p: &mut Prng, calls: &mut Calls, mut rust: SacchDeinterleaver) {
    for _ in 0..60 {
        match p.below(60) {
            0 => {
                let port = state(&rust);
                rust.reset();
                assert_eq!(port.reset(), state(&rust), "{port:?}");
                calls.resets += 1;
            }
            1..=4 => {
                refused(state(&rust), 4096 + p.below(61440) as u16, 2);
                calls.refusals += 1;
            }
            _ => push(calls, &mut rust, p.below(4096) as u16),
        }
    }
}

/// Refused with State, also before Symbol; a reset gives the fresh deinterleaver.
#[track_caller]
pub fn refused_state(port: Deinterleaver, field: u16) {
    refused(port, field, 8);
    assert_eq!(port.reset(), Deinterleaver::fresh(), "{port:?}");
}

/// Any accepted state with its cursor, its count or a field out of its range.
pub fn bad_cursor(p: &mut Prng, cursor: usize) -> Deinterleaver {
    Deinterleaver {
        cursor,
        ..state(&any_deinterleaver(p))
    }
}

pub fn bad_received(p: &mut Prng, received: usize) -> Deinterleaver {
    Deinterleaver {
        received,
        ..state(&any_deinterleaver(p))
    }
}

pub fn bad_field(p: &mut Prng, place: usize, field: u16) -> Deinterleaver {
    let mut port = state(&any_deinterleaver(p));
    port.fields[place] = field;
    port
}
