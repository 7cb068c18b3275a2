//! The records of SACCH as the numbers of a stored call. Encoder: memory, twelve rows, cursor.
//! Deinterleaver: twelve fields, cursor, how many were received. Receiver: twelve fields, their cursor, how many were received, eleven rows, their cursor, how
//! many are available, phase, and the locked phase or `UNLOCKED`.
use crate::phy::sacch::probe::{deinterleaver_state, encoder_state, state};
use crate::phy::sacch::{SacchDeinterleaver, SacchEncoder, SacchReceiver};
use crate::port_sacch::packed;

pub const UNLOCKED: u64 = 256;

pub fn encoder_numbers(rust: &SacchEncoder) -> Vec<u64> {
    let (memory, rows, cursor) = encoder_state(rust);
    let rows = packed(rows).map(u64::from);
    [&[memory.into()], &rows[..], &[cursor as u64]].concat()
}

/// The original's count of fields goes on; document 01's stops at 12.
pub fn deinterleaver_numbers(rust: &SacchDeinterleaver) -> Vec<u64> {
    let (fields, cursor, received) = deinterleaver_state(rust);
    let fields = packed(fields).map(u64::from);
    [&fields[..], &[cursor, received.min(12)].map(|n| n as u64)].concat()
}

/// The count of fields as above.
pub fn receiver_numbers(rust: &SacchReceiver) -> Vec<u64> {
    let state = state(rust);
    let (fields, rows) = (packed(state.fields), packed(state.rows));
    let (fields, rows) = (fields.map(u64::from), rows.map(u64::from));
    let of_fields = [state.field_cursor, state.received.min(12)].map(|n| n as u64);
    let of_rows = [state.cursor, state.available, state.phase].map(|n| n as u64);
    let lock = state.locked.map_or(UNLOCKED, |phase| phase as u64);
    [&fields[..], &of_fields, &rows, &of_rows, &[lock]].concat()
}
