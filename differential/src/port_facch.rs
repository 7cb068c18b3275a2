//! The port's calls on FACCH words, as port.rs has the others.
use bindings::flat;
pub use bindings::flat::{
    facch_decode as decode, facch_decode_erased as decode_erased,
    facch_deinterleave as deinterleave, facch_encode as encode, facch_interleave as interleave,
};
pub use bindings::sys::{FacchWord as Word, Written};

pub const DONE: Written = Written {
    refusal: 0,
    expected: 0,
    actual: 0,
};
pub const SYMBOL: Written = Written { refusal: 2, ..DONE };

pub const fn length(expected: usize, actual: usize) -> Written {
    Written {
        refusal: 1,
        expected,
        actual,
    }
}

/// The half that a slot carries: the end of one word, or the start of the next.
pub fn observe(end: bool, slot: &[u8], coded: &mut [u8]) -> Written {
    let call = match end {
        true => flat::facch_observe_end,
        false => flat::facch_observe_start,
    };
    call(slot, coded)
}
