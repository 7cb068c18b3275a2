//! The port's calls on speech frames, VSELP's and ACELP CC1's, as port.rs has the others.
use crate::phy::acelp_cc1::Interleaving;
use crate::port::{Of, Refused};
use crate::port_facch::Written;
use bindings::flat;
pub use bindings::sys::Frame;

pub const fn accepted(valid: bool, corrected: u16) -> Frame {
    Frame {
        refusal: 0,
        expected: 0,
        actual: 0,
        valid,
        corrected,
    }
}

/// The refusal of slices.
impl Of<Written> for Frame {
    fn of(written: Written) -> Self {
        Frame {
            expected: written.expected,
            actual: written.actual,
            ..Frame::refused(written.refusal)
        }
    }
}

/// VSELP.
pub mod speech {
    pub use bindings::flat::{
        speech_decode_candidate as decode_candidate, speech_deinterleave as deinterleave,
        speech_encode as encode, speech_interleave as interleave,
    };
}

/// ACELP CC1.
pub mod acelp {
    use super::*;
    pub use bindings::flat::{acelp_decode as decode, acelp_encode as encode};

    /// 780 bits of history, oldest frame first.
    pub fn interleave(history: &[u8], mode: Interleaving, slot: &mut [u8]) -> Written {
        let call = match mode {
            Interleaving::One => flat::acelp_interleave_one,
            Interleaving::Two => flat::acelp_interleave_two,
            Interleaving::Three => flat::acelp_interleave_three,
        };
        call(history, slot)
    }
    /// 780 bits of slots, oldest first.
    pub fn deinterleave(slots: &[u8], mode: Interleaving, frame: &mut [u8]) -> Written {
        let call = match mode {
            Interleaving::One => flat::acelp_deinterleave_one,
            Interleaving::Two => flat::acelp_deinterleave_two,
            Interleaving::Three => flat::acelp_deinterleave_three,
        };
        call(slots, frame)
    }
}
