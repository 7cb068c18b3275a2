//! The register steps of the three codes.
use crate::blocks::bytes;
use crate::phy::{acelp_cc1, dcch, facch};
use crate::port::{self, Step};

pub const STATE: u8 = 8;
pub const SYMBOL: u8 = 2;

/// A code's step by the port and by the Rust.
pub struct Code {
    port: fn(u8, u8) -> Step,
    rust: fn(u8, bool) -> Step,
}

pub const DCCH: Code = Code {
    port: port::dcch_transition,
    rust: |state, input| {
        let (next, output) = dcch::probe::transition(state, input);
        step(next, &output)
    },
};
pub const FACCH: Code = Code {
    port: port::facch_transition,
    rust: |state, input| {
        let (next, output) = facch::probe::transition(state, input);
        step(next, &output)
    },
};
pub const ACELP: Code = Code {
    port: port::acelp_transition,
    rust: |state, input| {
        let (next, output) = acelp_cc1::probe::transition(usize::from(state), input);
        step(next as u8, &output)
    },
};

fn step(next: u8, bits: &[bool]) -> Step {
    let mut output = [0; 4];
    output[..bits.len()].copy_from_slice(&bytes(bits));
    Step {
        refusal: 0,
        next,
        output,
    }
}

fn refused(refusal: u8) -> Step {
    Step {
        refusal,
        next: 0,
        output: [0; 4],
    }
}

impl Code {
    #[track_caller]
    pub fn compare(&self, state: u8, input: u8) -> Step {
        let wanted = match (state, input) {
            (32.., _) => refused(STATE),
            (_, 2..) => refused(SYMBOL),
            _ => (self.rust)(state, input == 1),
        };
        let answer = (self.port)(state, input);
        assert_eq!(answer, wanted, "state {state}, input {input}");
        answer
    }
}
