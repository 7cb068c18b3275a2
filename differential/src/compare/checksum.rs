//! The 16-bit checksum, whole and from a register, and the 7-bit one against ACELP's and speech's.
use crate::calls::{bools, only_bits};
use crate::phy::dcch::{self, CrcMode};
use crate::phy::{acelp_cc1, speech};
use crate::port::{self, Checksum};
use crate::registers;

pub const SYMBOL: Checksum = Checksum {
    refusal: 2,
    value: 0,
};

/// What the Rust gives, where it was given bits.
fn wanted(information: &[u8], rust: impl FnOnce(&[bool]) -> u16) -> Checksum {
    if !only_bits(information) {
        return SYMBOL;
    }
    Checksum {
        refusal: 0,
        value: rust(&bools(information)),
    }
}

#[track_caller]
pub fn checksum(information: &[u8], dvcc: u8, mode: CrcMode) -> Checksum {
    let wanted = wanted(information, |bits| dcch::probe::checksum(bits, dvcc, mode));
    let answer = port::checksum(information, dvcc, mode == CrcMode::Broadcast);
    assert_eq!(answer, wanted, "{dvcc} {mode:?} {information:?}");
    answer
}

/// Against the Rust's after bits that leave this register.
#[track_caller]
pub fn checksum_from(register: u16, information: &[u8]) -> Checksum {
    let wanted = wanted(information, |bits| registers::checksum_from(register, bits));
    let answer = port::checksum_from(register, information);
    assert_eq!(answer, wanted, "{register:04x} {information:?}");
    answer
}

/// Against ACELP's.
#[track_caller]
pub fn checksum7(information: &[u8]) -> Checksum {
    let wanted = wanted(information, |bits| acelp_cc1::probe::checksum(bits).into());
    let answer = port::checksum7(information);
    assert_eq!(answer, wanted, "{information:?}");
    answer
}

/// Against speech's, which takes the whole input and reads twelve places of it, in an order of its
/// own.
#[track_caller]
pub fn significant(input: &[bool; 89]) -> Checksum {
    let information = speech::probe::SIGNIFICANT_POSITIONS.map(|place| u8::from(input[place]));
    let answer = checksum7(&information);
    let value = speech::probe::checksum(input).into();
    assert_eq!(answer, Checksum { refusal: 0, value }, "{input:?}");
    answer
}
