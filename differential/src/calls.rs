//! A call of the port that writes into a lent buffer, made with margins around it, what its slices
//! are refused for, and counts of answers.
use crate::lent::Lent;
use crate::port_facch::{DONE, SYMBOL, Written, length};
use std::fmt::Debug;

/// Makes a call on a lent buffer. It must give this answer and leave these bytes there, or where
/// there are none leave the buffer alone.
#[track_caller]
pub fn lend<A: Debug + PartialEq>(
    input: impl Debug,
    room: usize,
    wanted: A,
    bytes: Option<&[u8]>,
    call: impl FnOnce(&mut [u8]) -> A,
) -> A {
    let mut lent = Lent::new(room);
    assert_eq!(call(lent.lend()), wanted, "{input:?}");
    lent.holds(bytes, input);
    wanted
}

/// Makes a call that must write these bytes, or be refused.
#[track_caller]
pub fn writes(
    input: impl Debug,
    room: usize,
    wanted: Result<Vec<u8>, Written>,
    call: impl FnOnce(&mut [u8]) -> Written,
) -> Written {
    match wanted {
        Ok(bytes) => lend(input, room, DONE, Some(&bytes), call),
        Err(refusal) => lend(input, room, refusal, None, call),
    }
}

/// The refusal of some inputs, each with its right length, and of the slices to write, right
/// length first: lengths in the order of the arguments, then bytes that are no bits.
pub fn refusal(inputs: &[(usize, &[u8])], rooms: &[(usize, usize)]) -> Option<Written> {
    let given = inputs.iter().map(|(right, bytes)| (*right, bytes.len()));
    let wrong = |(expected, actual): &(usize, usize)| expected != actual;
    if let Some((expected, actual)) = given.chain(rooms.iter().copied()).find(wrong) {
        return Some(length(expected, actual));
    }
    let bits = inputs.iter().all(|(_, bytes)| only_bits(bytes));
    (!bits).then_some(SYMBOL)
}

pub fn only_bits(bytes: &[u8]) -> bool {
    bytes.iter().all(|byte| *byte < 2)
}

/// Bits of the right number, once `refusal` has let them pass.
pub fn array<const N: usize>(bytes: &[u8]) -> [bool; N] {
    assert_eq!(bytes.len(), N);
    std::array::from_fn(|place| bytes[place] == 1)
}

pub fn bools(bytes: &[u8]) -> Vec<bool> {
    bytes.iter().map(|byte| *byte == 1).collect()
}

/// How often each answer of a speech decoder came.
#[derive(Default)]
pub struct FrameAnswers {
    pub valid: u64,
    pub failed: u64,
    pub ambiguous: u64,
}

impl FrameAnswers {
    pub fn count(&mut self, answer: &crate::port_speech::Frame) {
        match (answer.refusal, answer.valid) {
            (0, true) => self.valid += 1,
            (0, false) => self.failed += 1,
            _ => self.ambiguous += 1,
        }
    }
    pub fn calls(&self) -> u64 {
        self.valid + self.failed + self.ambiguous
    }
    pub fn text(&self) -> String {
        let FrameAnswers {
            valid,
            failed,
            ambiguous,
        } = self;
        format!("{valid} valid, {failed} failed, {ambiguous} ambiguous")
    }
}
