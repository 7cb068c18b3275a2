//! Answers of DCCH's calls, and calls of the port that must give them: refusal, count and every
//! byte of the lent buffer.
use crate::blocks::bytes;
use crate::calls::lend;
use crate::phy::dcch::BlockError;
use crate::port::Block;
use std::fmt::Debug;

pub const SYMBOL: Block = refused(2);
pub const CRC: Block = refused(3);

const fn refused(refusal: u8) -> Block {
    Block {
        refusal,
        ..accepted(0)
    }
}

pub const fn accepted(corrected: u16) -> Block {
    Block {
        refusal: 0,
        expected: 0,
        actual: 0,
        corrected,
    }
}

pub const fn length(expected: usize, actual: usize) -> Block {
    Block {
        refusal: 1,
        expected,
        actual,
        corrected: 0,
    }
}

/// The Rust's error as the port gives it.
pub fn error(error: BlockError) -> Block {
    match error {
        BlockError::Length { expected, actual } => length(expected, actual),
        BlockError::Crc => CRC,
    }
}

/// Makes a call that must be refused and must leave the buffer alone.
#[track_caller]
pub fn refuse(
    input: impl Debug,
    room: usize,
    wanted: Block,
    call: impl FnOnce(&mut [u8]) -> Block,
) {
    lend(input, room, wanted, None, call);
}

/// Makes a call that must be accepted and must fill the buffer with these bits.
#[track_caller]
pub fn accept(
    input: impl Debug,
    bits: &[bool],
    corrected: u16,
    call: impl FnOnce(&mut [u8]) -> Block,
) {
    let wanted = accepted(corrected);
    lend(input, bits.len(), wanted, Some(&bytes(bits)), call);
}

/// How often each answer of a decoder came.
#[derive(Default)]
pub struct Answers {
    pub words: u64,
    pub crc: u64,
}

impl Answers {
    pub fn count(&mut self, answer: Block) {
        match answer.refusal {
            0 => self.words += 1,
            _ => self.crc += 1,
        }
    }
    pub fn calls(&self) -> u64 {
        self.words + self.crc
    }
    pub fn text(&self) -> String {
        format!("{} words, {} checksum", self.words, self.crc)
    }
}
