//! A DCCH channel: the format, colour code and mode that a block is sent under, and what the port
//! answers there.
use crate::blocks::{Ends, Kind};
use crate::phy::dcch::{BlockFormat, CrcMode, probe};
use crate::port::{self, Block, Of};
use crate::prng::Prng;

pub const FORMATS: [BlockFormat; 3] = [
    BlockFormat::Forward,
    BlockFormat::ReverseNormal,
    BlockFormat::ReverseAbbreviated,
];
pub const MODES: [CrcMode; 2] = [CrcMode::Addressed, CrcMode::Broadcast];

#[derive(Clone, Copy, Debug, PartialEq, Eq)]
pub struct Channel {
    pub format: BlockFormat,
    pub dvcc: u8,
    pub mode: CrcMode,
}

impl Channel {
    /// The one where a block of zeros is right.
    pub fn zero(format: BlockFormat) -> Self {
        Channel {
            format,
            dvcc: 0,
            mode: CrcMode::Addressed,
        }
    }
    pub fn draw(p: &mut Prng, format: BlockFormat) -> Self {
        Channel {
            format,
            dvcc: p.byte(),
            mode: MODES[p.below(2)],
        }
    }
    pub fn broadcast(self) -> bool {
        self.mode == CrcMode::Broadcast
    }
    pub fn information(self, p: &mut Prng) -> Vec<bool> {
        p.bits(self.format.information_bits())
    }
    /// What is coded of this information: also its checksum and the tail.
    pub fn word(self, information: &[bool]) -> Vec<bool> {
        let checksum = probe::checksum(information, self.dvcc, self.mode);
        let mut word = information.to_vec();
        word.extend((0..16).rev().map(|bit| checksum >> bit & 1 != 0));
        word.resize(self.format.encoded_bits() / 2, false);
        word
    }
    /// Puts coded places in the order of the wire.
    pub fn wire<T: Copy>(self, coded: &[T]) -> Vec<T> {
        let cells = probe::permutation(self.format);
        cells.into_iter().map(|cell| coded[cell]).collect()
    }
    /// A block of that kind, not yet in the order of the wire, made from random information.
    pub fn coded(self, p: &mut Prng, kind: Kind) -> Vec<bool> {
        let word = self.word(&self.information(p));
        Ends::Zero.around(p, kind, 0, &word)
    }
    pub fn block(self, p: &mut Prng, kind: Kind) -> Vec<bool> {
        self.wire(&self.coded(p, kind))
    }
    pub fn encode(self, information: &[u8], block: &mut [u8]) -> Block {
        Block::of(port::dcch_encode(
            self.format,
            information,
            self.dvcc,
            self.broadcast(),
            block,
        ))
    }
    pub fn decode(self, block: &[u8], information: &mut [u8]) -> Block {
        port::dcch_decode(self.format, block, self.dvcc, self.broadcast(), information)
    }
}
