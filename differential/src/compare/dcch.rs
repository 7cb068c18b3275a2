//! DCCH blocks coded, decoded and decoded from reliabilities.
use crate::blocks::{Kind, bytes, code, flip};
use crate::calls::{bools, lend, only_bits};
use crate::channel::Channel;
use crate::phy::dcch::{self, BlockError, BlockFormat, CrcMode, DecodedBlock, probe};
use crate::port::Block;
use crate::prng::Prng;
use crate::reliabilities::{ALL_SIZES, Sizes};
use crate::verdict::{SYMBOL, accepted, error, length};
use std::fmt::Debug;

/// What the port gives: the Rust's answer, its refusal of the input's length included. After that
/// length comes that of the slice to write, then bytes that are no bits. Right lengths stand first.
fn wanted(
    input: (usize, usize),
    room: (usize, usize),
    bits: bool,
    rust: impl FnOnce() -> Result<DecodedBlock, BlockError>,
) -> Result<DecodedBlock, Block> {
    if input.0 == input.1 && room.0 != room.1 {
        return Err(length(room.0, room.1));
    }
    if input.0 == input.1 && !bits {
        return Err(SYMBOL);
    }
    rust().map_err(error)
}

#[track_caller]
fn compare(
    input: impl Debug,
    room: usize,
    wanted: Result<DecodedBlock, Block>,
    call: impl FnOnce(&mut [u8]) -> Block,
) -> Block {
    match wanted {
        Ok(block) => {
            let answer = accepted(block.corrected_coded_bits);
            lend(input, room, answer, Some(&bytes(&block.information)), call)
        }
        Err(refusal) => lend(input, room, refusal, None, call),
    }
}

#[track_caller]
pub fn encode(channel: Channel, information: &[u8], room: usize) -> Block {
    let Channel { format, dvcc, mode } = channel;
    let (right, coded) = (format.information_bits(), format.encoded_bits());
    let lengths = (right, information.len());
    let wanted = wanted(lengths, (coded, room), only_bits(information), || {
        Ok(DecodedBlock {
            information: dcch::encode(format, &bools(information), dvcc, mode)?,
            corrected_coded_bits: 0,
        })
    });
    compare((channel, information), room, wanted, |lent| {
        channel.encode(information, lent)
    })
}

#[track_caller]
pub fn decode(channel: Channel, block: &[u8], room: usize) -> Block {
    let Channel { format, dvcc, mode } = channel;
    let lengths = (format.encoded_bits(), block.len());
    let rooms = (format.information_bits(), room);
    let wanted = wanted(lengths, rooms, only_bits(block), || {
        dcch::decode(format, &bools(block), dvcc, mode)
    });
    compare((channel, block), room, wanted, |lent| {
        channel.decode(block, lent)
    })
}

#[track_caller]
pub fn decode_soft(channel: Channel, block: &[f64], room: usize) -> Block {
    let Channel { format, dvcc, mode } = channel;
    let lengths = (format.encoded_bits(), block.len());
    let rooms = (format.information_bits(), room);
    let wanted = wanted(lengths, rooms, true, || {
        probe::decode_soft(format, block, dvcc, mode)
    });
    compare((channel, block), room, wanted, |lent| {
        channel.decode_soft(block, lent)
    })
}

pub fn other(mode: CrcMode) -> CrcMode {
    match mode {
        CrcMode::Addressed => CrcMode::Broadcast,
        CrcMode::Broadcast => CrcMode::Addressed,
    }
}

/// Any channel, or half of the time the one that accepts zeros, as an overflow gives.
pub fn soft_channel(p: &mut Prng, format: BlockFormat) -> Channel {
    let drawn = Channel::draw(p, format);
    if p.bit() {
        drawn
    } else {
        Channel::zero(format)
    }
}

/// Reliabilities of a block, each place's of a size of its own.
pub fn mixture(p: &mut Prng, channel: Channel, kind: Kind) -> Vec<f64> {
    let bits = channel.block(p, kind);
    let few = 1 + p.below(ALL_SIZES.len());
    let mix = |bit| ALL_SIZES[p.below(few)].draw(p, &[bit])[0];
    bits.into_iter().map(mix).collect()
}

/// Reliabilities under `Channel::zero` whose sums overflow only after the word's last one: what was
/// found before stands.
pub fn overflows_late(p: &mut Prng, format: BlockFormat) -> Vec<f64> {
    let channel = Channel::zero(format);
    let (information, end) = early(p, format);
    let mut coded = code(0, &channel.word(&information));
    let flips = p.below(30);
    flip(p, &mut coded[2 * end + 10..], flips);
    channel.wire(&Sizes::Huge.draw(p, &coded))
}

/// Fills a run of that many places with noise.
pub fn burst(p: &mut Prng, block: &mut [bool], run: usize) {
    let at = p.below(block.len() - run + 1);
    block[at..at + run].fill_with(|| p.bit());
}

/// Information that is a multiple of the polynomial and then zero, so that its checksum is zero
/// too; and the first place after it.
fn early(p: &mut Prng, format: BlockFormat) -> (Vec<bool>, usize) {
    let mut information = vec![false; format.information_bits()];
    let factor = 1 + p.below(40);
    let at = p.below(information.len() - factor - 16);
    for place in (at..at + factor).filter(|_| p.bit()) {
        for term in [0, 4, 11, 16] {
            information[place + term] ^= true;
        }
    }
    (information, at + factor + 16)
}

/// Both infinities and NaNs, quiet and signalling, of either sign.
pub fn not_finite() -> [f64; 8] {
    let bits = [0x7ff0 << 48, 0x7ff8 << 48, 0x7ff0 << 48 | 1, (1 << 63) - 1];
    std::array::from_fn(|n| f64::from_bits(bits[n / 2] | (n as u64 % 2) << 63))
}
