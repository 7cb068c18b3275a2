//! The steps, the checksums and the bare searches.
use super::spoil::{SHARE, byte, spoil};
use crate::counts::Compared;
use differential::blocks::{Ends, Kind, bytes};
use differential::channel::MODES;
use differential::compare::steps::{ACELP, Code, DCCH, FACCH};
use differential::compare::{checksum, search};
use differential::prng::Prng;

/// A state and an input, or any two bytes.
fn step(p: &mut Prng, code: &Code) -> Compared {
    let (mut state, mut input) = (p.below(32) as u8, p.below(2) as u8);
    if p.below(SHARE) == 0 {
        state = if p.bit() { p.byte() } else { state };
        input = if p.bit() { p.byte() } else { input };
    }
    Compared::one(code.compare(state, input).refusal)
}

pub fn dcch_step(p: &mut Prng) -> Compared {
    step(p, &DCCH)
}

pub fn facch_step(p: &mut Prng) -> Compared {
    step(p, &FACCH)
}

pub fn acelp_step(p: &mut Prng) -> Compared {
    step(p, &ACELP)
}

/// Of a length that a codec has, another short one, or seldom a long one.
fn information(p: &mut Prng, used: &[usize]) -> Vec<u8> {
    let len = match p.below(256) {
        0 => p.below(100_001),
        1..128 => used[p.below(used.len())],
        _ => p.below(301),
    };
    let mut information = bytes(&p.bits(len));
    if p.below(SHARE) == 0 {
        byte(p, &mut information);
    }
    information
}

pub fn checksum(p: &mut Prng) -> Compared {
    let information = information(p, &[50, 49, 79, 101, 109]);
    let (dvcc, mode) = (p.byte(), MODES[p.below(2)]);
    Compared::one(checksum::checksum(&information, dvcc, mode).refusal)
}

pub fn checksum_from(p: &mut Prng) -> Compared {
    let information = information(p, &[50, 49, 79, 101, 109]);
    let register = p.below(1 << 16) as u16;
    Compared::one(checksum::checksum_from(register, &information).refusal)
}

/// ACELP's, or one in four VSELP's.
pub fn checksum7(p: &mut Prng) -> Compared {
    let answer = match p.below(4) {
        0 => checksum::significant(&p.array()),
        _ => checksum::checksum7(&information(p, &[48, 12])),
    };
    Compared::one(answer.refusal)
}

/// A block of any kind, of a codec's number of steps or any other, and room for its word.
fn block(p: &mut Prng, ends: Ends, used: &[usize]) -> (Vec<u8>, usize) {
    let steps = match p.bit() {
        true => used[p.below(used.len())],
        false => 5 + p.below(126),
    };
    let kind = Kind::any(p);
    let mut coded = bytes(&ends.block(p, kind, steps));
    let mut room = [steps];
    spoil(p, &mut [&mut coded], &mut room);
    (coded, room[0])
}

pub fn search(p: &mut Prng) -> Compared {
    let (coded, room) = block(p, Ends::Zero, &[130, 122, 100, 89]);
    Compared::one(search::ended(&coded, room).refusal)
}

pub fn free_search(p: &mut Prng) -> Compared {
    let (coded, room) = block(p, Ends::Free, &[66]);
    Compared::one(search::free(&coded, room).refusal)
}
