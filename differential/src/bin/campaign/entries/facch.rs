//! FACCH's calls: words and slots, and words heard whole, in halves or at any places.
use super::spoil::{SHARE, byte, length, spoil};
use crate::counts::Compared;
use differential::air::any_word;
use differential::blocks::bytes;
use differential::compare::dcch::burst;
use differential::compare::facch::{self, MESSAGES, Observed, Sent, between, flip, half};
use differential::compare::facch::{keep, only, received, sent, shuffled};
use differential::phy::facch::{CODED_BITS, WordHalf};
use differential::prng::Prng;
use differential::reference_facch::independent;

pub fn encode(p: &mut Prng) -> Compared {
    let mut word = any_word(p);
    let mut room = [CODED_BITS];
    if p.below(2 * SHARE) == 0 {
        word.message = [MESSAGES, u64::MAX, MESSAGES | p.draw()][p.below(3)];
    }
    spoil(p, &mut [], &mut room);
    let answer = facch::encode(word.continuation, word.message, p.byte(), room[0]);
    Compared::one(answer.refusal)
}

/// A word as sent, or any bits.
fn bits(p: &mut Prng) -> Vec<u8> {
    match p.bit() {
        true => bytes(&sent(p).coded),
        false => bytes(&p.bits(CODED_BITS)),
    }
}

/// Two words or slots, and room for one.
fn two(p: &mut Prng) -> (Vec<u8>, Vec<u8>, usize) {
    let (mut a, mut b, mut room) = (bits(p), bits(p), [CODED_BITS]);
    spoil(p, &mut [&mut a, &mut b], &mut room);
    (a, b, room[0])
}

pub fn interleave(p: &mut Prng) -> Compared {
    let (a, b, room) = two(p);
    Compared::one(facch::interleave(&a, &b, room).refusal)
}

pub fn deinterleave(p: &mut Prng) -> Compared {
    let (a, b, room) = two(p);
    Compared::one(facch::deinterleave(&a, &b, room).refusal)
}

pub fn observe_half(p: &mut Prng) -> Compared {
    let (mut slot, mut room) = (bits(p), [CODED_BITS]);
    spoil(p, &mut [&mut slot], &mut room);
    Compared::one(facch::observe(p.bit(), &slot, room[0]).refusal)
}

/// A word clean, with 1 to 60 wrong bits, with a burst, halfway to another, or noise.
fn damaged(p: &mut Prng) -> Sent {
    let mut sent = sent(p);
    match p.below(8) {
        0 => {}
        1..4 => {
            let most = [8, 20, 60][p.below(3)];
            let flips = 1 + p.below(most);
            flip(p, &mut sent.coded, flips);
        }
        4 => {
            let run = 1 + p.below(80);
            burst(p, &mut sent.coded, run);
        }
        5 | 6 => sent = between(p),
        _ => sent.coded = p.array(),
    }
    sent
}

/// The code it was sent under, or one time in eight any.
fn colour(p: &mut Prng, sent: &Sent) -> u8 {
    match p.below(8) {
        0 => p.byte(),
        _ => sent.dvcc,
    }
}

/// The number of places to observe: half of the time about the fewest or a half.
fn kept(p: &mut Prng) -> usize {
    match p.bit() {
        true => [63, 64, 65, 66, 130][p.below(5)],
        false => p.below(CODED_BITS + 1),
    }
}

/// All places, a slot's half, places chosen at random, or 65 that determine the word or one less.
fn observed(p: &mut Prng, coded: &[bool; CODED_BITS]) -> Observed {
    match p.below(8) {
        0 | 1 => coded.map(Some),
        2 => half(coded, WordHalf::Start),
        3 => half(coded, WordHalf::End),
        4 => only(coded, &independent(&shuffled(p))[p.below(2)..]),
        _ => {
            let kept = kept(p);
            keep(p, coded, kept)
        }
    }
}

/// Spoils one call in `SHARE`: the length or a byte.
fn spoil_word(p: &mut Prng, coded: &mut Vec<u8>) {
    if p.below(SHARE) == 0 {
        match p.bit() {
            true => byte(p, coded),
            false => coded.resize(length(p, CODED_BITS), 0),
        }
    }
}

pub fn decode_erased(p: &mut Prng) -> Compared {
    let sent = damaged(p);
    let dvcc = colour(p, &sent);
    let mut coded = received(&observed(p, &sent.coded)).to_vec();
    spoil_word(p, &mut coded);
    Compared::one(facch::decode_erased(&coded, dvcc).refusal)
}

pub fn decode(p: &mut Prng) -> Compared {
    let sent = damaged(p);
    let dvcc = colour(p, &sent);
    let mut coded = bytes(&sent.coded);
    spoil_word(p, &mut coded);
    Compared::one(facch::decode(&coded, dvcc).refusal)
}
