//! The calls on speech frames: VSELP's, and ACELP CC1's in its three modes.
use super::spoil::spoil;
use crate::counts::Compared;
use differential::blocks::{Ends, Kind, bytes, flip};
use differential::compare::dcch::burst;
use differential::compare::{acelp, speech};
use differential::phy::speech::{CHANNEL_BITS, CLASS_ONE_BITS, CLASS_TWO_BITS};
use differential::prng::Prng;

pub fn vselp_encode(p: &mut Prng) -> Compared {
    let bits = speech::any_bits(p);
    let (mut one, mut two) = (bytes(&bits.class_one), bytes(&bits.class_two));
    let mut room = [CHANNEL_BITS];
    spoil(p, &mut [&mut one, &mut two], &mut room);
    Compared::one(speech::encode(&one, &two, room[0]).refusal)
}

/// A frame clean, with 1 to 30 wrong bits or with a burst.
fn damaged(p: &mut Prng, mut frame: [bool; CHANNEL_BITS]) -> [bool; CHANNEL_BITS] {
    match p.below(4) {
        0 => {}
        1 => {
            let run = 1 + p.below(60);
            burst(p, &mut frame, run);
        }
        _ => {
            let flips = 1 + p.below(30);
            flip(p, &mut frame, flips);
        }
    }
    frame
}

/// A damaged frame, or one whose protected bits are a block of any kind.
fn frame(
    p: &mut Prng,
    coded: fn(&mut Prng) -> [bool; CHANNEL_BITS],
    inputs: usize,
    placed: fn(&mut Prng, &[bool]) -> [bool; CHANNEL_BITS],
) -> Vec<u8> {
    if p.bit() {
        let clean = coded(p);
        return bytes(&damaged(p, clean));
    }
    let kind = Kind::any(p);
    let block = Ends::Zero.block(p, kind, inputs);
    bytes(&placed(p, &block))
}

pub fn vselp_decode(p: &mut Prng) -> Compared {
    let coded = |p: &mut Prng| differential::phy::speech::encode(&speech::any_bits(p));
    let mut frame = frame(p, coded, speech::INPUTS, speech::placed);
    let mut rooms = [CLASS_ONE_BITS, CLASS_TWO_BITS];
    spoil(p, &mut [&mut frame], &mut rooms);
    Compared::one(speech::decode(&frame, rooms[0], rooms[1]).refusal)
}

/// Two frames or slots, and room for one.
fn two(p: &mut Prng) -> (Vec<u8>, Vec<u8>, usize) {
    let (mut a, mut b) = (bytes(&p.bits(CHANNEL_BITS)), bytes(&p.bits(CHANNEL_BITS)));
    let mut room = [CHANNEL_BITS];
    spoil(p, &mut [&mut a, &mut b], &mut room);
    (a, b, room[0])
}

pub fn vselp_interleave(p: &mut Prng) -> Compared {
    let (a, b, room) = two(p);
    Compared::one(speech::interleave(&a, &b, room).refusal)
}

pub fn vselp_deinterleave(p: &mut Prng) -> Compared {
    let (a, b, room) = two(p);
    Compared::one(speech::deinterleave(&a, &b, room).refusal)
}

pub fn acelp_encode(p: &mut Prng) -> Compared {
    let (mut bits, mut room) = (bytes(&p.bits(acelp::SPEECH)), [CHANNEL_BITS]);
    spoil(p, &mut [&mut bits], &mut room);
    Compared::one(acelp::encode(&bits, room[0]).refusal)
}

pub fn acelp_decode(p: &mut Prng) -> Compared {
    let coded = |p: &mut Prng| acelp::coded(&p.array());
    let mut frame = frame(p, coded, acelp::INPUTS, acelp::placed);
    let mut room = [acelp::SPEECH];
    spoil(p, &mut [&mut frame], &mut room);
    Compared::one(acelp::decode(&frame, room[0]).refusal)
}

/// Three frames or slots, and room for one.
fn three(p: &mut Prng) -> (Vec<u8>, usize) {
    let (mut three, mut room) = (bytes(&p.bits(acelp::THREE)), [CHANNEL_BITS]);
    spoil(p, &mut [&mut three], &mut room);
    (three, room[0])
}

pub fn acelp_interleave(p: &mut Prng) -> Compared {
    let ((three, room), mode) = (three(p), acelp::MODES[p.below(3)]);
    Compared::one(acelp::interleave(&three, mode, room).refusal)
}

pub fn acelp_deinterleave(p: &mut Prng) -> Compared {
    let ((three, room), mode) = (three(p), acelp::MODES[p.below(3)]);
    Compared::one(acelp::deinterleave(&three, mode, room).refusal)
}
