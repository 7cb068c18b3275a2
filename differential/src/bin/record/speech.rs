//! The frames of VSELP and ACELP CC1, and the slots that carry them.
use crate::corners::{call, one_coded};
use crate::section;
use differential::blocks::{KINDS, text};
use differential::compare::frames::{Codec, Frame};
use differential::compare::{acelp, speech};
use differential::prng::Prng;

const FLIPS: [usize; 9] = [0, 1, 2, 3, 4, 6, 8, 10, 12];

/// Frames as sent with wrong bits in them, and two of every kind of block.
fn frames(p: &mut Prng, codec: &Codec, decode: impl Fn(&Frame)) {
    for flips in FLIPS {
        codec.damaged(p, flips, 1, &decode);
    }
    for kind in KINDS {
        codec.of_kind(p, kind, 2, &decode);
    }
}

pub fn vselp(p: &mut Prng) {
    section("VSELP encode: class one, class two, room for the frame");
    call("speech encode", &[77, 82], &[260]).corners();
    for _ in 0..6 {
        let (one, two) = (text(&p.bits(77)), text(&p.bits(82)));
        println!("speech encode :{one} :{two} _260");
    }
    section("VSELP decode_candidate: frame, room for class one and class two");
    call("speech decode_candidate", &[260], &[77, 82]).corners();
    for turned in [&[][..], &[259]] {
        let frame = one_coded(260, 9, turned);
        println!("speech decode_candidate :{frame} _77 _82");
    }
    frames(p, &speech::FRAMES, |frame| {
        println!("speech decode_candidate :{} _77 _82", text(frame));
    });
    section("VSELP slots: two frames, two slots");
    for name in ["speech interleave", "speech deinterleave"] {
        call(name, &[260, 260], &[260]).corners();
        for _ in 0..2 {
            println!(
                "{name} :{} :{} _260",
                text(&p.bits(260)),
                text(&p.bits(260))
            );
        }
    }
}

pub fn acelp(p: &mut Prng) {
    section("ACELP CC1 encode: speech, room for the frame");
    call("acelp_cc1 encode", &[148], &[260]).corners();
    for _ in 0..6 {
        println!("acelp_cc1 encode :{} _260", text(&p.bits(148)));
    }
    section("ACELP CC1 decode: frame, room for the speech");
    call("acelp_cc1 decode", &[260], &[148]).corners();
    for turned in [&[][..], &[259]] {
        println!("acelp_cc1 decode :{} _148", one_coded(260, 0, turned));
    }
    frames(p, &acelp::FRAMES, |frame| {
        println!("acelp_cc1 decode :{} _148", text(frame));
    });
    section("ACELP CC1 slots: mode, the last three frames or the next three slots");
    for name in ["interleave", "deinterleave"] {
        for mode in 1..4 {
            let name = format!("acelp_cc1 {name} {mode}");
            call(&name, &[780], &[260]).corners();
            println!("{name} :{} _260", text(&p.bits(780)));
        }
    }
}
