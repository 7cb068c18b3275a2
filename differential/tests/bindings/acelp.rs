//! ACELP CC1 frames. The original's parameters are converted by `codec_bits`.
use crate::{Answers, frames_decoded};
use bindings::acelp_cc1 as port;
use differential::compare::acelp::{FRAMES, MODES, coded};
use differential::phy::acelp_cc1 as rust;
use differential::prng::Prng;
use differential::tally::Tally;

fn mode(mode: rust::Interleaving) -> port::Interleaving {
    match mode {
        rust::Interleaving::One => port::Interleaving::One,
        rust::Interleaving::Two => port::Interleaving::Two,
        rust::Interleaving::Three => port::Interleaving::Three,
    }
}

/// The original's answer with the speech as bits.
fn in_bits(frame: rust::DecodedFrame) -> port::DecodedFrame {
    port::DecodedFrame {
        speech: frame.parameters.codec_bits(),
        crc_valid: frame.crc_valid,
        corrected_coded_bits: frame.corrected_coded_bits,
    }
}

#[track_caller]
fn decode(answers: &mut Answers, frame: &[bool; rust::CHANNEL_BITS]) {
    let rust = rust::decode(frame).map(in_bits);
    answers.same(port::decode(frame), rust, frame);
}

#[test]
fn frames() {
    let mut p = Prng(0xbac0);
    let mut tally = Tally::new("crate, ACELP");
    for _ in 0..2600 {
        let speech = p.array();
        assert_eq!(port::encode(&speech), coded(&speech), "{speech:?}");
    }
    tally.part("encode", 2600);
    frames_decoded(&mut p, &mut tally, &FRAMES, decode);
    tally.end();
}

#[test]
fn slots() {
    let mut p = Prng(0xbac1);
    let mut tally = Tally::new("crate, ACELP slots");
    for _ in 0..500 {
        let three = std::array::from_fn(|_| p.array());
        for one in MODES {
            let slot = port::interleave(&three, mode(one));
            assert_eq!(slot, rust::interleave(&three, one));
            let frame = port::deinterleave(&three, mode(one));
            assert_eq!(frame, rust::deinterleave(&three, one));
        }
    }
    tally.part("interleave, deinterleave, three modes", 3000);
    assert_eq!(port::PROTECTED_BITS, rust::PROTECTED_BITS);
    tally.end();
}
