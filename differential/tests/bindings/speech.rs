//! VSELP frames.
use crate::{Answers, frames_decoded};
use bindings::speech as port;
use differential::compare::speech::{FRAMES, any_bits};
use differential::phy::speech as rust;
use differential::prng::Prng;
use differential::tally::Tally;

fn bits(bits: &rust::SpeechBits) -> port::SpeechBits {
    port::SpeechBits {
        class_one: bits.class_one,
        class_two: bits.class_two,
    }
}

#[track_caller]
fn decode(answers: &mut Answers, frame: &[bool; rust::CHANNEL_BITS]) {
    let (port, rust) = (port::decode_candidate(frame), rust::decode_candidate(frame));
    answers.same(port, rust, frame);
}

#[test]
fn frames() {
    let mut p = Prng(0xb5b0);
    let mut tally = Tally::new("crate, VSELP");
    for _ in 0..2600 {
        let given = any_bits(&mut p);
        assert_eq!(
            port::encode(&bits(&given)),
            rust::encode(&given),
            "{given:?}"
        );
    }
    tally.part("encode", 2600);
    frames_decoded(&mut p, &mut tally, &FRAMES, decode);
    tally.end();
}

#[test]
fn slots() {
    let mut p = Prng(0xb5b1);
    let mut tally = Tally::new("crate, VSELP slots");
    for _ in 0..1000 {
        let (one, two) = (p.array(), p.array());
        assert_eq!(port::interleave(&one, &two), rust::interleave(&one, &two));
        let frame = port::deinterleave(&one, &two);
        assert_eq!(frame, rust::deinterleave(&one, &two));
    }
    tally.part("interleave, deinterleave", 2000);
    assert_eq!(port::PROTECTED_BITS, rust::PROTECTED_BITS);
    tally.end();
}
