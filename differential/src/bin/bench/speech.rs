//! Speech frames of VSELP and ACELP CC1 coded and decoded, and slots.
use crate::{Case, INPUTS};
use differential::blocks::{bytes, flip};
use differential::codec::mr74::Parameters;
use differential::phy::acelp_cc1::{self, Interleaving};
use differential::phy::speech::{self, CHANNEL_BITS, SpeechBits};
use differential::port_speech as port;
use differential::prng::Prng;
use differential::timing::Contender;
use std::hint::black_box;

type Frame = [bool; CHANNEL_BITS];

const DAMAGES: [(&str, Option<usize>); 3] =
    [("clean", Some(0)), ("4-flips", Some(4)), ("random", None)];

pub fn cases(p: &mut Prng) -> Vec<Case> {
    let mut cases = vec![vselp_encode(p), vselp_interleave(p), vselp_deinterleave(p)];
    for (what, flips) in DAMAGES {
        cases.push(vselp_decode(p, what, flips));
    }
    cases.push(acelp_encode(p));
    cases.push(acelp_interleave(p));
    cases.push(acelp_deinterleave(p));
    for (what, flips) in DAMAGES {
        cases.push(acelp_decode(p, what, flips));
    }
    cases
}

fn case(name: String, port: Contender, rust: Contender) -> Case {
    Case {
        name,
        contenders: vec![port, rust],
    }
}

fn vselp_bits(p: &mut Prng) -> SpeechBits {
    SpeechBits {
        class_one: p.array(),
        class_two: p.array(),
    }
}

fn parameters(p: &mut Prng) -> Parameters {
    Parameters::from_codec_bits(&p.array())
}

/// Frames as sent with that many wrong bits each, or of random bits.
fn frames(
    p: &mut Prng,
    flips: Option<usize>,
    sent: impl Fn(&mut Prng) -> Frame,
) -> [Frame; INPUTS] {
    std::array::from_fn(|_| {
        let Some(flips) = flips else {
            return p.array();
        };
        let mut frame = sent(p);
        flip(p, &mut frame, flips);
        frame
    })
}

fn vselp_encode(p: &mut Prng) -> Case {
    let bits: Vec<SpeechBits> = (0..INPUTS).map(|_| vselp_bits(p)).collect();
    let lent: Vec<_> = (bits.iter())
        .map(|bits| (bytes(&bits.class_one), bytes(&bits.class_two)))
        .collect();
    let mut frame = [0; CHANNEL_BITS];
    let port = Contender::new("port", move |i| {
        let (one, two) = black_box(&lent[i % INPUTS]);
        black_box(port::speech::encode(one, two, &mut frame));
        black_box(&frame);
    });
    let rust = Contender::new("rust", move |i| {
        black_box(speech::encode(black_box(&bits[i % INPUTS])));
    });
    case("vselp-encode".into(), port, rust)
}

fn vselp_decode(p: &mut Prng, what: &str, flips: Option<usize>) -> Case {
    let frames = frames(p, flips, |p| speech::encode(&vselp_bits(p)));
    let lent = frames.map(|frame| bytes(&frame));
    let (mut one, mut two) = ([0; 77], [0; 82]);
    let port = Contender::new("port", move |i| {
        let frame = black_box(&lent[i % INPUTS]);
        black_box(port::speech::decode_candidate(frame, &mut one, &mut two));
        black_box((&one, &two));
    });
    let rust = Contender::new("rust", move |i| {
        let _ = black_box(speech::decode_candidate(black_box(&frames[i % INPUTS])));
    });
    case(format!("vselp-decode-{what}"), port, rust)
}

/// A call on two slices that fills a third.
type Two = fn(&[u8], &[u8], &mut [u8]) -> differential::port_facch::Written;

fn two(p: &mut Prng, name: &str, call: Two, original: fn(&Frame, &Frame) -> Frame) -> Case {
    let frames: [Frame; INPUTS] = std::array::from_fn(|_| p.array());
    let lent = frames.map(|frame| bytes(&frame));
    let mut out = [0; CHANNEL_BITS];
    let port = Contender::new("port", move |i| {
        let (one, other) = (&lent[i % INPUTS], &lent[(i + 1) % INPUTS]);
        black_box(call(black_box(one), other, &mut out));
        black_box(&out);
    });
    let rust = Contender::new("rust", move |i| {
        let (one, other) = (&frames[i % INPUTS], &frames[(i + 1) % INPUTS]);
        black_box(original(black_box(one), other));
    });
    case(name.into(), port, rust)
}

fn vselp_interleave(p: &mut Prng) -> Case {
    let call = port::speech::interleave;
    two(p, "vselp-interleave", call, speech::interleave)
}

fn vselp_deinterleave(p: &mut Prng) -> Case {
    let call = port::speech::deinterleave;
    two(p, "vselp-deinterleave", call, speech::deinterleave)
}

/// The Rust's conversion of its parameters is part of its call.
fn acelp_encode(p: &mut Prng) -> Case {
    let frames: Vec<Parameters> = (0..INPUTS).map(|_| parameters(p)).collect();
    let lent: Vec<_> = frames.iter().map(|f| bytes(&f.codec_bits())).collect();
    let mut frame = [0; CHANNEL_BITS];
    let port = Contender::new("port", move |i| {
        black_box(port::acelp::encode(
            black_box(&lent[i % INPUTS]),
            &mut frame,
        ));
        black_box(&frame);
    });
    let rust = Contender::new("rust", move |i| {
        black_box(acelp_cc1::encode(black_box(&frames[i % INPUTS])));
    });
    case("acelp-encode".into(), port, rust)
}

fn acelp_decode(p: &mut Prng, what: &str, flips: Option<usize>) -> Case {
    let frames = frames(p, flips, |p| acelp_cc1::encode(&parameters(p)));
    let lent = frames.map(|frame| bytes(&frame));
    let mut speech = [0; 148];
    let port = Contender::new("port", move |i| {
        let frame = black_box(&lent[i % INPUTS]);
        black_box(port::acelp::decode(frame, &mut speech));
        black_box(&speech);
    });
    let rust = Contender::new("rust", move |i| {
        let _ = black_box(acelp_cc1::decode(black_box(&frames[i % INPUTS])));
    });
    case(format!("acelp-decode-{what}"), port, rust)
}

/// A call on three frames or slots that fills one.
type Three = fn(&[u8], Interleaving, &mut [u8]) -> differential::port_facch::Written;

fn three(
    p: &mut Prng,
    name: &str,
    call: Three,
    original: fn(&[Frame; 3], Interleaving) -> Frame,
) -> Case {
    let all: Vec<[Frame; 3]> = (0..INPUTS)
        .map(|_| std::array::from_fn(|_| p.array()))
        .collect();
    let lent: Vec<Vec<u8>> = all.iter().map(|f| bytes(f.as_flattened())).collect();
    let mut out = [0; CHANNEL_BITS];
    let port = Contender::new("port", move |i| {
        let given = black_box(&lent[i % INPUTS]);
        black_box(call(given, Interleaving::Two, &mut out));
        black_box(&out);
    });
    let rust = Contender::new("rust", move |i| {
        let given = black_box(&all[i % INPUTS]);
        black_box(original(given, Interleaving::Two));
    });
    case(name.into(), port, rust)
}

fn acelp_interleave(p: &mut Prng) -> Case {
    let call = port::acelp::interleave;
    three(p, "acelp-interleave-two", call, acelp_cc1::interleave)
}

fn acelp_deinterleave(p: &mut Prng) -> Case {
    let call = port::acelp::deinterleave;
    three(p, "acelp-deinterleave-two", call, acelp_cc1::deinterleave)
}
