//! FACCH words coded and decoded, and slots.
use crate::{Case, DVCC, INPUTS};
use differential::blocks::bytes;
use differential::phy::facch::{self, CODED_BITS, MESSAGE_BITS, WordHalf};
use differential::port_facch as port;
use differential::prng::Prng;
use differential::timing::Contender;
use std::hint::black_box;

type Coded = [bool; CODED_BITS];
type Observed = [Option<bool>; CODED_BITS];

pub fn cases(p: &mut Prng) -> Vec<Case> {
    let mut cases = vec![encode(p), interleave(p), deinterleave(p), observe(p)];
    for (what, flips) in [("clean", 0), ("6-flips", 6), ("20-flips", 20)] {
        let words = words(p, flips);
        cases.push(decode(what, words.map(|coded| coded.map(Some))));
    }
    let half = |coded: Coded| {
        let slot = facch::interleave(&coded, &coded);
        facch::observe_half(&slot, WordHalf::Start)
    };
    cases.push(decode("half", words(p, 0).map(half)));
    cases.push(decode("half-2-flips", words(p, 2).map(half)));
    let noise = noise(p);
    cases.push(decode("random", noise.map(|coded| coded.map(Some))));
    cases.push(decode("half-random", noise.map(half)));
    cases
}

fn messages(p: &mut Prng) -> [u64; INPUTS] {
    std::array::from_fn(|_| p.draw() >> (64 - MESSAGE_BITS))
}

fn bits(message: u64) -> [bool; MESSAGE_BITS] {
    std::array::from_fn(|place| message >> (MESSAGE_BITS - 1 - place) & 1 != 0)
}

fn words(p: &mut Prng, flips: usize) -> [Coded; INPUTS] {
    messages(p).map(|message| {
        let mut coded = facch::encode(p.bit(), &bits(message), DVCC);
        for _ in 0..flips {
            let place = p.below(CODED_BITS);
            coded[place] ^= true;
        }
        coded
    })
}

fn noise(p: &mut Prng) -> [Coded; INPUTS] {
    std::array::from_fn(|_| std::array::from_fn(|_| p.bit()))
}

fn encode(p: &mut Prng) -> Case {
    let messages = messages(p);
    let mut coded = [0; CODED_BITS];
    let port = Contender::new("port", move |i| {
        let message = black_box(messages[i % INPUTS]);
        black_box(port::encode(false, message, DVCC, &mut coded));
        black_box(&coded);
    });
    let bits = messages.map(bits);
    let rust = Contender::new("rust", move |i| {
        black_box(facch::encode(false, black_box(&bits[i % INPUTS]), DVCC));
    });
    Case {
        name: "facch-encode".into(),
        contenders: vec![port, rust],
    }
}

fn interleave(p: &mut Prng) -> Case {
    let words = noise(p);
    let lent = words.map(|word| bytes(&word));
    let mut slot = [0; CODED_BITS];
    let port = Contender::new("port", move |i| {
        let (one, other) = (&lent[i % INPUTS], &lent[(i + 1) % INPUTS]);
        black_box(port::interleave(black_box(one), other, &mut slot));
        black_box(&slot);
    });
    let rust = Contender::new("rust", move |i| {
        let (one, other) = (&words[i % INPUTS], &words[(i + 1) % INPUTS]);
        black_box(facch::interleave(black_box(one), other));
    });
    Case {
        name: "facch-interleave".into(),
        contenders: vec![port, rust],
    }
}

fn deinterleave(p: &mut Prng) -> Case {
    let slots = noise(p);
    let lent = slots.map(|slot| bytes(&slot));
    let mut coded = [0; CODED_BITS];
    let port = Contender::new("port", move |i| {
        let (one, other) = (&lent[i % INPUTS], &lent[(i + 1) % INPUTS]);
        black_box(port::deinterleave(black_box(one), other, &mut coded));
        black_box(&coded);
    });
    let rust = Contender::new("rust", move |i| {
        let (one, other) = (&slots[i % INPUTS], &slots[(i + 1) % INPUTS]);
        black_box(facch::deinterleave(black_box(one), other));
    });
    Case {
        name: "facch-deinterleave".into(),
        contenders: vec![port, rust],
    }
}

fn observe(p: &mut Prng) -> Case {
    let slots = noise(p);
    let lent = slots.map(|slot| bytes(&slot));
    let mut coded = [0; CODED_BITS];
    let port = Contender::new("port", move |i| {
        black_box(port::observe(
            false,
            black_box(&lent[i % INPUTS]),
            &mut coded,
        ));
        black_box(&coded);
    });
    let rust = Contender::new("rust", move |i| {
        let slot = black_box(&slots[i % INPUTS]);
        black_box(facch::observe_half(slot, WordHalf::Start));
    });
    Case {
        name: "facch-observe-half".into(),
        contenders: vec![port, rust],
    }
}

/// The Rust makes so few calls in a sample that it meets the first inputs alone; its time does not
/// depend on them.
fn decode(what: &str, words: [Observed; INPUTS]) -> Case {
    let lent = words.map(|word| word.map(|bit| bit.map_or(2, u8::from)));
    let port = Contender::new("port", move |i| {
        black_box(port::decode_erased(black_box(&lent[i % INPUTS]), DVCC));
    });
    let rust = Contender::new("rust", move |i| {
        let _ = black_box(facch::decode_erased(black_box(&words[i % INPUTS]), DVCC));
    });
    Case {
        name: format!("facch-decode-{what}"),
        contenders: vec![port, rust],
    }
}
