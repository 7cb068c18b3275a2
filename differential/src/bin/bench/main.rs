//! Times the port against the Rust and, where it is installed, libosmocore: the same inputs, one
//! run, samples by turns. The last column is each one's median over the port's. Inputs and buffers
//! are made before; what the Rust allocates in a call is its own. Times are the processor's; how much
//! longer the wall clock took is told at the end, on standard error.
//!
//! `bench only PART` times the cases whose names have that part, `bench list` prints the names, and
//! `bench NAME N` makes N calls of one, for an instruction counter.
mod facch;
mod sacch;
mod speech;

use differential::blocks::{Ends, Kind, bytes, code, flip};
use differential::channel::Channel;
#[cfg(osmocore)]
use differential::osmo::Osmo;
use differential::phy::dcch::{BlockFormat, CrcMode, probe};
use differential::phy::{self, acelp_cc1, dcch};
use differential::port;
use differential::prng::Prng;
use differential::registers::eight;
use differential::reliabilities::Sizes;
use differential::timing::{Contender, times};
use std::env::args;
use std::hint::black_box;
use std::process::exit;

const SEED: u64 = 4242;
/// Inputs of each case, taken in turn.
const INPUTS: usize = 64;
const DVCC: u8 = 0x5a;
const FORWARD: Channel = Channel {
    format: BlockFormat::Forward,
    dvcc: DVCC,
    mode: CrcMode::Addressed,
};

struct Case {
    name: String,
    /// The port first.
    contenders: Vec<Contender>,
}

fn main() {
    let mut cases = cases();
    let words: Vec<String> = args().skip(1).collect();
    let words: Vec<&str> = words.iter().map(String::as_str).collect();
    match words[..] {
        [] => compare(&mut cases),
        ["only", part] => {
            cases.retain(|case| case.name.contains(part));
            compare(&mut cases);
        }
        ["list"] => list(&cases),
        [name, count] if count.parse::<usize>().is_ok() => {
            repeat(&mut cases, name, count.parse().unwrap());
        }
        _ => stop("bench, bench only PART, bench list, or bench NAME N"),
    }
}

fn stop(message: &str) -> ! {
    eprintln!("{message}");
    exit(2)
}

fn compare(cases: &mut [Case]) {
    println!(
        "{:<31} {:<14} {:>10} {:>10} {:>10}",
        "case", "who", "least ns", "median ns", "over port"
    );
    let mut waited = 0.0_f64;
    for case in cases {
        let times = times(&mut case.contenders);
        for (contender, time) in case.contenders.iter().zip(&times) {
            waited = waited.max(time.waited);
            println!(
                "{:<31} {:<14} {:>10.1} {:>10.1} {:>10.2}",
                case.name,
                contender.name,
                time.least,
                time.median,
                time.median / times[0].median
            );
        }
    }
    eprintln!("the wall clock took at most {waited:.2} times the processor's time");
}

fn full_name(case: &str, contender: &Contender) -> String {
    format!("{case}/{}", contender.name)
}

fn list(cases: &[Case]) {
    for case in cases {
        for contender in &case.contenders {
            println!("{}", full_name(&case.name, contender));
        }
    }
}

fn repeat(cases: &mut [Case], name: &str, count: usize) {
    for case in cases {
        for contender in &mut case.contenders {
            if full_name(&case.name, contender) == name {
                return contender.run(count);
            }
        }
    }
    stop("no case of that name: see bench list")
}

fn cases() -> Vec<Case> {
    let mut p = Prng(SEED);
    let mut cases = vec![steps()];
    cases.extend(checksum(&mut p));
    cases.push(checksum7(&mut p));
    let damages = [("clean", Some(0)), ("6-flips", Some(6)), ("random", None)];
    for (name, flips) in damages {
        cases.push(search(name, &blocks(&mut p, Ends::Zero, 130, flips)));
    }
    for (name, flips) in damages {
        cases.push(free_search(name, &blocks(&mut p, Ends::Free, 66, flips)));
    }
    cases.push(encode(&mut p));
    for (name, flips) in damages {
        cases.push(decode(&mut p, name, flips));
    }
    for (what, sizes, kind) in [
        ("clean", Sizes::Equal, Kind::Clean),
        ("noisy", Sizes::Noisy, Kind::Clean),
        ("random", Sizes::Noisy, Kind::Noise),
    ] {
        cases.push(decode_soft(&mut p, what, sizes, kind));
    }
    cases.extend(facch::cases(&mut p));
    cases.extend(sacch::cases(&mut p));
    cases.extend(speech::cases(&mut p));
    cases
}

/// Blocks of coded words with that many wrong bits each, or of random bits.
fn blocks(p: &mut Prng, ends: Ends, steps: usize, flips: Option<usize>) -> Vec<Vec<bool>> {
    let mut block = || {
        let Some(flips) = flips else {
            return p.bits(2 * steps);
        };
        let mut coded = code(ends.start(p), &ends.word(p, steps));
        flip(p, &mut coded, flips);
        coded
    };
    (0..INPUTS).map(|_| block()).collect()
}

fn all_bytes(blocks: &[Vec<bool>]) -> Vec<Vec<u8>> {
    blocks.iter().map(|block| bytes(block)).collect()
}

fn random_bits(p: &mut Prng, len: usize) -> Vec<Vec<bool>> {
    (0..INPUTS).map(|_| p.bits(len)).collect()
}

/// A call is all 64 steps.
fn steps() -> Case {
    let port = Contender::new("port", |_| {
        let mut sum = 0u32;
        for step in 0..64 {
            let answer = port::dcch_transition(black_box(step / 2), black_box(step % 2));
            let [first, second, ..] = answer.output;
            sum += u32::from(answer.next) + u32::from(first) + u32::from(second);
        }
        black_box(sum);
    });
    let rust = Contender::new("rust", |_| {
        let mut sum = 0u32;
        for step in 0..64 {
            let (next, [first, second]) =
                probe::transition(black_box(step / 2), black_box(step % 2 == 1));
            sum += u32::from(next) + u32::from(first) + u32::from(second);
        }
        black_box(sum);
    });
    Case {
        name: "dcch-steps-64".into(),
        contenders: vec![port, rust],
    }
}

/// The whole, and from the register of the colour code, which the Rust has no way to hold.
fn checksum(p: &mut Prng) -> [Case; 2] {
    let bits = random_bits(p, 109);
    let whole = all_bytes(&bits);
    let rest = whole.clone();
    let held = port::checksum_from(0, &bytes(&eight(DVCC))).value;
    let port = Contender::new("port", move |i| {
        black_box(port::checksum(black_box(&whole[i % INPUTS]), DVCC, false));
    });
    let from = Contender::new("port", move |i| {
        let information = black_box(&rest[i % INPUTS]);
        black_box(port::checksum_from(black_box(held), information));
    });
    let rust = |bits: Vec<Vec<bool>>| {
        Contender::new("rust", move |i| {
            let information = black_box(&bits[i % INPUTS]);
            black_box(probe::checksum(information, DVCC, CrcMode::Addressed));
        })
    };
    [
        Case {
            name: "checksum-109".into(),
            contenders: vec![port, rust(bits.clone())],
        },
        Case {
            name: "checksum-109-held".into(),
            contenders: vec![from, rust(bits)],
        },
    ]
}

fn checksum7(p: &mut Prng) -> Case {
    let bits = random_bits(p, 48);
    let bytes = all_bytes(&bits);
    let port = Contender::new("port", move |i| {
        black_box(port::checksum7(black_box(&bytes[i % INPUTS])));
    });
    let rust = Contender::new("rust", move |i| {
        black_box(acelp_cc1::probe::checksum(black_box(&bits[i % INPUTS])));
    });
    Case {
        name: "checksum7-48".into(),
        contenders: vec![port, rust],
    }
}

fn search(damage: &str, blocks: &[Vec<bool>]) -> Case {
    let bytes = all_bytes(blocks);
    let mut word = [0; 130];
    let port = Contender::new("port", move |i| {
        black_box(port::viterbi(black_box(&bytes[i % INPUTS]), &mut word));
        black_box(&word);
    });
    let bits = blocks.to_vec();
    let rust = Contender::new("rust", move |i| {
        black_box(probe::viterbi(black_box(&bits[i % INPUTS])));
    });
    let mut contenders = vec![port, rust];
    contenders.extend(peers(blocks));
    Case {
        name: format!("search-130-{damage}"),
        contenders,
    }
}

#[cfg(osmocore)]
fn peers(blocks: &[Vec<bool>]) -> Vec<Contender> {
    let peer = |name, osmo: Osmo| {
        let soft: Vec<Vec<i8>> = blocks.iter().map(|block| osmo.soft(block)).collect();
        let mut bits = vec![0; osmo.written()];
        Contender::new(name, move |i| {
            osmo.decode(black_box(&soft[i % INPUTS]), &mut bits);
            black_box(&bits);
        })
    };
    vec![
        peer("osmocore-k6", Osmo::generic(130)),
        peer("osmocore-k7", Osmo::simd(130)),
    ]
}

#[cfg(not(osmocore))]
fn peers(_: &[Vec<bool>]) -> Vec<Contender> {
    vec![]
}

/// The Rust has no such search by itself; its decoder tests the checksum after it.
fn free_search(damage: &str, blocks: &[Vec<bool>]) -> Case {
    let bytes = all_bytes(blocks);
    let mut word = [0; 66];
    let port = Contender::new("port", move |i| {
        black_box(port::viterbi_free(black_box(&bytes[i % INPUTS]), &mut word));
        black_box(&word);
    });
    let bits: Vec<[bool; 132]> = (blocks.iter())
        .map(|block| block[..].try_into().unwrap())
        .collect();
    let rust = Contender::new("rust+checksum", move |i| {
        let _ = black_box(phy::sacch::decode(black_box(&bits[i % INPUTS]), DVCC));
    });
    Case {
        name: format!("free-66-{damage}"),
        contenders: vec![port, rust],
    }
}

fn encode(p: &mut Prng) -> Case {
    let bits = random_bits(p, 109);
    let bytes = all_bytes(&bits);
    let mut block = [0; 260];
    let port = Contender::new("port", move |i| {
        black_box(FORWARD.encode(black_box(&bytes[i % INPUTS]), &mut block));
        black_box(&block);
    });
    let Channel { format, dvcc, mode } = FORWARD;
    let rust = Contender::new("rust", move |i| {
        let information = black_box(&bits[i % INPUTS]);
        let _ = black_box(dcch::encode(format, information, dvcc, mode));
    });
    Case {
        name: "dcch-encode-forward".into(),
        contenders: vec![port, rust],
    }
}

/// Blocks as sent with that many wrong bits each, or of random bits.
fn forward_blocks(p: &mut Prng, flips: Option<usize>) -> Vec<Vec<bool>> {
    let mut block = || {
        let Some(flips) = flips else {
            return p.bits(260);
        };
        let mut block = FORWARD.block(p, Kind::Clean);
        flip(p, &mut block, flips);
        block
    };
    (0..INPUTS).map(|_| block()).collect()
}

fn decode(p: &mut Prng, damage: &str, flips: Option<usize>) -> Case {
    let bits = forward_blocks(p, flips);
    let bytes = all_bytes(&bits);
    let mut information = [0; 109];
    let port = Contender::new("port", move |i| {
        let block = black_box(&bytes[i % INPUTS]);
        black_box(FORWARD.decode(block, &mut information));
        black_box(&information);
    });
    let Channel { format, dvcc, mode } = FORWARD;
    let rust = Contender::new("rust", move |i| {
        let block = black_box(&bits[i % INPUTS]);
        let _ = black_box(dcch::decode(format, block, dvcc, mode));
    });
    Case {
        name: format!("dcch-decode-forward-{damage}"),
        contenders: vec![port, rust],
    }
}

/// Blocks of that kind, with reliabilities of those sizes.
fn decode_soft(p: &mut Prng, what: &str, sizes: Sizes, kind: Kind) -> Case {
    let blocks: Vec<Vec<f64>> = (0..INPUTS).map(|_| sizes.block(p, FORWARD, kind)).collect();
    let same = blocks.clone();
    let mut information = [0; 109];
    let port = Contender::new("port", move |i| {
        let block = black_box(&blocks[i % INPUTS]);
        black_box(FORWARD.decode_soft(block, &mut information));
        black_box(&information);
    });
    let Channel { format, dvcc, mode } = FORWARD;
    let rust = Contender::new("rust", move |i| {
        let block = black_box(&same[i % INPUTS]);
        let _ = black_box(probe::decode_soft(format, block, dvcc, mode));
    });
    Case {
        name: format!("dcch-decode-soft-forward-{what}"),
        contenders: vec![port, rust],
    }
}
