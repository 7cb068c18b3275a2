//! The bare search of the DCCH code: word and metric against the Rust's, its tie against a count
//! of the nearest words.
use differential::blocks::{Ends, KINDS, Kind, bytes};
use differential::compare::search;
use differential::prng::Prng;
use differential::reference::{self, Nearest, disagreements, words};
use differential::tally::Tally;

/// Compares one call; returns whether nearest words are tied.
fn compare(coded: &[bool]) -> bool {
    search::ended(&bytes(coded), coded.len() / 2).tie
}

fn compare_kind(p: &mut Prng, tally: &mut Tally, kind: Kind, steps: usize, rounds: u64) {
    let mut ties = 0;
    for _ in 0..rounds {
        ties += u64::from(compare(&Ends::Zero.block(p, kind, steps)));
    }
    match kind {
        Kind::Clean => assert_eq!(ties, 0),
        Kind::Near => assert!(ties > rounds * 3 / 4),
        _ => assert!(ties > 0 && ties < rounds),
    }
    let bits = 2 * steps;
    tally.part(&format!("{kind:?}, {bits} bits, {ties} ties"), rounds);
}

#[test]
fn blocks_of_the_formats() {
    let mut p = Prng(0x6557);
    let mut tally = Tally::new("search");
    for steps in [130, 122, 100] {
        for kind in KINDS {
            compare_kind(&mut p, &mut tally, kind, steps, 6000);
        }
    }
    tally.end();
}

#[test]
fn every_length() {
    let mut p = Prng(0x5130);
    let mut tally = Tally::new("search, every length");
    let mut calls = 0;
    for steps in 5..=130 {
        for kind in KINDS.into_iter().flat_map(|kind| [kind; 12]) {
            compare(&Ends::Zero.block(&mut p, kind, steps));
            calls += 1;
        }
    }
    tally.part("5 to 130 inputs, every kind", calls);
    tally.end();
}

/// Weighs every word, where they are few: so the count itself is tested too.
fn weigh_all(coded: &[bool]) -> Nearest {
    let steps = coded.len() / 2;
    words(steps - 5)
        .map(|mut word| {
            word.resize(steps, false);
            Nearest::word(disagreements(0, &word, coded))
        })
        .fold(Nearest::NONE, Nearest::or)
}

#[test]
fn every_short_block() {
    let mut tally = Tally::new("search, every short block");
    for steps in 5..=8 {
        let mut calls = 0;
        for coded in words(2 * steps) {
            assert_eq!(reference::ended(&coded), weigh_all(&coded));
            compare(&coded);
            calls += 1;
        }
        tally.part(&format!("{} bits", 2 * steps), calls);
    }
    tally.end();
}
