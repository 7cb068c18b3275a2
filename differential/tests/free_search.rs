//! The search with free ends against a count of the nearest words. What SACCH's decoder makes of it
//! is compared with the Rust in sacch_decode.rs.
use differential::blocks::{Ends, KINDS, Kind, bytes};
use differential::compare::search;
use differential::prng::Prng;
use differential::reference::{self, Nearest, weight, words};
use differential::tally::Tally;

const WORD: usize = 66;

/// Compares one call with the count; returns whether nearest words are tied.
fn compare(coded: &[bool]) -> bool {
    search::free(&bytes(coded), coded.len() / 2).tie
}

#[test]
fn blocks_of_sacch() {
    let mut p = Prng(0x5acc);
    let mut tally = Tally::new("free search, 132 bits");
    for kind in KINDS {
        let mut ties = 0;
        for _ in 0..6000 {
            ties += u64::from(compare(&Ends::Free.block(&mut p, kind, WORD)));
        }
        assert_eq!(kind == Kind::Clean, ties == 0);
        tally.part(&format!("{kind:?}, {ties} tied"), 6000);
    }
    tally.end();
}

#[test]
fn every_length() {
    let mut p = Prng(0xf130);
    let mut tally = Tally::new("free search, every length");
    let mut calls = 0;
    for steps in 5..=130 {
        for kind in KINDS.into_iter().flat_map(|kind| [kind; 12]) {
            compare(&Ends::Free.block(&mut p, kind, steps));
            calls += 1;
        }
    }
    tally.part("5 to 130 inputs, every kind", calls);
    tally.end();
}

/// Weighs every word, where they are few: so the count itself is tested too.
#[test]
fn every_short_block() {
    let mut tally = Tally::new("free search, every short block");
    for steps in 5..=6 {
        let all: Vec<_> = words(steps).collect();
        let mut calls = 0;
        for coded in words(2 * steps) {
            let weighed = (all.iter().map(|word| Nearest::word(weight(word, &coded))))
                .fold(Nearest::NONE, Nearest::or);
            assert_eq!(reference::free(&coded), weighed);
            compare(&coded);
            calls += 1;
        }
        tally.part(&format!("{} bits", 2 * steps), calls);
    }
    tally.end();
}
