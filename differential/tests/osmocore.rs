//! libosmocore is set up for this code, so that the benchmark times the same work: what it decodes
//! is a nearest word.
#![cfg(osmocore)]
use differential::blocks::{Ends, KINDS, Kind, text};
use differential::lent::Lent;
use differential::osmo::Osmo;
use differential::prng::Prng;
use differential::reference::{disagreements, ended};
use differential::tally::Tally;

const STEPS: usize = 130;
const TAIL: usize = 5;

fn compare(osmo: &Osmo, coded: &[bool]) {
    let mut lent = Lent::new(osmo.written());
    osmo.decode(&osmo.soft(coded), lent.lend());
    assert!(lent.margins_whole());
    let word = osmo.word(lent.written());
    assert_eq!(word[STEPS - TAIL..], [false; TAIL], "{}", text(coded));
    let metric = disagreements(0, &word, coded);
    assert_eq!(metric, ended(coded).metric, "{}", text(coded));
}

fn compare_kind(p: &mut Prng, tally: &mut Tally, osmo: &Osmo, kind: Kind) {
    for _ in 0..500 {
        compare(osmo, &Ends::Zero.block(p, kind, STEPS));
    }
    tally.part(&format!("{kind:?}"), 500);
}

#[test]
fn generic() {
    let mut p = Prng(0x05c6);
    let mut tally = Tally::new("libosmocore, K = 6");
    for kind in KINDS {
        compare_kind(&mut p, &mut tally, &Osmo::generic(STEPS), kind);
    }
    tally.end();
}

#[test]
fn simd() {
    let mut p = Prng(0x05c7);
    let mut tally = Tally::new("libosmocore, K = 7");
    for kind in KINDS {
        compare_kind(&mut p, &mut tally, &Osmo::simd(STEPS), kind);
    }
    tally.end();
}
