//! What both searches refuse: lengths, then bytes that are no bit; and that they then write
//! nothing.
use differential::blocks::{Ends, Kind, bytes};
use differential::compare::search::{SYMBOL, ended, free, refusal};
use differential::port::Search;
use differential::prng::Prng;
use differential::tally::Tally;

/// Compares a call on a block and room for a word.
type Call = fn(&[u8], usize) -> Search;

/// Bits, and bytes that are none: the length is refused either way. Returns the calls.
fn refuse_lengths(search: Call, coded: usize, word: usize) -> u64 {
    if refusal(&vec![0; coded], word).is_none() {
        return 0;
    }
    let bits = search(&vec![0; coded], word);
    assert_eq!((bits.refusal, search(&vec![2; coded], word)), (1, bits));
    2
}

/// Lengths that a narrower number would take for good ones, among others.
fn long_lengths() -> Vec<(usize, usize)> {
    let mut lengths = vec![];
    for inputs in [5, 66, 100, 122, 130] {
        for more in [1 << 8, 1 << 15, 1 << 16] {
            lengths.push((2 * (inputs + more), inputs + more));
            lengths.push((2 * inputs, inputs + more));
            lengths.push((2 * inputs + more, inputs));
        }
    }
    lengths
}

fn refuse_all_lengths(search: Call, tally: &mut Tally) {
    let mut calls = 0;
    for word in 0..=140 {
        for coded in 0..=290 {
            calls += refuse_lengths(search, coded, word);
        }
    }
    tally.part("lengths 0 to 290 and 0 to 140", calls);
    let long = long_lengths();
    let calls = long
        .iter()
        .map(|(coded, word)| refuse_lengths(search, *coded, *word));
    tally.part("long lengths", calls.sum());
}

/// Each wrong byte at each place; returns the calls.
fn refuse_bytes(search: Call, p: &mut Prng, steps: usize) -> u64 {
    let block = bytes(&Ends::Zero.block(p, Kind::Damaged, steps));
    for place in 0..2 * steps {
        for wrong in 2..=u8::MAX {
            let mut coded = block.clone();
            coded[place] = wrong;
            assert_eq!(search(&coded, steps), SYMBOL);
        }
    }
    2 * steps as u64 * 254
}

fn refuse_all(subject: &'static str, search: Call) {
    let mut p = Prng(0x2ef);
    let mut tally = Tally::new(subject);
    refuse_all_lengths(search, &mut tally);
    for steps in [5, 6, 66, 100, 122, 130] {
        let calls = refuse_bytes(search, &mut p, steps);
        tally.part(&format!("wrong bytes among {}", 2 * steps), calls);
    }
    for wrong in 2..=u8::MAX {
        assert_eq!(search(&[wrong; 260], 130), SYMBOL);
    }
    tally.part("nothing but wrong bytes", 254);
    tally.end();
}

#[test]
fn search() {
    refuse_all("search, refusals", ended);
}

#[test]
fn free_search() {
    refuse_all("free search, refusals", free);
}
