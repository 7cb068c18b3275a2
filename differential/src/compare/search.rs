//! The bare searches of the DCCH code: from state 0 to state 0 against the Rust's word and metric,
//! and over all starts; the ties of both against a count of the nearest words.
use crate::blocks::bytes;
use crate::calls::{bools, lend, only_bits};
use crate::lent::Lent;
use crate::phy::dcch::probe;
use crate::port::{self, Search};
use crate::reference::{self, weight};
use std::ops::RangeInclusive;

const CODED: RangeInclusive<usize> = 10..=260;

pub const SYMBOL: Search = Search {
    refusal: 2,
    ..found(0, false)
};

pub const fn length(expected: usize, actual: usize) -> Search {
    Search {
        refusal: 1,
        expected,
        actual,
        ..found(0, false)
    }
}

const fn found(metric: u16, tie: bool) -> Search {
    Search {
        refusal: 0,
        expected: 0,
        actual: 0,
        metric,
        tie,
    }
}

/// The refusal of a block and of room for a word: the block's length comes first.
pub fn refusal(coded: &[u8], room: usize) -> Option<Search> {
    let len = coded.len();
    if !CODED.contains(&len) || len % 2 == 1 {
        Some(length(260, len))
    } else if room != len / 2 {
        Some(length(len / 2, room))
    } else {
        (!only_bits(coded)).then_some(SYMBOL)
    }
}

#[track_caller]
pub fn ended(coded: &[u8], room: usize) -> Search {
    let call = |lent: &mut [u8]| port::viterbi(coded, lent);
    if let Some(refusal) = refusal(coded, room) {
        return lend(coded, room, refusal, None, call);
    }
    let block = bools(coded);
    let (word, metric) = probe::viterbi(&block);
    let nearest = reference::ended(&block);
    assert_eq!(u32::from(metric), nearest.metric, "{coded:?}");
    let wanted = found(metric, nearest.words > 1);
    lend(coded, room, wanted, Some(&bytes(&word)), call)
}

/// With the count alone: the word is a nearest one, and the only one if not tied. What SACCH's
/// decoder makes of this search is compared with the Rust.
#[track_caller]
pub fn free(coded: &[u8], room: usize) -> Search {
    let call = |lent: &mut [u8]| port::viterbi_free(coded, lent);
    if let Some(refusal) = refusal(coded, room) {
        return lend(coded, room, refusal, None, call);
    }
    let block = bools(coded);
    let nearest = reference::free(&block);
    let mut lent = Lent::new(room);
    let answer = call(lent.lend());
    let wanted = found(nearest.metric as u16, nearest.words > 1);
    assert_eq!(answer, wanted, "{coded:?}");
    assert!(lent.margins_whole(), "written beside: {coded:?}");
    assert!(only_bits(lent.written()), "{coded:?}");
    let weight = weight(&bools(lent.written()), &block);
    assert_eq!(weight, nearest.metric, "{coded:?}");
    answer
}
