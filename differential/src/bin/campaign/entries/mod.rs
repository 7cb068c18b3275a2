//! The entries: each draws a call, or a list of calls, from its whole domain and compares it.
mod coding;
mod dcch;
mod facch;
mod sacch;
mod speech;
mod spoil;

use crate::counts::Compared;
use differential::prng::Prng;

pub struct Entry {
    pub name: &'static str,
    /// Its parts of the time.
    pub share: u64,
    /// Draws and compares one round.
    pub draw: fn(&mut Prng) -> Compared,
}

/// Less time for calls whose domain is soon seen, more for searches, and most for FACCH's, which
/// takes the Rust milliseconds.
const SMALL: u64 = 1;
const COMMON: u64 = 4;
const LONG: u64 = 12;
const SLOW: u64 = 36;

const fn entry(name: &'static str, share: u64, draw: fn(&mut Prng) -> Compared) -> Entry {
    Entry { name, share, draw }
}

pub static ENTRIES: [Entry; 30] = [
    entry("dcch::transition", SMALL, coding::dcch_step),
    entry("facch::transition", SMALL, coding::facch_step),
    entry("acelp_cc1::transition", SMALL, coding::acelp_step),
    entry("dcch::checksum", COMMON, coding::checksum),
    entry("checksum_from", COMMON, coding::checksum_from),
    entry("acelp_cc1::checksum", COMMON, coding::checksum7),
    entry("dcch::viterbi", COMMON, coding::search),
    entry("viterbi_free", COMMON, coding::free_search),
    entry("dcch::encode", COMMON, dcch::encode),
    entry("dcch::decode", LONG, dcch::decode),
    entry("dcch::decode_soft", LONG, dcch::decode_soft),
    entry("facch::encode", COMMON, facch::encode),
    entry("facch::interleave", COMMON, facch::interleave),
    entry("facch::deinterleave", COMMON, facch::deinterleave),
    entry("facch::observe_half", COMMON, facch::observe_half),
    entry("facch::decode_erased", SLOW, facch::decode_erased),
    entry("facch::decode", SLOW, facch::decode),
    entry("sacch::encoder", COMMON, sacch::encoder),
    entry("sacch::decode", LONG, sacch::decode),
    entry("sacch::deinterleaver", SMALL, sacch::deinterleaver),
    entry("sacch::receiver", LONG, sacch::receiver),
    entry("sacch::listening", LONG, sacch::listening),
    entry("speech::encode", COMMON, speech::vselp_encode),
    entry("speech::decode_candidate", LONG, speech::vselp_decode),
    entry("speech::interleave", COMMON, speech::vselp_interleave),
    entry("speech::deinterleave", COMMON, speech::vselp_deinterleave),
    entry("acelp_cc1::encode", COMMON, speech::acelp_encode),
    entry("acelp_cc1::decode", LONG, speech::acelp_decode),
    entry("acelp_cc1::interleave", COMMON, speech::acelp_interleave),
    entry(
        "acelp_cc1::deinterleave",
        COMMON,
        speech::acelp_deinterleave,
    ),
];
