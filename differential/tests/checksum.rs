//! The 16-bit checksum against the Rust's, and its refusal of bytes that are no bit.
use differential::blocks::bytes;
use differential::channel::MODES;
use differential::compare::checksum::{self, SYMBOL};
use differential::phy::dcch::CrcMode;
use differential::prng::Prng;
use differential::tally::Tally;

const LONG: [usize; 9] = [511, 512, 513, 1000, 4096, 65535, 65536, 65537, 100_000];

fn compare(information: &[bool], dvcc: u8, mode: CrcMode) {
    checksum::checksum(&bytes(information), dvcc, mode);
}

/// Each colour code in both modes, on information of its own; returns the calls.
fn compare_colours(p: &mut Prng, len: usize) -> u64 {
    for dvcc in 0..=u8::MAX {
        for mode in MODES {
            compare(&p.bits(len), dvcc, mode);
        }
    }
    512
}

/// Runs of zeros and of ones, and a single one at each place; returns the calls.
fn compare_plain(len: usize) -> u64 {
    for mode in MODES {
        compare(&vec![false; len], 0, mode);
        compare(&vec![true; len], u8::MAX, mode);
        for place in 0..len {
            let mut information = vec![false; len];
            information[place] = true;
            compare(&information, 0, mode);
        }
    }
    2 * (len as u64 + 2)
}

#[test]
fn checksum() {
    let mut p = Prng(0x1021);
    let mut tally = Tally::new("checksum");
    let short = (0..=300).map(|len| compare_colours(&mut p, len)).sum();
    tally.part("lengths 0 to 300, all DVCC, both modes", short);
    let long = LONG.map(|len| compare_colours(&mut p, len)).iter().sum();
    tally.part("long ones, all DVCC, both modes", long);
    let plain = (0..=160).map(compare_plain).sum();
    tally.part("zeros, ones, a single one", plain);
    tally.end();
}

/// Each wrong byte at each place, among random bits; returns the calls.
fn refuse_each(p: &mut Prng, len: usize, places: impl Iterator<Item = usize>) -> u64 {
    let mut calls = 0;
    for place in places {
        for wrong in 2..=u8::MAX {
            let mut information = bytes(&p.bits(len));
            information[place] = wrong;
            let (dvcc, mode) = (p.byte(), MODES[usize::from(p.bit())]);
            let answer = checksum::checksum(&information, dvcc, mode);
            assert_eq!(answer, SYMBOL);
            calls += 1;
        }
    }
    calls
}

#[test]
fn wrong_bytes() {
    let mut p = Prng(0xbad);
    let mut tally = Tally::new("checksum of wrong bytes");
    let mut calls = 0;
    for len in [1, 2, 3, 49, 50, 79, 101, 109] {
        calls += refuse_each(&mut p, len, 0..len);
    }
    tally.part("one, each value at each place", calls);
    let places = [0, 1, 254, 255, 256, 65535, 65536, 99_998, 99_999];
    let calls = refuse_each(&mut p, 100_000, places.into_iter());
    tally.part("one in a long block", calls);
    for wrong in 2..=u8::MAX {
        for mode in MODES {
            assert_eq!(checksum::checksum(&[wrong; 109], wrong, mode), SYMBOL);
        }
    }
    tally.part("nothing else", 508);
    tally.end();
}
