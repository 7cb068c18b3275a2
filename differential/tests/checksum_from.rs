//! The register of the 16-bit checksum, from any register, against the Rust's checksum of bits that
//! leave that register and of those after them.
use differential::blocks::bytes;
use differential::channel::MODES;
use differential::compare::checksum::{SYMBOL, checksum_from};
use differential::phy::dcch::CrcMode;
use differential::phy::dcch::probe::checksum;
use differential::port;
use differential::prng::Prng;
use differential::registers::{eight, left_by};
use differential::tally::Tally;

const LONG: [usize; 6] = [511, 512, 1000, 4099, 65537, 100_002];

fn after(register: u16, bits: &[bool]) -> u16 {
    let answer = checksum_from(register, &bytes(bits));
    assert_eq!(answer.refusal, 0);
    answer.value
}

fn register(p: &mut Prng) -> u16 {
    p.below(1 << 16) as u16
}

#[test]
fn registers() {
    let mut p = Prng(0x4129);
    let mut tally = Tally::new("register");
    for before in 0..=u16::MAX {
        assert_eq!(after(before, &[]), before);
        after(before, &[false]);
        after(before, &[true]);
    }
    tally.part("each, no bit, a zero, a one", 3 << 16);
    for len in 0..=300 {
        for _ in 0..100 {
            after(register(&mut p), &p.bits(len));
        }
    }
    tally.part("lengths 0 to 300, 100 each", 301 * 100);
    for len in LONG {
        for _ in 0..20 {
            after(register(&mut p), &p.bits(len));
        }
    }
    tally.part("long ones, 20 each", 20 * LONG.len() as u64);
    tally.end();
}

/// Over one run and then over a second it ends as over both, by the port alone.
#[test]
fn runs_join() {
    let mut p = Prng(0x10);
    let mut tally = Tally::new("register of two runs");
    let mut splits = 0;
    for len in 0..=300 {
        let (before, bits) = (register(&mut p), p.bits(len));
        let whole = after(before, &bits);
        for place in 0..=len {
            let (first, second) = bits.split_at(place);
            let held = port::checksum_from(before, &bytes(first)).value;
            let both = port::checksum_from(held, &bytes(second)).value;
            assert_eq!(both, whole, "{before:04x} {first:?} {second:?}");
            splits += 1;
        }
    }
    tally.part("each split of 0 to 300 bits", splits);
    tally.end();
}

/// From 0 over the colour code and then the information it is the Rust's checksum, which Broadcast
/// complements.
#[test]
fn held_colours() {
    let mut p = Prng(0x5a);
    let mut tally = Tally::new("register of a colour code");
    for dvcc in 0..=u8::MAX {
        let held = after(0, &eight(dvcc));
        for len in 0..=160 {
            let information = p.bits(len);
            let value = after(held, &information);
            for mode in MODES {
                let sent = match mode {
                    CrcMode::Broadcast => !value,
                    CrcMode::Addressed => value,
                };
                assert_eq!(sent, checksum(&information, dvcc, mode));
            }
        }
    }
    tally.part("all DVCC, both modes, 0 to 160 bits", 256 * 161 * 2);
    tally.end();
}

/// The check values of the published catalogues, of the digits 1 to 9 in ASCII: CRC-16/XMODEM from
/// 0, CRC-16/IBM-3740 from ffff, and CRC-16/GENIBUS, which complements that, as Broadcast does.
#[test]
fn published() {
    let digits: Vec<bool> = b"123456789".iter().flat_map(|one| eight(*one)).collect();
    assert_eq!(after(0, &digits), 0x31c3);
    assert_eq!(after(0xffff, &digits), 0x29b1);
    let (dvcc, first) = left_by(0xffff);
    let joined = bytes(&[&first, &digits[..]].concat());
    assert_eq!(port::checksum(&joined, dvcc, true).value, 0xd64e);
    // Document 01, Table M.
    assert_eq!(after(0, &eight(1)), 4129);
    assert_eq!(port::checksum(&[], 1, false).value, 4129);
    assert_eq!(port::checksum(&[], 0, true).value, 65535);
}

#[test]
fn wrong_bytes() {
    let mut p = Prng(0xbad);
    let mut tally = Tally::new("register after wrong bytes");
    let mut calls = 0;
    for len in [1, 2, 3, 4, 5, 49, 50, 79, 101, 109, 10_000] {
        for place in [0, len / 2, len - 1] {
            for wrong in 2..=u8::MAX {
                let mut information = bytes(&p.bits(len));
                information[place] = wrong;
                let before = register(&mut p);
                assert_eq!(port::checksum_from(before, &information), SYMBOL);
                calls += 1;
            }
        }
    }
    tally.part("one, each value at the ends and between", calls);
    tally.end();
}
