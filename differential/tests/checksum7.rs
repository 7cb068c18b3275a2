//! The 7-bit checksum against ACELP's and speech's, and its refusal of bytes that are no bit.
use differential::blocks::bytes;
use differential::compare::checksum::{SYMBOL, checksum7, significant};
use differential::phy::speech;
use differential::prng::Prng;
use differential::reference::words;
use differential::tally::Tally;

#[test]
fn acelp() {
    let mut p = Prng(0xb7);
    let mut tally = Tally::new("7-bit checksum, ACELP's");
    let mut calls = 0;
    for word in (0..=14).flat_map(words) {
        checksum7(&bytes(&word));
        calls += 1;
    }
    tally.part("all of 0 to 14 bits", calls);
    for len in (0..=300).flat_map(|len| [len; 100]) {
        checksum7(&bytes(&p.bits(len)));
    }
    tally.part("lengths 0 to 300", 30_100);
    for _ in 0..100_000 {
        checksum7(&bytes(&p.bits(48)));
    }
    tally.part("48 bits", 100_000);
    let long = [1000, 4096, 65535, 65536, 65537, 100_000];
    for len in long {
        checksum7(&bytes(&p.bits(len)));
    }
    tally.part("long ones", long.len() as u64);
    tally.end();
}

/// Speech's takes the whole input and reads twelve places of it, in an order of its own.
#[test]
fn speech_input() {
    let mut p = Prng(0x5beec4);
    let mut tally = Tally::new("7-bit checksum, speech's");
    let mut calls = 0;
    for information in words(12) {
        let mut input: [bool; 89] = p.array();
        for (bit, place) in information.iter().zip(speech::probe::SIGNIFICANT_POSITIONS) {
            input[place] = *bit;
        }
        significant(&input);
        calls += 1;
    }
    tally.part("all of the 12 significant bits", calls);
    tally.end();
}

#[test]
fn wrong_bytes() {
    let mut p = Prng(0xbad7);
    let mut tally = Tally::new("7-bit checksum of wrong bytes");
    let mut calls = 0;
    for len in [1, 2, 12, 48, 300] {
        for place in 0..len {
            for wrong in 2..=u8::MAX {
                let mut information = bytes(&p.bits(len));
                information[place] = wrong;
                assert_eq!(checksum7(&information), SYMBOL);
                calls += 1;
            }
        }
    }
    tally.part("each value at each place", calls);
    tally.end();
}
