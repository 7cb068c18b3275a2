//! SACCH windows decoded by the port and by the Rust, beside an independent count of the nearest
//! words.
use differential::blocks::{Ends, KINDS, bytes, code, flip};
use differential::compare::sacch::{CODED, WORD, decode, word};
use differential::port::Refused;
use differential::port_sacch::Word;
use differential::prng::Prng;
use differential::tally::Tally;

/// How often each answer came.
#[derive(Default)]
struct Answers {
    words: u64,
    ambiguous: u64,
    reserved: u64,
    crc: u64,
}

impl Answers {
    #[track_caller]
    fn compare(&mut self, coded: &[bool], dvcc: u8) {
        match decode(&bytes(coded), dvcc).refusal {
            0 => self.words += 1,
            5 => self.ambiguous += 1,
            6 => self.reserved += 1,
            _ => self.crc += 1,
        }
    }
    fn calls(&self) -> u64 {
        self.words + self.ambiguous + self.reserved + self.crc
    }
    fn text(&self) -> String {
        let Answers {
            words,
            ambiguous,
            reserved,
            crc,
        } = self;
        format!("{words} words, {ambiguous} ambiguous, {reserved} reserved, {crc} checksum")
    }
}

/// Words as sent from any memory, with wrong bits anywhere.
#[test]
fn damaged() {
    let mut p = Prng(0x5acd);
    let mut tally = Tally::new("SACCH decode, words");
    for flips in 0..=9 {
        let mut answers = Answers::default();
        for _ in 0..4000 {
            let dvcc = p.byte();
            let mut coded = code(Ends::Free.start(&mut p), &word(&mut p, false, dvcc));
            flip(&mut p, &mut coded, flips);
            answers.compare(&coded, dvcc);
        }
        assert!(answers.words > 0 && (flips > 0 || answers.words == 4000));
        tally.part(
            &format!("{flips} wrong bits, {}", answers.text()),
            answers.calls(),
        );
    }
    tally.end();
}

/// A wrong bit in the first five pairs may change the memory and not the word; in the last pair the
/// other last bit is as near.
#[test]
fn ends() {
    let mut p = Prng(0x5e);
    let mut tally = Tally::new("SACCH decode, ends");
    for (what, places) in [("first five pairs", 0..10), ("last pair", 130..132)] {
        let mut answers = Answers::default();
        for start in 0..32 {
            for place in places.clone() {
                for _ in 0..40 {
                    let dvcc = p.byte();
                    let mut coded = code(start, &word(&mut p, false, dvcc));
                    coded[place] ^= true;
                    answers.compare(&coded, dvcc);
                }
            }
        }
        if what == "last pair" {
            assert_eq!(answers.ambiguous, answers.calls());
        } else {
            assert!(answers.words > 0);
        }
        tally.part(&format!("{what}, {}", answers.text()), answers.calls());
    }
    tally.end();
}

/// Ambiguous before Reserved before Crc.
#[test]
fn reserved() {
    let mut p = Prng(0x6e5);
    let mut tally = Tally::new("SACCH decode, reserved and other codes");
    let mut answers = Answers::default();
    for _ in 0..6000 {
        let dvcc = p.byte();
        let mut coded = code(Ends::Free.start(&mut p), &word(&mut p, true, dvcc));
        // Under another code its checksum is wrong as well.
        let heard = if p.bit() { dvcc } else { p.byte() };
        flip(&mut p, &mut coded, 2);
        answers.compare(&coded, heard);
    }
    assert!(answers.reserved > 0 && answers.ambiguous > 0);
    tally.part(
        &format!("reserved bit set, {}", answers.text()),
        answers.calls(),
    );
    let mut answers = Answers::default();
    for _ in 0..6000 {
        let dvcc = p.byte();
        let coded = code(Ends::Free.start(&mut p), &word(&mut p, false, dvcc));
        answers.compare(&coded, dvcc ^ (1 + p.below(255)) as u8);
    }
    assert_eq!(answers.crc, answers.calls());
    tally.part(
        &format!("another colour code, {}", answers.text()),
        answers.calls(),
    );
    tally.end();
}

/// Blocks of every kind: coded words of any content, tied ones, noise.
#[test]
fn blocks() {
    let mut p = Prng(0xb10c);
    let mut tally = Tally::new("SACCH decode, blocks");
    for kind in KINDS {
        let mut answers = Answers::default();
        for _ in 0..6000 {
            let coded = Ends::Free.block(&mut p, kind, WORD);
            answers.compare(&coded, p.byte());
        }
        tally.part(&format!("{kind:?}, {}", answers.text()), answers.calls());
    }
    tally.end();
}

#[test]
fn refused() {
    let mut p = Prng(0x5ef);
    let mut tally = Tally::new("SACCH decode, refusals");
    for length in (0..=300).filter(|length| *length != CODED) {
        // A byte that is no bit does not come before the length.
        let coded = vec![p.byte(); length];
        assert_eq!(decode(&coded, p.byte()), Word::length(CODED, length));
    }
    tally.part("lengths 0 to 300", 300);
    let mut calls = 0;
    for place in 0..CODED {
        for byte in 2..=u8::MAX {
            let mut coded = bytes(&p.bits(CODED));
            coded[place] = byte;
            assert_eq!(decode(&coded, p.byte()), Word::refused(2));
            calls += 1;
        }
    }
    tally.part("a byte that is no bit", calls);
    tally.end();
}
