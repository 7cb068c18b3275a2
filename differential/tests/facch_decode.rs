//! FACCH words decoded by the port and by the Rust, with all bits, half of them or any number
//! observed, beside an independent count of the nearest words.
use differential::blocks::bytes;
use differential::compare::facch::{MESSAGES, Observed, Sent, WORD_BITS, between, flip, half};
use differential::compare::facch::{decode, decode_erased, keep, only, received, sent, shuffled};
use differential::phy::facch::{self, CODED_BITS, WordHalf};
use differential::port::Refused;
use differential::port_facch::Word;
use differential::port_sacch::unpacked;
use differential::prng::Prng;
use differential::reference_facch::independent;
use differential::tally::{Tally, scaled};

/// How often each answer came.
#[derive(Default)]
struct Answers {
    words: u64,
    crc: u64,
    few: u64,
    ambiguous: u64,
}

impl Answers {
    fn calls(&self) -> u64 {
        self.words + self.crc + self.few + self.ambiguous
    }
    fn text(&self) -> String {
        let Answers {
            words,
            crc,
            few,
            ambiguous,
        } = self;
        format!("{words} words, {crc} checksum, {few} too few, {ambiguous} ambiguous")
    }
    #[track_caller]
    fn compare(&mut self, coded: &Observed, dvcc: u8) {
        match decode_erased(&received(coded), dvcc).refusal {
            0 => self.words += 1,
            3 => self.crc += 1,
            4 => self.few += 1,
            _ => self.ambiguous += 1,
        }
    }
}

#[test]
fn whole_words() {
    let mut p = Prng(0xfad0);
    let mut tally = Tally::new("FACCH decode, whole words");
    for flips in [0, 4, 8, 12, 20, 40, 60] {
        let mut answers = Answers::default();
        for _ in 0..scaled(100) {
            let Sent { dvcc, mut coded } = sent(&mut p);
            flip(&mut p, &mut coded, flips);
            answers.compare(&coded.map(Some), dvcc);
        }
        // Any two words differ in 18 places or more.
        assert!(flips > 8 || answers.words == answers.calls());
        tally.part(
            &format!("{flips} flips, {}", answers.text()),
            answers.calls(),
        );
    }
    let mut answers = Answers::default();
    for _ in 0..scaled(100) {
        let Sent { dvcc, coded } = sent(&mut p);
        answers.compare(&coded.map(Some), dvcc ^ (1 + p.below(255) as u8));
    }
    assert_eq!(answers.crc, answers.calls());
    tally.part(
        &format!("another DVCC, {}", answers.text()),
        answers.calls(),
    );
    tally.end();
}

#[test]
fn halves() {
    let mut p = Prng(0xfad1);
    let mut tally = Tally::new("FACCH decode, one half");
    for (which, name) in [(WordHalf::Start, "start"), (WordHalf::End, "end")] {
        for flips in [0, 1, 2, 4, 8] {
            let mut answers = Answers::default();
            for _ in 0..scaled(60) {
                let Sent { dvcc, mut coded } = sent(&mut p);
                flip(&mut p, &mut coded, flips);
                answers.compare(&half(&coded, which), dvcc);
            }
            // Two words differ in six places or more of either half.
            assert!(flips > 2 || answers.words == answers.calls());
            let what = format!("{name}, {flips} flips, {}", answers.text());
            tally.part(&what, answers.calls());
        }
    }
    tally.end();
}

#[test]
fn any_places() {
    let mut p = Prng(0xfad2);
    let mut tally = Tally::new("FACCH decode, any places");
    for kept in [0, 1, 63, 64, 65, 66, 70, 80, 90, 110, 130, 160, 200, 259] {
        for flips in [0, 3] {
            let mut answers = Answers::default();
            for _ in 0..scaled(40) {
                let Sent { dvcc, mut coded } = sent(&mut p);
                flip(&mut p, &mut coded, flips);
                answers.compare(&keep(&mut p, &coded, kept), dvcc);
            }
            assert_eq!(answers.few == answers.calls(), kept < WORD_BITS);
            let what = format!("{kept} observed, {flips} flips, {}", answers.text());
            tally.part(&what, answers.calls());
        }
    }
    tally.end();
}

/// Exactly 65 places that tell every word apart, and then one less.
#[test]
fn just_enough() {
    let mut p = Prng(0xfad5);
    let mut tally = Tally::new("FACCH decode, 65 independent places");
    let mut answers = Answers::default();
    for _ in 0..scaled(100) {
        let Sent { dvcc, coded } = sent(&mut p);
        let places = independent(&shuffled(&mut p));
        assert_eq!(places.len(), WORD_BITS);
        answers.compare(&only(&coded, &places), dvcc);
        answers.compare(&only(&coded, &places[1..]), dvcc);
    }
    assert_eq!(answers.words, answers.few);
    tally.part(&answers.text(), answers.calls());
    tally.end();
}

#[test]
fn noise() {
    let mut p = Prng(0xfad3);
    let mut tally = Tally::new("FACCH decode, noise");
    for kept in [90, 130, 200, 260] {
        let mut answers = Answers::default();
        for _ in 0..scaled(100) {
            let coded = std::array::from_fn(|_| p.bit());
            answers.compare(&keep(&mut p, &coded, kept), p.byte());
        }
        assert!(answers.ambiguous > 0);
        let what = format!("{kept} observed, {}", answers.text());
        tally.part(&what, answers.calls());
    }
    tally.end();
}

/// Halfway between two words: a tie wherever a third one is not nearer.
#[test]
fn between_two() {
    let mut p = Prng(0xfad4);
    let mut tally = Tally::new("FACCH decode, between two words");
    let mut answers = Answers::default();
    for _ in 0..scaled(200) {
        let Sent { dvcc, coded } = between(&mut p);
        answers.compare(&coded.map(Some), dvcc);
    }
    assert!(answers.ambiguous > 0);
    tally.part(&answers.text(), answers.calls());
    tally.end();
}

/// Document 01's corners, with its numbers.
#[test]
fn corners() {
    let mut tally = Tally::new("FACCH decode, corners");
    let zeros = [0; CODED_BITS];
    let word = Word {
        observed: 260,
        ..Word::refused(0)
    };
    assert_eq!(decode(&zeros, 0), word);
    assert_eq!(decode_erased(&zeros, 0), word);
    let first = |count: usize| -> Vec<u8> {
        (0..CODED_BITS)
            .map(|place| if place < count { 0 } else { 2 })
            .collect()
    };
    assert_eq!(decode_erased(&first(64), 0), Word::refused(4));
    assert_eq!(decode_erased(&first(65), 0), Word::refused(5));
    let mut calls = 4;
    for place in 0..CODED_BITS {
        for wrong in [2, 3, 4, 128, 255] {
            let mut coded = zeros;
            coded[place] = wrong;
            assert_eq!(decode(&coded, 0), Word::refused(2));
            // A bad byte comes before too few observed.
            let mut few = [2; CODED_BITS];
            few[place] = wrong;
            let refusal = if wrong == 2 { 4 } else { 2 };
            assert_eq!(decode_erased(&few, 0), Word::refused(refusal));
            calls += 2;
        }
    }
    for len in (0..=300).filter(|len| *len != CODED_BITS) {
        for byte in [0, 2, 3] {
            let wanted = Word::length(CODED_BITS, len);
            assert_eq!(decode(&vec![byte; len], 0), wanted);
            assert_eq!(decode_erased(&vec![byte; len], 0), wanted);
            calls += 2;
        }
    }
    tally.part("zeros, few, bytes that are no bits, lengths", calls);
    let coded = bytes(&facch::encode(true, &unpacked(MESSAGES - 1), 255));
    let full = decode(&coded, 255);
    assert_eq!((full.refusal, full.message), (0, MESSAGES - 1));
    tally.part("ones", 1);
    tally.end();
}
