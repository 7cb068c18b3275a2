//! SACCH words decoded.
use crate::Answers;
use bindings::sacch as port;
use differential::blocks::{Ends, KINDS, code, flip};
use differential::compare::sacch::{WORD, word};
use differential::phy::sacch as rust;
use differential::prng::Prng;
use differential::tally::Tally;

#[track_caller]
fn decode(answers: &mut Answers, coded: &[bool], dvcc: u8) {
    let coded = coded.try_into().expect("132 bits");
    let (port, rust) = (port::decode(coded, dvcc), rust::decode(coded, dvcc));
    answers.same(port, rust, (dvcc, coded));
}

#[test]
fn words() {
    let mut p = Prng(0xb5a0);
    let mut tally = Tally::new("crate, SACCH decode");
    for reserved in [false, true] {
        let mut answers = Answers::default();
        for flips in 0..=6 {
            for _ in 0..300 {
                let dvcc = p.byte();
                let mut coded = code(Ends::Free.start(&mut p), &word(&mut p, reserved, dvcc));
                flip(&mut p, &mut coded, flips);
                let heard = if p.below(5) == 0 { p.byte() } else { dvcc };
                decode(&mut answers, &coded, heard);
            }
        }
        assert!(answers.0[5] > 0 && (answers.0[6] > 0 || !reserved));
        let what = format!("reserved bit {reserved}, {}", answers.text());
        tally.part(&what, answers.calls());
    }
    let mut answers = Answers::default();
    for kind in KINDS {
        for _ in 0..300 {
            let coded = Ends::Free.block(&mut p, kind, WORD);
            decode(&mut answers, &coded, p.byte());
        }
    }
    tally.part(&format!("every kind, {}", answers.text()), answers.calls());
    tally.end();
}

/// The original's constants.
#[test]
fn sizes() {
    assert_eq!(port::MESSAGE_BITS, rust::MESSAGE_BITS);
    assert_eq!(port::WORD_BITS, rust::WORD_BITS);
    assert_eq!(port::CODED_WORD_BITS, rust::CODED_WORD_BITS);
    assert_eq!(port::WORD_SLOTS, rust::WORD_SLOTS);
    assert_eq!(port::SACCH_BITS, differential::phy::traffic::SACCH_BITS);
}
