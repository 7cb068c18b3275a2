//! FACCH words and their slots.
use crate::Answers;
use bindings::facch as port;
use differential::compare::facch::{Observed, Sent, between, flip, half, keep, sent};
use differential::phy::facch as rust;
use differential::phy::facch::{CODED_BITS, WordHalf};
use differential::prng::Prng;
use differential::tally::{Tally, scaled};

fn which(half: WordHalf) -> port::WordHalf {
    match half {
        WordHalf::Start => port::WordHalf::Start,
        WordHalf::End => port::WordHalf::End,
    }
}

/// `decode_erased`, and where all is observed `decode` too.
#[track_caller]
fn decode(answers: &mut Answers, coded: &Observed, dvcc: u8) {
    let rust = rust::decode_erased(coded, dvcc);
    if coded.iter().all(Option::is_some) {
        let whole = coded.map(|bit| bit == Some(true));
        answers.same(port::decode(&whole, dvcc), rust.clone(), (dvcc, coded));
    }
    answers.same(port::decode_erased(coded, dvcc), rust, (dvcc, coded));
}

#[test]
fn slots() {
    let mut p = Prng(0xbfa0);
    let mut tally = Tally::new("crate, FACCH words and slots");
    for _ in 0..2000 {
        let (continuation, message, dvcc) = (p.bit(), p.array(), p.byte());
        assert_eq!(
            port::encode(continuation, &message, dvcc),
            rust::encode(continuation, &message, dvcc)
        );
        let (one, two) = (p.array(), p.array());
        assert_eq!(port::interleave(&one, &two), rust::interleave(&one, &two));
        assert_eq!(
            port::deinterleave(&one, &two),
            rust::deinterleave(&one, &two)
        );
        for half in [WordHalf::Start, WordHalf::End] {
            let observed = port::observe_half(&one, which(half));
            assert_eq!(observed, rust::observe_half(&one, half));
        }
    }
    tally.part("encode, interleave, deinterleave, observe_half", 10_000);
    tally.end();
}

#[test]
fn decoded() {
    let mut p = Prng(0xbfa1);
    let mut tally = Tally::new("crate, FACCH decode");
    for flips in [0, 8, 12, 20, 40] {
        let mut answers = Answers::default();
        for _ in 0..scaled(40) {
            let Sent { dvcc, mut coded } = sent(&mut p);
            flip(&mut p, &mut coded, flips);
            decode(&mut answers, &coded.map(Some), dvcc);
            decode(&mut answers, &half(&coded, WordHalf::Start), dvcc);
            decode(&mut answers, &half(&coded, WordHalf::End), dvcc ^ 1);
        }
        let what = format!("{flips} flips, {}", answers.text());
        tally.part(&what, answers.calls());
    }
    tally.end();
}

#[test]
fn few_and_tied() {
    let mut p = Prng(0xbfa2);
    let mut tally = Tally::new("crate, FACCH few and tied");
    let mut answers = Answers::default();
    for kept in [0, 63, 64, 65, 66, 80, 130, 259] {
        for _ in 0..scaled(15) {
            let Sent { dvcc, coded } = sent(&mut p);
            decode(&mut answers, &keep(&mut p, &coded, kept), dvcc);
        }
    }
    for _ in 0..scaled(60) {
        let Sent { dvcc, coded } = between(&mut p);
        decode(&mut answers, &coded.map(Some), dvcc);
    }
    assert!(answers.0[4] > 0 && answers.0[5] > 0);
    tally.part(&answers.text(), answers.calls());
    let mut answers = Answers::default();
    for dvcc in [0, 1, 255] {
        decode(&mut answers, &[Some(false); CODED_BITS], dvcc);
    }
    tally.part(&format!("zeros, {}", answers.text()), answers.calls());
    tally.end();
}
