//! SACCH's encoder, deinterleaver and receiver, call by call from any state: what they give, and every part of
//! the state after it.
use crate::same_error;
use bindings::sacch as port;
use bindings::{Refusal, sys};
use differential::air::{any_deinterleaver, any_encoder, any_receiver, any_word, fields};
use differential::compare::sacch_deinterleaver::{bad_received, state as deinterleaver_of};
use differential::compare::sacch_encoder::{bad_cursor, bad_memory, bad_row, state as encoder_of};
use differential::compare::sacch_receiver::{Air, Part, spoilt};
use differential::phy::sacch as rust;
use differential::phy::sacch::probe::{receiver, state};
use differential::port::Of;
use differential::port_sacch::unpacked;
use differential::prng::Prng;
use differential::tally::Tally;

#[track_caller]
fn same_encoders(port: &port::SacchEncoder, rust: &rust::SacchEncoder) {
    assert_eq!(sys::Encoder::from(port.clone()), encoder_of(rust));
}

#[test]
fn encoders() {
    let mut p = Prng(0xb5e0);
    let mut tally = Tally::new("crate, SACCH encoder");
    same_encoders(&Default::default(), &Default::default());
    for _ in 0..500 {
        let mut rust = any_encoder(&mut p);
        let mut port = port::SacchEncoder::try_from(encoder_of(&rust)).expect("a good state");
        for _ in 0..20 {
            match p.below(8) {
                0..=4 => {
                    let (continuation, message, dvcc) = (p.bit(), p.array(), p.byte());
                    assert_eq!(
                        port.encode_word(continuation, &message, dvcc),
                        rust.encode_word(continuation, &message, dvcc)
                    );
                }
                5..=6 => {
                    let six = p.array();
                    assert_eq!(port.encode_bits(six), rust.encode_bits(six));
                }
                _ => {
                    port.reset();
                    rust.reset();
                }
            }
            same_encoders(&port, &rust);
        }
    }
    tally.part("500 lists from any state", 10_000);
    tally.end();
}

#[test]
fn deinterleavers() {
    let mut p = Prng(0xb5e1);
    let mut tally = Tally::new("crate, SACCH deinterleaver");
    assert_eq!(
        sys::Deinterleaver::from(port::SacchDeinterleaver::default()),
        deinterleaver_of(&Default::default())
    );
    for _ in 0..500 {
        let mut rust = any_deinterleaver(&mut p);
        let record = deinterleaver_of(&rust);
        let mut port = port::SacchDeinterleaver::try_from(record).expect("a good state");
        for _ in 0..30 {
            if p.below(30) == 0 {
                port.reset();
                rust.reset();
            } else {
                let field = p.array();
                assert_eq!(port.push(field), rust.push(field));
            }
            let record = sys::Deinterleaver::from(port.clone());
            assert_eq!(record, deinterleaver_of(&rust));
        }
    }
    let bad = bad_received(&mut p, 13);
    assert_eq!(port::SacchDeinterleaver::try_from(bad), Err(Refusal::State));
    tally.part("500 lists from any state", 15_000);
    tally.end();
}

/// How often each outcome came: Pending, a word, rejected.
#[derive(Default)]
struct Outcomes([u64; 3]);

impl Outcomes {
    /// Pushes a field on both, by either call.
    #[track_caller]
    fn push(
        &mut self,
        port: &mut port::SacchReceiver,
        rust: &mut rust::SacchReceiver,
        slot: [bool; 12],
        dvcc: u8,
    ) {
        let mut again = port.clone();
        let (outcome, wanted) = (port.push_outcome(slot, dvcc), rust.push_outcome(slot, dvcc));
        assert_eq!(format!("{outcome:?}"), format!("{wanted:?}"));
        let word = again.push(slot, dvcc);
        assert_eq!(&again, port);
        assert_eq!(sys::Receiver::from(again), sys::Receiver::of(&state(rust)));
        self.count(outcome, wanted, word);
    }
    #[track_caller]
    fn count(
        &mut self,
        outcome: port::ReceiveOutcome,
        wanted: rust::ReceiveOutcome,
        word: Option<port::SacchWord>,
    ) {
        use port::ReceiveOutcome::{Pending, Rejected, Word};
        let kind = match outcome {
            Pending => 0,
            Word(_) => 1,
            Rejected(_) => 2,
        };
        self.0[kind] += 1;
        match (outcome, wanted) {
            (Word(heard), _) => assert_eq!(word, Some(heard)),
            (Rejected(port), rust::ReceiveOutcome::Rejected(rust)) => {
                same_error(port, rust);
                assert_eq!(word, None);
            }
            _ => assert_eq!(word, None),
        }
    }
}

#[test]
fn receivers() {
    let mut p = Prng(0xb5e1);
    let mut tally = Tally::new("crate, SACCH receiver");
    for air in [Air::Clean, Air::Damaged(60), Air::Fades, Air::Noise] {
        let mut outcomes = Outcomes::default();
        for _ in 0..200 {
            stream(&mut p, &mut outcomes, air);
        }
        let [pending, words, rejected] = outcomes.0;
        assert!(words > 0 || matches!(air, Air::Noise));
        let what = format!("{air:?}, {words} words, {pending} pending, {rejected} rejected");
        tally.part(&what, pending + words + rejected);
    }
    tally.end();
}

/// A stream from any receiver, with other colour codes and discontinuities between.
#[track_caller]
fn stream(p: &mut Prng, outcomes: &mut Outcomes, air: Air) {
    let start = any_receiver(p);
    let mut rust = receiver(&start);
    let record = sys::Receiver::of(&start);
    let mut port = port::SacchReceiver::try_from(record).expect("a good state");
    let (dvcc, words) = (p.byte(), [(); 5].map(|()| any_word(p)));
    for (n, field) in fields(&mut any_encoder(p), &words, dvcc).iter().enumerate() {
        if p.below(100) == 0 {
            port.discontinuity();
            rust.discontinuity();
            assert_eq!(port, port::SacchReceiver::default());
        }
        let code = if p.below(40) == 0 { p.byte() } else { dvcc };
        let slot = unpacked(air.heard(p, n, *field).into());
        outcomes.push(&mut port, &mut rust, slot, code);
    }
}

/// Records with something out of its range are refused with 8.
#[test]
fn states() {
    let mut p = Prng(0xb5e2);
    let mut tally = Tally::new("crate, SACCH states");
    let parts = [
        Part::FieldCursor,
        Part::Received,
        Part::RowCursor,
        Part::Available,
        Part::Lock,
        Part::Phase,
        Part::Field(3),
        Part::Row(7),
    ];
    for part in parts {
        for past in [0, 1, 100] {
            let refused = port::SacchReceiver::try_from(spoilt(&mut p, part, past));
            assert_eq!(refused, Err(Refusal::State), "{part:?}");
        }
    }
    tally.part("receivers refused with 8", 24);
    let bad = [
        bad_memory(&mut p, 32),
        bad_memory(&mut p, 255),
        bad_cursor(&mut p, 12),
        bad_cursor(&mut p, usize::MAX),
        bad_row(&mut p, 0, 4096),
        bad_row(&mut p, 11, u16::MAX),
    ];
    for record in bad {
        let refused = port::SacchEncoder::try_from(record);
        assert_eq!(refused.map_err(Refusal::number), Err(8), "{record:?}");
    }
    tally.part("encoders refused with 8", bad.len() as u64);
    tally.end();
}
