//! SACCH's receiver, the port's and the Rust's, push by push over streams from any state: the
//! answer and every field of the state.
use differential::compare::sacch_receiver::{Air, Answers, Part, refused_state, spoilt};
use differential::phy::sacch::probe::state;
use differential::phy::sacch::{ReceiveOutcome, SacchReceiver};
use differential::port::Of;
use differential::port_sacch::{REFUSED, Receiver};
use differential::prng::Prng;
use differential::tally::Tally;

#[test]
fn streams() {
    let mut p = Prng(0x5ac1);
    let mut tally = Tally::new("SACCH receiver, streams");
    for (air, count) in [
        (Air::Clean, 8000),
        (Air::Damaged(120), 6000),
        (Air::Damaged(30), 3000),
        (Air::Fades, 3000),
        (Air::Noise, 1000),
    ] {
        let mut answers = Answers::default();
        for _ in 0..count {
            answers.stream(&mut p, air);
        }
        tally.part(
            &format!("{count} of {air:?}, {}", answers.text()),
            answers.calls(),
        );
    }
    tally.end();
}

/// The fresh receiver on zeros under code 0: the first row with the 12th field, the first trial
/// with the 22nd, which is a word.
#[test]
fn zeros() {
    let mut rust = SacchReceiver::default();
    assert_eq!(Receiver::fresh(), Receiver::of(&state(&rust)));
    let mut answers = Answers::default();
    for n in 1..=60 {
        let outcome = rust.push_outcome([false; 12], 0);
        let word = matches!(outcome, ReceiveOutcome::Word(_));
        assert_eq!(word, n >= 22 && (n - 22) % 11 == 0, "field {n}");
    }
    let mut rust = SacchReceiver::default();
    for _ in 1..=60 {
        answers.push(&mut rust, 0, 0);
    }
    let mut tally = Tally::new("SACCH receiver, zeros");
    tally.part(&answers.text(), answers.calls());
    tally.end();
}

/// A receiver with one thing out of its range, and so refused with 8, also before Symbol.
#[test]
fn states() {
    let mut p = Prng(0x51a7);
    let mut tally = Tally::new("SACCH receiver, states");
    let mut bad: Vec<Receiver> = vec![];
    for past in [0, 1, 200, usize::MAX - 12] {
        let parts = [
            Part::FieldCursor,
            Part::Received,
            Part::RowCursor,
            Part::Available,
        ];
        bad.extend(parts.map(|part| spoilt(&mut p, part, past)));
    }
    for past in 0..255 - 11 {
        bad.extend([Part::Lock, Part::Phase].map(|part| spoilt(&mut p, part, past)));
    }
    for past in [0, 1, 32768 - 4096, 65535 - 4096] {
        bad.extend((0..12).map(|place| spoilt(&mut p, Part::Field(place), past)));
        bad.extend((0..11).map(|place| spoilt(&mut p, Part::Row(place), past)));
    }
    for port in &bad {
        refused_state(&mut p, *port, &[0, 4095, 4096, u16::MAX]);
    }
    tally.part("refused with 8", 4 * bad.len() as u64);
    tally.part("discontinuity all the same", bad.len() as u64);
    let bounds = Receiver {
        fields: [4095; 12],
        field_cursor: 11,
        received: 12,
        rows: [4095; 11],
        row_cursor: 10,
        available: 11,
        phase: 10,
        lock: 10,
    };
    assert_ne!(bounds.pushed(4095, 255).kind, REFUSED);
    tally.part("accepted at every bound", 1);
    tally.end();
}
