//! SACCH's deinterleaver, the port's and the Rust's, over lists of calls from any state: rows and
//! the whole state after each call.
use differential::air::any_deinterleaver;
use differential::compare::sacch_deinterleaver::{Calls, list, push, refused_state, state};
use differential::compare::sacch_deinterleaver::{bad_cursor, bad_field, bad_received};
use differential::phy::sacch::SacchDeinterleaver;
use differential::port_sacch::Deinterleaver;
use differential::prng::Prng;
use differential::tally::Tally;

#[test]
fn lists_of_calls() {
    let mut p = Prng(0x5acd);
    let mut tally = Tally::new("SACCH deinterleaver");
    let mut calls = Calls::default();
    for number in 0..4000 {
        let mut rust = any_deinterleaver(&mut p);
        if number % 4 == 0 {
            rust = SacchDeinterleaver::default();
            assert_eq!(Deinterleaver::fresh(), state(&rust));
        }
        list(&mut p, &mut calls, rust);
    }
    tally.part("rows", calls.rows);
    tally.part("pending", calls.pending);
    tally.part("refused between them", calls.refusals);
    tally.part("reset", calls.resets);
    tally.end();
}

/// From a fresh one, a row comes with the twelfth field and with each after it.
#[test]
fn fresh() {
    let mut tally = Tally::new("SACCH deinterleaver, fresh");
    let (mut rust, mut calls) = (SacchDeinterleaver::default(), Calls::default());
    for n in 1..=60 {
        push(&mut calls, &mut rust, 4095 - 64 * n);
        assert_eq!(calls.rows, u64::from(n.saturating_sub(11)), "field {n}");
    }
    tally.part("fields", calls.rows + calls.pending);
    tally.end();
}

/// The states that are refused with 8, each at its bound, one past and far past.
#[test]
fn states() {
    let mut p = Prng(0x5d);
    let mut tally = Tally::new("SACCH deinterleaver, states");
    let mut bad: Vec<Deinterleaver> = vec![];
    bad.extend([12, 13, 255, 256, usize::MAX].map(|cursor| bad_cursor(&mut p, cursor)));
    bad.extend([13, 14, 255, 256, usize::MAX].map(|count| bad_received(&mut p, count)));
    for place in 0..12 {
        bad.extend([4096, 4097, 8191, u16::MAX].map(|field| bad_field(&mut p, place, field)));
    }
    for port in &bad {
        // State comes before Symbol.
        for field in [0, 4095, 4096, u16::MAX] {
            refused_state(*port, field);
        }
    }
    tally.part(
        "refused with 8, and reset all the same",
        4 * bad.len() as u64,
    );
    let good = Deinterleaver {
        fields: [4095; 12],
        cursor: 11,
        received: 12,
    };
    assert_eq!(good.push(4095).refusal, 0);
    tally.part("accepted at every bound", 1);
    tally.end();
}
