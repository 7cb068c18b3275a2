//! The listening rule of document 01 on the port, over streams that meet its premise, from any
//! encoder, any receiver and any first field, with refused calls between.
use differential::air::any_receiver;
use differential::compare::listening::{self, Sent, latest_start};
use differential::prng::Prng;
use differential::tally::Tally;

#[test]
fn rule() {
    let mut p = Prng(0x11573);
    let mut tally = Tally::new("listening rule");
    let (mut streams, mut pushes, mut premise_failed, mut latest) = (0, 0, 0, 0);
    while streams < 6000 {
        let sent = Sent::draw(&mut p, |p| 5 + p.below(4));
        let a = 1 + p.below(22);
        let start = any_receiver(&mut p);
        let Some(heard) = listening::rule(&mut p, &sent, a, &start) else {
            premise_failed += 1;
            continue;
        };
        latest = latest.max(heard.first.unwrap_or(0));
        streams += 1;
        pushes += heard.answers.len() as u64;
    }
    println!("listening rule: {premise_failed} streams did not meet the premise");
    tally.part(
        &format!("{streams} streams, latest first word at field {latest}"),
        pushes,
    );
    tally.end();
}

/// 42 cannot be lowered: a receiver that is locked one field after a boundary misses it, is
/// rejected at its own phase, and comes to the next boundary ten fields later.
#[test]
fn tight() {
    let mut p = Prng(0x42);
    let mut tally = Tally::new("listening rule, first word at field 42");
    let mut pushes = 0;
    for _ in 0..200 {
        let sent = Sent::draw(&mut p, |_| 5);
        let start = latest_start(&mut p);
        let Some(heard) = listening::rule(&mut p, &sent, 3, &start) else {
            continue;
        };
        assert_eq!(heard.first, Some(42));
        pushes += heard.answers.len() as u64;
    }
    tally.part("locked beside the boundary", pushes);
    tally.end();
}
