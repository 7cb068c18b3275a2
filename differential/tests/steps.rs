//! The register steps of the three codes: all 64 against the Rust, every other pair of bytes
//! refused.
use differential::compare::steps::{ACELP, Code, DCCH, FACCH, STATE, SYMBOL};
use differential::tally::Tally;

/// Compares all 65,536 pairs of a state and an input.
fn compare(subject: &'static str, code: Code) {
    let (mut steps, mut states, mut symbols) = (0, 0, 0);
    for state in 0..=u8::MAX {
        for input in 0..=u8::MAX {
            match code.compare(state, input).refusal {
                STATE => states += 1,
                SYMBOL => symbols += 1,
                _ => steps += 1,
            }
        }
    }
    let mut tally = Tally::new(subject);
    tally.part("steps", steps);
    tally.part("states refused", states);
    tally.part("inputs refused", symbols);
    tally.end();
}

#[test]
fn dcch_transition() {
    compare("DCCH step", DCCH);
}

#[test]
fn facch_transition() {
    compare("FACCH step", FACCH);
}

#[test]
fn acelp_transition() {
    compare("ACELP step", ACELP);
}
