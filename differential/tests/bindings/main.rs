//! The crate in `rust/` beside the original, module by module: the same answers under the same
//! names, the same text of each error, and its number.
mod acelp;
mod dcch;
mod facch;
mod sacch_decode;
mod sacch_states;
mod speech;
mod switch;

use bindings::{Refusal, acelp_cc1, dcch as blocks, facch as words, sacch, speech as vselp};
use differential::blocks::KINDS;
use differential::compare::frames::{Codec, Frame, MOST_WRONG};
use differential::prng::Prng;
use differential::tally::Tally;
use std::error::Error;
use std::fmt::Debug;

/// An error of the crate.
trait Numbered: Error + Copy + Into<Refusal> {
    fn number(self) -> u8;
}

macro_rules! numbered {
    ($($error:ty),*) => {$(
        impl Numbered for $error {
            fn number(self) -> u8 {
                self.number()
            }
        }
    )*};
}

numbered!(
    blocks::BlockError,
    words::FacchError,
    sacch::SacchError,
    acelp_cc1::DecodeError,
    vselp::SpeechError
);

/// Document 01's number of an error of the original, by the name that it prints.
fn number_of(error: &impl Debug) -> u8 {
    let text = format!("{error:?}");
    let name = text.split(' ').next().unwrap_or_default();
    match name {
        "Length" => 1,
        "Crc" => 3,
        "InsufficientObservations" => 4,
        "Ambiguous" => 5,
        "Reserved" => 6,
        other => panic!("no number for {other}"),
    }
}

/// How often each answer came, by its number; at 0 those without.
#[derive(Default)]
struct Answers([u64; 9]);

impl Answers {
    fn calls(&self) -> u64 {
        self.0.iter().sum()
    }
    /// How often each number came that did.
    fn text(&self) -> String {
        let came = self.0.iter().enumerate().filter(|(_, count)| **count > 0);
        let told: Vec<String> = came
            .map(|(number, count)| match number {
                0 => format!("{count} accepted"),
                _ => format!("{count} refused with {number}"),
            })
            .collect();
        told.join(", ")
    }
    /// Counts an answer that both gave: types of one shape and one name print alike.
    #[track_caller]
    fn same<A: Debug, B: Debug, E: Numbered, F: Error>(
        &mut self,
        port: Result<A, E>,
        rust: Result<B, F>,
        input: impl Debug,
    ) {
        assert_eq!(format!("{port:?}"), format!("{rust:?}"), "{input:?}");
        let number = match (port, rust) {
            (Err(port), Err(rust)) => same_error(port, rust),
            _ => 0,
        };
        self.0[usize::from(number)] += 1;
    }
}

/// The number of an error that both gave.
#[track_caller]
fn same_error(port: impl Numbered, rust: impl Error) -> u8 {
    assert_eq!(port.to_string(), rust.to_string());
    let (number, refusal): (u8, Refusal) = (port.number(), port.into());
    assert_eq!((number, refusal.number()), (number_of(&rust), number));
    number
}

/// A speech decoder of the crate on frames with wrong bits and on blocks of every kind.
#[track_caller]
fn frames_decoded(
    p: &mut Prng,
    tally: &mut Tally,
    codec: &Codec,
    decode: fn(&mut Answers, &Frame),
) {
    for flips in 0..=MOST_WRONG {
        let mut answers = Answers::default();
        codec.damaged(p, flips, 200, |frame| decode(&mut answers, frame));
        let what = format!("{flips} wrong bits, {}", answers.text());
        tally.part(&what, answers.calls());
    }
    let mut answers = Answers::default();
    for kind in KINDS {
        codec.of_kind(p, kind, 300, |frame| decode(&mut answers, frame));
    }
    assert!(answers.0[5] > 0);
    tally.part(&format!("every kind, {}", answers.text()), answers.calls());
}
