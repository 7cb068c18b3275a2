//! What the examples in Rust are to print: their own text, with the original in the place of
//! `bts136`.
extern crate self as bts136;

pub use differential::phy::{dcch, sacch};
use differential::port_sacch::refusal;
use differential::verdict::error;
use std::process::exit;

/// An error of the crate has its number; the original's gets it here.
trait Numbered {
    fn number(self) -> u8;
}

impl Numbered for dcch::BlockError {
    fn number(self) -> u8 {
        error(self).refusal
    }
}

impl Numbered for sacch::SacchError {
    fn number(self) -> u8 {
        refusal(self)
    }
}

mod dcch_example {
    use crate::Numbered;
    include!("../../../examples/rust/src/bin/dcch.rs");

    pub fn run() {
        main();
    }
}

mod sacch_example {
    use crate::Numbered;
    include!("../../../examples/rust/src/bin/sacch.rs");

    pub fn run() {
        main();
    }
}

fn main() {
    match std::env::args().nth(1).as_deref() {
        Some("dcch") => dcch_example::run(),
        Some("sacch") => sacch_example::run(),
        _ => {
            eprintln!("example: name one of dcch, sacch");
            exit(2)
        }
    }
}
