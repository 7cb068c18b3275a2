//! Prints the calls that the program `replay` answers, one a line: corners of every call, and calls
//! on words, frames and blocks as sent, damaged and at random. The seed is fixed, so the list is the
//! same every time. crates/replay and crates/calls say how a line is written; `--bin answers` prints
//! what the original answers to it. No call of the port is made.
mod blocks;
mod coding;
mod corners;
mod facch;
mod receivers;
mod rows;
mod sacch;
mod speech;

use differential::prng::Prng;

const SEED: u64 = 0x0136_0136_0136;

fn main() {
    let mut p = Prng(SEED);
    coding::calls(&mut p);
    blocks::calls(&mut p);
    facch::calls(&mut p);
    sacch::calls(&mut p);
    receivers::calls(&mut p);
    speech::vselp(&mut p);
    speech::acelp(&mut p);
    rows::calls(&mut p);
}

/// A heading, which both files have.
fn section(text: &str) {
    println!("// {text}");
}

fn hexadecimal(numbers: &[u64]) -> String {
    let words: Vec<String> = numbers.iter().map(|n| format!("{n:x}")).collect();
    words.join(" ")
}
