//! Answers stored calls, one a line of standard input, as the program `replay` is to answer them:
//! document 01's refusals of what a call is lent, written out here, and behind them the original.
//! No call of the port is made.
mod arguments;
mod calls;
mod records;
mod told;

use arguments::Line;
use std::io::stdin;
use told::{Tally, Told};

fn main() {
    for line in stdin().lines() {
        let line = line.expect("text");
        if line.starts_with("//") {
            println!("{line}");
        } else {
            println!("{}", answer(&line));
        }
    }
}

fn answer(line: &str) -> String {
    let first = Line::read(line, 0);
    if first.turns == 0 {
        return told(&first).line();
    }
    let mut tally = Tally::default();
    for turn in 0..first.turns {
        tally.count(&told(&Line::read(line, turn)));
    }
    tally.line()
}

fn told(line: &Line) -> Told {
    match records::over_record(line) {
        Some(text) => Told::answered(text, vec![]),
        None => calls::told(line),
    }
}
