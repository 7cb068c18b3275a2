//! Prints the `S` lines of 2,000 random words as a survey set hears them: each bit is wrong with a
//! chance of so many in a thousand. `frames` answers them; docs/LIBRARY.md has the table.
use differential::air::{Given, any_word, fields};
use differential::lines::{FIELD_BITS, sacch};
use differential::phy::sacch::SacchEncoder;
use differential::prng::Prng;
use std::env;

const DVCC: u8 = 0x5a;
const WORDS: usize = 2_000;

fn main() {
    let argument = env::args().nth(1).and_then(|rate| rate.parse().ok());
    let rate: usize = argument.expect("noise RATE: wrong bits in a thousand, 0 to 1000");
    let mut p = Prng(0x136);
    // One word more: the rows of a word end eleven slots after its last field.
    let words: Vec<Given> = (0..WORDS + 1).map(|_| any_word(&mut p)).collect();
    for field in fields(&mut SacchEncoder::default(), &words, DVCC) {
        let wrong = (0..FIELD_BITS).filter(|_| p.below(1000) < rate);
        let heard = wrong.fold(field, |field, bit| field ^ 1 << bit);
        println!("{}", sacch(DVCC, heard));
    }
}
