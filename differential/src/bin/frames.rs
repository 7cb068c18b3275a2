//! The line program `frames` over the original, from standard input to standard output.
use differential::survey::write_answers;
use std::io::{BufWriter, Read, Write, stdin, stdout};

fn main() {
    let mut input = vec![];
    stdin().read_to_end(&mut input).expect("readable input");
    let mut out = BufWriter::new(stdout());
    write_answers(&input, &mut out).expect("writable output");
    out.flush().expect("writable output");
}
