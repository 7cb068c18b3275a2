//! Times the program `frames` beside the same program over the Rust, on a million lines of each
//! kind: the whole run of each process, output thrown away.
use differential::air::{Given, any_word, fields};
use differential::lines::{sacch, traffic, wrong_forms};
use differential::phy::sacch::SacchEncoder;
use differential::prng::Prng;
use std::fs::{self, File};
use std::path::{Path, PathBuf};
use std::process::{Command, Stdio};
use std::time::Instant;
use std::{env, process};

const LINES: usize = 1_000_000;
const DVCC: u8 = 0x5a;

fn main() {
    let original = env::current_exe().unwrap().with_file_name("frames");
    let port = Path::new(env!("CARGO_MANIFEST_DIR")).join("../crates/frames/out/frames");
    let port = env::var("BTS136_FRAMES").map_or(port, PathBuf::from);
    println!("| a million lines of | port, s | original, s | original / port |");
    println!("|---|---|---|---|");
    for (what, input) in inputs() {
        let path = env::temp_dir().join(format!("frames-{}.txt", process::id()));
        fs::write(&path, input).expect("room for the input");
        let (ours, theirs) = (seconds(&port, &path), seconds(&original, &path));
        println!(
            "| {what} | {ours:.2} | {theirs:.2} | {:.1} |",
            theirs / ours
        );
        fs::remove_file(&path).unwrap();
    }
}

fn inputs() -> [(&'static str, Vec<u8>); 4] {
    let word = format!("F 00 {} {}\n", "5".repeat(65), "0".repeat(65));
    [
        ("mixed traffic", mixed()),
        ("fields of a clean stream, locked", clean()),
        ("fields of noise, each a trial", noise()),
        (
            "FACCH words with an empty mask",
            word.repeat(LINES).into_bytes(),
        ),
    ]
}

fn first_lines(input: Vec<u8>) -> Vec<u8> {
    let ends = (0..input.len()).filter(|at| input[*at] == b'\n');
    let end = ends.take(LINES).last().expect("lines");
    input[..=end].to_vec()
}

/// Fields of streams, clean and damaged; one line in about 80 is something else, FACCH words among
/// them.
fn mixed() -> Vec<u8> {
    let (mut p, wrong) = (Prng(0x9ace), wrong_forms());
    let mut input = vec![];
    while input.len() < 12 * LINES {
        input.extend(traffic(&mut p, &wrong, 80));
        if input.last() != Some(&b'\n') {
            input.push(b'\n');
        }
    }
    first_lines(input)
}

fn text(fields: impl Iterator<Item = u16>) -> Vec<u8> {
    let line = |field| format!("{}\n", sacch(DVCC, field));
    fields.map(line).collect::<String>().into_bytes()
}

fn clean() -> Vec<u8> {
    let mut p = Prng(1);
    let words: Vec<Given> = (0..LINES / 11 + 1).map(|_| any_word(&mut p)).collect();
    let sent = fields(&mut SacchEncoder::default(), &words, DVCC);
    text(sent.into_iter().take(LINES))
}

fn noise() -> Vec<u8> {
    let mut p = Prng(2);
    text((0..LINES).map(|_| p.below(4096) as u16))
}

/// The least of three runs.
fn seconds(program: &Path, input: &Path) -> f64 {
    let run = || {
        let begin = Instant::now();
        let status = Command::new(program)
            .stdin(File::open(input).unwrap())
            .stdout(Stdio::null())
            .status()
            .unwrap_or_else(|error| panic!("{}: {error}", program.display()));
        assert!(status.success());
        begin.elapsed().as_secs_f64()
    };
    (0..3).map(|_| run()).fold(f64::INFINITY, f64::min)
}
