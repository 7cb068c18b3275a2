//! The program `frames` beside the same program over the Rust: on traffic of every kind, read in
//! pieces of every size, and on inputs too long for any buffer.
use differential::air::{any_word, fields};
use differential::lines::{sacch, traffic, whole_word, wrong_forms};
use differential::phy::sacch::SacchEncoder;
use differential::prng::Prng;
use differential::survey::write_answers;
use differential::tally::{Tally, scaled};
use std::collections::BTreeMap;
use std::io::{Read, Write};
use std::process::{Child, Command, Stdio};
use std::{env, thread};

/// Starts the program that BTS136_FRAMES names, or the one that `rt run` built.
fn start() -> Child {
    let default = concat!(env!("CARGO_MANIFEST_DIR"), "/../crates/frames/out/frames");
    let program = env::var("BTS136_FRAMES").unwrap_or(default.into());
    Command::new(&program)
        .stdin(Stdio::piped())
        .stdout(Stdio::piped())
        .spawn()
        .unwrap_or_else(|error| panic!("{program}: {error}; `rt run` in crates/frames builds it"))
}

/// What the program prints of an input that comes piece by piece.
fn printed<'a>(pieces: impl Iterator<Item = &'a [u8]> + Send) -> Vec<u8> {
    let mut child = start();
    let mut stdin = child.stdin.take().unwrap();
    let mut out = vec![];
    thread::scope(|scope| {
        scope.spawn(move || {
            for piece in pieces {
                // Past the last line that it reads the program may have ended.
                if stdin.write_all(piece).is_err() {
                    break;
                }
            }
        });
        child.stdout.take().unwrap().read_to_end(&mut out).unwrap();
    });
    assert!(child.wait().unwrap().success());
    out
}

fn expected(input: &[u8]) -> Vec<u8> {
    let mut out = vec![];
    write_answers(input, &mut out).unwrap();
    out
}

#[track_caller]
fn compare(input: &[u8], piece: usize) {
    let printed = printed(input.chunks(piece));
    if printed != expected(input) {
        let text = String::from_utf8_lossy(input);
        panic!(
            "pieces of {piece}: {text}\n{}",
            String::from_utf8_lossy(&printed)
        );
    }
}

#[test]
fn answers_traffic() {
    let mut p = Prng(0xf7a);
    let mut tally = Tally::new("frames, lines");
    let wrong = wrong_forms();
    let mut lines = 0;
    for _ in 0..scaled(400) {
        let input = traffic(&mut p, &wrong, 12);
        lines += input.split(|byte| *byte == b'\n').count() as u64;
        let piece = [1, 7, 136, 4096, 16384, 1 << 20][p.below(6)];
        compare(&input, piece);
    }
    tally.part("traffic in pieces of 1 to a million bytes", lines);
    for cut in 0..=300 {
        compare(&vec![b'S'; cut], 1 << 20);
        compare(&[&vec![b' '; cut][..], b"\nD"].concat(), 1 << 20);
    }
    tally.part("lines of every length to 300", 602);
    tally.end();
}

/// Request 12 of document 02: up to 136 spaces are skipped, more are a line that is too long. An LF
/// at the end changes nothing. What is expected is the request's, not the other program's.
#[test]
fn refuses_long_blank_lines() {
    let mut tally = Tally::new("frames, lines of spaces");
    let mut inputs = 0;
    for count in (0..=300).chain([1000, 16_383, 16_384, 100_000]) {
        for end in ["", "\n"] {
            let input = " ".repeat(count) + end;
            for piece in [100, 1 << 20] {
                let refused = usize::from(count > 136);
                let printed = printed(input.as_bytes().chunks(piece));
                prints(&printed, "R 7\n", refused, "T 0 0\n");
                inputs += 1;
            }
        }
    }
    tally.part(
        "0 to 300 spaces, 1,000 and more, with and without LF",
        inputs,
    );
    tally.end();
}

/// An `F` line, its word damaged or not, or a short stream of fields from a discontinuity on, under any
/// colour code. What it is answered does not depend on what came before.
fn word_or_stream(p: &mut Prng) -> Vec<String> {
    let dvcc = p.byte();
    if p.below(4) > 0 {
        let wrong = [0, 3, 60][p.below(3)];
        return vec![whole_word(p, dvcc, wrong)];
    }
    let words = [any_word(p), any_word(p)];
    let sent = fields(&mut SacchEncoder::default(), &words, dvcc);
    let lines = sent.into_iter().map(|field| sacch(dvcc, field));
    std::iter::once("D".into()).chain(lines).collect()
}

/// What the program prints of lines of which none is skipped: the answers, and the lines after them.
fn answered(lines: &[String]) -> (Vec<String>, Vec<String>) {
    let input = lines.join("\n");
    let printed = String::from_utf8(printed(input.as_bytes().chunks(4096))).unwrap();
    let mut answers: Vec<String> = printed.lines().map(String::from).collect();
    let closing = answers.split_off(lines.len());
    (answers, closing)
}

/// How many words each code has, ascending.
fn words_of_codes(lines: &[String], answers: &[String]) -> BTreeMap<u8, u64> {
    let mut words = BTreeMap::new();
    for (line, answer) in lines.iter().zip(answers) {
        if answer.starts_with(['W', 'G']) {
            let dvcc = u8::from_str_radix(&line[2..4], 16).unwrap();
            *words.entry(dvcc).or_default() += 1;
        }
    }
    words
}

/// Request 7 of document 02: the `C` lines come by colour code ascending, and the same words in another
/// order end in the same lines. What is expected is counted from the codes of the input and the answers
/// to it, not by the other program.
#[test]
fn writes_codes_ascending() {
    let mut p = Prng(0xc0de);
    let mut tally = Tally::new("frames, `C` lines");
    let mut written = 0;
    for most in [1, 3, 40, 600].repeat(scaled(25)) {
        let count = 1 + p.below(most);
        let mut parts: Vec<_> = (0..count).map(|_| word_or_stream(&mut p)).collect();
        let lines = parts.concat();
        let (answers, closing) = answered(&lines);
        let words = words_of_codes(&lines, &answers);
        let line = |(dvcc, count): (&u8, &u64)| format!("C {dvcc:02x} {count}");
        assert!(closing[0].starts_with(&format!("T {} ", words.values().sum::<u64>())));
        assert_eq!(closing[1..], words.iter().map(line).collect::<Vec<_>>());
        parts.sort_by_cached_key(|_| p.draw());
        assert_eq!(answered(&parts.concat()).1, closing);
        written += words.len() as u64;
    }
    tally.part("codes with words, each input in two orders", written);
    tally.end();
}

/// A long input that is not kept, and what is written of it.
fn repeated(line: &[u8], times: usize, last: &[u8]) -> Vec<u8> {
    let block = line.repeat(1000);
    let blocks = std::iter::repeat_n(&block[..], times / 1000);
    printed(blocks.chain([&line.repeat(times % 1000)[..], last]))
}

#[track_caller]
fn prints(printed: &[u8], line: &str, times: usize, end: &str) {
    let wanted = line.repeat(times) + end;
    assert!(printed == wanted.as_bytes(), "{} bytes", printed.len());
}

#[test]
fn reads_a_million_lines() {
    let mut tally = Tally::new("frames, long inputs");
    let blank = repeated(b"\n", 999_999, b"S 00 000\nD\n");
    prints(&blank, "P\n", 1, "T 0 0\n");
    tally.part("999,999 blank lines and two more", 1_000_001);
    let fields = repeated(b"S 00 fff\n", 1_000_000, b"D\nS 00 000\n");
    let (first, rest) = fields.split_at(42);
    assert!(first == "P\n".repeat(21).as_bytes() && !rest.contains(&b'D'));
    tally.part("a million fields and two lines more", 1_000_002);
    let word = format!("F 00 {} {}\n", "5".repeat(65), "0".repeat(65));
    let words = repeated(word.as_bytes(), 1_000_000, b"");
    prints(&words, "R 4\n", 1_000_000, "T 0 0\n");
    tally.part("a million words that are not observed", 1_000_000);
    let long = repeated(&[b'S'; 100], 1_000_000, b"");
    prints(&long, "R 7\n", 1, "T 0 0\n");
    tally.part("one line of 100,000,000 bytes", 1);
    tally.end();
}
