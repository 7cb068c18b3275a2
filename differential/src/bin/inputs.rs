//! Writes the inputs that `frames` is run on beside document 01's case, one file each, into the
//! folder that is named. What they are answered is what `--bin frames` prints.
use differential::air::{Given, any_word, fields};
use differential::lines::{
    CODED, code, coded_word, damaged, facch, half, mask, reserved_fields, sacch, whole_word,
    wrong_forms,
};
use differential::phy::facch::WordHalf;
use differential::phy::sacch::SacchEncoder;
use differential::prng::Prng;
use std::path::Path;
use std::{env, fs};

const DVCC: u8 = 0x5a;

/// Lines of so many spaces: up to 136 are skipped, above that a line is too long.
const SPACES: [usize; 5] = [0, 1, 136, 137, 1000];

fn main() {
    let folder = env::args().nth(1).expect("the folder to write into");
    let write = |name: &str, input: Vec<u8>| {
        fs::write(Path::new(&folder).join(format!("{name}.in")), input).expect("a writable folder");
    };
    write("sample", lines(sample()));
    write("empty", vec![]);
    write("blank", blank());
    write("spaces_between", spaces_between());
    for count in SPACES {
        write(&format!("spaces_{count}"), spaces(count, "\n"));
        write(&format!("spaces_{count}_no_lf"), spaces(count, ""));
    }
    write("malformed", text_of(wrong_forms()));
    write("no_last_lf", without_last(lines(stream(DVCC, 3, 2))));
    write("refusals", lines(refusals()));
    write("discontinuity", lines(discontinuity()));
    write("colour_codes", lines(colour_codes()));
    write("codes_ff_00_5a", lines(three_codes()));
    write("codes_all", lines(all_codes()));
    write("damaged", lines(damaged_stream()));
    write("halves", lines(halves()));
    write("between", between());
    write("three_reads", lines(three_reads()));
}

fn text_of(lines: Vec<Vec<u8>>) -> Vec<u8> {
    let ended = |mut line: Vec<u8>| {
        line.push(b'\n');
        line
    };
    lines.into_iter().flat_map(ended).collect()
}

fn lines(lines: Vec<String>) -> Vec<u8> {
    text_of(lines.into_iter().map(String::into_bytes).collect())
}

fn without_last(mut input: Vec<u8>) -> Vec<u8> {
    input.pop();
    input
}

/// The fields of random words from a fresh encoder.
fn sent(p: &mut Prng, words: usize, dvcc: u8) -> Vec<u16> {
    let words: Vec<Given> = (0..words).map(|_| any_word(p)).collect();
    fields(&mut SacchEncoder::default(), &words, dvcc)
}

fn stream(dvcc: u8, words: usize, seed: u64) -> Vec<String> {
    let sent = sent(&mut Prng(seed), words, dvcc);
    sent.into_iter().map(|field| sacch(dvcc, field)).collect()
}

/// A short stop of a survey: listening begins inside a word, and one field is damaged; then two
/// FACCH words, the second with one half observed.
fn sample() -> Vec<String> {
    let mut p = Prng(0x136);
    let mut heard = sent(&mut p, 6, DVCC);
    heard.drain(..4);
    heard[30] ^= 0x011;
    let mut out: Vec<String> = heard.into_iter().map(|field| sacch(DVCC, field)).collect();
    out.extend(["".into(), "s 5a 000".into(), "D".into()]);
    let word = any_word(&mut p);
    let coded = coded_word(&mut p, word, DVCC, 3);
    out.push(facch(DVCC, &coded, &[true; CODED]));
    out.push(facch(DVCC, &coded, &half(WordHalf::Start)));
    out
}

/// Lines that are skipped, between lines that are not.
fn blank() -> Vec<u8> {
    let mut out = vec![vec![], vec![b' '], vec![b' '; 136], vec![]];
    for line in stream(DVCC, 3, 1) {
        out.extend([line.into_bytes(), vec![], vec![b' '; 3]]);
    }
    text_of(out)
}

fn spaces(count: usize, end: &str) -> Vec<u8> {
    (" ".repeat(count) + end).into_bytes()
}

/// Spaces after each field of a stream, which they do not disturb.
fn spaces_between() -> Vec<u8> {
    let fields = stream(DVCC, 3, 11).into_iter().zip(SPACES.iter().cycle());
    let lines = fields.flat_map(|(field, count)| [field.into_bytes(), spaces(*count, "")]);
    text_of(lines.collect())
}

/// 3, 5 and 6 of SACCH; 3, 4 and 5 of FACCH; 7.
fn refusals() -> Vec<String> {
    let mut p = Prng(3);
    let mut out = stream(DVCC, 2, 3);
    let last = out.pop().expect("fields");
    // Under another colour code the word's checksum is wrong.
    out.push(last.replace(" 5a ", " 5b "));
    out.push("D".into());
    // The lowest bit of the 22nd field is the last bit of the first word.
    let mut tied = sent(&mut p, 2, DVCC);
    tied[21] ^= 1;
    out.extend(tied.into_iter().map(|field| sacch(DVCC, field)));
    out.push("D".into());
    let mut encoder = SacchEncoder::default();
    let mut reserved = reserved_fields(&mut encoder, 0x1234_5678_9abc, DVCC);
    reserved.extend(reserved_fields(&mut encoder, 0, DVCC));
    out.extend(reserved.into_iter().map(|field| sacch(DVCC, field)));
    let word = coded_word(
        &mut p,
        Given {
            continuation: true,
            message: 0xfeed_beef_cafe,
        },
        DVCC,
        0,
    );
    let first: Vec<bool> = (0..CODED).map(|place| place < 65).collect();
    out.push(facch(DVCC, &word, &[true; CODED]));
    out.push(facch(DVCC + 1, &word, &[true; CODED]));
    out.push(facch(DVCC, &word, &mask(&mut p, 64)));
    out.push(facch(DVCC, &word, &[false; CODED]));
    out.push(facch(DVCC, &word, &first));
    out.push("R 7".into());
    out
}

/// Words heard, a discontinuity, and 21 fields without a trial after it.
fn discontinuity() -> Vec<String> {
    let mut out: Vec<String> = vec![sacch(0, 0); 21];
    out.push("D".into());
    out.extend(vec![sacch(0, 0); 22]);
    out.push("D".into());
    out.push("D".into());
    out.extend(stream(DVCC, 4, 4));
    out
}

/// One receiver for all codes: the code of a trial's field decides.
fn colour_codes() -> Vec<String> {
    let mut p = Prng(5);
    let mut out = vec![];
    for seed in 0..8 {
        let dvcc = code(&mut p);
        out.extend(stream(dvcc, 3, 50 + seed));
        out.push(whole_word(&mut p, dvcc, 2));
        out.push("D".into());
    }
    let mut last = stream(DVCC, 4, 6);
    for line in last.iter_mut().step_by(2) {
        *line = line.replace(" 5a ", " 01 ");
    }
    out.extend(last);
    out
}

/// One word under ff, then three under 00, then two under 5a: their `C` lines come 00, 5a, ff.
fn three_codes() -> Vec<String> {
    let mut p = Prng(12);
    let mut out = vec![whole_word(&mut p, 0xff, 0)];
    out.extend(stream(0x00, 3, 12));
    out.push(whole_word(&mut p, 0x00, 0));
    out.push("D".into());
    out.extend(stream(0x5a, 3, 13));
    out
}

/// A word under each of the 256 codes, scattered, and a second one under every seventh.
fn all_codes() -> Vec<String> {
    let mut p = Prng(14);
    let mixed = |k: u8| k.wrapping_mul(141).wrapping_add(7);
    let codes = (0..=255).map(mixed).chain((0..=255).step_by(7));
    codes.map(|dvcc| whole_word(&mut p, dvcc, 0)).collect()
}

/// Wrong bits in a tenth of the fields, and a fade.
fn damaged_stream() -> Vec<String> {
    let mut p = Prng(7);
    let sent = sent(&mut p, 30, DVCC);
    let heard = sent.into_iter().enumerate().map(|(at, field)| {
        let wrong = match at {
            120..150 => 6,
            _ if p.below(10) == 0 => 1 + p.below(3),
            _ => 0,
        };
        damaged(&mut p, field, wrong)
    });
    heard.map(|field| sacch(DVCC, field)).collect()
}

/// Each half of words, with anything under the mask's zeros.
fn halves() -> Vec<String> {
    let mut p = Prng(8);
    let mut out = vec![];
    for wrong in [0, 1, 2, 3, 8] {
        for which in [WordHalf::Start, WordHalf::End] {
            let (word, seen) = (any_word(&mut p), half(which));
            let mut coded = coded_word(&mut p, word, DVCC, 0);
            let heard = damaged_places(&mut p, &seen, wrong);
            for place in 0..CODED {
                coded[place] ^= heard[place] || !seen[place] && p.bit();
            }
            out.push(facch(DVCC, &coded, &seen));
        }
    }
    out
}

/// So many of the observed places.
fn damaged_places(p: &mut Prng, seen: &[bool], count: usize) -> Vec<bool> {
    let places: Vec<usize> = (0..CODED).filter(|place| seen[*place]).collect();
    let mut wrong = vec![false; CODED];
    for _ in 0..count {
        wrong[places[p.below(places.len())]] = true;
    }
    wrong
}

/// Lines of every form between the fields of a stream, which they do not disturb.
fn between() -> Vec<u8> {
    let mut p = Prng(9);
    let mut others = wrong_forms().into_iter();
    let mut out = vec![];
    for line in stream(DVCC, 6, 9) {
        out.push(line.into_bytes());
        out.extend(others.next());
        if p.below(6) == 0 {
            out.push(whole_word(&mut p, 0x01, 3).into_bytes());
        }
    }
    text_of(out)
}

/// Some 40 KB, so that the program reads more than twice: three stops with wrong bits in a tenth of
/// the fields, an `F` line after every 30th.
fn three_reads() -> Vec<String> {
    let mut p = Prng(10);
    let mut out = vec![];
    for dvcc in [DVCC, 0x01, 0xff] {
        for (at, field) in sent(&mut p, 90, dvcc).into_iter().enumerate() {
            let wrong = if p.below(10) == 0 { 1 + p.below(3) } else { 0 };
            out.push(sacch(dvcc, damaged(&mut p, field, wrong)));
            if at % 30 == 29 {
                out.push(whole_word(&mut p, dvcc, 4));
            }
        }
        out.push("D".into());
    }
    out
}
