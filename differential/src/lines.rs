//! Lines for the program `frames`: what a survey hears, clean and damaged, and lines of no known
//! form.
use crate::air::{Given, any_word, fields};
use crate::blocks::flip;
use crate::phy::dcch::{CrcMode, probe::checksum};
use crate::phy::facch::{self, WordHalf};
use crate::phy::sacch::SacchEncoder;
use crate::port_sacch::{number, unpacked};
use crate::prng::Prng;

pub const FIELD_BITS: usize = 12;
pub const CODED: usize = facch::CODED_BITS;

pub fn sacch(dvcc: u8, field: u16) -> String {
    format!("S {dvcc:02x} {field:03x}")
}

pub fn facch(dvcc: u8, bits: &[bool], mask: &[bool]) -> String {
    format!("F {dvcc:02x} {} {}", hexadecimal(bits), hexadecimal(mask))
}

fn hexadecimal(bits: &[bool]) -> String {
    let digit = |four: &[bool]| format!("{:x}", number(four));
    bits.chunks(4).map(digit).collect()
}

/// A word with its reserved bit set and a right checksum: the encoder has no call for it.
pub fn reserved_fields(encoder: &mut SacchEncoder, message: u64, dvcc: u8) -> Vec<u16> {
    let mut word = vec![false, true];
    word.extend::<[bool; 48]>(unpacked(message));
    let sum = checksum(&word, dvcc, CrcMode::Addressed);
    word.extend::<[bool; 16]>(unpacked(u64::from(sum)));
    let field = |six: &[bool]| number(&encoder.encode_bits(six.try_into().unwrap())) as u16;
    word.chunks(6).map(field).collect()
}

/// A FACCH word, coded, with so many wrong bits.
pub fn coded_word(p: &mut Prng, given: Given, dvcc: u8, wrong: usize) -> [bool; CODED] {
    let mut coded = facch::encode(given.continuation, &unpacked(given.message), dvcc);
    flip(p, &mut coded, wrong);
    coded
}

/// The `F` line of any word, with so many wrong bits and every bit observed.
pub fn whole_word(p: &mut Prng, dvcc: u8, wrong: usize) -> String {
    let word = any_word(p);
    facch(dvcc, &coded_word(p, word, dvcc, wrong), &[true; CODED])
}

/// The places that one half of a word takes.
pub fn half(half: WordHalf) -> [bool; CODED] {
    facch::observe_half(&[false; CODED], half).map(|bit| bit.is_some())
}

/// So many places, the others unobserved.
pub fn mask(p: &mut Prng, observed: usize) -> Vec<bool> {
    let mut mask = vec![false; CODED];
    flip(p, &mut mask, observed);
    mask
}

/// A FACCH line: whole words, halves and other masks, with few wrong bits or many.
pub fn any_facch(p: &mut Prng) -> String {
    let (dvcc, wrong, word) = (code(p), [0, 0, 1, 5, 20, 60][p.below(6)], any_word(p));
    let coded = coded_word(p, word, dvcc, wrong);
    let mask = match p.below(5) {
        0 => half(WordHalf::Start).to_vec(),
        1 => half(WordHalf::End).to_vec(),
        2 => mask_near_least(p),
        _ => vec![true; CODED],
    };
    // Another code than the word's now and then.
    let heard = if p.below(8) == 0 { code(p) } else { dvcc };
    facch(heard, &coded, &mask)
}

fn mask_near_least(p: &mut Prng) -> Vec<bool> {
    let observed = [0, 63, 64, 65, 66, 100, 200][p.below(7)];
    mask(p, observed)
}

/// Few colour codes, so that their counts grow.
pub fn code(p: &mut Prng) -> u8 {
    [0x00, 0x01, 0x5a, 0xff][p.below(4)]
}

/// A field with wrong bits.
pub fn damaged(p: &mut Prng, field: u16, wrong: usize) -> u16 {
    (0..wrong).fold(field, |field, _| field ^ 1 << p.below(FIELD_BITS))
}

/// Lines of every wrong form, and some that are just right beside them.
pub fn wrong_forms() -> Vec<Vec<u8>> {
    let bits = "0".repeat(65);
    let texts = [
        "S 00 0g0",
        "S 0A 000",
        "S 00 00F",
        "s 00 000",
        "S 00  000",
        "S  00 000",
        " S 00 000",
        "S 00 000 ",
        "S 00 0000",
        "S 00 00",
        "S 000 000",
        "S 0 000",
        "S 00000",
        "S00 000",
        "S 00 -01",
        "S 00 0x1",
        "S",
        "S ",
        "S 00",
        "S 00 ",
        "SS 00 000",
        "d",
        "D ",
        " D",
        "DD",
        "D D",
        "P",
        "W 0 000000000000 00 00",
        "T 0 0",
        "hello",
        "# a comment",
        "S 00 000\r",
        "D\r",
        "\r",
        "S\t00\t000",
        "\t",
        "S 00 00\0",
        "\0",
        "S 00 00\u{e9}",
    ];
    let mut lines: Vec<Vec<u8>> = texts.iter().map(|text| text.as_bytes().to_vec()).collect();
    lines.push(b"S 00 00\xff".to_vec());
    lines.push(vec![0x80; 8]);
    for (b, m) in [(64, 65), (65, 64), (66, 65), (65, 66), (0, 65), (65, 0)] {
        lines.push(format!("F 00 {} {}", "0".repeat(b), "f".repeat(m)).into_bytes());
    }
    lines.push(format!("F 00 {bits}").into_bytes());
    lines.push(format!("F 00 {bits} {bits} ").into_bytes());
    lines.push(format!("F 00 {bits}  {bits}").into_bytes());
    lines.push(format!("F 0 {bits} {bits}").into_bytes());
    lines.push(format!("F 00 {} {bits}", bits.replacen('0', "g", 1)).into_bytes());
    lines.push(format!("F 00 {bits} {}", bits.replacen('0', "F", 1)).into_bytes());
    lines.push(format!("f 00 {bits} {bits}").into_bytes());
    lines.extend([135, 136, 137, 138, 1000].map(|length| vec![b' '; length]));
    lines.extend([136, 137, 5000].map(|length| vec![b'S'; length]));
    lines
}

/// Fields of words under a code, some damaged.
fn stream(p: &mut Prng) -> Vec<Vec<u8>> {
    let dvcc = code(p);
    let words: Vec<Given> = (0..1 + p.below(6)).map(|_| any_word(p)).collect();
    let often = [1000, 20, 4][p.below(3)];
    let mut heard = fields(&mut SacchEncoder::default(), &words, dvcc);
    heard.drain(..p.below(11));
    let line = |field: u16| {
        let wrong = if p.below(often) == 0 {
            1 + p.below(3)
        } else {
            0
        };
        sacch(dvcc, damaged(p, field, wrong)).into_bytes()
    };
    heard.into_iter().map(line).collect()
}

/// Lines that are no field, between the fields.
fn other(p: &mut Prng, wrong: &[Vec<u8>]) -> Vec<u8> {
    match p.below(8) {
        0 => b"D".to_vec(),
        1 => any_facch(p).into_bytes(),
        2 => vec![b' '; p.below(140)],
        3 => (0..p.below(20))
            .map(|_| p.byte())
            .filter(|b| *b != b'\n')
            .collect(),
        4 => near_miss(p),
        _ => wrong[p.below(wrong.len())].clone(),
    }
}

/// A good line with one byte changed to any other.
fn near_miss(p: &mut Prng) -> Vec<u8> {
    let field = p.below(4096) as u16;
    let mut line = sacch(p.byte(), field).into_bytes();
    let at = p.below(line.len());
    line[at] = p.byte();
    line
}

/// Streams of fields, with another line after one in so many.
pub fn traffic(p: &mut Prng, wrong: &[Vec<u8>], seldom: usize) -> Vec<u8> {
    let mut input = vec![];
    for _ in 0..1 + p.below(4) {
        for line in stream(p) {
            input.extend(line);
            input.push(b'\n');
            if p.below(seldom) == 0 {
                input.extend(other(p, wrong));
                input.push(b'\n');
            }
        }
    }
    if p.bit() {
        input.pop();
    }
    input
}
