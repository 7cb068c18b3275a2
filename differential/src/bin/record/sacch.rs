//! SACCH words and the encoder.
use crate::corners::{call, one_coded};
use crate::{hexadecimal, section};
use differential::air::{MESSAGES, any_encoder, any_word};
use differential::blocks::{Ends, KINDS, flip, text};
use differential::phy::sacch::probe::encoder_state;
use differential::port_sacch::unpacked;
use differential::prng::Prng;
use differential::records::encoder_numbers;

const FLIPS: [usize; 8] = [0, 1, 2, 3, 5, 8, 12, 20];

pub fn calls(p: &mut Prng) {
    section("SACCH decode: DVCC, coded bits");
    call("sacch decode 0", &[132], &[]).corners();
    for (place, turned) in [
        (0, vec![]),
        (0, vec![131]),
        (2, vec![]),
        (2, vec![131]),
        (4, vec![0]),
        (130, vec![]),
        (132, vec![130]),
    ] {
        println!("sacch decode 0 :{}", one_coded(132, place, &turned));
    }
    decoded(p);
    section("SACCH encoder: six bits, or continuation, message and DVCC; then the encoder");
    encoder_corners();
    encoders(p);
}

/// The eleven rows of a word from any encoder.
fn coded(p: &mut Prng, dvcc: u8) -> Vec<bool> {
    let mut encoder = any_encoder(p);
    let word = any_word(p);
    encoder.encode_word(word.continuation, &unpacked(word.message), dvcc);
    let (_, rows, cursor) = encoder_state(&encoder);
    (1..12).flat_map(|age| rows[(cursor + age) % 12]).collect()
}

fn decoded(p: &mut Prng) {
    for flips in FLIPS {
        let dvcc = p.byte();
        let mut bits = coded(p, dvcc);
        flip(p, &mut bits, flips);
        println!("sacch decode {dvcc:x} :{}", text(&bits));
    }
    let dvcc = p.byte();
    let bits = coded(p, dvcc);
    println!("sacch decode {:x} :{}", dvcc ^ 1, text(&bits));
    for kind in KINDS {
        let block = Ends::Free.block(p, kind, 66);
        println!("sacch decode {:x} :{}", p.byte(), text(&block));
    }
}

/// Zeros but for the memory, the cursor and the last row.
fn of(memory: u64, cursor: u64, last: u64) -> Vec<u64> {
    let mut numbers = vec![0; 14];
    (numbers[0], numbers[12], numbers[13]) = (memory, last, cursor);
    numbers
}

/// Each number at its bound, one past it and at its largest.
fn encoder_corners() {
    let states = [
        of(0, 0, 0),
        of(31, 0, 0),
        of(32, 0, 0),
        of(255, 0, 0),
        of(0, 11, 0),
        of(0, 12, 0),
        of(0, u64::MAX, 0),
        of(0, 0, 4095),
        of(0, 0, 4096),
        of(0, 0, 65535),
    ];
    let given = [(0, 0), (63, MESSAGES - 1), (64, MESSAGES), (255, u64::MAX)];
    for before in states {
        for (six, message) in given {
            encode_bits(six, &before);
            encode_word(&[1, message, 90], &before);
        }
    }
    for row in [4095, 4096] {
        for at in 1..13 {
            let mut before = of(0, 0, 0);
            before[at] = row;
            encode_bits(0, &before);
            encode_word(&[1, 0, 90], &before);
        }
    }
    println!("sacch reset {}", hexadecimal(&of(255, 12, 65535)));
    println!("sacch reset {}", hexadecimal(&of(0, 0, 0)));
}

fn encode_bits(six: u64, before: &[u64]) {
    println!("sacch encode_bits {six:x} {}", hexadecimal(before));
}

fn encode_word(given: &[u64], before: &[u64]) {
    println!(
        "sacch encode_word {} {}",
        hexadecimal(given),
        hexadecimal(before)
    );
}

/// Encoders in any state.
fn encoders(p: &mut Prng) {
    for _ in 0..12 {
        encode_bits(p.below(64) as u64, &encoder_numbers(&any_encoder(p)));
        let word = any_word(p);
        let given = [word.continuation.into(), word.message, p.byte().into()];
        encode_word(&given, &encoder_numbers(&any_encoder(p)));
    }
}
