//! The SACCH receiver, at its bounds and as it hears words.
use crate::{hexadecimal, section};
use differential::air::{Given, any_encoder, any_receiver, any_word, fields};
use differential::phy::sacch::probe::{State, receiver};
use differential::phy::sacch::{SacchEncoder, SacchReceiver};
use differential::port_sacch::unpacked;
use differential::prng::Prng;
use differential::records::{UNLOCKED, receiver_numbers};

/// By value, over a lent receiver, and by value for words alone.
const WAYS: [&str; 3] = ["pushed", "push_outcome", "push"];
const DVCC: u8 = 90;

pub fn calls(p: &mut Prng) {
    section("SACCH receiver at its bounds: field, DVCC, receiver");
    states();
    stored();
    println!(
        "sacch discontinuity {}",
        hexadecimal(&of_rows(11, 12, 255, 255))
    );
    println!("sacch discontinuity {}", hexadecimal(&fresh()));
    listening();
    section("SACCH receivers in any state");
    for way in WAYS {
        for _ in 0..8 {
            let before = receiver_numbers(&receiver(&any_receiver(p)));
            push(way, p.below(4096) as u16, p.byte(), &before);
        }
    }
    section("damaged SACCH words, heard by each call in turn");
    damaged(p);
}

fn push(way: &str, field: u16, dvcc: u8, before: &[u64]) {
    println!("sacch {way} {field:x} {dvcc:x} {}", hexadecimal(before));
}

fn fresh() -> Vec<u64> {
    receiver_numbers(&SacchReceiver::default())
}

fn of_fields(field_cursor: u64, received: u64) -> Vec<u64> {
    let mut numbers = fresh();
    (numbers[12], numbers[13]) = (field_cursor, received);
    numbers
}

fn of_rows(row_cursor: u64, available: u64, phase: u64, lock: u64) -> Vec<u64> {
    let mut numbers = of_fields(0, 12);
    numbers[25..].copy_from_slice(&[row_cursor, available, phase, lock]);
    numbers
}

/// Eleven rows, to which the next field adds a zero row in the place of the first.
fn full(second: u64, third: u64) -> Vec<u64> {
    let mut numbers = of_rows(0, 11, 10, 0);
    (numbers[15], numbers[16]) = (second, third);
    numbers
}

/// Each number at its bound and one past it; then the rows of a word, of one whose checksum is
/// wrong, and of one with the reserved bit.
fn states() {
    let states = [
        fresh(),
        of_fields(11, 0),
        of_fields(12, 0),
        of_fields(0, 12),
        of_fields(0, 13),
        of_rows(10, 0, 0, UNLOCKED),
        of_rows(11, 0, 0, UNLOCKED),
        of_rows(0, 11, 0, UNLOCKED),
        of_rows(0, 12, 0, UNLOCKED),
        of_rows(0, 0, 10, UNLOCKED),
        of_rows(0, 0, 11, UNLOCKED),
        of_rows(0, 11, 0, 10),
        of_rows(0, 11, 0, 11),
        of_rows(0, 11, 0, 255),
        full(0, 0),
        full(0b111001110111, 0),
        full(0b001110011101, 0b110000000000),
    ];
    for before in states {
        for field in [0, 4095, 4096, 65535] {
            for way in WAYS {
                push(way, field, 0, &before);
            }
        }
    }
}

/// Each stored number at its bound and one past, where fields and rows were received and where not.
fn stored() {
    for (received, available) in [(0, 0), (12, 11)] {
        for stored in [4095, 4096] {
            for at in (0..12).chain(14..25) {
                let mut before = of_fields(0, received);
                (before[26], before[at]) = (available, stored);
                for way in WAYS {
                    push(way, 0, 0, &before);
                }
            }
        }
    }
}

/// Five words from a fresh encoder, heard field by field by three receivers. A line has the
/// receiver that the line before leaves.
fn listening() {
    let words: Vec<Given> = (0..5)
        .map(|k| Given {
            continuation: k % 2 == 0,
            message: (k + 1) * 0x12_3456_789a,
        })
        .collect();
    let sent = fields(&mut SacchEncoder::default(), &words, DVCC);
    section("five SACCH words, heard by a fresh receiver from the first field");
    hear(&sent, DVCC, &State::default());
    section("the same, heard by a receiver that is locked beside a word, from the third field");
    let locked = State {
        locked: Some(10),
        ..State::default()
    };
    hear(&sent[2..], DVCC, &locked);
    section("the same, heard by a fresh receiver under another colour code");
    hear(&sent, DVCC + 1, &State::default());
}

fn hear(fields: &[u16], dvcc: u8, start: &State) {
    let mut receiver = receiver(start);
    for field in fields {
        push("pushed", *field, dvcc, &receiver_numbers(&receiver));
        receiver.push_outcome(unpacked((*field).into()), dvcc);
    }
}

/// Words with a wrong bit in every fourth field, between two discontinuities, from any encoder and
/// to any receiver.
fn damaged(p: &mut Prng) {
    let dvcc = p.byte();
    let words: Vec<Given> = (0..6).map(|_| any_word(p)).collect();
    let mut sent = fields(&mut any_encoder(p), &words, dvcc);
    for field in sent.iter_mut().step_by(4) {
        *field ^= 1 << p.below(12);
    }
    let mut receiver = receiver(&any_receiver(p));
    for (at, field) in sent.iter().enumerate() {
        if at == 9 {
            println!(
                "sacch discontinuity {}",
                hexadecimal(&receiver_numbers(&receiver))
            );
            receiver = SacchReceiver::default();
        }
        push(WAYS[at % 3], *field, dvcc, &receiver_numbers(&receiver));
        receiver.push_outcome(unpacked((*field).into()), dvcc);
    }
}
