//! FACCH words coded, and put into slots and taken out, by the port and by the Rust.
use differential::blocks::bytes;
use differential::compare::facch::{MESSAGES, deinterleave, encode, interleave, observe};
use differential::phy::facch::{CODED_BITS, MESSAGE_BITS};
use differential::port_facch::{SYMBOL, Written, length};
use differential::prng::Prng;
use differential::tally::Tally;

fn compare(continuation: bool, message: u64, dvcc: u8) {
    encode(continuation, message, dvcc, CODED_BITS);
}

#[test]
fn encoded() {
    let mut p = Prng(0xfa);
    let mut tally = Tally::new("FACCH encode");
    let mut calls = 0;
    for dvcc in 0..=u8::MAX {
        for continuation in [false, true] {
            for _ in 0..40 {
                compare(continuation, p.draw() % MESSAGES, dvcc);
            }
            for message in [0, 1, MESSAGES / 2, MESSAGES - 1] {
                compare(continuation, message, dvcc);
            }
            calls += 44;
        }
    }
    tally.part("all DVCC, with and without continuation", calls);
    for place in 0..MESSAGE_BITS {
        compare(false, 1 << place, p.byte());
    }
    tally.part("a single one", MESSAGE_BITS as u64);
    tally.end();
}

#[test]
fn encode_refused() {
    let mut p = Prng(0xfb);
    let mut tally = Tally::new("FACCH encode, refusals");
    let mut calls = 0;
    for room in (0..=300).filter(|room| *room != CODED_BITS) {
        for message in [p.draw() % MESSAGES, MESSAGES, u64::MAX] {
            let answer = encode(p.bit(), message, p.byte(), room);
            assert_eq!(answer, length(CODED_BITS, room));
            calls += 1;
        }
    }
    tally.part("lengths 0 to 300", calls);
    let above = (0..1000).map(|_| p.draw() | MESSAGES);
    let large: Vec<u64> = [MESSAGES, MESSAGES + 1, u64::MAX]
        .into_iter()
        .chain(above)
        .collect();
    for message in &large {
        assert_eq!(encode(p.bit(), *message, p.byte(), CODED_BITS), SYMBOL);
    }
    tally.part("messages of more bits", large.len() as u64);
    tally.end();
}

fn word(p: &mut Prng) -> [bool; CODED_BITS] {
    std::array::from_fn(|_| p.bit())
}

fn single(place: usize) -> [bool; CODED_BITS] {
    std::array::from_fn(|at| at == place)
}

/// Every call on slots, on two words or slots.
fn compare_slots(a: &[bool; CODED_BITS], b: &[bool; CODED_BITS]) {
    let (x, y) = (bytes(a), bytes(b));
    interleave(&x, &y, CODED_BITS);
    deinterleave(&x, &y, CODED_BITS);
    observe(false, &x, CODED_BITS);
    observe(true, &x, CODED_BITS);
}

#[test]
fn slots() {
    let mut p = Prng(0xfc);
    let mut tally = Tally::new("FACCH slots");
    for _ in 0..5000 {
        compare_slots(&word(&mut p), &word(&mut p));
    }
    tally.part("random words", 4 * 5000);
    for place in 0..CODED_BITS {
        compare_slots(&single(place), &[false; CODED_BITS]);
        compare_slots(&[true; CODED_BITS], &single(place));
    }
    tally.part("a single one", 8 * CODED_BITS as u64);
    tally.end();
}

/// The first slice that has not the right length, in the order of the arguments.
fn first_wrong(lengths: &[usize]) -> Option<Written> {
    let wrong = lengths.iter().find(|len| **len != CODED_BITS);
    wrong.map(|len| length(CODED_BITS, *len))
}

#[test]
fn slots_refused() {
    let mut p = Prng(0xfd);
    let mut tally = Tally::new("FACCH slots, refusals");
    let lengths = [0, 1, 130, 259, 260, 261, 520];
    let mut calls = 0;
    for a in lengths {
        for b in lengths {
            for room in lengths {
                // A byte that is no bit at the end does not come before a length.
                let x: Vec<u8> = (0..a).map(|at| if at + 1 == a { 2 } else { 0 }).collect();
                let y = vec![1; b];
                if let Some(wanted) = first_wrong(&[a, b, room]) {
                    assert_eq!(interleave(&x, &y, room), wanted);
                    assert_eq!(deinterleave(&x, &y, room), wanted);
                    calls += 2;
                }
                if let Some(wanted) = first_wrong(&[a, room]) {
                    assert_eq!(observe(p.bit(), &x, room), wanted);
                    calls += 1;
                }
            }
        }
    }
    tally.part("lengths", calls);
    let mut calls = 0;
    for place in 0..CODED_BITS {
        for wrong in [2, 3, 128, 255] {
            let (mut x, y) = (bytes(&word(&mut p)), bytes(&word(&mut p)));
            x[place] = wrong;
            assert_eq!(interleave(&x, &y, CODED_BITS), SYMBOL);
            assert_eq!(interleave(&y, &x, CODED_BITS), SYMBOL);
            assert_eq!(deinterleave(&x, &y, CODED_BITS), SYMBOL);
            assert_eq!(deinterleave(&y, &x, CODED_BITS), SYMBOL);
            assert_eq!(observe(false, &x, CODED_BITS), SYMBOL);
            assert_eq!(observe(true, &x, CODED_BITS), SYMBOL);
            calls += 6;
        }
    }
    tally.part("a byte that is no bit, at each place", calls);
    tally.end();
}
