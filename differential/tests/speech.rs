//! VSELP frames coded, decoded and put into slots by the port and by the Rust, the decoder beside
//! an independent count of the nearest words.
use differential::blocks::bytes;
use differential::compare::frames::tried;
use differential::compare::speech::{FRAMES, any_bits};
use differential::compare::speech::{decode, deinterleave, encode, interleave};
use differential::phy::speech as rust;
use differential::phy::speech::{CHANNEL_BITS, CLASS_ONE_BITS, CLASS_TWO_BITS, SpeechBits};
use differential::port::Refused;
use differential::port_facch::SYMBOL;
use differential::port_speech::Frame;
use differential::prng::Prng;
use differential::tally::Tally;

fn compare_encode(bits: &SpeechBits) {
    encode(
        &bytes(&bits.class_one),
        &bytes(&bits.class_two),
        CHANNEL_BITS,
    );
}

#[test]
fn encoded() {
    let mut p = Prng(0x5be);
    let mut tally = Tally::new("VSELP encode");
    for _ in 0..50_000 {
        compare_encode(&any_bits(&mut p));
    }
    tally.part("random frames", 50_000);
    let zero = SpeechBits {
        class_one: [false; CLASS_ONE_BITS],
        class_two: [false; CLASS_TWO_BITS],
    };
    for place in 0..CLASS_ONE_BITS {
        let mut bits = zero.clone();
        bits.class_one[place] = true;
        compare_encode(&bits);
    }
    for place in 0..CLASS_TWO_BITS {
        let mut bits = zero.clone();
        bits.class_two[place] = true;
        compare_encode(&bits);
    }
    tally.part("a single one", (CLASS_ONE_BITS + CLASS_TWO_BITS) as u64);
    tally.end();
}

#[test]
fn damaged() {
    tried::damaged("VSELP decode, frames", 0x5bd, &FRAMES);
}

#[test]
fn every_kind() {
    tried::every_kind("VSELP decode, every kind", 0x5bf, &FRAMES);
}

fn compare_slots(a: &[bool; CHANNEL_BITS], b: &[bool; CHANNEL_BITS]) {
    let (x, y) = (bytes(a), bytes(b));
    interleave(&x, &y, CHANNEL_BITS);
    deinterleave(&x, &y, CHANNEL_BITS);
}

#[test]
fn slots() {
    let mut p = Prng(0x5b5);
    let mut tally = Tally::new("VSELP slots");
    for _ in 0..25_000 {
        compare_slots(&p.array(), &p.array());
    }
    tally.part("random frames", 50_000);
    for place in 0..CHANNEL_BITS {
        let single = std::array::from_fn(|at| at == place);
        compare_slots(&single, &[false; CHANNEL_BITS]);
        compare_slots(&[true; CHANNEL_BITS], &single);
    }
    tally.part("a single one", 4 * CHANNEL_BITS as u64);
    tally.end();
}

/// Every length one short and one long, and others, in each place; then bytes that are no bits.
#[test]
fn refused() {
    let mut p = Prng(0x5b4);
    let mut tally = Tally::new("VSELP refusals");
    let around = |right: usize| [0, 1, right - 1, right, right + 1, 2 * right];
    let mut calls = 0;
    for one in around(77) {
        for two in around(82) {
            for room in around(260) {
                // A byte that is no bit does not come before a length.
                let coded = encode(&vec![2; one], &vec![7; two], room);
                let decoded = decode(&vec![2; room], one, two);
                assert!(coded.refusal > 0 && decoded.refusal > 0);
                calls += 2;
            }
        }
    }
    for a in around(260) {
        for b in around(260) {
            for room in around(260) {
                let (x, y) = (vec![3; a], vec![255; b]);
                assert_ne!(interleave(&x, &y, room).refusal, 0);
                assert_ne!(deinterleave(&x, &y, room).refusal, 0);
                calls += 2;
            }
        }
    }
    tally.part("lengths", calls);
    let mut calls = 0;
    for place in 0..CHANNEL_BITS {
        for byte in [2, 3, 128, 255] {
            let bits = any_bits(&mut p);
            let mut frame = bytes(&rust::encode(&bits));
            let whole = frame.clone();
            frame[place] = byte;
            assert_eq!(decode(&frame, 77, 82), Frame::refused(2));
            for (x, y) in [(&frame, &whole), (&whole, &frame)] {
                assert_eq!(interleave(x, y, 260), SYMBOL);
                assert_eq!(deinterleave(x, y, 260), SYMBOL);
            }
            let (mut one, mut two) = (bytes(&bits.class_one), bytes(&bits.class_two));
            match one.get_mut(place).or(two.get_mut(place.wrapping_sub(77))) {
                Some(bit) => *bit = byte,
                None => continue,
            }
            assert_eq!(encode(&one, &two, 260), SYMBOL);
            calls += 6;
        }
    }
    tally.part("a byte that is no bit", calls);
    tally.end();
}
