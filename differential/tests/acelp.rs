//! ACELP CC1 frames coded, decoded and put into slots by the port and by the Rust, the decoder
//! beside an independent count of the nearest words. The codec's bits are converted by the
//! original's `codec_bits` and `from_codec_bits`.
use differential::blocks::bytes;
use differential::compare::acelp::{FRAMES, MODES, SPEECH};
use differential::compare::acelp::{decode, deinterleave, encode, interleave};
use differential::compare::frames::tried;
use differential::phy::acelp_cc1::{CHANNEL_BITS, Interleaving};
use differential::port::Refused;
use differential::port_facch::SYMBOL;
use differential::port_speech::Frame;
use differential::prng::Prng;
use differential::tally::Tally;

fn compare_encode(speech: &[bool; SPEECH]) {
    encode(&bytes(speech), CHANNEL_BITS);
}

#[test]
fn encoded() {
    let mut p = Prng(0xace);
    let mut tally = Tally::new("ACELP encode");
    for _ in 0..50_000 {
        compare_encode(&p.array());
    }
    tally.part("random frames", 50_000);
    for place in 0..SPEECH {
        compare_encode(&std::array::from_fn(|at| at == place));
        compare_encode(&std::array::from_fn(|at| at != place));
    }
    tally.part("a single one, a single zero", 2 * SPEECH as u64);
    tally.end();
}

#[test]
fn damaged() {
    tried::damaged("ACELP decode, frames", 0xacd, &FRAMES);
}

#[test]
fn every_kind() {
    tried::every_kind("ACELP decode, every kind", 0xacf, &FRAMES);
}

fn compare_slots(three: &[[bool; CHANNEL_BITS]; 3], mode: Interleaving) {
    let given = bytes(three.as_flattened());
    interleave(&given, mode, CHANNEL_BITS);
    deinterleave(&given, mode, CHANNEL_BITS);
}

#[test]
fn slots() {
    let mut p = Prng(0xac5);
    let mut tally = Tally::new("ACELP slots");
    for mode in MODES {
        for _ in 0..9000 {
            compare_slots(&std::array::from_fn(|_| p.array()), mode);
        }
        for place in 0..3 * CHANNEL_BITS {
            let single = |at: usize| std::array::from_fn(|k| at * CHANNEL_BITS + k == place);
            compare_slots(&std::array::from_fn(single), mode);
        }
        let calls = 2 * (9000 + 3 * CHANNEL_BITS as u64);
        tally.part(&format!("{mode:?}"), calls);
    }
    tally.end();
}

/// Every length one short and one long, and others, in each place; then bytes that are no bits,
/// also where the mode does not read.
#[test]
fn refused() {
    let mut p = Prng(0xac4);
    let mut tally = Tally::new("ACELP refusals");
    let around = |right: usize| [0, 1, right - 1, right, right + 1, 2 * right];
    let mut calls = 0;
    for room in around(260) {
        for speech in around(148) {
            let (coded, decoded) = (
                encode(&vec![2; speech], room),
                decode(&vec![9; room], speech),
            );
            assert!(coded.refusal > 0 && decoded.refusal > 0);
            calls += 2;
        }
        for three in around(780) {
            for mode in MODES {
                let given = vec![2; three];
                assert_ne!(interleave(&given, mode, room).refusal, 0);
                assert_ne!(deinterleave(&given, mode, room).refusal, 0);
                calls += 2;
            }
        }
    }
    tally.part("lengths", calls);
    let mut calls = 0;
    for place in 0..3 * CHANNEL_BITS {
        for byte in [2, 3, 128, 255] {
            let mut three = bytes(&p.bits(780));
            three[place] = byte;
            for mode in MODES {
                assert_eq!(interleave(&three, mode, 260), SYMBOL);
                assert_eq!(deinterleave(&three, mode, 260), SYMBOL);
            }
            calls += 6;
            if place < CHANNEL_BITS {
                assert_eq!(decode(&three[..260], SPEECH), Frame::refused(2));
                calls += 1;
            }
            if place < SPEECH {
                assert_eq!(encode(&three[..148], 260), SYMBOL);
                calls += 1;
            }
        }
    }
    tally.part("a byte that is no bit", calls);
    tally.end();
}
