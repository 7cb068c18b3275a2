//! SACCH's encoder, the port's and the Rust's, over lists of calls from any state: fields and the
//! whole state after each call.
use differential::air::{MESSAGES, any_encoder};
use differential::compare::sacch_encoder::{Calls, bits, list, refused_bits, refused_word, state};
use differential::compare::sacch_encoder::{bad_cursor, bad_memory, bad_row};
use differential::phy::sacch::SacchEncoder;
use differential::phy::sacch::probe::encoder;
use differential::port_sacch::Encoder;
use differential::prng::Prng;
use differential::tally::Tally;

#[test]
fn lists_of_calls() {
    let mut p = Prng(0x5ace);
    let mut tally = Tally::new("SACCH encoder");
    let mut calls = Calls::default();
    for number in 0..4000 {
        let mut rust = any_encoder(&mut p);
        if number % 4 == 0 {
            rust = SacchEncoder::default();
            assert_eq!(Encoder::fresh(), state(&rust));
        }
        list(&mut p, &mut calls, rust);
    }
    tally.part("encode_word", calls.words);
    tally.part("encode_bits", calls.sixes);
    tally.part("refused between them", calls.refusals);
    tally.part("reset", calls.resets);
    tally.end();
}

/// All six bits from all memories.
#[test]
fn every_six() {
    let mut tally = Tally::new("SACCH encode_bits, every memory");
    for memory in 0..32 {
        for six in 0..64 {
            let mut rust = encoder(memory, Default::default(), 0);
            let port = state(&rust);
            bits(six, &mut rust, port);
        }
    }
    tally.part("all 64 inputs", 32 * 64);
    tally.end();
}

/// The states that are refused with 8, each at its bound and one past, and every larger value.
#[test]
fn states() {
    let mut p = Prng(0x58);
    let mut tally = Tally::new("SACCH encoder, states");
    let mut bad: Vec<Encoder> = (32..=255)
        .map(|memory| bad_memory(&mut p, memory))
        .collect();
    bad.extend([12, 13, 255, 256, usize::MAX].map(|cursor| bad_cursor(&mut p, cursor)));
    for place in 0..12 {
        bad.extend([4096, 4097, 8191, u16::MAX].map(|row| bad_row(&mut p, place, row)));
    }
    for port in &bad {
        // State comes before Symbol.
        for six in [0, 63, 64, 255] {
            refused_bits(*port, six, 8);
        }
        for message in [0, MESSAGES - 1, MESSAGES, u64::MAX] {
            refused_word(&mut p, *port, message, 8);
        }
        assert_eq!(port.reset(), Encoder::fresh());
    }
    tally.part("refused with 8", 8 * bad.len() as u64);
    tally.part("reset all the same", bad.len() as u64);
    let mut good = state(&any_encoder(&mut p));
    (good.memory, good.cursor, good.rows) = (31, 11, [4095; 12]);
    assert_eq!(good.encode_bits(63).refusal, 0);
    assert_eq!(good.encode_word(true, MESSAGES - 1, 255).refusal, 0);
    tally.part("accepted at every bound", 2);
    tally.end();
}
