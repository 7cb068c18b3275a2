//! The soft decoder of DCCH: against the Rust on reliabilities of every size, and against the word
//! of least cost where they are whole numbers.
use differential::blocks::{KINDS, code};
use differential::channel::{Channel, FORMATS};
use differential::compare::dcch::{decode_soft, mixture, overflows_late, soft_channel};
use differential::phy::dcch::{BlockFormat, CrcMode, DecodedBlock, probe};
use differential::prng::Prng;
use differential::reference::words;
use differential::reference_soft::{cost, least};
use differential::reliabilities::{ALL_SIZES, Sizes};
use differential::tally::Tally;
use differential::verdict::{Answers, CRC, accept, refuse};

fn decode(answers: &mut Answers, channel: Channel, block: &[f64]) {
    let room = channel.format.information_bits();
    answers.count(decode_soft(channel, block, room));
}

#[test]
fn every_size() {
    let mut p = Prng(0x50f7);
    let mut tally = Tally::new("DCCH soft decode");
    for sizes in ALL_SIZES {
        for format in FORMATS {
            let mut answers = Answers::default();
            for kind in KINDS.into_iter().flat_map(|kind| [kind; 400]) {
                let channel = soft_channel(&mut p, format);
                let block = sizes.block(&mut p, channel, kind);
                decode(&mut answers, channel, &block);
            }
            assert!(answers.words > 300 && answers.crc > 300);
            let what = format!("{sizes:?}, {format:?}, {}", answers.text());
            tally.part(&what, answers.calls());
        }
    }
    tally.end();
}

/// Every place has a size of its own.
#[test]
fn mixtures() {
    let mut p = Prng(0x50f8);
    let mut tally = Tally::new("DCCH soft decode, mixtures");
    for format in FORMATS {
        let mut answers = Answers::default();
        for kind in KINDS.into_iter().flat_map(|kind| [kind; 700]) {
            let channel = soft_channel(&mut p, format);
            let block = mixture(&mut p, channel, kind);
            decode(&mut answers, channel, &block);
        }
        assert!(answers.words > 200 && answers.crc > 200);
        let what = format!("{format:?}, {}", answers.text());
        tally.part(&what, answers.calls());
    }
    tally.end();
}

/// The sums overflow only after the word's last one: what was found before stands.
#[test]
fn late_overflow() {
    let mut p = Prng(0x50f9);
    let mut tally = Tally::new("DCCH soft decode, late overflow");
    for format in FORMATS {
        let mut answers = Answers::default();
        let mut overflows = 0;
        for _ in 0..3000 {
            let channel = Channel::zero(format);
            let block = overflows_late(&mut p, format);
            decode(&mut answers, channel, &block);
            let found = probe::decode_soft(format, &block, channel.dvcc, channel.mode);
            // Two wrong bits of these sizes already cost more than the largest number.
            let beyond = |block: &DecodedBlock| block.corrected_coded_bits > 1;
            let ones = |block: &DecodedBlock| block.information.contains(&true);
            overflows += u64::from(found.is_ok_and(|block| beyond(&block) && ones(&block)));
        }
        assert!(overflows > 500);
        let what = format!("{format:?}, {overflows} overflows, {}", answers.text());
        tally.part(&what, answers.calls());
    }
    tally.end();
}

fn total(sent: &[bool], received: &[i64]) -> u64 {
    let pairs = sent.iter().zip(received);
    pairs.map(|(bit, value)| cost(*bit, *value)).sum()
}

/// Compares one call with the word of least cost alone; returns whether it was accepted.
fn weigh(channel: Channel, block: &[f64]) -> bool {
    let received: Vec<i64> = block.iter().map(|value| *value as i64).collect();
    let mut coded = vec![0; received.len()];
    for (cell, value) in probe::permutation(channel.format).iter().zip(&received) {
        coded[*cell] = *value;
    }
    let (word, sum) = least(&coded);
    let sent = code(0, &word);
    assert_eq!(total(&sent, &coded), sum);
    let corrected = (sent.iter().zip(&coded))
        .filter(|(bit, value)| **bit != (**value < 0))
        .count();
    let information = &word[..channel.format.information_bits()];
    let input = (channel, block);
    let port = |lent: &mut [u8]| channel.decode_soft(block, lent);
    let right = word == channel.word(information);
    if right {
        accept(input, information, corrected as u16, port);
    } else {
        refuse(input, information.len(), CRC, port);
    }
    right
}

/// Weighs every word, where they are few.
fn least_of_all(coded: &[i64]) -> (Vec<bool>, u64) {
    let steps = coded.len() / 2;
    let weighed = words(steps - 5).map(|mut word| {
        word.resize(steps, false);
        let backwards: Vec<bool> = word.iter().rev().copied().collect();
        (total(&code(0, &word), coded), backwards, word)
    });
    let (sum, _, word) = weighed.min().unwrap();
    (word, sum)
}

#[test]
fn least_of_short_blocks() {
    let mut p = Prng(0x50fd);
    for steps in 5..=13 {
        for _ in 0..100 {
            let coded: Vec<i64> = (0..2 * steps).map(|_| p.below(7) as i64 - 3).collect();
            assert_eq!(least(&coded), least_of_all(&coded), "{coded:?}");
        }
    }
}

#[test]
fn least_cost() {
    let mut p = Prng(0x50fa);
    let mut tally = Tally::new("DCCH soft decode, least cost");
    for sizes in [Sizes::Small, Sizes::Whole, Sizes::Erased] {
        for format in FORMATS {
            let mut words = 0;
            for kind in KINDS.into_iter().flat_map(|kind| [kind; 150]) {
                let channel = Channel::draw(&mut p, format);
                let block = sizes.block(&mut p, channel, kind);
                words += u64::from(weigh(channel, &block));
            }
            assert!(words > 200);
            tally.part(&format!("{sizes:?}, {format:?}, {words} words"), 900);
        }
    }
    tally.end();
}

/// Document 01's corners, with its numbers.
#[test]
fn corners() {
    let mut tally = Tally::new("DCCH soft decode, corners");
    for (format, coded, information, negative) in [
        (BlockFormat::Forward, 260, 109, 260),
        (BlockFormat::ReverseNormal, 244, 101, 244),
        (BlockFormat::ReverseAbbreviated, 200, 79, 200),
    ] {
        let addressed = Channel::zero(format);
        let broadcast = Channel {
            mode: CrcMode::Broadcast,
            ..addressed
        };
        let zeros = vec![false; information];
        let mut answers = Answers::default();
        // The values in turn, and what is corrected.
        for (values, corrected) in [
            ([0.0, 0.0], 0),
            ([-0.0, -0.0], 0),
            ([0.0, -0.0], 0),
            ([-1e308, -1e308], negative),
            ([1e308, -1e308], negative / 2),
            ([-1e308, 1e308], negative / 2),
        ] {
            let block: Vec<f64> = (0..coded).map(|place| values[place % 2]).collect();
            let input = (format, values);
            accept(input, &zeros, corrected, |lent| {
                addressed.decode_soft(&block, lent)
            });
            refuse(input, information, CRC, |lent| {
                broadcast.decode_soft(&block, lent)
            });
            decode(&mut answers, addressed, &block);
            decode(&mut answers, broadcast, &block);
        }
        let calls = 2 * answers.calls();
        tally.part(&format!("{format:?}, zeros, overflow"), calls);
    }
    tally.end();
}
