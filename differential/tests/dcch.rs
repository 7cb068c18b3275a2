//! DCCH blocks coded and decoded by the port and by the Rust, in every format and mode.
use differential::blocks::{KINDS, Kind, bytes, flip};
use differential::channel::{Channel, FORMATS, MODES};
use differential::compare::dcch::{self, burst, other};
use differential::phy::dcch::{BlockFormat, CrcMode};
use differential::prng::Prng;
use differential::tally::Tally;
use differential::verdict::{Answers, CRC, accept, refuse};

fn encode(channel: Channel, information: &[bool]) {
    let room = channel.format.encoded_bits();
    dcch::encode(channel, &bytes(information), room);
}

/// Each colour code in both modes.
fn channels(format: BlockFormat) -> impl Iterator<Item = Channel> {
    let channel = move |dvcc, mode| Channel { format, dvcc, mode };
    (0..=u8::MAX).flat_map(move |dvcc| MODES.map(|mode| channel(dvcc, mode)))
}

/// Runs of zeros and of ones, and a single one at each place; returns the calls.
fn encode_plain(channel: Channel) -> u64 {
    let len = channel.format.information_bits();
    encode(channel, &vec![false; len]);
    encode(channel, &vec![true; len]);
    for place in 0..len {
        let mut information = vec![false; len];
        information[place] = true;
        encode(channel, &information);
    }
    len as u64 + 2
}

#[test]
fn encoded() {
    let mut p = Prng(0xe136);
    let mut tally = Tally::new("DCCH encode");
    for format in FORMATS {
        let mut calls = 0;
        for channel in channels(format).flat_map(|channel| [channel; 40]) {
            encode(channel, &channel.information(&mut p));
            calls += 1;
        }
        tally.part(&format!("{format:?}, all DVCC, both modes"), calls);
        let plain = channels(format).step_by(15).map(encode_plain).sum();
        tally.part(&format!("{format:?}, zeros, ones, a single one"), plain);
    }
    tally.end();
}

fn decode(answers: &mut Answers, channel: Channel, block: &[bool]) {
    let room = channel.format.information_bits();
    answers.count(dcch::decode(channel, &bytes(block), room));
}

#[test]
fn wrong_bits() {
    let mut p = Prng(0xd136);
    let mut tally = Tally::new("DCCH decode, wrong bits");
    for format in FORMATS {
        for band in [0..=3, 4..=12, 13..=24, 25..=40] {
            let mut answers = Answers::default();
            for flips in band.clone().flat_map(|flips| [flips; 400]) {
                let channel = Channel::draw(&mut p, format);
                let mut block = channel.block(&mut p, Kind::Clean);
                flip(&mut p, &mut block, flips);
                decode(&mut answers, channel, &block);
            }
            // Any two words differ in eight places or more.
            assert_eq!(answers.crc == 0, band == (0..=3));
            let what = format!("{format:?}, {band:?} flips, {}", answers.text());
            tally.part(&what, answers.calls());
        }
    }
    tally.end();
}

#[test]
fn every_kind() {
    let mut p = Prng(0xd6);
    let mut tally = Tally::new("DCCH decode, every kind");
    for format in FORMATS {
        for kind in KINDS {
            let mut answers = Answers::default();
            for _ in 0..3200 {
                let channel = Channel::draw(&mut p, format);
                let block = channel.block(&mut p, kind);
                decode(&mut answers, channel, &block);
            }
            match kind {
                Kind::Clean => assert_eq!(answers.crc, 0),
                Kind::Noise | Kind::Far => assert!(answers.crc > 2000),
                _ => assert!(answers.words > 500 && answers.crc > 0),
            }
            let what = format!("{format:?}, {kind:?}, {}", answers.text());
            tally.part(&what, answers.calls());
        }
    }
    tally.end();
}

/// A run of the wire that says nothing; the interleaver takes it apart.
#[test]
fn bursts_on_the_wire() {
    let mut p = Prng(0xdb);
    let mut tally = Tally::new("DCCH decode, bursts on the wire");
    for format in FORMATS {
        let mut answers = Answers::default();
        for _ in 0..3000 {
            let channel = Channel::draw(&mut p, format);
            let mut block = channel.block(&mut p, Kind::Clean);
            let run = 1 + p.below(60);
            burst(&mut p, &mut block, run);
            decode(&mut answers, channel, &block);
        }
        assert!(answers.words > 500 && answers.crc > 0);
        let what = format!("{format:?}, {}", answers.text());
        tally.part(&what, answers.calls());
    }
    tally.end();
}

/// Blocks heard where they were sent, under another colour code, and in the other mode.
#[test]
fn other_channels() {
    let mut p = Prng(0xdc);
    let mut tally = Tally::new("DCCH decode, other channels");
    for format in FORMATS {
        let [mut same, mut colour, mut wrong_mode] = [(); 3].map(|()| Answers::default());
        for channel in channels(format) {
            let mut block = channel.block(&mut p, Kind::Clean);
            let flips = p.below(4);
            flip(&mut p, &mut block, flips);
            decode(&mut same, channel, &block);
            for _ in 0..8 {
                let dvcc = channel.dvcc ^ (1 + p.below(255) as u8);
                decode(&mut colour, Channel { dvcc, ..channel }, &block);
            }
            let mode = other(channel.mode);
            decode(&mut wrong_mode, Channel { mode, ..channel }, &block);
        }
        assert_eq!((same.crc, colour.words, wrong_mode.words), (0, 0, 0));
        tally.part(&format!("{format:?}, the same"), same.calls());
        tally.part(&format!("{format:?}, another DVCC"), colour.calls());
        tally.part(&format!("{format:?}, the other mode"), wrong_mode.calls());
    }
    tally.end();
}

/// Document 01's corners, with its numbers.
#[test]
fn zeros() {
    let mut tally = Tally::new("DCCH, blocks of zeros");
    for (format, coded, information) in [
        (BlockFormat::Forward, 260, 109),
        (BlockFormat::ReverseNormal, 244, 101),
        (BlockFormat::ReverseAbbreviated, 200, 79),
    ] {
        let (block, zeros) = (vec![false; coded], vec![false; information]);
        let addressed = Channel::zero(format);
        accept(format, &block, 0, |lent| {
            addressed.encode(&bytes(&zeros), lent)
        });
        accept(format, &zeros, 0, |lent| {
            addressed.decode(&bytes(&block), lent)
        });
        let mode = CrcMode::Broadcast;
        let broadcast = Channel { mode, ..addressed };
        refuse(format, information, CRC, |lent| {
            broadcast.decode(&bytes(&block), lent)
        });
        let mut answers = Answers::default();
        decode(&mut answers, addressed, &block);
        decode(&mut answers, broadcast, &block);
    }
    tally.part("coded and decoded, both modes", 15);
    tally.end();
}
