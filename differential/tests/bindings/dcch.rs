//! DCCH blocks.
use crate::Answers;
use bindings::dcch as port;
use differential::blocks::{KINDS, Kind};
use differential::channel::{Channel, FORMATS};
use differential::compare::dcch::{mixture, not_finite, overflows_late, soft_channel};
use differential::phy::dcch as rust;
use differential::prng::Prng;
use differential::registers;
use differential::reliabilities::ALL_SIZES;
use differential::tally::Tally;

fn format(format: rust::BlockFormat) -> port::BlockFormat {
    match format {
        rust::BlockFormat::Forward => port::BlockFormat::Forward,
        rust::BlockFormat::ReverseNormal => port::BlockFormat::ReverseNormal,
        rust::BlockFormat::ReverseAbbreviated => port::BlockFormat::ReverseAbbreviated,
    }
}

fn mode(mode: rust::CrcMode) -> port::CrcMode {
    match mode {
        rust::CrcMode::Broadcast => port::CrcMode::Broadcast,
        rust::CrcMode::Addressed => port::CrcMode::Addressed,
    }
}

#[track_caller]
fn encode(answers: &mut Answers, c: Channel, information: &[bool]) {
    let port = port::encode(format(c.format), information, c.dvcc, mode(c.mode));
    let rust = rust::encode(c.format, information, c.dvcc, c.mode);
    answers.same(port, rust, (c, information));
}

#[track_caller]
fn decode(answers: &mut Answers, c: Channel, block: &[bool]) {
    let port = port::decode(format(c.format), block, c.dvcc, mode(c.mode));
    let rust = rust::decode(c.format, block, c.dvcc, c.mode);
    answers.same(port, rust, (c, block));
}

#[track_caller]
fn decode_soft(answers: &mut Answers, c: Channel, block: &[f64]) {
    let port = port::decode_soft(format(c.format), block, c.dvcc, mode(c.mode));
    let rust = rust::probe::decode_soft(c.format, block, c.dvcc, c.mode);
    answers.same(port, rust, (c, block));
}

#[test]
fn lengths_of_the_formats() {
    for one in FORMATS {
        assert_eq!(format(one).encoded_bits(), one.encoded_bits());
        assert_eq!(format(one).information_bits(), one.information_bits());
        assert_eq!(format!("{:?}", format(one)), format!("{one:?}"));
    }
}

#[test]
fn blocks() {
    let mut p = Prng(0xb1d0);
    let mut tally = Tally::new("crate, DCCH");
    for one in FORMATS {
        let mut coded = Answers::default();
        for kind in KINDS {
            let mut answers = Answers::default();
            for _ in 0..500 {
                let channel = Channel::draw(&mut p, one);
                encode(&mut coded, channel, &channel.information(&mut p));
                decode(&mut answers, channel, &channel.block(&mut p, kind));
            }
            let what = format!("{one:?}, {kind:?}, {}", answers.text());
            tally.part(&what, answers.calls());
        }
        tally.part(&format!("{one:?} coded, {}", coded.text()), coded.calls());
    }
    tally.end();
}

#[test]
fn reliabilities() {
    let mut p = Prng(0xb1d1);
    let mut tally = Tally::new("crate, DCCH soft");
    for one in FORMATS {
        let mut answers = Answers::default();
        for kind in KINDS {
            for sizes in ALL_SIZES {
                for _ in 0..10 {
                    let channel = soft_channel(&mut p, one);
                    let block = sizes.block(&mut p, channel, kind);
                    decode_soft(&mut answers, channel, &block);
                }
            }
            let channel = Channel::draw(&mut p, one);
            let block = mixture(&mut p, channel, kind);
            decode_soft(&mut answers, channel, &block);
            let block = overflows_late(&mut p, one);
            decode_soft(&mut answers, Channel::zero(one), &block);
        }
        for wrong in not_finite() {
            let mut block = vec![1.0; one.encoded_bits()];
            let place = p.below(block.len());
            block[place] = wrong;
            decode_soft(&mut answers, Channel::zero(one), &block);
        }
        tally.part(&format!("{one:?}, {}", answers.text()), answers.calls());
    }
    tally.end();
}

#[test]
fn wrong_lengths() {
    let mut p = Prng(0xb1d2);
    let mut tally = Tally::new("crate, DCCH lengths");
    let mut answers = Answers::default();
    for one in FORMATS {
        for len in 0..=300 {
            let channel = Channel::draw(&mut p, one);
            let bits = p.bits(len);
            encode(&mut answers, channel, &bits);
            decode(&mut answers, channel, &bits);
            decode_soft(&mut answers, channel, &vec![f64::NAN; len]);
        }
    }
    tally.part(&answers.text(), answers.calls());
    tally.end();
}

/// Document 01's corners: nothing but zeros.
#[test]
fn zeros() {
    let mut tally = Tally::new("crate, DCCH zeros");
    let mut answers = Answers::default();
    for one in FORMATS {
        let addressed = Channel::zero(one);
        let mode = rust::CrcMode::Broadcast;
        for channel in [addressed, Channel { mode, ..addressed }] {
            decode(&mut answers, channel, &vec![false; one.encoded_bits()]);
            for zero in [0.0, -0.0] {
                decode_soft(&mut answers, channel, &vec![zero; one.encoded_bits()]);
            }
        }
    }
    tally.part(&answers.text(), answers.calls());
    tally.end();
}

#[test]
fn checksums() {
    let mut p = Prng(0xb1d3);
    let mut tally = Tally::new("crate, checksum");
    for len in 0..600 {
        let c = Channel::draw(&mut p, FORMATS[0]);
        let bits = p.bits(len);
        let port = port::checksum(&bits, c.dvcc, mode(c.mode));
        assert_eq!(port, rust::probe::checksum(&bits, c.dvcc, c.mode));
    }
    tally.part("0 to 599 bits", 600);
    for len in 0..600 {
        let (register, bits) = (p.below(1 << 16) as u16, p.bits(len));
        let port = port::checksum_from(register, &bits);
        assert_eq!(port, registers::checksum_from(register, &bits));
    }
    tally.part("from a register", 600);
    tally.end();
}

/// Blocks that a caller hears under another colour code.
#[test]
fn other_codes() {
    let mut p = Prng(0xb1d4);
    let mut tally = Tally::new("crate, DCCH other codes");
    let mut answers = Answers::default();
    for _ in 0..1000 {
        let sent = Channel::draw(&mut p, FORMATS[0]);
        let block = sent.block(&mut p, Kind::Clean);
        let dvcc = sent.dvcc ^ (1 + p.below(255) as u8);
        decode(&mut answers, Channel { dvcc, ..sent }, &block);
    }
    assert_eq!(answers.0[3], answers.calls());
    tally.part(&answers.text(), answers.calls());
    tally.end();
}
