//! What the soft decoder of DCCH refuses before any search: lengths in the order of the arguments,
//! then a number that is not finite; and that it then writes nothing.
use differential::blocks::Kind;
use differential::channel::{Channel, FORMATS};
use differential::compare::dcch::{decode_soft, not_finite};
use differential::phy::dcch::BlockFormat;
use differential::prng::Prng;
use differential::reliabilities::{ALL_SIZES, Sizes};
use differential::tally::Tally;
use differential::verdict::{CRC, length};

fn refuse_one(channel: Channel, mut block: Vec<f64>, place: usize, wrong: f64) {
    block[place] = wrong;
    let room = channel.format.information_bits();
    assert_eq!(decode_soft(channel, &block, room), CRC);
}

/// One at each place of a block that is right but for it, and of any other.
#[test]
fn one_not_finite() {
    let mut p = Prng(0x50fb);
    let mut tally = Tally::new("DCCH soft decode, one not finite");
    for format in FORMATS {
        let mut calls = 0;
        for place in 0..format.encoded_bits() {
            for wrong in not_finite() {
                let channel = Channel::draw(&mut p, format);
                let right = Sizes::Uniform.block(&mut p, channel, Kind::Clean);
                refuse_one(channel, right, place, wrong);
                let sizes = ALL_SIZES[p.below(ALL_SIZES.len())];
                let kind = Kind::any(&mut p);
                let other = sizes.block(&mut p, channel, kind);
                refuse_one(channel, other, place, wrong);
                calls += 2;
            }
        }
        tally.part(&format!("{format:?}"), calls);
    }
    tally.end();
}

/// Numbers, and none: the length is refused either way. Returns the calls.
fn refuse_lengths(p: &mut Prng, format: BlockFormat, block: usize, information: usize) -> u64 {
    let wanted = if block != format.encoded_bits() {
        length(format.encoded_bits(), block)
    } else if information != format.information_bits() {
        length(format.information_bits(), information)
    } else {
        return 0;
    };
    let channel = Channel::draw(p, format);
    for value in [0.0, f64::NAN] {
        let block = vec![value; block];
        assert_eq!(decode_soft(channel, &block, information), wanted);
    }
    2
}

#[test]
fn lengths() {
    let mut p = Prng(0x50fc);
    let mut tally = Tally::new("DCCH soft decode, lengths");
    for format in FORMATS {
        let (coded, bits) = (format.encoded_bits(), format.information_bits());
        let mut calls = 0;
        for block in 0..=coded + 20 {
            for information in 0..=bits + 20 {
                calls += refuse_lengths(&mut p, format, block, information);
            }
        }
        // A narrower number would take these for right.
        for more in [1 << 8, 1 << 15, 1 << 16] {
            calls += refuse_lengths(&mut p, format, coded + more, bits);
            calls += refuse_lengths(&mut p, format, coded, bits + more);
        }
        tally.part(&format!("{format:?}"), calls);
    }
    tally.end();
}
