//! DCCH blocks: format, DVCC, broadcast or not, then the bits or reliabilities, and the room.
use crate::corners::{Call, call};
use crate::section;
use differential::blocks::{KINDS, Kind, text};
use differential::channel::{Channel, FORMATS, MODES};
use differential::phy::dcch::BlockFormat;
use differential::prng::Prng;

/// The reliabilities are eight sizes, each with either sign. Sizes that a block draws from.
const DRAWN: [&[usize]; 7] = [
    &[1],
    &[0, 1, 1, 1],
    &[1, 2, 4, 5],
    &[0, 3],
    &[4, 4, 1, 3],
    &[6, 7],
    &[0, 1, 2, 3, 4, 5, 6, 7],
];

pub fn calls(p: &mut Prng) {
    for format in FORMATS {
        let (coded, information) = (format.encoded_bits(), format.information_bits());
        let zero = head("encode", Channel::zero(format));
        section(&format!("DCCH encode, {format:?}"));
        call(&zero, &[information], &[coded]).corners();
        encoded(p, format);
        section(&format!("DCCH decode, {format:?}"));
        call(
            &head("decode", Channel::zero(format)),
            &[coded],
            &[information],
        )
        .corners();
        decoded(p, format);
        section(&format!("DCCH decode_soft, {format:?}"));
        soft(
            &head("decode_soft", Channel::zero(format)),
            coded,
            information,
        );
        decoded_soft(p, format);
    }
    section("DCCH, broadcast, and reliabilities that are zeros, huge or not finite");
    forward();
}

fn head(call: &str, channel: Channel) -> String {
    let Channel { format, dvcc, .. } = channel;
    let number = match format {
        BlockFormat::Forward => 0,
        BlockFormat::ReverseNormal => 1,
        BlockFormat::ReverseAbbreviated => 2,
    };
    let broadcast = u8::from(channel.broadcast());
    format!("dcch {call} {number} {dvcc:x} {broadcast}")
}

fn encoded(p: &mut Prng, format: BlockFormat) {
    for mode in MODES {
        let dvcc = p.byte();
        let channel = Channel { format, dvcc, mode };
        let information = text(&channel.information(p));
        println!(
            "{} :{information} _{}",
            head("encode", channel),
            format.encoded_bits()
        );
    }
}

fn decode(channel: Channel, block: &[bool]) {
    let room = channel.format.information_bits();
    println!("{} :{} _{room}", head("decode", channel), text(block));
}

/// Blocks of each kind, and one that was sent under another colour code.
fn decoded(p: &mut Prng, format: BlockFormat) {
    for kind in KINDS {
        let channel = Channel::draw(p, format);
        decode(channel, &channel.block(p, kind));
    }
    let channel = Channel::draw(p, format);
    let other = Channel {
        dvcc: channel.dvcc ^ 1,
        ..channel
    };
    decode(other, &channel.block(p, Kind::Clean));
}

/// Ones for zeros and minus ones for ones; a wrong bit, a NaN and an infinity at each place.
fn soft(name: &str, coded: usize, information: usize) {
    Call {
        bits: ["2", "3"],
        wrong: "#10",
        swept: &["3", "10", "12"],
        ..call(name, &[coded], &[information])
    }
    .corners();
}

/// A digit for each bit: twice the place of its size, and one more for a one.
fn decoded_soft(p: &mut Prng, format: BlockFormat) {
    for drawn in DRAWN {
        let channel = Channel::draw(p, format);
        let kind = [Kind::Clean, Kind::Burst][p.below(2)];
        let digit = |bit: &bool, p: &mut Prng| 2 * drawn[p.below(drawn.len())] + usize::from(*bit);
        let bits = channel.block(p, kind);
        let digits: String = bits
            .iter()
            .map(|bit| format!("{:x}", digit(bit, p)))
            .collect();
        let room = format.information_bits();
        println!("{} :{digits} _{room}", head("decode_soft", channel));
    }
}

fn forward() {
    println!("dcch encode 0 0 1 :109x0 _260");
    println!("dcch decode 0 0 1 :260x0 _109");
    for values in [
        "260x0",
        "260x1",
        "260xd",
        "260xdc",
        "259x0,#11",
        "259x0,#12",
        "259x0,#10",
    ] {
        for broadcast in [1, 0] {
            println!("dcch decode_soft 0 0 {broadcast} :{values} _109");
        }
    }
}
