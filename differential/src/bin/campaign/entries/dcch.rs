//! DCCH's calls, in all formats, modes and colour codes.
use super::spoil::{SHARE, length, spoil};
use crate::counts::Compared;
use differential::blocks::{Kind, bytes, flip};
use differential::channel::{Channel, FORMATS};
use differential::compare::dcch::{self, burst, mixture, other, overflows_late};
use differential::compare::dcch::{not_finite, soft_channel};
use differential::phy::dcch::BlockFormat;
use differential::prng::Prng;
use differential::reliabilities::{ALL_SIZES, Sizes};

fn format(p: &mut Prng) -> BlockFormat {
    FORMATS[p.below(FORMATS.len())]
}

pub fn encode(p: &mut Prng) -> Compared {
    let format = format(p);
    let channel = Channel::draw(p, format);
    let mut information = bytes(&channel.information(p));
    if p.below(16) == 0 {
        information.fill(p.bit().into());
    }
    let mut room = [format.encoded_bits()];
    spoil(p, &mut [&mut information], &mut room);
    Compared::one(dcch::encode(channel, &information, room[0]).refusal)
}

/// A block with 0 to 60 wrong bits, of any kind, or with a burst on the wire.
fn block(p: &mut Prng, channel: Channel) -> Vec<bool> {
    let mut block = channel.block(p, Kind::Clean);
    match p.below(4) {
        0 => {
            let flips = p.below(61);
            flip(p, &mut block, flips);
        }
        1 => {
            let run = 1 + p.below(80);
            burst(p, &mut block, run);
        }
        _ => {
            let kind = Kind::any(p);
            block = channel.block(p, kind);
        }
    }
    block
}

/// The channel itself, or one in eight under another colour code or in the other mode.
fn heard(p: &mut Prng, channel: Channel) -> Channel {
    match p.below(16) {
        0 => Channel {
            dvcc: p.byte(),
            ..channel
        },
        1 => Channel {
            mode: other(channel.mode),
            ..channel
        },
        _ => channel,
    }
}

pub fn decode(p: &mut Prng) -> Compared {
    let format = format(p);
    let channel = Channel::draw(p, format);
    let mut block = bytes(&block(p, channel));
    let channel = heard(p, channel);
    let mut room = [format.information_bits()];
    spoil(p, &mut [&mut block], &mut room);
    Compared::one(dcch::decode(channel, &block, room[0]).refusal)
}

/// A channel and reliabilities: of one size or of several, that overflow late, or zeros of both
/// signs.
fn reliabilities(p: &mut Prng) -> (Channel, Vec<f64>) {
    let format = format(p);
    let channel = soft_channel(p, format);
    let (sizes, kind) = (ALL_SIZES[p.below(ALL_SIZES.len())], Kind::any(p));
    match p.below(16) {
        0 => (Channel::zero(format), overflows_late(p, format)),
        1..4 => (channel, mixture(p, channel, kind)),
        4 => {
            let zeros = (0..format.encoded_bits()).map(|_| if p.bit() { -0.0 } else { 0.0 });
            (channel, zeros.collect())
        }
        5 => {
            let bits = block(p, channel);
            (channel, Sizes::Equal.draw(p, &bits))
        }
        _ => (channel, sizes.block(p, channel, kind)),
    }
}

/// Spoils one call in `SHARE`: a length, or a number that is not finite.
fn spoil_soft(p: &mut Prng, block: &mut Vec<f64>, room: &mut usize) {
    if p.below(SHARE) != 0 {
        return;
    }
    for _ in 0..1 + p.below(2) {
        match p.below(4) {
            0 => *room = length(p, *room),
            1 => block.resize(length(p, block.len()), 1.0),
            _ if block.is_empty() => {}
            _ => {
                let place = p.below(block.len());
                block[place] = not_finite()[p.below(8)];
            }
        }
    }
}

pub fn decode_soft(p: &mut Prng) -> Compared {
    let (channel, mut block) = reliabilities(p);
    let channel = heard(p, channel);
    let mut room = channel.format.information_bits();
    spoil_soft(p, &mut block, &mut room);
    Compared::one(dcch::decode_soft(channel, &block, room).refusal)
}
