//! The port's soft decoder of DCCH, as port.rs and channel.rs have the others.
use crate::channel::Channel;
use crate::phy::dcch::BlockFormat;
use crate::port::Block;
use bindings::flat;

/// A positive reliability favours zero, a negative one favours one.
pub fn dcch_decode_soft(
    format: BlockFormat,
    block: &[f64],
    dvcc: u8,
    broadcast: bool,
    information: &mut [u8],
) -> Block {
    let call = match format {
        BlockFormat::Forward => flat::dcch_decode_soft_forward,
        BlockFormat::ReverseNormal => flat::dcch_decode_soft_reverse_normal,
        BlockFormat::ReverseAbbreviated => flat::dcch_decode_soft_reverse_abbreviated,
    };
    call(block, dvcc, broadcast, information)
}

impl Channel {
    pub fn decode_soft(self, block: &[f64], information: &mut [u8]) -> Block {
        dcch_decode_soft(self.format, block, self.dvcc, self.broadcast(), information)
    }
}
