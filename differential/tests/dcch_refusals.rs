//! What DCCH's calls refuse: lengths in the order of the arguments, then bytes that are no bit; and
//! that they then write nothing.
use differential::blocks::{Kind, bytes};
use differential::channel::{Channel, FORMATS};
use differential::compare::dcch;
use differential::phy::dcch::BlockFormat;
use differential::port::Block;
use differential::prng::Prng;
use differential::tally::Tally;
use differential::verdict::{SYMBOL, length};

#[derive(Clone, Copy, Debug, PartialEq, Eq)]
enum Call {
    Encode,
    Decode,
}

impl Call {
    /// The right lengths of input and output.
    fn lengths(self, format: BlockFormat) -> (usize, usize) {
        let (coded, information) = (format.encoded_bits(), format.information_bits());
        match self {
            Call::Encode => (information, coded),
            Call::Decode => (coded, information),
        }
    }
    fn compare(self, channel: Channel, input: &[u8], output: usize) -> Block {
        match self {
            Call::Encode => dcch::encode(channel, input, output),
            Call::Decode => dcch::decode(channel, input, output),
        }
    }
    /// Bits, no bits at all, and one that is none at the end: the length is refused every time.
    /// Returns the calls.
    fn refuse_lengths(self, channel: Channel, input: usize, output: usize) -> u64 {
        let (right_input, right_output) = self.lengths(channel.format);
        let wanted = if input != right_input {
            length(right_input, input)
        } else if output != right_output {
            length(right_output, output)
        } else {
            return 0;
        };
        let mut last_wrong = vec![0; input];
        if let Some(last) = last_wrong.last_mut() {
            *last = 2;
        }
        for bytes in [vec![0; input], vec![255; input], last_wrong] {
            assert_eq!(self.compare(channel, &bytes, output), wanted);
        }
        3
    }
    fn refuse_all_lengths(self, p: &mut Prng, tally: &mut Tally, format: BlockFormat) {
        let (right_input, right_output) = self.lengths(format);
        let mut calls = 0;
        for input in 0..=right_input + 20 {
            for output in 0..=right_output + 20 {
                calls += self.refuse_lengths(Channel::draw(p, format), input, output);
            }
        }
        tally.part(&format!("{self:?} {format:?}, lengths"), calls);
        let mut calls = 0;
        // A narrower number would take these for right.
        for more in [1 << 8, 1 << 15, 1 << 16] {
            let channel = Channel::draw(p, format);
            calls += self.refuse_lengths(channel, right_input + more, right_output);
            calls += self.refuse_lengths(channel, right_input, right_output + more);
            calls += self.refuse_lengths(channel, right_input + more, right_output + more);
        }
        tally.part(&format!("{self:?} {format:?}, long lengths"), calls);
        let mut calls = 0;
        for input in (0..right_input + 300).filter(|input| *input != right_input) {
            let channel = Channel::draw(p, format);
            let answer = self.compare(channel, &vec![0; input], right_output);
            assert_eq!(answer.refusal, 1);
            calls += 1;
        }
        tally.part(&format!("{self:?} {format:?}, as the Rust refuses"), calls);
    }
    /// Each wrong byte at each place, in blocks whose checksum may be wrong too; returns the calls.
    fn refuse_bytes(self, p: &mut Prng, format: BlockFormat) -> u64 {
        let (right_input, right_output) = self.lengths(format);
        for place in 0..right_input {
            for wrong in 2..=u8::MAX {
                let channel = Channel::draw(p, format);
                let mut input = self.input(p, channel);
                input[place] = wrong;
                assert_eq!(self.compare(channel, &input, right_output), SYMBOL);
            }
        }
        for wrong in 2..=u8::MAX {
            let channel = Channel::draw(p, format);
            let input = vec![wrong; right_input];
            assert_eq!(self.compare(channel, &input, right_output), SYMBOL);
        }
        254 * (right_input as u64 + 1)
    }
    fn input(self, p: &mut Prng, channel: Channel) -> Vec<u8> {
        let kind = Kind::any(p);
        match self {
            Call::Encode => bytes(&channel.information(p)),
            Call::Decode => bytes(&channel.block(p, kind)),
        }
    }
}

fn refuse_all(subject: &'static str, call: Call) {
    let mut p = Prng(0xdef);
    let mut tally = Tally::new(subject);
    for format in FORMATS {
        call.refuse_all_lengths(&mut p, &mut tally, format);
        let calls = call.refuse_bytes(&mut p, format);
        tally.part(&format!("{call:?} {format:?}, wrong bytes"), calls);
    }
    tally.end();
}

#[test]
fn encode() {
    refuse_all("DCCH encode, refusals", Call::Encode);
}

#[test]
fn decode() {
    refuse_all("DCCH decode, refusals", Call::Decode);
}
