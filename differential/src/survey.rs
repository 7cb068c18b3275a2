//! The line program `frames` over the original: what the port's program must print for an input.
use crate::phy::facch;
use crate::phy::sacch::{ReceiveOutcome, SacchReceiver};
use crate::port_sacch::{number, refusal, unpacked};
use std::io::{Result, Write};

const LONGEST: usize = 136;
const MOST_LINES: usize = 1_000_000;

#[derive(Default)]
struct Totals {
    words: u64,
    corrected: u64,
    coded: u64,
    codes: Vec<u64>,
}

impl Totals {
    fn count(&mut self, dvcc: u8, corrected: u16, coded: u64) {
        self.codes.resize(256, 0);
        self.codes[usize::from(dvcc)] += 1;
        self.words += 1;
        self.corrected += u64::from(corrected);
        self.coded += coded;
    }
    fn write(&self, out: &mut impl Write) -> Result<()> {
        let rate = (self.corrected * 1000).checked_div(self.coded);
        writeln!(out, "T {} {}", self.words, rate.unwrap_or(0))?;
        for (dvcc, count) in self.codes.iter().enumerate().filter(|(_, n)| **n > 0) {
            writeln!(out, "C {dvcc:02x} {count}")?;
        }
        Ok(())
    }
}

/// Writes what the input is answered.
pub fn write_answers(input: &[u8], out: &mut impl Write) -> Result<()> {
    let mut lines: Vec<&[u8]> = input.split(|byte| *byte == b'\n').collect();
    if lines.last().is_some_and(|line| line.is_empty()) {
        lines.pop();
    }
    let mut receiver = SacchReceiver::default();
    let mut totals = Totals::default();
    for line in lines.iter().take(MOST_LINES) {
        if let Some(text) = answer(line, &mut receiver, &mut totals) {
            writeln!(out, "{text}")?;
        }
    }
    totals.write(out)
}

/// Nothing where the line is skipped. Length goes before blankness.
fn answer(line: &[u8], receiver: &mut SacchReceiver, totals: &mut Totals) -> Option<String> {
    if line.len() > LONGEST {
        return Some("R 7".into());
    }
    if line.iter().all(|byte| *byte == b' ') {
        return None;
    }
    let parts: Vec<&[u8]> = line.split(|byte| *byte == b' ').collect();
    let text = match parts[..] {
        [b"D"] => {
            receiver.discontinuity();
            Some("D".into())
        }
        [b"S", dvcc, field] => pushed(dvcc, field, receiver, totals),
        [b"F", dvcc, bits, mask] => word(dvcc, bits, mask, totals),
        _ => None,
    };
    Some(text.unwrap_or("R 7".into()))
}

/// That many lower-case hexadecimal digits.
fn digits(text: &[u8], count: usize) -> Option<Vec<u8>> {
    if text.len() != count {
        return None;
    }
    let digit = |byte: &u8| match byte {
        b'0'..=b'9' => Some(byte - b'0'),
        b'a'..=b'f' => Some(byte - b'a' + 10),
        _ => None,
    };
    text.iter().map(digit).collect()
}

fn value(text: &[u8], count: usize) -> Option<u64> {
    let digits = digits(text, count)?;
    Some(
        digits
            .iter()
            .fold(0, |sum, digit| sum * 16 + u64::from(*digit)),
    )
}

fn pushed(
    dvcc: &[u8],
    field: &[u8],
    receiver: &mut SacchReceiver,
    totals: &mut Totals,
) -> Option<String> {
    let (dvcc, field) = (value(dvcc, 2)? as u8, value(field, 3)?);
    Some(match receiver.push_outcome(unpacked(field), dvcc) {
        ReceiveOutcome::Pending => "P".into(),
        ReceiveOutcome::Rejected(error) => format!("R {:x}", refusal(error)),
        ReceiveOutcome::Word(word) => {
            totals.count(dvcc, word.corrected_coded_bits, 132);
            format!(
                "W {} {:012x} {:02x} {:02x}",
                u8::from(word.continuation),
                number(&word.message),
                word.corrected_coded_bits,
                word.final_encoder_state
            )
        }
    })
}

fn word(dvcc: &[u8], bits: &[u8], mask: &[u8], totals: &mut Totals) -> Option<String> {
    let dvcc = value(dvcc, 2)? as u8;
    let (bits, mask) = (digits(bits, 65)?, digits(mask, 65)?);
    let bit = |digits: &[u8], place: usize| digits[place / 4] >> (3 - place % 4) & 1 != 0;
    let received = std::array::from_fn(|place| bit(&mask, place).then(|| bit(&bits, place)));
    Some(match facch::decode_erased(&received, dvcc) {
        Ok(word) => {
            totals.count(dvcc, word.corrected_coded_bits, 260);
            format!(
                "G {} {:012x} {:03x} {:03x}",
                u8::from(word.continuation),
                number(&word.message),
                word.corrected_coded_bits,
                word.observed_coded_bits
            )
        }
        Err(facch::FacchError::InsufficientObservations) => "R 4".into(),
        Err(facch::FacchError::Ambiguous) => "R 5".into(),
        Err(facch::FacchError::Crc) => "R 3".into(),
    })
}
