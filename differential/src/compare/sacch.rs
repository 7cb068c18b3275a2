//! SACCH windows decoded, beside an independent count of the nearest words.
use crate::calls::{array, refusal};
use crate::phy::dcch::{CrcMode, probe};
use crate::phy::sacch::{self, SacchError};
use crate::port::{Of, Refused};
use crate::port_sacch as port;
use crate::port_sacch::Word;
use crate::prng::Prng;
use crate::reference;

pub const CODED: usize = 132;
pub const WORD: usize = 66;
const INFORMATION: usize = 50;

#[track_caller]
pub fn decode(coded: &[u8], dvcc: u8) -> Word {
    let wanted = match refusal(&[(CODED, coded)], &[]) {
        Some(refusal) => Word {
            expected: refusal.expected,
            actual: refusal.actual,
            ..Word::refused(refusal.refusal)
        },
        None => rust(&array(coded), dvcc),
    };
    let answer = port::decode(coded, dvcc);
    assert_eq!(answer, wanted, "{dvcc} {coded:?}");
    answer
}

/// The Rust's answer, which is also compared with the count.
#[track_caller]
fn rust(coded: &[bool; CODED], dvcc: u8) -> Word {
    let rust = sacch::decode(coded, dvcc);
    let nearest = reference::free(coded);
    let ambiguous = rust == Err(SacchError::Ambiguous);
    assert_eq!(ambiguous, nearest.words > 1, "{dvcc} {coded:?}");
    if let Ok(word) = &rust {
        let corrected = u32::from(word.corrected_coded_bits);
        assert_eq!(corrected, nearest.metric, "{dvcc} {coded:?}");
    }
    Word::of(&rust)
}

fn checksum_bits(information: &[bool], dvcc: u8) -> Vec<bool> {
    let value = probe::checksum(information, dvcc, CrcMode::Addressed);
    (0..16).rev().map(|bit| value >> bit & 1 != 0).collect()
}

/// A word with its checksum, its second bit as given.
pub fn word(p: &mut Prng, reserved: bool, dvcc: u8) -> Vec<bool> {
    let mut word = p.bits(INFORMATION);
    word[1] = reserved;
    word.extend(checksum_bits(&word, dvcc));
    word
}
