//! What the original does where document 01 says otherwise: each entry of
//! docs/DIFFERENCES.md that the Rust can show, with its input.
use differential::codec::mr74::Parameters;
use differential::phy::dcch::{BlockFormat, CrcMode, probe};
use differential::phy::speech::{self, CrcStatus, SpeechError};
use differential::prng::Prng;

/// A VSELP frame, four bits a digit, the first sent highest.
const FAILED_FRAME: &str = "ee8a35f40cb510c26e2c6e7baefeb09b9e62f020ff8541e98eb294366d3d31a6b";

fn bits(digits: &str) -> Vec<bool> {
    let number = |c: char| c.to_digit(16).expect("a hexadecimal digit");
    digits
        .chars()
        .flat_map(|c| (0..4).rev().map(move |i| number(c) >> i & 1 == 1))
        .collect()
}

#[test]
fn the_speech_wrapper_gives_crc() {
    let frame: [bool; 260] = bits(FAILED_FRAME).try_into().expect("260 bits");
    let candidate = speech::decode_candidate(&frame).expect("a nearest word");
    assert_eq!(candidate.crc, CrcStatus::Failed);
    assert_eq!(candidate.frame.corrected_coded_bits, 2);
    assert_eq!(speech::decode(&frame), Err(SpeechError::Crc));
}

#[test]
fn the_widths_of_the_parameters_are_in_the_text() {
    let mut p = Prng(0x148);
    for _ in 0..10_000 {
        let frame: [bool; 148] = p.array();
        assert_eq!(Parameters::from_codec_bits(&frame).codec_bits(), frame);
    }
}

/// Every sum of the last step overflows; the walk back goes through unstored zeros alone.
#[test]
fn an_unstored_predecessor_gives_zeros() {
    for (format, ones) in [
        (BlockFormat::Forward, 260),
        (BlockFormat::ReverseNormal, 244),
        (BlockFormat::ReverseAbbreviated, 200),
    ] {
        let received = vec![-1e308; format.encoded_bits()];
        let block = probe::decode_soft(format, &received, 0, CrcMode::Addressed).expect("accepted");
        assert!(block.information.iter().all(|bit| !bit));
        assert_eq!(block.corrected_coded_bits, ones);
    }
}
