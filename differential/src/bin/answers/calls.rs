//! The calls over slices: their exact lengths by document 01, and the original's answers.
use crate::arguments::Line;
use crate::told::Told;
use differential::codec::mr74::Parameters;
use differential::phy::acelp_cc1::{self, Interleaving};
use differential::phy::dcch::{self, BlockError, BlockFormat, CrcMode, DecodedBlock};
use differential::phy::facch::{self, FacchError, FacchWord, WordHalf};
use differential::phy::sacch::{self, SacchError, SacchWord};
use differential::phy::speech::{self, CrcStatus, SpeechBits, SpeechError};
use differential::port_sacch::{number, refusal, unpacked};
use differential::registers;

const MESSAGES: u64 = 1 << 48;

/// The reliability that a byte stands for; a NaN where there is none.
const RELIABILITIES: [f64; 19] = [
    0.0,
    -0.0,
    1.0,
    -1.0,
    2.5,
    -2.5,
    1e-310,
    -1e-310,
    0.1,
    -0.1,
    3.0,
    -3.0,
    1e308,
    -1e308,
    1.7e308,
    -1.7e308,
    f64::NAN,
    f64::INFINITY,
    f64::NEG_INFINITY,
];

/// An answer's text with the bytes written to each slice, or the number of a refusal.
type Answer = Result<(String, Vec<Vec<u8>>), u8>;

pub fn told(line: &Line) -> Told {
    match line.name[0] {
        "step" => step(line),
        "coding" => coding(line),
        "dcch" => block(line),
        "facch" => facch(line),
        "sacch" => lend(line, &[132], &[], |given| {
            window(sacch::decode(&array(&given[0]), line.byte(0)))
        }),
        "speech" => vselp(line),
        "acelp_cc1" => acelp(line),
        other => panic!("no such module: {other}"),
    }
}

/// Lengths in the order of the arguments, then bits, then what the original answers.
fn lend(
    line: &Line,
    inputs: &[usize],
    rooms: &[usize],
    answer: impl Fn(&[Vec<u8>]) -> Answer,
) -> Told {
    lend_below(2, line, inputs, rooms, answer)
}

fn lend_below(
    limit: u16,
    line: &Line,
    inputs: &[usize],
    rooms: &[usize],
    answer: impl Fn(&[Vec<u8>]) -> Answer,
) -> Told {
    assert_eq!(
        (line.inputs.len(), line.rooms.len()),
        (inputs.len(), rooms.len())
    );
    let given = line
        .inputs
        .iter()
        .map(Vec::len)
        .chain(line.rooms.iter().copied());
    for (expected, actual) in inputs.iter().chain(rooms).zip(given) {
        if *expected != actual {
            return Told::refused(1, *expected, actual, &line.rooms);
        }
    }
    let symbols = line
        .inputs
        .iter()
        .flatten()
        .all(|byte| u16::from(*byte) < limit);
    let answer = if symbols {
        answer(&line.inputs)
    } else {
        Err(2)
    };
    match answer {
        Ok((text, lent)) => Told::answered(text, lent),
        Err(number) => Told::refused(number, 0, 0, &line.rooms),
    }
}

fn bits(bytes: &[u8]) -> Vec<bool> {
    bytes.iter().map(|byte| *byte == 1).collect()
}

fn array<const N: usize>(bytes: &[u8]) -> [bool; N] {
    bits(bytes).try_into().expect("a tested length")
}

fn bytes(bits: &[bool]) -> Vec<u8> {
    bits.iter().copied().map(u8::from).collect()
}

fn done(written: &[bool]) -> Answer {
    Ok(("done".into(), vec![bytes(written)]))
}

/// A state before an input. The output has four places.
fn step(line: &Line) -> Told {
    let (state, input) = (line.byte(0), line.byte(1) == 1);
    if state > 31 || line.byte(1) > 1 {
        return Told::refused(if state > 31 { 8 } else { 2 }, 0, 0, &[]);
    }
    let (next, output) = match line.name[1] {
        "dcch" => {
            let (next, output) = dcch::probe::transition(state, input);
            (next, output.to_vec())
        }
        "facch" => {
            let (next, output) = facch::probe::transition(state, input);
            (next, output.to_vec())
        }
        "acelp" => {
            let (next, output) = acelp_cc1::probe::transition(state.into(), input);
            (next as u8, output.to_vec())
        }
        other => panic!("no such code: {other}"),
    };
    let mut text = format!("next {next:x}");
    for place in 0..4 {
        text += if output.get(place) == Some(&true) {
            " 1"
        } else {
            " 0"
        };
    }
    Told::answered(text, vec![])
}

fn mode(broadcast: u64) -> CrcMode {
    match broadcast {
        0 => CrcMode::Addressed,
        _ => CrcMode::Broadcast,
    }
}

/// Checksums take any length; a search takes 5 to 130 pairs.
fn coding(line: &Line) -> Told {
    let length = line.inputs[0].len();
    match line.name[1] {
        "checksum" => lend(line, &[length], &[], |given| {
            let mode = mode(line.numbers[1]);
            let sum = dcch::probe::checksum(&bits(&given[0]), line.byte(0), mode);
            Ok((format!("value {sum:x}"), vec![]))
        }),
        "checksum_from" => lend(line, &[length], &[], |given| {
            let register = line.numbers[0] as u16;
            let after = registers::checksum_from(register, &bits(&given[0]));
            Ok((format!("value {after:x}"), vec![]))
        }),
        "checksum7" => lend(line, &[length], &[], |given| {
            let sum = acelp_cc1::probe::checksum(&bits(&given[0]));
            Ok((format!("value {sum:x}"), vec![]))
        }),
        "search" => {
            let pairs = (10..=260).contains(&length) && length % 2 == 0;
            let coded = if pairs { length } else { 260 };
            lend(line, &[coded], &[length / 2], |given| {
                let (word, metric) = dcch::probe::viterbi(&bits(&given[0]));
                Ok((format!("found {metric:x}"), vec![bytes(&word)]))
            })
        }
        other => panic!("no such call: {other}"),
    }
}

fn block_answer(answer: Result<DecodedBlock, BlockError>) -> Answer {
    match answer {
        Ok(block) => Ok((
            format!("corrected {:x}", block.corrected_coded_bits),
            vec![bytes(&block.information)],
        )),
        Err(BlockError::Crc) => Err(3),
        Err(BlockError::Length { .. }) => panic!("a tested length"),
    }
}

fn block(line: &Line) -> Told {
    // Coded bits and information bits, by document 01.
    let (format, coded, information) = match line.numbers[0] {
        0 => (BlockFormat::Forward, 260, 109),
        1 => (BlockFormat::ReverseNormal, 244, 101),
        _ => (BlockFormat::ReverseAbbreviated, 200, 79),
    };
    let (dvcc, mode) = (line.byte(1), mode(line.numbers[2]));
    match line.name[1] {
        "encode" => lend(line, &[information], &[coded], |given| {
            let sent = dcch::encode(format, &bits(&given[0]), dvcc, mode);
            done(&sent.expect("a tested length"))
        }),
        "decode" => lend(line, &[coded], &[information], |given| {
            block_answer(dcch::decode(format, &bits(&given[0]), dvcc, mode))
        }),
        "decode_soft" => lend_below(256, line, &[coded], &[information], |given| {
            let value = |byte: &u8| *RELIABILITIES.get(usize::from(*byte)).unwrap_or(&f64::NAN);
            let values: Vec<f64> = given[0].iter().map(value).collect();
            block_answer(dcch::probe::decode_soft(format, &values, dvcc, mode))
        }),
        other => panic!("no such call: {other}"),
    }
}

fn word_text(continuation: bool, message: &[bool], corrected: u16, last: usize) -> String {
    let (continuation, message) = (u8::from(continuation), number(message));
    format!("word {continuation} {message:x} {corrected:x} {last:x}")
}

fn word(answer: Result<FacchWord, FacchError>) -> Answer {
    match answer {
        Ok(word) => {
            let (corrected, observed) = (word.corrected_coded_bits, word.observed_coded_bits);
            let text = word_text(word.continuation, &word.message, corrected, observed);
            Ok((text, vec![]))
        }
        Err(FacchError::Crc) => Err(3),
        Err(FacchError::InsufficientObservations) => Err(4),
        Err(FacchError::Ambiguous) => Err(5),
    }
}

/// The length before the message.
fn encoded_word(line: &Line) -> Told {
    lend(line, &[], &[260], |_| {
        let [continuation, message, _] = line.numbers[..] else {
            panic!("three numbers");
        };
        if message >= MESSAGES {
            return Err(2);
        }
        let sent = facch::encode(continuation != 0, &unpacked(message), line.byte(2));
        done(&sent)
    })
}

fn facch(line: &Line) -> Told {
    let two = [260, 260];
    match line.name[1] {
        "encode" => encoded_word(line),
        "decode" => lend(line, &[260], &[], |given| {
            word(facch::decode(&array(&given[0]), line.byte(0)))
        }),
        "decode_erased" => lend_below(3, line, &[260], &[], |given| {
            let bit = |at: usize| (given[0][at] != 2).then_some(given[0][at] == 1);
            word(facch::decode_erased(
                &std::array::from_fn(bit),
                line.byte(0),
            ))
        }),
        "observe_half" => lend(line, &[260], &[260], |given| {
            let half = [WordHalf::Start, WordHalf::End][usize::from(line.byte(0))];
            let seen = facch::observe_half(&array(&given[0]), half);
            let byte = |bit: &Option<bool>| bit.map_or(2, u8::from);
            Ok(("done".into(), vec![seen.iter().map(byte).collect()]))
        }),
        "interleave" => lend(line, &two, &[260], |given| {
            done(&facch::interleave(&array(&given[0]), &array(&given[1])))
        }),
        "deinterleave" => lend(line, &two, &[260], |given| {
            done(&facch::deinterleave(&array(&given[0]), &array(&given[1])))
        }),
        other => panic!("no such call: {other}"),
    }
}

pub fn window_text(word: &SacchWord) -> String {
    let last = usize::from(word.final_encoder_state);
    word_text(
        word.continuation,
        &word.message,
        word.corrected_coded_bits,
        last,
    )
}

fn window(answer: Result<SacchWord, SacchError>) -> Answer {
    match answer {
        Ok(word) => Ok((window_text(&word), vec![])),
        Err(error) => Err(refusal(error)),
    }
}

fn frame(valid: bool, corrected: u16) -> String {
    format!("frame {} {corrected:x}", u8::from(valid))
}

fn vselp(line: &Line) -> Told {
    let two = [260, 260];
    match line.name[1] {
        "encode" => lend(line, &[77, 82], &[260], |given| {
            let (class_one, class_two) = (array(&given[0]), array(&given[1]));
            done(&speech::encode(&SpeechBits {
                class_one,
                class_two,
            }))
        }),
        "decode_candidate" => lend(
            line,
            &[260],
            &[77, 82],
            |given| match speech::decode_candidate(&array(&given[0])) {
                Ok(found) => {
                    let bits = found.frame.bits;
                    let valid = found.crc == CrcStatus::Valid;
                    Ok((
                        frame(valid, found.frame.corrected_coded_bits),
                        vec![bytes(&bits.class_one), bytes(&bits.class_two)],
                    ))
                }
                Err(SpeechError::Ambiguous) => Err(5),
                Err(SpeechError::Crc) => panic!("a failed checksum is a status"),
            },
        ),
        "interleave" => lend(line, &two, &[260], |given| {
            done(&speech::interleave(&array(&given[0]), &array(&given[1])))
        }),
        "deinterleave" => lend(line, &two, &[260], |given| {
            done(&speech::deinterleave(&array(&given[0]), &array(&given[1])))
        }),
        other => panic!("no such call: {other}"),
    }
}

fn three(bytes: &[u8]) -> [[bool; 260]; 3] {
    std::array::from_fn(|k| array(&bytes[k * 260..(k + 1) * 260]))
}

fn acelp(line: &Line) -> Told {
    let slots = || match line.numbers[0] {
        1 => Interleaving::One,
        2 => Interleaving::Two,
        _ => Interleaving::Three,
    };
    match line.name[1] {
        "encode" => lend(line, &[148], &[260], |given| {
            let parameters = Parameters::from_codec_bits(&array(&given[0]));
            done(&acelp_cc1::encode(&parameters))
        }),
        "decode" => lend(line, &[260], &[148], |given| {
            let found = acelp_cc1::decode(&array(&given[0])).map_err(|_| 5)?;
            let text = frame(found.crc_valid, found.corrected_coded_bits);
            Ok((text, vec![bytes(&found.parameters.codec_bits())]))
        }),
        "interleave" => lend(line, &[780], &[260], |given| {
            done(&acelp_cc1::interleave(&three(&given[0]), slots()))
        }),
        "deinterleave" => lend(line, &[780], &[260], |given| {
            done(&acelp_cc1::deinterleave(&three(&given[0]), slots()))
        }),
        other => panic!("no such call: {other}"),
    }
}
