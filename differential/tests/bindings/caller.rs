// A caller of what the two have in common, by every name. Included over the original and over the
// crate: only what `phy` stands for is another.
use phy::acelp_cc1::{self, DecodeError, Interleaving};
use phy::dcch::{self, BlockError, BlockFormat, CrcMode, DecodedBlock};
use phy::facch::{self, FacchError, FacchWord, WordHalf};
use phy::sacch::{self, ReceiveOutcome, SacchDeinterleaver, SacchEncoder, SacchError};
use phy::sacch::{SacchReceiver, SacchWord};
use phy::speech::{self, CrcStatus, SpeechBits, SpeechCandidate, SpeechError, SpeechFrame};
use std::error::Error;

fn blocks(format: BlockFormat, mode: CrcMode) -> Result<String, BlockError> {
    let information = vec![true; format.information_bits()];
    let block: Vec<bool> = dcch::encode(format, &information, 7, mode)?;
    let DecodedBlock {
        information,
        corrected_coded_bits,
    } = dcch::decode(format, &block, 7, mode)?;
    let told = match dcch::decode(format, &block[1..], 7, mode) {
        Err(BlockError::Length { expected, actual }) => format!("{expected} {actual}"),
        Err(BlockError::Crc) | Ok(_) => String::new(),
    };
    Ok(format!("{information:?} {corrected_coded_bits} {told}"))
}

fn facch_words() -> Result<String, FacchError> {
    let message = [true; facch::MESSAGE_BITS];
    let coded: [bool; facch::CODED_BITS] = facch::encode(true, &message, 7);
    let slots = [
        facch::interleave(&[false; 260], &coded),
        facch::interleave(&coded, &[true; 260]),
    ];
    let whole = facch::decode(&facch::deinterleave(&slots[0], &slots[1]), 7)?;
    let start: [Option<bool>; 260] = facch::observe_half(&slots[0], WordHalf::Start);
    let end = facch::observe_half(&slots[1], WordHalf::End);
    let FacchWord {
        continuation,
        message,
        corrected_coded_bits,
        observed_coded_bits,
    } = facch::decode_erased(&start, 7)?;
    let (corrected, observed): (u16, usize) = (corrected_coded_bits, observed_coded_bits);
    let number = match facch::decode_erased(&end, 8) {
        Err(FacchError::InsufficientObservations) => 4,
        Err(FacchError::Ambiguous) => 5,
        Err(FacchError::Crc) => 3,
        Ok(_) => 0,
    };
    Ok(format!(
        "{whole:?} {continuation} {message:?} {corrected} {observed} {number}"
    ))
}

fn sacch_words() -> Vec<String> {
    let (mut encoder, mut receiver) = (SacchEncoder::default(), SacchReceiver::default());
    let mut told = vec![];
    for message in [[true; sacch::MESSAGE_BITS]; 4] {
        let fields: [[bool; 12]; sacch::WORD_SLOTS] = encoder.encode_word(true, &message, 7);
        told.extend(fields.map(|field| match receiver.push_outcome(field, 7) {
            ReceiveOutcome::Pending => String::new(),
            ReceiveOutcome::Word(SacchWord {
                continuation,
                message,
                corrected_coded_bits,
                final_encoder_state,
            }) => {
                format!("{continuation} {message:?} {corrected_coded_bits} {final_encoder_state}")
            }
            ReceiveOutcome::Rejected(
                error @ (SacchError::Ambiguous | SacchError::Reserved | SacchError::Crc),
            ) => error.to_string(),
        }));
    }
    let six = encoder.clone().encode_bits([true; 6]);
    encoder.reset();
    told.push(format!("{six:?} {:?}", encoder.encode_bits([true; 6])));
    let mut deinterleaver = SacchDeinterleaver::default();
    let mut row = None;
    for field in [[true; 12]; 12] {
        row = deinterleaver.push(field);
    }
    deinterleaver.reset();
    told.push(format!("{row:?} {:?}", deinterleaver.push([true; 12])));
    receiver.discontinuity();
    told.push(format!("{:?}", receiver.push([true; 12], 7).is_some()));
    told.push(format!(
        "{:?}",
        sacch::decode(&[false; sacch::CODED_WORD_BITS], 0)
    ));
    told
}

fn frames() -> Result<String, SpeechError> {
    let frame: [bool; speech::CHANNEL_BITS] = speech::encode(&SpeechBits {
        class_one: [true; speech::CLASS_ONE_BITS],
        class_two: [true; speech::CLASS_TWO_BITS],
    });
    let slot = speech::interleave(&frame, &frame);
    let SpeechCandidate {
        frame: SpeechFrame {
            bits,
            corrected_coded_bits,
        },
        crc,
    } = speech::decode_candidate(&speech::deinterleave(&slot, &slot))?;
    let valid = match crc {
        CrcStatus::Valid => true,
        CrcStatus::Failed => false,
    };
    let modes = [Interleaving::One, Interleaving::Two, Interleaving::Three];
    let slots = modes.map(|mode| acelp_cc1::interleave(&[frame; 3], mode));
    let back = modes.map(|mode| acelp_cc1::deinterleave(&slots, mode));
    Ok(format!("{bits:?} {corrected_coded_bits} {valid} {back:?}"))
}

/// Everything that the calls tell.
pub fn told() -> Result<String, Box<dyn Error>> {
    let mut told = sacch_words();
    for format in [
        BlockFormat::Forward,
        BlockFormat::ReverseNormal,
        BlockFormat::ReverseAbbreviated,
    ] {
        told.push(blocks(format, CrcMode::Addressed)?);
        told.push(blocks(format, CrcMode::Broadcast)?);
    }
    told.push(facch_words()?);
    told.push(frames()?);
    told.push(DecodeError::Ambiguous.to_string());
    Ok(told.join("\n"))
}
