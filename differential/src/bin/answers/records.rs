//! The calls over SACCH's records, which are numbers of a line. A state out of its range is refused
//! with 8, before the symbol.
use crate::arguments::Line;
use crate::calls::window_text;
use crate::told::refused_text;
use differential::phy::sacch::probe::{State, deinterleaver, encoder, receiver};
use differential::phy::sacch::{ReceiveOutcome, SacchDeinterleaver, SacchEncoder, SacchReceiver};
use differential::port_sacch::{number, refusal, unpacked};
use differential::records::{UNLOCKED, deinterleaver_numbers, encoder_numbers, receiver_numbers};

const MESSAGES: u64 = 1 << 48;

pub fn over_record(line: &Line) -> Option<String> {
    let numbers = &line.numbers;
    if line.name[0] != "sacch" {
        return None;
    }
    match line.name[1] {
        "encode_bits" => Some(encode_bits(numbers[0], &numbers[1..])),
        "encode_word" => Some(encode_word(line, &numbers[3..])),
        "reset" => Some(format!("done{}", became(numbers, &[0; 14]))),
        "deinterleave" => Some(deinterleave(numbers[0], &numbers[1..])),
        "reset_deinterleaver" => Some(format!("done{}", became(numbers, &[0; 14]))),
        "pushed" | "push_outcome" => Some(pushed(line, &numbers[2..])),
        "push" => Some(push(line, &numbers[2..])),
        "discontinuity" => {
            let fresh = receiver_numbers(&SacchReceiver::default());
            Some(format!("done{}", became(numbers, &fresh)))
        }
        _ => None,
    }
}

fn list(numbers: &[u64]) -> String {
    numbers.iter().map(|n| format!(" {n:x}")).collect()
}

fn became(before: &[u64], after: &[u64]) -> String {
    if before == after {
        return " kept".into();
    }
    format!(" now{}", list(after))
}

fn rows<const N: usize>(numbers: &[u64]) -> [[bool; 12]; N] {
    std::array::from_fn(|at| unpacked(numbers[at]))
}

/// The encoder of a line, where it is within its bounds: memory, rows, cursor.
fn encoder_of(numbers: &[u64]) -> Option<SacchEncoder> {
    let within =
        numbers[0] < 32 && numbers[13] < 12 && numbers[1..13].iter().all(|row| *row < 4096);
    within.then(|| {
        encoder(
            numbers[0] as u8,
            rows(&numbers[1..13]),
            numbers[13] as usize,
        )
    })
}

/// A refusal: the fields are zeros and the record is kept.
fn not_sent(refusal: u8, fields: usize) -> String {
    let sent = list(&vec![0; fields]);
    format!("{} sent{sent} kept", refused_text(refusal, 0, 0))
}

fn encode_bits(six: u64, before: &[u64]) -> String {
    let Some(mut rust) = encoder_of(before) else {
        return not_sent(8, 1);
    };
    if six > 63 {
        return not_sent(2, 1);
    }
    let field = number(&rust.encode_bits(unpacked(six)));
    format!(
        "done sent {field:x}{}",
        became(before, &encoder_numbers(&rust))
    )
}

fn encode_word(line: &Line, before: &[u64]) -> String {
    let (continuation, message) = (line.numbers[0] != 0, line.numbers[1]);
    let Some(mut rust) = encoder_of(before) else {
        return not_sent(8, 11);
    };
    if message >= MESSAGES {
        return not_sent(2, 11);
    }
    let fields = rust.encode_word(continuation, &unpacked(message), line.byte(2));
    let fields = list(&fields.map(|field| number(&field)));
    format!(
        "done sent{fields}{}",
        became(before, &encoder_numbers(&rust))
    )
}

/// The deinterleaver of a line, where it is within its bounds: fields, cursor, received.
fn deinterleaver_of(numbers: &[u64]) -> Option<SacchDeinterleaver> {
    let within = numbers[..12].iter().all(|n| *n < 4096) && numbers[12] < 12 && numbers[13] <= 12;
    let at = |k: usize| numbers[k] as usize;
    within.then(|| deinterleaver((rows(&numbers[..12]), at(12), at(13))))
}

fn deinterleave(field: u64, before: &[u64]) -> String {
    let refused = |number| format!("{} kept", refused_text(number, 0, 0));
    let Some(mut rust) = deinterleaver_of(before) else {
        return refused(8);
    };
    if field > 4095 {
        return refused(2);
    }
    let said = match rust.push(unpacked(field)) {
        None => "pending".into(),
        Some(row) => format!("value {:x}", number(&row)),
    };
    format!("{said}{}", became(before, &deinterleaver_numbers(&rust)))
}

/// The receiver of a line, where it is within its bounds: fields, their cursor, received; rows,
/// their cursor, available; phase and lock.
fn receiver_of(numbers: &[u64]) -> Option<SacchReceiver> {
    let stored = numbers[..12].iter().chain(&numbers[14..25]);
    let within = stored.into_iter().all(|n| *n < 4096)
        && numbers[12] < 12
        && numbers[13] <= 12
        && numbers[25] < 11
        && numbers[26] <= 11
        && numbers[27] < 11
        && (numbers[28] < 11 || numbers[28] == UNLOCKED);
    let at = |k: usize| numbers[k] as usize;
    within.then(|| {
        receiver(&State {
            fields: rows(&numbers[..12]),
            field_cursor: at(12),
            received: at(13),
            rows: rows(&numbers[14..25]),
            cursor: at(25),
            available: at(26),
            phase: at(27),
            locked: (numbers[28] != UNLOCKED).then_some(at(28)),
        })
    })
}

/// The receiver within its bounds and the field, or the refusal.
fn ready(line: &Line, before: &[u64]) -> Result<(SacchReceiver, [bool; 12]), String> {
    let refused = |number| format!("{} kept", refused_text(number, 0, 0));
    let rust = receiver_of(before).ok_or(refused(8))?;
    if line.numbers[0] > 4095 {
        return Err(refused(2));
    }
    Ok((rust, unpacked(line.numbers[0])))
}

fn pushed(line: &Line, before: &[u64]) -> String {
    let (mut rust, field) = match ready(line, before) {
        Ok(ready) => ready,
        Err(refused) => return refused,
    };
    let said = match rust.push_outcome(field, line.byte(1)) {
        ReceiveOutcome::Pending => "pending".into(),
        ReceiveOutcome::Word(word) => window_text(&word),
        ReceiveOutcome::Rejected(error) => format!("rejected {}", refusal(error)),
    };
    format!("{said}{}", became(before, &receiver_numbers(&rust)))
}

/// Rejections are not told.
fn push(line: &Line, before: &[u64]) -> String {
    let (mut rust, field) = match ready(line, before) {
        Ok(ready) => ready,
        Err(refused) => return refused,
    };
    let said = match rust.push(field, line.byte(1)) {
        None => "pending".into(),
        Some(word) => window_text(&word),
    };
    format!("{said}{}", became(before, &receiver_numbers(&rust)))
}
