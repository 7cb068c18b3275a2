// Listens on SACCH from the middle of a word on, with a wrong bit on the way.
use bts136::sacch::{ReceiveOutcome, SacchEncoder, SacchReceiver};

const DVCC: u8 = 0x5a;

fn main() {
    let mut encoder = SacchEncoder::default();
    let mut sent = vec![];
    for word in 1..=5u64 {
        let message = word * 0x12_3456_789a;
        let bits = std::array::from_fn(|place| message >> (47 - place) & 1 != 0);
        sent.extend(encoder.encode_word(word == 5, &bits, DVCC));
    }
    sent[30][4] = !sent[30][4];

    let mut receiver = SacchReceiver::default();
    for (place, field) in sent[3..].iter().enumerate() {
        let outcome = receiver.push_outcome(*field, DVCC);
        tell(place + 1, outcome);
    }
}

fn tell(field: usize, outcome: ReceiveOutcome) {
    match outcome {
        ReceiveOutcome::Pending => {}
        ReceiveOutcome::Rejected(error) => println!("field {field}: number {}", error.number()),
        ReceiveOutcome::Word(word) => {
            let with = |number: u64, bit: &bool| number << 1 | u64::from(*bit);
            let message = word.message.iter().fold(0, with);
            let corrected = word.corrected_coded_bits;
            println!("field {field}: word {message:012x}, corrected {corrected}");
        }
    }
}
