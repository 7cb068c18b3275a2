//! Every function called from C gives what it gives to Rust.
use crate::c::Program;
use crate::functions::in_header;
use bts136::flat;
use bts136::sys::{Block, Deinterleaver, Encoder, Receiver, Step, Written};

/// Bits to read, room to write, and reliabilities. `sum` depends on each byte and its place.
const BEFORE: &str = "
static uint8_t bits[780], out[780], more[780];
static double soft[260];
static uint64_t sum(const uint8_t *bytes, size_t length) {
    uint64_t sum = 0;
    for (size_t place = 0; place < length; place++) sum = sum * 3 % 1000003 + bytes[place];
    return sum;
}
";
const FILL: &str = "for (size_t n = 0; n < 780; n++) bits[n] = n * n % 7 == 2;";
const RELIABILITIES: &str = "for (size_t n = 0; n < 260; n++) soft[n] = more[n] ? -1.5 : 0.5;";

type Stepped = fn(u8, u8) -> Step;
type OneToOne = fn(&[u8], &mut [u8]) -> Written;
type TwoToOne = fn(&[u8], &[u8], &mut [u8]) -> Written;
type Blocks<T, A> = fn(&[T], u8, bool, &mut [u8]) -> A;

fn bits(length: usize) -> Vec<u8> {
    let bit = |place: usize| u8::from(place * place % 7 == 2);
    (0..length).map(bit).collect()
}

fn sum(bytes: &[u8]) -> u64 {
    let with = |sum: u64, byte: &u8| sum * 3 % 1_000_003 + u64::from(*byte);
    bytes.iter().fold(0, with)
}

fn coding(program: &mut Program) {
    let calls: [(&str, Stepped); 3] = [
        ("dcch", flat::dcch_transition),
        ("facch", flat::facch_transition),
        ("acelp", flat::acelp_transition),
    ];
    for (name, call) in calls {
        for (state, input) in [(19, 1), (19, 2), (32, 0)] {
            let step = call(state, input);
            let told = format!("bts136_{name}_transition({state}, {input})");
            program.value(&format!("{told}.refusal"), step.refusal);
            program.value(&format!("{told}.next"), step.next);
            for (place, bit) in step.output.iter().enumerate() {
                program.value(&format!("{told}.output[{place}]"), *bit);
            }
        }
    }
    let sixteen = flat::checksum(&bits(50), 90, true).value;
    program.value("bts136_checksum(bits, 50, 90, true).value", sixteen);
    let register = flat::checksum_from(0x29b1, &bits(50)).value;
    program.value("bts136_checksum_from(0x29b1, bits, 50).value", register);
    let seven = flat::checksum7(&bits(48)).value;
    program.value("bts136_checksum7(bits, 48).value", seven);
}

fn searches(program: &mut Program) {
    let mut word = [0; 130];
    let search = flat::viterbi(&bits(260), &mut word);
    program.value("bts136_viterbi(bits, 260, out, 130).metric", search.metric);
    program.value("sum(out, 130)", sum(&word));
    let search = flat::viterbi_free(&bits(132), &mut word[..66]);
    let told = "bts136_viterbi_free(bits, 132, out, 66)";
    program.value(&format!("{told}.metric"), search.metric);
    program.value(&format!("{told}.tie"), search.tie);
    let short = flat::viterbi_free(&bits(132), &mut word[..65]);
    program.value(
        "bts136_viterbi_free(bits, 132, out, 65).expected",
        short.expected,
    );
}

/// A format of DCCH: the bits of a block and of its information, and the three calls.
struct Format {
    name: &'static str,
    length: usize,
    room: usize,
    encode: Blocks<u8, Written>,
    decode: Blocks<u8, Block>,
    soft: Blocks<f64, Block>,
}

const FORMATS: [Format; 3] = [
    Format {
        name: "forward",
        length: 260,
        room: 109,
        encode: flat::dcch_encode_forward,
        decode: flat::dcch_decode_forward,
        soft: flat::dcch_decode_soft_forward,
    },
    Format {
        name: "reverse_normal",
        length: 244,
        room: 101,
        encode: flat::dcch_encode_reverse_normal,
        decode: flat::dcch_decode_reverse_normal,
        soft: flat::dcch_decode_soft_reverse_normal,
    },
    Format {
        name: "reverse_abbreviated",
        length: 200,
        room: 79,
        encode: flat::dcch_encode_reverse_abbreviated,
        decode: flat::dcch_decode_reverse_abbreviated,
        soft: flat::dcch_decode_soft_reverse_abbreviated,
    },
];

impl Format {
    /// How a call on this format is told in C.
    fn told(&self, what: &str, from: &str, length: usize, to: &str, room: usize) -> String {
        let name = self.name;
        format!("bts136_dcch_{what}_{name}({from}, {length}, 90, true, {to}, {room})")
    }
    fn coded(&self, program: &mut Program) -> Vec<u8> {
        let mut block = vec![0; self.length];
        let answer = (self.encode)(&bits(self.room), 90, true, &mut block);
        let told = self.told("encode", "bits", self.room, "more", self.length);
        program.value(&format!("{told}.refusal"), answer.refusal);
        program.value(&format!("sum(more, {})", self.length), sum(&block));
        block
    }
    fn decoded(&self, program: &mut Program, block: &[u8]) {
        let mut information = vec![0; self.room];
        let answer = (self.decode)(block, 90, true, &mut information);
        let told = self.told("decode", "more", block.len(), "out", self.room);
        program.value(&format!("{told}.corrected"), answer.corrected);
        program.value(&format!("{told}.expected"), answer.expected);
        program.value(&format!("{told}.actual"), answer.actual);
        if answer.refusal == 0 {
            program.value(&format!("sum(out, {})", self.room), sum(&information));
        }
    }
    fn decoded_soft(&self, program: &mut Program, block: &[u8]) {
        let mut information = vec![0; self.room];
        let reliability = |bit: &u8| [0.5, -1.5][usize::from(*bit)];
        let values: Vec<f64> = block.iter().map(reliability).collect();
        program.line(RELIABILITIES);
        let answer = (self.soft)(&values, 90, true, &mut information);
        let told = self.told("decode_soft", "soft", self.length, "out", self.room);
        program.value(&format!("{told}.corrected"), answer.corrected);
        program.value(&format!("sum(out, {})", self.room), sum(&information));
    }
}

/// A block coded, then decoded with a wrong bit, both ways, and with one bit less.
fn blocks(program: &mut Program) {
    for format in FORMATS {
        let mut block = format.coded(program);
        block[17] ^= 1;
        program.line("more[17] ^= 1;");
        format.decoded(program, &block);
        format.decoded_soft(program, &block);
        format.decoded(program, &block[..format.length - 1]);
    }
}

/// Calls that read so many bits and write so many.
fn one_to_one(program: &mut Program) {
    let calls: [(&str, usize, usize, OneToOne); 9] = [
        ("facch_observe_start", 260, 260, flat::facch_observe_start),
        ("facch_observe_end", 260, 260, flat::facch_observe_end),
        ("acelp_encode", 148, 260, flat::acelp_encode),
        ("acelp_interleave_one", 780, 260, flat::acelp_interleave_one),
        ("acelp_interleave_two", 780, 260, flat::acelp_interleave_two),
        (
            "acelp_interleave_three",
            780,
            260,
            flat::acelp_interleave_three,
        ),
        (
            "acelp_deinterleave_one",
            780,
            260,
            flat::acelp_deinterleave_one,
        ),
        (
            "acelp_deinterleave_two",
            780,
            260,
            flat::acelp_deinterleave_two,
        ),
        (
            "acelp_deinterleave_three",
            780,
            260,
            flat::acelp_deinterleave_three,
        ),
    ];
    for (name, length, room, call) in calls {
        let mut written = vec![0; room];
        let answer = call(&bits(length), &mut written);
        let told = format!("bts136_{name}(bits, {length}, out, {room})");
        program.value(&format!("{told}.refusal"), answer.refusal);
        program.value(&format!("sum(out, {room})"), sum(&written));
        let answer = call(&bits(length), &mut written[1..]);
        let told = format!("bts136_{name}(bits, {length}, out, {})", room - 1);
        program.value(&format!("{told}.expected"), answer.expected);
    }
}

/// Calls that read twice so many bits, the second after the first, and write 260.
fn two_to_one(program: &mut Program) {
    let calls: [(&str, usize, usize, TwoToOne); 5] = [
        ("facch_interleave", 260, 260, flat::facch_interleave),
        ("facch_deinterleave", 260, 260, flat::facch_deinterleave),
        ("speech_interleave", 260, 260, flat::speech_interleave),
        ("speech_deinterleave", 260, 260, flat::speech_deinterleave),
        ("speech_encode", 77, 82, flat::speech_encode),
    ];
    for (name, one, two, call) in calls {
        let (given, mut written) = (bits(one + two), [0; 260]);
        let answer = call(&given[..one], &given[one..], &mut written);
        let told = format!("bts136_{name}(bits, {one}, bits + {one}, {two}, more, 260)");
        program.value(&format!("{told}.refusal"), answer.refusal);
        program.value("sum(more, 260)", sum(&written));
    }
}

/// Decodes what `speech_encode` left, and a frame of ACELP.
fn frames(program: &mut Program) {
    let (mut frame, mut one, mut two, mut speech) = ([0; 260], [0; 77], [0; 82], [0; 148]);
    flat::speech_encode(&bits(77), &bits(159)[77..], &mut frame);
    let answer = flat::speech_decode_candidate(&frame, &mut one, &mut two);
    let told = "bts136_speech_decode_candidate(more, 260, out, 77, out + 77, 82)";
    program.value(&format!("{told}.valid"), answer.valid);
    program.value("sum(out, 77)", sum(&one));
    program.value("sum(out + 77, 82)", sum(&two));
    let answer = flat::acelp_decode(&frame, &mut speech);
    let told = "bts136_acelp_decode(more, 260, out, 148)";
    program.value(&format!("{told}.refusal"), answer.refusal);
    program.value(&format!("{told}.valid"), answer.valid);
    program.value(&format!("{told}.corrected"), answer.corrected);
}

fn facch(program: &mut Program) {
    let mut coded = [0; 260];
    let answer = flat::facch_encode(true, 0x1234_5678_9abc, 90, &mut coded);
    let told = "bts136_facch_encode(true, 0x123456789abc, 90, more, 260)";
    program.value(&format!("{told}.refusal"), answer.refusal);
    coded[17] = 2;
    program.line("more[17] = 2;");
    let told = "bts136_facch_decode_erased(more, 260, 90)";
    let word = flat::facch_decode_erased(&coded, 90);
    program.value(&format!("{told}.continuation"), word.continuation);
    program.value(&format!("{told}.message"), word.message);
    program.value(&format!("{told}.corrected"), word.corrected);
    program.value(&format!("{told}.observed"), word.observed);
    let refused = flat::facch_decode(&coded, 90);
    program.value(
        "bts136_facch_decode(more, 260, 90).refusal",
        refused.refusal,
    );
}

/// Two words sent, and all of both states after each call.
fn sacch(program: &mut Program) {
    program.line("struct bts136_encoder encoder = bts136_sacch_new_encoder();");
    program.line("struct bts136_receiver receiver = bts136_sacch_new_receiver();");
    program.line("struct bts136_fields made;");
    program.line("struct bts136_pushed pushed;");
    let (mut encoder, mut receiver) = (Encoder::fresh(), Receiver::fresh());
    for message in [0x1234_5678_9abc, 0xfff] {
        let made = encoder.encode_word(true, message, 90);
        program.line(&format!(
            "made = bts136_sacch_encode_word(encoder, true, {message}, 90);"
        ));
        for (place, field) in made.fields.into_iter().enumerate() {
            program.value(&format!("made.fields[{place}]"), field);
            let pushed = receiver.pushed(field, 90);
            program.line(&format!(
                "pushed = bts136_sacch_pushed(receiver, made.fields[{place}], 90);"
            ));
            program.value("pushed.kind", pushed.kind);
            program.value("pushed.message", pushed.message);
            program.value("pushed.ending", pushed.ending);
            receiver = pushed.receiver;
            program.line("receiver = pushed.receiver;");
        }
        encoder = made.encoder;
        program.line("encoder = made.encoder;");
    }
    states(program, encoder, receiver);
    rows(program);
    let coded = flat::sacch_decode(&bits(132), 90);
    program.value("bts136_sacch_decode(bits, 132, 90).refusal", coded.refusal);
}

/// Thirteen fields, the rows of the last two, and all of the deinterleaver after each call.
fn rows(program: &mut Program) {
    program.line("struct bts136_deinterleaver fields = bts136_sacch_new_deinterleaver();");
    program.line("struct bts136_row row;");
    let mut fields = Deinterleaver::fresh();
    for field in (0..13).map(|k| (2741 * k + 1365) % 4096) {
        let row = fields.push(field);
        program.line(&format!(
            "row = bts136_sacch_deinterleave(fields, {field});"
        ));
        program.value("row.refusal", row.refusal);
        program.value("row.complete", u8::from(row.complete));
        program.value("row.row", row.row);
        fields = row.deinterleaver;
        program.line("fields = row.deinterleaver;");
        program.value("fields.fields[0]", fields.fields[0]);
        program.value("fields.cursor", fields.cursor);
        program.value("fields.received", fields.received);
    }
    let refused = fields.push(4096);
    program.value(
        "bts136_sacch_deinterleave(fields, 4096).refusal",
        refused.refusal,
    );
    let fresh = fields.reset();
    program.value(
        "bts136_sacch_reset_deinterleaver(fields).received",
        fresh.received,
    );
}

fn states(program: &mut Program, encoder: Encoder, receiver: Receiver) {
    program.value("encoder.memory", encoder.memory);
    program.value("encoder.rows[11]", encoder.rows[11]);
    program.value("encoder.cursor", encoder.cursor);
    program.value("receiver.fields[11]", receiver.fields[11]);
    program.value("receiver.field_cursor", receiver.field_cursor);
    program.value("receiver.received", receiver.received);
    program.value("receiver.rows[10]", receiver.rows[10]);
    program.value("receiver.row_cursor", receiver.row_cursor);
    program.value("receiver.available", receiver.available);
    program.value("receiver.phase", receiver.phase);
    program.value("receiver.lock", receiver.lock);
    let bits = encoder.encode_bits(63);
    program.value("bts136_sacch_encode_bits(encoder, 63).field", bits.field);
    let fresh = encoder.reset();
    program.value("bts136_sacch_reset(encoder).cursor", fresh.cursor);
    let refused = receiver.push(4096, 90);
    program.value("bts136_sacch_push(receiver, 4096, 90).kind", refused.kind);
    let fresh = receiver.discontinuity();
    program.value("bts136_sacch_discontinuity(receiver).lock", fresh.lock);
}

#[test]
fn c_and_rust_agree() {
    let mut program = Program::default();
    program.line(FILL);
    coding(&mut program);
    searches(&mut program);
    blocks(&mut program);
    one_to_one(&mut program);
    two_to_one(&mut program);
    frames(&mut program);
    facch(&mut program);
    sacch(&mut program);
    for name in in_header().keys() {
        assert!(program.calls(name), "{name} is not called");
    }
    if let Some(count) = program.compare("calls", BEFORE) {
        println!("calls from C, total: {count} values compared, 0 differ");
    }
}
