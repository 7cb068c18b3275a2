//! The records and constants of the header are those of the crate: a C program prints sizes,
//! alignments and places, which are compared with Rust's.
use crate::c::Program;
use bts136::{Refusal, sys};
use std::mem::offset_of;

const HEADER: &str = include_str!("../../../include/bts136.h");

fn record<R>(program: &mut Program, name: &str) {
    program.value(&format!("sizeof({name})"), size_of::<R>());
    program.value(&format!("_Alignof({name})"), align_of::<R>());
}

/// The last argument is there for its type.
fn field<R, F>(program: &mut Program, name: &str, field: &str, offset: usize, _: fn(R) -> F) {
    program.value(&format!("offsetof({name}, {field})"), offset);
    program.value(&format!("sizeof((({name} *)0)->{field})"), size_of::<F>());
}

/// Every record by its C name, and every field of it: with one left out this does not compile.
macro_rules! records {
    ($($name:literal $record:ident: $($field:ident)*;)*) => {
        const RECORDS: &[&str] = &[$($name),*];

        fn records(program: &mut Program) {
            $(
                let name = concat!("struct ", $name);
                record::<sys::$record>(program, name);
                $(
                    let (text, offset) = (stringify!($field), offset_of!(sys::$record, $field));
                    field(program, name, text, offset, |r: sys::$record| r.$field);
                )*
                let _ = |sys::$record { $($field: _),* }: sys::$record| {};
            )*
        }
    };
}

records! {
    "bts136_step" Step: refusal next output;
    "bts136_crc" Crc: refusal value;
    "bts136_search" Search: refusal expected actual metric tie;
    "bts136_block" Block: refusal expected actual corrected;
    "bts136_written" Written: refusal expected actual;
    "bts136_facch_word" FacchWord: refusal expected actual continuation message corrected observed;
    "bts136_encoder" Encoder: memory rows cursor;
    "bts136_field" Field: refusal encoder field;
    "bts136_fields" Fields: refusal encoder fields;
    "bts136_sacch_word" SacchWord: refusal expected actual continuation message corrected ending;
    "bts136_deinterleaver" Deinterleaver: fields cursor received;
    "bts136_row" Row: refusal complete row deinterleaver;
    "bts136_receiver" Receiver:
        fields field_cursor received rows row_cursor available phase lock;
    "bts136_pushed" Pushed: kind refusal continuation message corrected ending receiver;
    "bts136_frame" Frame: refusal expected actual valid corrected;
}

fn constants(program: &mut Program) {
    let length = Refusal::Length {
        expected: 0,
        actual: 0,
    };
    for (name, refusal) in [
        ("BTS136_LENGTH", length),
        ("BTS136_SYMBOL", Refusal::Symbol),
        ("BTS136_CRC", Refusal::Crc),
        (
            "BTS136_INSUFFICIENT_OBSERVATIONS",
            Refusal::InsufficientObservations,
        ),
        ("BTS136_AMBIGUOUS", Refusal::Ambiguous),
        ("BTS136_RESERVED", Refusal::Reserved),
        ("BTS136_LINE", Refusal::Line),
        ("BTS136_STATE", Refusal::State),
    ] {
        program.value(name, refusal.number());
    }
    for (name, value) in [
        ("BTS136_PENDING", sys::PENDING),
        ("BTS136_WORD", sys::WORD),
        ("BTS136_REJECTED", sys::REJECTED),
        ("BTS136_REFUSED", sys::REFUSED),
        ("BTS136_UNLOCKED", sys::UNLOCKED),
    ] {
        program.value(name, value);
    }
}

#[test]
fn c_and_rust_agree() {
    let mut program = Program::default();
    records(&mut program);
    constants(&mut program);
    if let Some(count) = program.compare("layout", "") {
        println!("layout, total: {count} sizes, places and numbers compared, 0 differ");
    }
}

#[test]
fn every_record_of_the_header_is_listed() {
    let name = |line: &'static str| line.strip_prefix("struct ")?.strip_suffix(" {");
    let declared: Vec<&str> = HEADER.lines().filter_map(name).collect();
    assert_eq!(declared, RECORDS);
}
