//! A wrong length is refused before a byte is read: each slice of each function ends where memory
//! ends, and its length says more. No memory at all will do where the length is 0.
use crate::c::Program;
use crate::functions::in_header;

/// Memory that ends after so many bytes, zeros all of them, and the argument of every other slice.
const BEFORE: &str = "
#include <stdlib.h>
#include <sys/mman.h>
static union { uint8_t bytes[780]; double reliabilities[260]; } other;
static void *guarded(size_t bytes) {
    size_t page = 4096, pages = 1;
    char *memory = mmap(NULL, (pages + 1) * page, PROT_READ | PROT_WRITE, MAP_PRIVATE | MAP_ANONYMOUS, -1, 0);
    if (memory == MAP_FAILED || mprotect(memory + pages * page, page, PROT_NONE) != 0) abort();
    return memory + pages * page - bytes;
}
";

/// A slice among the arguments of a function: its name, the bytes of an element, its right length.
struct Slice {
    name: String,
    element: usize,
    right: usize,
}

/// The right length of a slice, as the header tells it.
pub fn right(function: &str, name: &str) -> usize {
    let (information, block) = match function {
        _ if function.ends_with("forward") => (109, 260),
        _ if function.ends_with("reverse_normal") => (101, 244),
        _ => (79, 200),
    };
    match name {
        "information" => information,
        "block" => block,
        "word" => 130,
        "coded" if function == "bts136_sacch_decode" => 132,
        "class_one" => 77,
        "class_two" => 82,
        "speech" => 148,
        "history" | "slots" => 780,
        _ => 260,
    }
}

fn slices(function: &str, declared: &str) -> Vec<Slice> {
    let (_, arguments) = declared.split_once('(').unwrap();
    let pointers = arguments
        .split(", ")
        .filter(|argument| argument.contains('*'));
    let slice = |argument: &str| {
        let (kind, name) = argument.split_once('*').unwrap();
        Slice {
            name: name.into(),
            element: if kind.contains("double") { 8 } else { 1 },
            right: right(function, name),
        }
    };
    pointers.map(slice).collect()
}

/// The call, with a pointer and a length for one slice and right ones for the others.
fn call(function: &str, declared: &str, odd: &Slice, pointer: &str, length: &str) -> String {
    let (_, arguments) = declared.split_once('(').unwrap();
    let argument = |argument: &str| {
        let name = argument.rsplit([' ', '*']).next().unwrap();
        match name.strip_suffix("_len") {
            Some(slice) if slice == odd.name => length.into(),
            Some(slice) => right(function, slice).to_string(),
            None if name == odd.name => pointer.into(),
            None if argument.contains("double") => "other.reliabilities".into(),
            None if argument.contains('*') => "other.bytes".into(),
            None => "1".into(),
        }
    };
    let arguments = arguments.trim_end_matches(')').split(", ");
    let given: Vec<String> = arguments.map(argument).collect();
    format!("{function}({})", given.join(", "))
}

/// A length that is refused: the number, the right one, and the one that was given.
fn refused(program: &mut Program, told: &str, slice: &Slice, given: u64) {
    program.value(&format!("{told}.refusal"), 1);
    program.value(&format!("{told}.expected"), slice.right);
    program.value(&format!("{told}.actual"), given);
}

#[test]
fn a_wrong_length_is_refused_before_a_byte_is_read() {
    let mut program = Program::default();
    // Each line is seen, so that the last one before a crash tells the call.
    program.line("setvbuf(stdout, NULL, _IOLBF, BUFSIZ);");
    let mut tried = 0;
    for (function, declared) in in_header() {
        // Any length is right for a checksum.
        if function.starts_with("bts136_checksum") {
            continue;
        }
        for slice in slices(&function, &declared) {
            let end = format!("guarded({})", slice.right * slice.element);
            for length in [3_000, 1 << 40, u64::MAX] {
                let given = format!("{length}u");
                let told = call(&function, &declared, &slice, &end, &given);
                refused(&mut program, &told, &slice, length);
            }
            let told = call(&function, &declared, &slice, "NULL", "0");
            refused(&mut program, &told, &slice, 0);
            tried += 1;
        }
    }
    // Document 01, Table M: the checksum of no information under the colour code 1.
    program.value("bts136_checksum(NULL, 0, 1, false).value", 4129);
    program.value("bts136_checksum_from(4129, NULL, 0).value", 4129);
    program.value("bts136_checksum7(NULL, 0).value", 0);
    assert!(tried > 0);
    if program.compare("lengths", BEFORE).is_some() {
        println!("slices that end where memory ends, total: {tried} tried, 0 differ");
    }
}
