//! How much stack a call takes, as the header tells it.
use crate::c::Program;
use crate::functions::in_header;
use crate::lengths::right;

/// What the header says, in bytes.
const MOST: usize = 20_000;

/// A stack full of one byte; what a call has changed of it is what it took.
const BEFORE: &str = "
#include <stdlib.h>
#include <string.h>
#include <ucontext.h>
static union { uint8_t bytes[780]; double reliabilities[260]; } given;
static uint8_t first[780], second[780];
static const struct bts136_receiver ready = {.received = 12, .available = 11, .lock = BTS136_UNLOCKED};
static char stack[1 << 17];
static ucontext_t caller, callee;
static size_t taken(void (*call)(void)) {
    memset(stack, 0xa5, sizeof stack);
    if (getcontext(&callee) != 0) abort();
    callee.uc_stack.ss_sp = stack;
    callee.uc_stack.ss_size = sizeof stack;
    callee.uc_link = &caller;
    makecontext(&callee, call, 0);
    if (swapcontext(&caller, &callee) != 0) abort();
    size_t left = 0;
    while (left < sizeof stack && stack[left] == (char)0xa5) left++;
    return sizeof stack - left;
}
";

/// A call with right arguments, so that it goes as deep as it can.
fn call(function: &str, declared: &str) -> String {
    let (_, arguments) = declared.split_once('(').unwrap();
    let arguments = arguments.trim_end_matches(')').split(", ");
    let mut rooms = ["first", "second"].into_iter();
    let argument = |argument: &str| {
        let name = argument.rsplit([' ', '*']).next().unwrap();
        match name.strip_suffix("_len") {
            Some(slice) => right(function, slice).to_string(),
            None if argument.contains("double") => "given.reliabilities".into(),
            None if argument.starts_with("const") => "given.bytes".into(),
            None if argument.contains('*') => rooms.next().unwrap().into(),
            None if name == "receiver" => "ready".into(),
            None if argument.starts_with("struct") => format!("bts136_sacch_new_{name}()"),
            None if argument == "void" => String::new(),
            None => "1".into(),
        }
    };
    let given: Vec<String> = arguments.map(argument).collect();
    format!("(void){function}({});", given.join(", "))
}

#[test]
fn a_call_takes_no_more_stack_than_the_header_says() {
    let functions = in_header();
    let mut before = String::from(BEFORE);
    let mut program = Program::default();
    for (function, declared) in &functions {
        let body = call(function, declared);
        before += &format!("static void call_{function}(void) {{ {body} }}\n");
        program.value(&format!("taken(call_{function}) <= {MOST}"), 1);
    }
    if program.compare("stack", &before).is_some() {
        println!("stack of a call, total: {} within", functions.len());
    }
}
