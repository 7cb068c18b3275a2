//! The archive, the header and the crate have the same functions, and the header and the crate
//! give them the same arguments.
use crate::c;
use std::collections::{BTreeMap, BTreeSet};
use std::process::Command;

const HEADER: &str = include_str!("../../../include/bts136.h");
const FUNCTIONS: &str = include_str!("../../src/sys/functions.rs");

/// Names of functions, each with its answer and its arguments as C writes them.
pub type Declarations = BTreeMap<String, String>;

/// The text with one space wherever there are some, and none at its ends.
fn squeezed(text: &str) -> String {
    text.split_whitespace().collect::<Vec<_>>().join(" ")
}

/// The name before the parenthesis, what is before it, and the arguments.
fn parts(statement: &str) -> Option<(&str, &str, &str)> {
    let (before, rest) = statement.split_once('(')?;
    let (answer, name) = before.rsplit_once(' ')?;
    let (arguments, _) = rest.rsplit_once(')')?;
    Some((name, answer, arguments.trim()))
}

pub fn in_header() -> Declarations {
    let comments = HEADER.split("/*").map(|part| match part.split_once("*/") {
        Some((_, after)) => after,
        None => part,
    });
    let code: String = comments.collect();
    let code: Vec<&str> = code.lines().filter(|line| !line.starts_with('#')).collect();
    let mut found = Declarations::new();
    for statement in code.join(" ").split(';').map(squeezed) {
        if let Some((name, answer, arguments)) = parts(&statement) {
            found.insert(name.into(), format!("{answer} ({arguments})"));
        }
    }
    found
}

/// A type of the crate as C writes it, with the space before a name.
fn c_type(rust: &str) -> String {
    match rust {
        "bool" => "bool ".into(),
        "u8" => "uint8_t ".into(),
        "u16" => "uint16_t ".into(),
        "u64" => "uint64_t ".into(),
        "usize" => "size_t ".into(),
        "*const u8" => "const uint8_t *".into(),
        "*const f64" => "const double *".into(),
        "*mut u8" => "uint8_t *".into(),
        record => format!("struct bts136{} ", snake(record)),
    }
}

/// `FacchWord` as `_facch_word`.
fn snake(name: &str) -> String {
    let letter = |letter: char| match letter.is_uppercase() {
        true => format!("_{}", letter.to_lowercase()),
        false => letter.into(),
    };
    name.chars().map(letter).collect()
}

fn c_arguments(rust: &str) -> String {
    let given = rust.split(',').filter_map(|part| part.split_once(':'));
    let arguments: Vec<String> = given
        .map(|(name, kind)| format!("{}{}", c_type(kind.trim()), name.trim()))
        .collect();
    match arguments.is_empty() {
        true => "void".into(),
        false => arguments.join(", "),
    }
}

fn in_crate() -> Declarations {
    let code: Vec<&str> = FUNCTIONS
        .lines()
        .filter(|line| !line.trim_start().starts_with("//"))
        .collect();
    let mut found = Declarations::new();
    for statement in code.join(" ").split(';').map(squeezed) {
        let Some((declared, answer)) = statement.split_once("->") else {
            continue;
        };
        let (name, _, arguments) = parts(declared).expect("a function");
        let (answer, arguments) = (c_type(answer.trim()), c_arguments(arguments));
        found.insert(name.into(), format!("{answer}({arguments})"));
    }
    found
}

fn in_archive() -> BTreeSet<String> {
    let mut nm = Command::new("nm");
    let printed = c::run(nm.args(["--defined-only", "-g", env!("BTS136_ARCHIVE")]));
    let names = printed.lines().filter(|line| line.contains(" T "));
    names
        .filter_map(|line| line.split_whitespace().next_back())
        .map(String::from)
        .collect()
}

#[test]
fn names_are_those_of_the_archive() {
    let archive = in_archive();
    assert!(archive.iter().all(|name| name.starts_with("bts136_")));
    let names = |found: Declarations| found.into_keys().collect::<BTreeSet<_>>();
    assert_eq!(names(in_header()), archive, "the header's, the archive's");
    assert_eq!(names(in_crate()), archive, "the crate's, the archive's");
    println!("names, total: {} compared, 0 differ", archive.len());
}

#[test]
fn arguments_are_those_of_the_crate() {
    let header = in_header();
    assert!(!header.is_empty());
    assert_eq!(header, in_crate(), "the header's, the crate's");
    println!("declarations, total: {} compared, 0 differ", header.len());
}

#[test]
fn compiles_as_c_and_as_cpp() {
    let header = concat!(env!("CARGO_MANIFEST_DIR"), "/../include/bts136.h");
    for (variable, default, standard, language) in [
        ("CC", "cc", "-std=c11", "c"),
        ("CXX", "c++", "-std=c++11", "c++"),
    ] {
        if let Some(compiler) = c::compiler(variable, default) {
            let mut compile = Command::new(compiler);
            compile.args([standard, "-x", language, "-fsyntax-only", header]);
            c::run(compile.args(c::WARNINGS));
            println!("header, total: compiles as {language}");
        }
    }
}
