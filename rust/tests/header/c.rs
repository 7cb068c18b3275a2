//! A C compiler, and programs for it, for the tests of the header.
use std::path::Path;
use std::process::Command;
use std::{env, fs};

/// As users are told to compile.
pub const WARNINGS: [&str; 4] = ["-Wall", "-Wextra", "-Werror", "-pedantic"];

/// The compiler that a variable names. Where there is none, that is told, and the test goes no
/// further; under CI it fails.
pub fn compiler(variable: &str, default: &str) -> Option<String> {
    let name = env::var(variable).unwrap_or(default.into());
    if Command::new(&name).arg("--version").output().is_ok() {
        return Some(name);
    }
    let told = format!("no compiler {name} ({variable} names it): the header is not tested by it");
    assert!(env::var("CI").as_deref() != Ok("true"), "{told}");
    println!("{told}");
    None
}

/// What a command prints; it must end well.
#[track_caller]
pub fn run(command: &mut Command) -> String {
    let answer = command
        .output()
        .unwrap_or_else(|why| panic!("{command:?}: {why}"));
    let error = String::from_utf8_lossy(&answer.stderr);
    let printed = String::from_utf8_lossy(&answer.stdout);
    let last = printed.lines().last().unwrap_or("nothing");
    let status = answer.status;
    assert!(
        status.success(),
        "{command:?}, {status}, after {last}\n{error}"
    );
    String::from_utf8(answer.stdout).unwrap()
}

/// A C program that prints values, and what it is to print.
#[derive(Default)]
pub struct Program {
    wanted: String,
    lines: String,
}

impl Program {
    /// A line of C that prints nothing.
    pub fn line(&mut self, line: &str) {
        self.lines += &format!("    {line}\n");
    }
    /// A C expression and its value.
    pub fn value(&mut self, expression: &str, value: impl TryInto<u64>) {
        let value = value.try_into().unwrap_or_else(|_| panic!("{expression}"));
        self.wanted += &format!("{expression} {value}\n");
        let print = format!("printf(\"{expression} %\" PRIu64 \"\\n\", (uint64_t)({expression}));");
        self.line(&print);
    }
    /// Whether a function is called in it.
    pub fn calls(&self, name: &str) -> bool {
        self.lines.contains(&format!("{name}("))
    }
    fn source(&self, before: &str) -> String {
        let includes = "#define _DEFAULT_SOURCE\n#include <inttypes.h>\n#include <stdio.h>\n#include \"bts136.h\"\n";
        let lines = &self.lines;
        format!("{includes}{before}\nint main(void) {{\n{lines}    return 0;\n}}\n")
    }
    /// Compiles and runs it, with this before `main`, and compares; how many values were.
    #[track_caller]
    pub fn compare(&self, name: &str, before: &str) -> Option<usize> {
        let compiler = compiler("CC", "cc")?;
        let folder = Path::new(env!("CARGO_TARGET_TMPDIR"));
        let (text, program) = (folder.join(format!("{name}.c")), folder.join(name));
        fs::write(&text, self.source(before)).unwrap();
        let mut compile = Command::new(compiler);
        let include = concat!("-I", env!("CARGO_MANIFEST_DIR"), "/../include");
        compile.args(["-std=c11", include]).args(WARNINGS).arg(text);
        run(compile.arg(env!("BTS136_ARCHIVE")).arg("-o").arg(&program));
        assert_eq!(run(&mut Command::new(program)), self.wanted);
        Some(self.wanted.lines().count())
    }
}
