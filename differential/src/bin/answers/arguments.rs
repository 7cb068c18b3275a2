//! The arguments of a line: numbers, then slices that a call reads, then the lengths of those that
//! it writes. crates/calls says how they are written.

pub struct Line<'a> {
    /// Module and call.
    pub name: [&'a str; 2],
    pub numbers: Vec<u64>,
    pub inputs: Vec<Vec<u8>>,
    pub rooms: Vec<usize>,
    /// In how many turns the line is called with another byte each time; 0 where once.
    pub turns: usize,
}

impl<'a> Line<'a> {
    pub fn read(line: &'a str, turn: usize) -> Self {
        let mut words = line.split(' ');
        let mut name = || words.next().expect("a name");
        let mut read = Line {
            name: [name(), name()],
            numbers: vec![],
            inputs: vec![],
            rooms: vec![],
            turns: 0,
        };
        for word in words {
            if let Some(runs) = word.strip_prefix(':') {
                let (bytes, turns) = expand(runs, turn);
                read.inputs.push(bytes);
                read.turns = read.turns.max(turns);
            } else if let Some(length) = word.strip_prefix('_') {
                read.rooms.push(length.parse().expect("a length"));
            } else {
                read.numbers.push(number(word));
            }
        }
        read
    }
    pub fn byte(&self, at: usize) -> u8 {
        self.numbers[at].try_into().expect("a byte")
    }
}

fn number(digits: &str) -> u64 {
    u64::from_str_radix(digits, 16).expect("hexadecimal digits")
}

fn byte(digits: &str) -> u8 {
    number(digits).try_into().expect("a byte")
}

/// The bytes of a slice, and the turns that one of its runs asks for.
fn expand(runs: &str, turn: usize) -> (Vec<u8>, usize) {
    let (mut bytes, mut turns) = (vec![], 0);
    for run in runs.split(',').filter(|run| !run.is_empty()) {
        if run == "*" {
            bytes.push(turn as u8);
            turns = 256;
        } else if let Some(digits) = run.strip_prefix('#') {
            bytes.push(byte(digits));
        } else if let Some((run, swept)) = run.split_once('@') {
            let from = bytes.len();
            bytes.extend(repeated(run));
            turns = bytes.len() - from;
            bytes[from + turn] = byte(swept);
        } else {
            bytes.extend(repeated(run));
        }
    }
    (bytes, turns)
}

fn repeated(run: &str) -> Vec<u8> {
    let (count, digits) = match run.split_once('x') {
        Some((count, digits)) => (count.parse().expect("a count"), digits),
        None => (run.len(), run),
    };
    let digit = |digit: char| digit.to_digit(16).expect("a digit") as u8;
    digits.chars().cycle().take(count).map(digit).collect()
}
