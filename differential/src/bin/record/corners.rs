//! What is tried of every call over slices.
use differential::blocks::{code, text};

/// A call with its numbers, and the exact lengths of what it reads and writes.
pub struct Call<'a> {
    pub name: &'a str,
    pub inputs: &'a [usize],
    pub rooms: &'a [usize],
    /// The digits of a zero and of a one.
    pub bits: [&'a str; 2],
    /// The run of a byte that is neither.
    pub wrong: &'a str,
    /// Bytes that are tried at each place.
    pub swept: &'a [&'a str],
}

/// A call whose bytes are bits.
pub fn call<'a>(name: &'a str, inputs: &'a [usize], rooms: &'a [usize]) -> Call<'a> {
    Call {
        name,
        inputs,
        rooms,
        bits: ["0", "1"],
        wrong: "7",
        swept: &["2", "3"],
    }
}

impl Call<'_> {
    /// A line, with these inputs and rooms of these lengths.
    fn line(&self, inputs: &[String], rooms: &[usize]) {
        let inputs: String = inputs.iter().map(|input| format!(" :{input}")).collect();
        let rooms: String = rooms.iter().map(|length| format!(" _{length}")).collect();
        println!("{}{inputs}{rooms}", self.name);
    }
    fn zeros(&self, length: usize) -> String {
        match length {
            0 => String::new(),
            _ => format!("{length}x{}", self.bits[0]),
        }
    }
    fn all_zeros(&self) -> Vec<String> {
        self.inputs.iter().map(|n| self.zeros(*n)).collect()
    }
    /// A one at every place of that many.
    fn every(&self, step: usize, length: usize) -> String {
        let [zero, one] = self.bits;
        format!("{length}x{one}{}", zero.repeat(step - 1))
    }
    /// Zeros behind a wrong byte.
    fn wrong_first(&self, length: usize) -> String {
        format!("{},{}", self.wrong, self.zeros(length - 1))
    }
    /// Splits lengths into those of inputs and of rooms.
    fn lengths<'a>(&self, lengths: &'a [usize]) -> (&'a [usize], &'a [usize]) {
        lengths.split_at(self.inputs.len())
    }

    pub fn corners(&self) {
        self.line(&self.all_zeros(), self.rooms);
        for step in [3, 9] {
            let inputs: Vec<String> = self.inputs.iter().map(|n| self.every(step, *n)).collect();
            self.line(&inputs, self.rooms);
        }
        self.wrong_lengths();
        self.orders();
        for slice in 0..self.inputs.len() {
            self.bytes(slice);
        }
    }
    /// Each slice empty, one short and one long.
    fn wrong_lengths(&self) {
        let exact = [self.inputs, self.rooms].concat();
        for slice in 0..exact.len() {
            for length in [0, exact[slice] - 1, exact[slice] + 1] {
                let mut lengths = exact.clone();
                lengths[slice] = length;
                let (inputs, rooms) = self.lengths(&lengths);
                let inputs: Vec<String> = inputs.iter().map(|n| self.zeros(*n)).collect();
                self.line(&inputs, rooms);
            }
        }
    }
    /// Several faults: all slices from one on too long, each by another number, and wrong bytes.
    fn orders(&self) {
        let exact = [self.inputs, self.rooms].concat();
        for from in 0..=exact.len() {
            let longer = |(slice, n): (usize, &usize)| n + if slice < from { 0 } else { slice + 1 };
            let lengths: Vec<usize> = exact.iter().enumerate().map(longer).collect();
            let (inputs, rooms) = self.lengths(&lengths);
            let inputs: Vec<String> = inputs.iter().map(|n| self.wrong_first(*n)).collect();
            self.line(&inputs, rooms);
        }
    }
    /// Every byte at the first and at the last place, and some at each.
    fn bytes(&self, slice: usize) {
        let length = self.inputs[slice];
        let zeros = self.zeros(length);
        let others = self.zeros(length - 1);
        let mut runs = vec![format!("*,{others}"), format!("{others},*")];
        runs.extend(self.swept.iter().map(|byte| format!("{zeros}@{byte}")));
        for run in runs {
            let mut inputs = self.all_zeros();
            inputs[slice] = run;
            self.line(&inputs, self.rooms);
        }
    }
}

/// A single one, coded from a place on by the code of DCCH, in a block of a length; some bits are
/// turned over. ACELP's code sends the same bits for it.
pub fn one_coded(length: usize, place: usize, turned: &[usize]) -> String {
    let one = code(0, &[true, false, false, false, false, false]);
    let coded = |at: usize| at.checked_sub(place).and_then(|k| one.get(k)) == Some(&true);
    let bits: Vec<bool> = (0..length)
        .map(|at| coded(at) ^ turned.contains(&at))
        .collect();
    text(&bits)
}
