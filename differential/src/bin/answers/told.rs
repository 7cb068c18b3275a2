//! What came of a call, and of the turns of a line, as `replay` prints it.
use std::collections::BTreeMap;

/// What a slice that is lent to be written holds before a call.
pub const UNTOUCHED: u8 = 9;

pub struct Told {
    pub refused: Option<u8>,
    pub text: String,
    pub lent: Vec<Vec<u8>>,
}

impl Told {
    pub fn answered(text: String, lent: Vec<Vec<u8>>) -> Self {
        Told {
            refused: None,
            text,
            lent,
        }
    }
    pub fn refused(number: u8, expected: usize, actual: usize, rooms: &[usize]) -> Self {
        Told {
            refused: Some(number),
            text: refused_text(number, expected, actual),
            lent: rooms.iter().map(|n| vec![UNTOUCHED; *n]).collect(),
        }
    }
    fn untouched(&self) -> bool {
        !self.lent.is_empty() && self.lent.iter().all(|lent| untouched(lent))
    }
    pub fn line(&self) -> String {
        let lent: String = self.lent.iter().map(|lent| left(lent)).collect();
        format!("{}{lent}", self.text)
    }
}

pub fn refused_text(number: u8, expected: usize, actual: usize) -> String {
    format!("refused {number} ({expected}, {actual})")
}

fn untouched(lent: &[u8]) -> bool {
    lent.iter().all(|byte| *byte == UNTOUCHED)
}

fn left(lent: &[u8]) -> String {
    if untouched(lent) {
        return " untouched".into();
    }
    let digits: String = lent.iter().map(u8::to_string).collect();
    format!(" {digits}")
}

/// How many turns were answered, refused with each number, and left the lent bytes alone.
#[derive(Default)]
pub struct Tally {
    answered: usize,
    refused: BTreeMap<u8, usize>,
    untouched: usize,
}

impl Tally {
    pub fn count(&mut self, told: &Told) {
        match told.refused {
            None => self.answered += 1,
            Some(number) => *self.refused.entry(number).or_default() += 1,
        }
        self.untouched += usize::from(told.untouched());
    }
    pub fn line(&self) -> String {
        let mut line = format!("{} answered", self.answered);
        for (number, count) in &self.refused {
            line += &format!(", {count} refused {number}");
        }
        if self.untouched > 0 {
            line += &format!(", {} untouched", self.untouched);
        }
        line
    }
}
