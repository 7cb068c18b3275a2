//! A buffer to lend: filled with a pattern that is no bit, between two margins of the same.
use std::fmt::Debug;
use std::ops::Range;

const PATTERN: u8 = 0xa5;
// Odd, so that no buffer is aligned by chance.
const MARGIN: usize = 63;

pub struct Lent {
    bytes: Vec<u8>,
    middle: Range<usize>,
}

impl Lent {
    pub fn new(len: usize) -> Self {
        Lent {
            bytes: vec![PATTERN; len + 2 * MARGIN],
            middle: MARGIN..MARGIN + len,
        }
    }
    pub fn lend(&mut self) -> &mut [u8] {
        &mut self.bytes[self.middle.clone()]
    }
    pub fn written(&self) -> &[u8] {
        &self.bytes[self.middle.clone()]
    }
    pub fn margins_whole(&self) -> bool {
        let outside = |place: &usize| !self.middle.contains(place);
        (0..self.bytes.len())
            .filter(outside)
            .all(|place| self.bytes[place] == PATTERN)
    }
    pub fn untouched(&self) -> bool {
        self.bytes.iter().all(|byte| *byte == PATTERN)
    }
    /// These bytes and nothing beside them, or where there are none, the pattern as it was.
    #[track_caller]
    pub fn holds(&self, bytes: Option<&[u8]>, input: impl Debug) {
        let Some(bytes) = bytes else {
            assert!(self.untouched(), "refused but written: {input:?}");
            return;
        };
        assert_eq!(self.written(), bytes, "{input:?}");
        assert!(self.margins_whole(), "written beside: {input:?}");
    }
}
