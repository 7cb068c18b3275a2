//! libosmocore's convolutional decoder, set up for the DCCH code in two ways.
//!
//! It has a SIMD decoder for K = 7 but none for K = 6, and that one takes every generator to have
//! both its ends tapped: with a sixth memory bit left untapped it decodes wrong. So the code is
//! given to it multiplied by 1 + D, which keeps the ends tapped; what it finds is then the running
//! sum of the word. A sum need not end at zero, so the end is left open, and known zeros after the
//! block say that the word has ended.
use std::ffi::c_int;
use std::ptr::null;

/// `struct osmo_conv_code` of osmocom/core/conv.h.
#[repr(C)]
struct ConvCode {
    n: c_int,
    k: c_int,
    len: c_int,
    term: c_int,
    next_output: *const [u8; 2],
    next_state: *const [u8; 2],
    next_term_output: *const u8,
    next_term_state: *const u8,
    puncture: *const c_int,
}

unsafe extern "C" {
    fn osmo_conv_decode(code: *const ConvCode, input: *const i8, output: *mut u8) -> c_int;
}

const FLUSH: c_int = 0;
const TRUNCATION: c_int = 1;
const TAIL: usize = 5;
/// Pairs that are zero only if the memory is.
const KNOWN: usize = 6;
/// Octal 65 and 57 with the newest input lowest.
const TAPS: [usize; 2] = [0b101011, 0b111101];

pub struct Osmo {
    steps: usize,
    code: ConvCode,
    // The code points into these.
    _output: Box<[[u8; 2]; 64]>,
    _state: Box<[[u8; 2]; 64]>,
}

impl Osmo {
    /// K = 6: the generic decoder.
    pub fn generic(steps: usize) -> Self {
        Osmo::new(steps, 6, TAPS, steps - TAIL, FLUSH)
    }
    /// K = 7: the SIMD decoder.
    pub fn simd(steps: usize) -> Self {
        let taps = TAPS.map(|taps| taps ^ taps << 1);
        Osmo::new(steps, 7, taps, steps + KNOWN, TRUNCATION)
    }
    fn new(steps: usize, k: usize, taps: [usize; 2], len: usize, term: c_int) -> Self {
        let mut output = Box::new([[0; 2]; 64]);
        let mut state = Box::new([[0; 2]; 64]);
        for before in 0..1 << (k - 1) {
            for input in 0..2 {
                let register = before << 1 | input;
                let bit = |taps: usize| ((register & taps).count_ones() & 1) as u8;
                output[before][input] = bit(taps[0]) << 1 | bit(taps[1]);
                state[before][input] = (register % (1 << (k - 1))) as u8;
            }
        }
        let code = ConvCode {
            n: 2,
            k: k as c_int,
            len: len as c_int,
            term,
            next_output: output.as_ptr(),
            next_state: state.as_ptr(),
            next_term_output: null(),
            next_term_state: null(),
            puncture: null(),
        };
        Osmo {
            steps,
            code,
            _output: output,
            _state: state,
        }
    }
    fn is_simd(&self) -> bool {
        self.code.k == 7
    }
    fn known(&self) -> usize {
        if self.is_simd() { KNOWN } else { 0 }
    }
    /// The coded bits as soft bits. Known zeros outweigh all that was received.
    pub fn soft(&self, coded: &[bool]) -> Vec<i8> {
        assert_eq!(coded.len(), 2 * self.steps);
        let received = if self.is_simd() { 1 } else { i8::MAX };
        let soft = coded
            .iter()
            .map(|bit| if *bit { -received } else { received });
        soft.chain(vec![i8::MAX; 2 * self.known()]).collect()
    }
    /// How many bits `decode` writes.
    pub fn written(&self) -> usize {
        self.code.len as usize
    }
    /// Decodes what `soft` made.
    pub fn decode(&self, soft: &[i8], bits: &mut [u8]) {
        assert_eq!(soft.len(), 2 * (self.steps + self.known()));
        assert_eq!(bits.len(), self.written());
        unsafe { osmo_conv_decode(&self.code, soft.as_ptr(), bits.as_mut_ptr()) };
    }
    /// The word in what `decode` wrote.
    pub fn word(&self, bits: &[u8]) -> Vec<bool> {
        let before = |step: usize| {
            if self.is_simd() && step > 0 {
                bits[step - 1]
            } else {
                0
            }
        };
        let input = |step: usize| step < bits.len() && bits[step] ^ before(step) == 1;
        (0..self.steps).map(input).collect()
    }
}
