//! The channel codecs of the Rust, unchanged. Each module has a child `probe`: a door to its
//! private parts, which only a child can open.

/// traffic.rs names modules that are not in the text; the codecs read one constant of it.
pub mod traffic {
    pub const SACCH_BITS: usize = 12;
}
pub mod dcch {
    include!(concat!(
        env!("ORACLE_SOURCES"),
        "/crates/bts136/src/phy/dcch.rs"
    ));
    pub mod probe {
        use super::*;
        pub fn decode_soft(
            f: BlockFormat,
            e: &[f64],
            d: u8,
            m: CrcMode,
        ) -> Result<DecodedBlock, BlockError> {
            super::decode_soft(f, e, d, m)
        }
        pub fn checksum(i: &[bool], d: u8, m: CrcMode) -> u16 {
            super::checksum(i, d, m)
        }
        pub fn transition(s: u8, i: bool) -> (u8, [bool; 2]) {
            super::transition(s, i)
        }
        pub fn permutation(f: BlockFormat) -> Vec<usize> {
            super::permutation(f)
        }
        pub fn viterbi(e: &[bool]) -> (Vec<bool>, u16) {
            super::viterbi(e)
        }
        pub fn viterbi_soft(e: &[f64]) -> Vec<bool> {
            super::viterbi_soft(e)
        }
        pub fn convolutional_encode(i: &[bool]) -> Vec<bool> {
            super::convolutional_encode(i)
        }
        pub fn deinterleave(f: BlockFormat, e: &[bool]) -> Vec<bool> {
            super::deinterleave(f, e)
        }
    }
}
pub mod facch {
    include!(concat!(
        env!("ORACLE_SOURCES"),
        "/crates/bts136/src/phy/facch.rs"
    ));
    pub mod probe {
        pub fn transition(s: u8, i: bool) -> (u8, [bool; 4]) {
            super::transition(s, i)
        }
        pub fn index(r: usize, c: usize) -> usize {
            super::index(r, c)
        }
    }
}
pub mod sacch {
    include!(concat!(
        env!("ORACLE_SOURCES"),
        "/crates/bts136/src/phy/sacch.rs"
    ));
    pub mod probe {
        use super::*;
        #[derive(Debug, Clone, PartialEq, Eq, Default)]
        pub struct State {
            pub fields: [[bool; 12]; 12],
            pub field_cursor: usize,
            pub received: usize,
            pub rows: [[bool; 12]; 11],
            pub cursor: usize,
            pub available: usize,
            pub phase: usize,
            pub locked: Option<usize>,
        }
        pub fn receiver(s: &State) -> SacchReceiver {
            SacchReceiver {
                deinterleaver: SacchDeinterleaver {
                    history: s.fields,
                    cursor: s.field_cursor,
                    received: s.received,
                },
                rows: s.rows,
                cursor: s.cursor,
                available: s.available,
                phase: s.phase,
                locked_phase: s.locked,
            }
        }
        pub fn state(r: &SacchReceiver) -> State {
            State {
                fields: r.deinterleaver.history,
                field_cursor: r.deinterleaver.cursor,
                received: r.deinterleaver.received,
                rows: r.rows,
                cursor: r.cursor,
                available: r.available,
                phase: r.phase,
                locked: r.locked_phase,
            }
        }
        pub fn encoder(state: u8, history: [[bool; 12]; 12], cursor: usize) -> SacchEncoder {
            SacchEncoder {
                state,
                history,
                cursor,
            }
        }
        pub type Fields = ([[bool; 12]; 12], usize, usize);
        pub fn deinterleaver((history, cursor, received): Fields) -> SacchDeinterleaver {
            SacchDeinterleaver {
                history,
                cursor,
                received,
            }
        }
        pub fn deinterleaver_state(d: &SacchDeinterleaver) -> Fields {
            (d.history, d.cursor, d.received)
        }
        pub fn encoder_state(e: &SacchEncoder) -> (u8, [[bool; 12]; 12], usize) {
            (e.state, e.history, e.cursor)
        }
    }
}
pub mod acelp_cc1 {
    include!(concat!(
        env!("ORACLE_SOURCES"),
        "/crates/bts136/src/phy/acelp_cc1.rs"
    ));
    pub mod probe {
        pub fn transition(s: usize, b: bool) -> (usize, [bool; 2]) {
            super::transition(s, b)
        }
        pub fn information_position(i: usize) -> usize {
            super::information_position(i)
        }
        pub fn checksum(b: &[bool]) -> u8 {
            super::checksum(b)
        }
        pub fn punctured(s: usize) -> bool {
            super::punctured(s)
        }
        pub const CRC_POSITIONS: [usize; 7] = super::CRC_POSITIONS;
        pub const SPEECH_ORDER: [usize; 148] = super::SPEECH_ORDER;
        pub const INTERLEAVER: [[usize; 10]; 26] = super::INTERLEAVER;
    }
}
pub mod speech {
    include!(concat!(
        env!("ORACLE_SOURCES"),
        "/crates/bts136/src/phy/speech.rs"
    ));
    pub mod probe {
        pub fn is_class_two(i: usize) -> bool {
            super::is_class_two(i)
        }
        pub fn checksum(i: &[bool; 89]) -> u8 {
            super::checksum(i)
        }
        pub const SIGNIFICANT_POSITIONS: [usize; 12] = super::SIGNIFICANT_POSITIONS;
    }
}
