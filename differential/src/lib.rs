//! The Rust of 136-bts, unchanged, beside the port of it that is linked as an archive, and what
//! the tests, the benchmark and the recorder share.
pub mod air;
pub mod blocks;
pub mod calls;
pub mod channel;
pub mod codec;
pub mod compare;
pub mod lent;
pub mod lines;
#[cfg(osmocore)]
pub mod osmo;
pub mod phy;
pub mod port;
pub mod port_facch;
pub mod port_sacch;
pub mod port_soft;
pub mod port_speech;
pub mod prng;
pub mod records;
pub mod reference;
pub mod reference_facch;
pub mod reference_soft;
pub mod registers;
pub mod reliabilities;
pub mod survey;
pub mod tally;
pub mod timing;
pub mod verdict;
