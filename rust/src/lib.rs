//! The channel codecs of IS-136 (DCCH, FACCH, SACCH, ACELP CC1 and VSELP), proved in Rattle and
//! linked as a static library.
//!
//! The modules [`dcch`], [`facch`], [`sacch`], [`acelp_cc1`] and [`speech`] mirror those of `phy`
//! in the base station 136-bts: the same names, arguments and answers, so that a caller changes a
//! `use` line. What could not be kept is said at the top of each.
//!
//! Every error knows its number, that of [`Refusal`]:
//!
//! ```
//! use bts136::dcch::{self, BlockFormat, CrcMode};
//!
//! let zeros = [false; 260];
//! let block = dcch::decode(BlockFormat::Forward, &zeros, 0, CrcMode::Addressed)?;
//! assert_eq!(block.corrected_coded_bits, 0);
//!
//! let error = dcch::decode(BlockFormat::Forward, &zeros, 0, CrcMode::Broadcast).unwrap_err();
//! assert_eq!(error.number(), 3);
//! # Ok::<(), dcch::BlockError>(())
//! ```
//!
//! Two layers lie below. [`flat`] has every call of the library on slices of bytes, for callers
//! who hold bits as bytes 0 and 1; it is safe on any bytes and any lengths. [`sys`] declares the
//! library's functions and records as C has them.
//!
//! `rt lib` in `crates/bts136` builds the library. The variable BTS136_LIB names it where it does
//! not lie in `out/` there.
#![deny(missing_docs)]
#![deny(unsafe_code)]

pub mod acelp_cc1;
mod bits;
pub mod dcch;
pub mod facch;
#[allow(unsafe_code)]
pub mod flat;
mod refusal;
pub mod sacch;
pub mod speech;
#[allow(unsafe_code)]
pub mod sys;

pub use refusal::Refusal;
