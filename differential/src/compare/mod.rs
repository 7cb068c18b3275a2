//! One call, or one list of calls, of both sides compared: the answer, every byte of a lent buffer
//! and every part of a state. Each takes any input: what the port refuses and the original cannot
//! be given is compared with document 01's numbers. A difference panics with the input and both
//! answers; the answer that both gave is returned.
pub mod acelp;
pub mod checksum;
pub mod dcch;
pub mod facch;
pub mod frames;
pub mod listening;
pub mod sacch;
pub mod sacch_deinterleaver;
pub mod sacch_encoder;
pub mod sacch_receiver;
pub mod search;
pub mod speech;
pub mod steps;
