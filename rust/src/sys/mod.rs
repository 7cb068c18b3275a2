//! The library as C has it: `include/bts136.h` in Rust. [`flat`](crate::flat) has a safe call for
//! each function.
mod functions;
mod records;

pub use functions::*;
pub use records::*;
