//! The speech parameters of the Rust, unchanged; build.rs lays them out.
pub mod mr74 {
    include!(concat!(env!("OUT_DIR"), "/mr74/mod.rs"));
}
