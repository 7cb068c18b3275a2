//! The header against the archive and the crate.
mod c;
mod calls;
mod functions;
mod layout;
mod lengths;
mod stack;
