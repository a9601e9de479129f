//! The published Rust beside ours, on the same inputs.
pub mod inputs;
pub mod published;
pub mod search;
