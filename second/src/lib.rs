//! The independent second program: frames, one unit, and the bench language, in plain Rust.

pub mod calls;
pub mod comparison;
pub mod drawing;
pub mod engine;
pub mod frames;
pub mod generate;
pub mod judge;
pub mod other;
pub mod random;
pub mod replay;
pub mod script;
pub mod shares;
pub mod trace;
pub mod trials;
