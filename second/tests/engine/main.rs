//! One unit: the cases of the rules, its steps, its soundness.

mod cases;
mod common;
mod soundness;
mod steps;
