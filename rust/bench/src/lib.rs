//! The benchmark: the same tables through each library, in one run.
//!
//! - `tables`: what is walked;
//! - `measure`: how a call is timed;
//! - `print`: the lines printed;
//! - `stack`: the stack that a call needs.
#![forbid(unsafe_code)]

pub mod measure;
pub mod print;
pub mod stack;
pub mod tables;
