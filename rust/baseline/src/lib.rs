//! Plain safe Rust engines for the benchmark.
//!
//! Each keeps a window of at most 16 pending server jobs per server. `Tick`
//! walks tick by tick; `Event` jumps to the next release or completion. They
//! share every part but the length of a step, so that the ratio between them
//! measures just that. `Tuned` jumps too, with every trick of the proved engine.
//!
//! - `answer`: what a call returns;
//! - `table`, `reader`: the table in fixed arrays, read from bytes;
//! - `window`: one server's pending server jobs;
//! - `chosen`: the server jobs that run;
//! - `engine`: one step of the schedule;
//! - `walk`: boundaries and the stop;
//! - `tuned`: the engine and the walk of `Tuned`;
//! - `writer`: the text of an answer;
//! - `call`: the two calls with a lent buffer;
//! - `salvage`: a spoiled text mended.
#![forbid(unsafe_code)]

mod answer;
mod call;
mod chosen;
mod engine;
mod reader;
mod salvage;
mod table;
mod tuned;
mod walk;
mod window;
mod writer;

pub use answer::Answer;
pub use call::{Pace, report, row};
pub use salvage::{Salvaged, salvage};
