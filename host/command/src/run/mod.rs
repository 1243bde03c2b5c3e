//! Running a command on many films: where they come from, the workers, and the progress.

pub mod digests;
pub mod gate;
pub mod input;
pub mod lists;
pub mod outcomes;
pub mod packing;
pub mod progress;
pub mod rewrite;
pub mod sources;
pub mod streams;
pub mod tables;
pub mod workers;
