//! The original's answers, as the comparison asks for them.

#[path = "../comparison/containers/answer.rs"]
pub mod answer;
#[path = "../comparison/containers/original.rs"]
pub mod original;
#[path = "../comparison/containers/watch.rs"]
pub mod watch;
