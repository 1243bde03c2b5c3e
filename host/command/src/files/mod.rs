//! The files that a run makes: their names, how they come into being, and where they go.

pub mod identity;
pub mod leftovers;
pub mod names;
pub mod replaced;
pub mod staged;
pub mod system;
pub mod targets;
