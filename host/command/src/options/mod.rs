//! Options that several commands share.

pub mod codecs;
pub mod jobs;
pub mod key;
pub mod limit;
pub mod reading;
pub mod tenants;
