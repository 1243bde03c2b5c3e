//! The subcommands, one in each file.

pub mod bill;
pub mod clip;
pub mod completions;
pub mod csv;
pub mod digest;
pub mod extract;
pub mod extract_one;
pub mod from_old;
pub mod index;
pub mod info;
pub mod keys;
pub mod list;
pub mod pack;
pub mod profile;
pub mod rekey;
pub mod salvage;
pub mod seek;
pub mod statement;
pub mod table;
pub mod to_old;
