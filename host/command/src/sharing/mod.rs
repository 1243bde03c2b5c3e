//! Why tenants share a copy of a film, and where two copies of it part: for the statement and for the bill.

pub mod apart;
pub mod classes;
pub mod shown;
pub mod why;
