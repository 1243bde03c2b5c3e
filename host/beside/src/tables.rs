//! The comparison's tables.

#[path = "../comparison/tables/case.rs"]
pub mod case;
#[path = "../comparison/tables/columns.rs"]
pub mod columns;
#[path = "../comparison/tables/header.rs"]
pub mod header;
#[path = "../comparison/tables/layout.rs"]
pub mod layout;
#[path = "../comparison/tables/pointers.rs"]
pub mod pointers;
#[path = "../comparison/tables/shape.rs"]
pub mod shape;
#[path = "../comparison/tables/sketch.rs"]
pub mod sketch;

pub mod domain {
    pub const MOST_COLUMNS: u32 = 64;
    pub const MOST_ROWS: u32 = 256;
}
