//! The original Rust: seiunx-dev/cridecoder at commit 7a664164f4, its three files as published,
//! with the modules of access/ appended to two of them.

// Most of the original is not called here.
#![allow(dead_code)]

pub mod reader;

pub mod usm {
    pub mod builder;
    pub mod extractor;
}
