//! What a call replies, held against what it should.

use std::fmt::Debug;

pub fn same<R: PartialEq + Debug>(found: R, expected: R) -> Result<(), String> {
    if found == expected {
        return Ok(());
    }
    Err(format!("the reply is {found:?}, and {expected:?} is expected"))
}
