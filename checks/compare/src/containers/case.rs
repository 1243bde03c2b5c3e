//! One container to read, and the calls that read it.

use super::call::Call;
use crate::damage::Slice;

/// Zero bytes after a container: whoever reads too far finds them.
const AFTER: usize = 64;

#[derive(Clone)]
pub struct Case {
    /// The container, and bytes after it that no reader may see.
    pub whole: Vec<u8>,
    pub length: usize,
    pub calls: Vec<Call>,
    /// Whether the original may be asked in a child process where it costs gigabytes.
    pub in_child: bool,
}

impl Case {
    pub fn new(container: &[u8], calls: Vec<Call>) -> Case {
        let mut whole = container.to_vec();
        whole.extend([0; AFTER]);
        Case { whole, length: container.len(), calls, in_child: false }
    }

    pub fn container(&self) -> &[u8] {
        &self.whole[..self.length]
    }
}

impl Slice for Case {
    fn whole(&self) -> &[u8] {
        &self.whole
    }

    fn length(&self) -> usize {
        self.length
    }

    fn parts(&mut self) -> (&mut [u8], &mut usize) {
        (&mut self.whole, &mut self.length)
    }
}
