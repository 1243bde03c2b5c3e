//! Which file a path leads to, whatever it is called, and whether it is as it was.

use std::fs::Metadata;
use std::os::unix::fs::MetadataExt;
use std::time::{Duration, SystemTime, UNIX_EPOCH};

/// A file by its device and inode.
#[derive(Clone, Copy, PartialEq, Eq, Hash, Debug)]
pub struct FileId {
    pub device: u64,
    pub inode: u64,
}

impl FileId {
    pub fn of(metadata: &Metadata) -> FileId {
        FileId { device: metadata.dev(), inode: metadata.ino() }
    }
}

/// Which file a film is, and when it was changed.
#[derive(Clone, Copy, PartialEq, Eq, Debug)]
pub struct Identity {
    pub id: FileId,
    pub size: u64,
    /// In nanoseconds.
    pub mtime: i64,
}

/// A film that was changed so recently may change again without a new time.
const RECENT: Duration = Duration::from_secs(2);

impl Identity {
    pub fn of(metadata: &Metadata) -> Identity {
        let mtime = metadata.mtime().saturating_mul(1_000_000_000).saturating_add(metadata.mtime_nsec());
        Identity { id: FileId::of(metadata), size: metadata.len(), mtime }
    }

    /// Whether the file is so new that its time may not show the next change.
    pub fn is_recent(&self) -> bool {
        let now = SystemTime::now().duration_since(UNIX_EPOCH).unwrap_or_default();
        i128::from(self.mtime) + RECENT.as_nanos() as i128 > now.as_nanos() as i128
    }
}
