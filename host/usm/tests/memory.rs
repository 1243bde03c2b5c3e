//! What a reader takes of memory: a window. A film of any length passes through it, with payloads of any length. What is
//! packed takes a chunk, and what gets another key the longest masked payload.

use std::alloc::{GlobalAlloc, Layout, System};
use std::io::{self, Read, Seek, SeekFrom};
use std::sync::Mutex;
use std::sync::atomic::{AtomicUsize, Ordering};

use films::{Film, Header};
use usm::{Audio, Lengths, Reader, Reading};

/// The system's memory, counted.
struct Counting;

static HELD: AtomicUsize = AtomicUsize::new(0);
static MOST: AtomicUsize = AtomicUsize::new(0);

// SAFETY: every call goes to the system's allocator as it is.
unsafe impl GlobalAlloc for Counting {
    unsafe fn alloc(&self, layout: Layout) -> *mut u8 {
        let held = HELD.fetch_add(layout.size(), Ordering::Relaxed) + layout.size();
        MOST.fetch_max(held, Ordering::Relaxed);
        unsafe { System.alloc(layout) }
    }

    unsafe fn dealloc(&self, memory: *mut u8, layout: Layout) {
        HELD.fetch_sub(layout.size(), Ordering::Relaxed);
        unsafe { System.dealloc(memory, layout) }
    }
}

#[global_allocator]
static COUNTING: Counting = Counting;

/// One test counts at a time.
static ALONE: Mutex<()> = Mutex::new(());

/// The most memory that some work holds beside what is held already.
fn most_of(work: impl FnOnce()) -> usize {
    let before = HELD.load(Ordering::Relaxed);
    MOST.store(before, Ordering::Relaxed);
    work();
    MOST.load(Ordering::Relaxed) - before
}

/// A film of any length that is nowhere: a header, then one chunk over and over.
struct Endless {
    header: Vec<u8>,
    chunk: Vec<u8>,
    length: u64,
    place: u64,
}

impl Endless {
    fn new(payload: usize, chunks: u64) -> Endless {
        let header = Film::new(&Header { audio: Some(Some(2)), ..Header::default() });
        let mut film = header.clone();
        film.chunk(b"@SFV", 0, 0, &vec![7; payload]);
        let chunk = film.bytes[header.bytes.len()..].to_vec();
        let length = header.bytes.len() as u64 + chunks * chunk.len() as u64;
        Endless { header: header.bytes, chunk, length, place: 0 }
    }
}

impl Read for Endless {
    fn read(&mut self, room: &mut [u8]) -> io::Result<usize> {
        let start = self.header.len() as u64;
        let bytes = match self.place.checked_sub(start) {
            None => &self.header[self.place as usize..],
            Some(_) if self.place >= self.length => &[],
            Some(place) => &self.chunk[(place % self.chunk.len() as u64) as usize..],
        };
        let count = room.len().min(bytes.len());
        room[..count].copy_from_slice(&bytes[..count]);
        self.place += count as u64;
        Ok(count)
    }
}

impl Seek for Endless {
    fn seek(&mut self, to: SeekFrom) -> io::Result<u64> {
        self.place = match to {
            SeekFrom::Start(place) => place,
            SeekFrom::Current(by) => self.place.saturating_add_signed(by),
            SeekFrom::End(by) => self.length.saturating_add_signed(by),
        };
        Ok(self.place)
    }
}

const WINDOW: usize = 256 << 10;
/// What else a reader holds: the beginning that it read first, while the window takes its place, and little more.
const BESIDE: usize = 24 << 10;

fn streams(payload: usize, chunks: u64, key: Option<u64>) -> usize {
    let film = Endless::new(payload, chunks);
    most_of(|| {
        let mut reader = Reader::new(film, Reading::default()).unwrap();
        let mut bytes = 0;
        while let Some(part) = reader.next_part(key).unwrap() {
            bytes += part.bytes.len() as u64;
        }
        assert_eq!(bytes, payload as u64 * chunks);
    })
}

#[test]
fn a_film_passes_through_a_window() {
    let _alone = ALONE.lock();
    for (payload, chunks) in [(0x8000, 300), (0x8000, 9000), (600, 50_000)] {
        for key in [None, Some(1)] {
            let most = streams(payload, chunks, key);
            assert!(most <= WINDOW + BESIDE, "{payload} {chunks} {key:?}: {most}");
            assert!(most >= WINDOW, "what is counted is the window: {most}");
        }
    }
}

#[test]
fn a_payload_that_is_made_clear_goes_by_pieces() {
    let _alone = ALONE.lock();
    for payload in [WINDOW + 1, 20 << 20] {
        for key in [None, Some(1)] {
            let most = streams(payload, 3, key);
            assert!(most <= WINDOW + BESIDE, "{payload} {key:?}: {most}");
        }
    }
}

/// No function masks a payload piece by piece.
#[test]
fn a_payload_that_gets_another_key_is_held_whole() {
    let _alone = ALONE.lock();
    let payload = 20 << 20;
    let source = Endless::new(payload, 2);
    let most = most_of(|| {
        let mut reader = Reader::new(source, Reading::default()).unwrap();
        let mut rekeying = reader.rekey(1, 2).unwrap();
        while rekeying.next_piece().unwrap().is_some() {}
    });
    assert!((payload..=payload + WINDOW + BESIDE).contains(&most), "{most}");
}

#[test]
fn heads_alone_and_another_key() {
    let _alone = ALONE.lock();
    let film = || Endless::new(0x8000, 5000);
    let heads = most_of(|| {
        let mut reader = Reader::new(film(), Reading::default()).unwrap();
        assert_eq!(reader.chunks().count(), 5000);
    });
    let made = film().header.len() + film().chunk.len();
    assert!(heads <= WINDOW + 3 * made + BESIDE, "{heads}");
    let source = film();
    let rekeyed = most_of(|| {
        let mut reader = Reader::new(source, Reading::default()).unwrap();
        let mut rekeying = reader.rekey(1, 2).unwrap();
        let mut bytes = 0;
        while let Some(piece) = rekeying.next_piece().unwrap() {
            bytes += piece.len();
        }
        assert!(bytes > 5000 * 0x8000);
    });
    assert!(rekeyed <= WINDOW + BESIDE, "{rekeyed}");
}

/// 24 bytes for each video payload, and as many again while it grows.
#[test]
fn an_index_takes_its_entries() {
    let _alone = ALONE.lock();
    let (source, chunks) = (Endless::new(16, 100_000), 100_000);
    let most = most_of(|| {
        let mut reader = Reader::new(source, Reading::default().with_audio(Audio::None)).unwrap();
        assert_eq!(reader.index().unwrap().len(), chunks);
    });
    assert!(most <= WINDOW + 4 * 24 * chunks, "{most}");
}

#[test]
fn packing_takes_a_chunk() {
    let _alone = ALONE.lock();
    let chunk = 65_536 + 32;
    for bytes in [100_000, 100_000_000] {
        let lengths = Lengths::new(b"lark", bytes).with_audio(bytes).with_codecs(None, Some(2));
        let most = most_of(|| {
            usm::pack_to(lengths, Some(1), io::repeat(1), io::repeat(2), io::sink()).unwrap();
        });
        assert!((chunk..=chunk + BESIDE).contains(&most), "{bytes}: {most}");
    }
}
