//! The functions of libplayer.a and libusm.a as include/usm.h declares them, behind safe calls. All `unsafe` of this
//! crate stands here.
#![allow(unsafe_code)]

use std::mem::MaybeUninit;

/// The bytes of a key's tables T, V and A.
pub const KEY_TABLE_BYTES: usize = 96;

/// The bytes of a chunk's head.
pub const HEAD_BYTES: usize = 32;

#[repr(C)]
#[derive(Clone, Copy, Default, PartialEq, Eq, Debug)]
pub struct Reading {
    pub audio: u8,
    pub channel: u8,
    pub payloads: u8,
    pub tables: u8,
}

#[repr(C)]
#[derive(Clone, Copy, Default, PartialEq, Eq, Debug)]
pub struct Key {
    pub number: u64,
    pub given: u8,
}

#[repr(C)]
#[derive(Clone, Copy, Default, PartialEq, Eq, Debug)]
pub struct TableReply {
    pub refused_at: usize,
    pub columns: usize,
    pub rows: usize,
    pub number: u8,
    pub unknown_type: u8,
}

#[repr(C)]
#[derive(Clone, Copy, Default, PartialEq, Eq, Debug)]
pub struct CellReply {
    pub refused_at: usize,
    pub value: u64,
    pub length: usize,
    pub number: u8,
    pub unknown_type: u8,
    pub kind: u8,
}

#[repr(C)]
#[derive(Clone, Copy, Default, PartialEq, Eq, Debug)]
pub struct ColumnReply {
    pub refused_at: usize,
    pub name_start: usize,
    pub name_length: usize,
    pub number: u8,
    pub unknown_type: u8,
    pub storage: u8,
    pub type_byte: u8,
}

#[repr(C)]
#[derive(Clone, Copy, Default, PartialEq, Eq, Debug)]
pub struct FilmReply {
    pub refused_at: usize,
    pub name_start: usize,
    pub name_length: usize,
    pub video_size: usize,
    pub audio_size: usize,
    pub video_codec: u32,
    pub audio_codec: u32,
    pub number: u8,
    pub unknown_type: u8,
    pub name_source: u8,
    pub has_audio: u8,
    pub has_video_codec: u8,
    pub has_audio_codec: u8,
    pub video_kind: u8,
    pub audio_kind: u8,
}

#[repr(C)]
#[derive(Clone, Copy, Default, PartialEq, Eq, Debug)]
pub struct Chunk {
    pub start: usize,
    pub kind: u8,
    pub data_type: u8,
    pub channel: u8,
    pub offset: u32,
    pub length: usize,
}

#[repr(C)]
#[derive(Clone, Copy, Default, PartialEq, Eq, Debug)]
pub struct ListReply {
    pub refused_at: usize,
    pub count: usize,
    pub number: u8,
    pub unknown_type: u8,
}

#[repr(C)]
#[derive(Clone, Copy, Default, PartialEq, Eq, Debug)]
pub struct SizeReply {
    pub refused_at: usize,
    pub size: usize,
    pub number: u8,
    pub unknown_type: u8,
}

#[repr(C)]
#[derive(Clone, Copy, Default, PartialEq, Eq, Debug)]
pub struct Packing {
    pub key: Key,
    pub video_codec: u32,
    pub audio_codec: u32,
    pub has_audio: u8,
    pub has_video_codec: u8,
    pub has_audio_codec: u8,
}

#[repr(C)]
#[derive(Clone, Copy, Default, PartialEq, Eq, Debug)]
pub struct Codecs {
    pub video_codec: u32,
    pub audio_codec: u32,
    pub has_video_codec: u8,
    pub has_audio_codec: u8,
}

#[repr(C)]
#[derive(Clone, Copy, Default, PartialEq, Eq, Debug)]
pub struct SalvageReply {
    pub refused_at: usize,
    pub kept: usize,
    pub dropped: usize,
    pub number: u8,
    pub unknown_type: u8,
    pub cause: u8,
}

#[repr(C)]
#[derive(Clone, Copy, Default, PartialEq, Eq, Debug)]
pub struct ProfileReply {
    pub refused_at: usize,
    pub place: usize,
    pub number: u8,
    pub unknown_type: u8,
    pub rule: u8,
    pub stream: u8,
}

/// What the chunks of a film have shown of its profile so far.
#[repr(C)]
#[derive(Clone, Copy, Default, PartialEq, Eq, Debug)]
pub struct Profiling {
    pub place: usize,
    pub rule: u8,
    pub stream: u8,
    pub video: u8,
    pub audio: u8,
}

#[repr(C)]
#[derive(Clone, Copy, Default, PartialEq, Eq, Debug)]
pub struct Tenant {
    pub number: u64,
    pub key: u64,
}

#[repr(C)]
#[derive(Clone, Copy, Default, PartialEq, Eq, Debug)]
pub struct Share {
    pub tenant: u64,
    pub group: u64,
    pub share: u64,
}

#[repr(C)]
#[derive(Clone, Copy, Default, PartialEq, Eq, Debug)]
pub struct IndexEntry {
    pub place: u64,
    pub chunk: u64,
    pub length: u64,
}

#[repr(C)]
#[derive(Clone, Copy, Default, PartialEq, Eq, Debug)]
pub struct SeekReply {
    pub chunk: u64,
    pub offset: u64,
    pub found: u8,
}

#[repr(C)]
#[derive(Clone, Copy, Default, PartialEq, Eq, Debug)]
pub struct KeyBitsReply {
    pub refused_at: usize,
    pub bits: u64,
    pub number: u8,
    pub unknown_type: u8,
}

#[repr(C)]
#[derive(Clone, Copy, Default, PartialEq, Eq, Debug)]
pub struct ApartReply {
    pub refused_at: usize,
    pub byte: usize,
    pub chunk: usize,
    pub offset: usize,
    pub number: u8,
    pub unknown_type: u8,
    pub stream: u8,
}

/// Where the tables of a header stand in the film; 0 for those of audio that is not there.
#[repr(C)]
#[derive(Clone, Copy, Default, PartialEq, Eq, Debug)]
pub struct HeaderTables {
    pub name: usize,
    pub video: usize,
    pub audio: usize,
    pub video_metadata: usize,
    pub audio_metadata: usize,
}

#[repr(C)]
#[derive(Clone, Copy, Default, PartialEq, Eq, Debug)]
pub struct TablesReply {
    pub refused_at: usize,
    pub tables: HeaderTables,
    pub number: u8,
    pub unknown_type: u8,
    pub more: u8,
}

#[repr(C)]
#[derive(Clone, Copy, Default, PartialEq, Eq, Debug)]
pub struct OpenReply {
    pub film: FilmReply,
    pub chunks: usize,
    pub more: u8,
}

#[repr(C)]
#[derive(Clone, Copy, Default, PartialEq, Eq, Debug)]
pub struct FilmAudio {
    pub codec: u32,
    pub present: u8,
    pub has_codec: u8,
}

#[repr(C)]
#[derive(Clone, Copy, Default, PartialEq, Eq, Debug)]
pub struct StepReply {
    pub refused_at: usize,
    pub next: usize,
    pub payload: usize,
    pub length: usize,
    pub number: u8,
    pub unknown_type: u8,
    pub found: u8,
    pub kind: u8,
    pub data_type: u8,
    pub channel: u8,
    pub mask: u8,
}

#[repr(C)]
#[derive(Clone, Copy, Default, PartialEq, Eq, Debug)]
pub struct TurnReply {
    pub head: SizeReply,
    pub next: usize,
    pub from: usize,
    pub length: usize,
    pub padding: usize,
    pub found: u8,
    pub kind: u8,
    pub mask: u8,
}

/// Holds a struct to the size and the offsets that usm.h gives it.
macro_rules! is_laid_out {
    ($name:ident, $size:literal, $($field:ident: $offset:literal),+) => {
        const _: () = assert!(size_of::<$name>() == $size);
        $(const _: () = assert!(std::mem::offset_of!($name, $field) == $offset);)+
    };
}

is_laid_out!(Reading, 4, audio: 0, channel: 1, payloads: 2, tables: 3);
is_laid_out!(Key, 16, number: 0, given: 8);
is_laid_out!(TableReply, 32, refused_at: 0, columns: 8, rows: 16, number: 24, unknown_type: 25);
is_laid_out!(CellReply, 32, refused_at: 0, value: 8, length: 16, number: 24, unknown_type: 25, kind: 26);
is_laid_out!(ColumnReply, 32, refused_at: 0, name_start: 8, name_length: 16, number: 24, unknown_type: 25, storage: 26, type_byte: 27);
is_laid_out!(FilmReply, 56, refused_at: 0, name_start: 8, name_length: 16, video_size: 24, audio_size: 32, video_codec: 40, audio_codec: 44, number: 48, unknown_type: 49, name_source: 50, has_audio: 51, has_video_codec: 52, has_audio_codec: 53, video_kind: 54, audio_kind: 55);
is_laid_out!(Chunk, 24, start: 0, kind: 8, data_type: 9, channel: 10, offset: 12, length: 16);
is_laid_out!(ListReply, 24, refused_at: 0, count: 8, number: 16, unknown_type: 17);
is_laid_out!(SizeReply, 24, refused_at: 0, size: 8, number: 16, unknown_type: 17);
is_laid_out!(Packing, 32, key: 0, video_codec: 16, audio_codec: 20, has_audio: 24, has_video_codec: 25, has_audio_codec: 26);
is_laid_out!(Codecs, 12, video_codec: 0, audio_codec: 4, has_video_codec: 8, has_audio_codec: 9);
is_laid_out!(SalvageReply, 32, refused_at: 0, kept: 8, dropped: 16, number: 24, unknown_type: 25, cause: 26);
is_laid_out!(ProfileReply, 24, refused_at: 0, place: 8, number: 16, unknown_type: 17, rule: 18, stream: 19);
is_laid_out!(Profiling, 16, place: 0, rule: 8, stream: 9, video: 10, audio: 11);
is_laid_out!(Tenant, 16, number: 0, key: 8);
is_laid_out!(Share, 24, tenant: 0, group: 8, share: 16);
is_laid_out!(IndexEntry, 24, place: 0, chunk: 8, length: 16);
is_laid_out!(KeyBitsReply, 24, refused_at: 0, bits: 8, number: 16, unknown_type: 17);
is_laid_out!(ApartReply, 40, refused_at: 0, byte: 8, chunk: 16, offset: 24, number: 32, unknown_type: 33, stream: 34);
is_laid_out!(HeaderTables, 40, name: 0, video: 8, audio: 16, video_metadata: 24, audio_metadata: 32);
is_laid_out!(TablesReply, 56, refused_at: 0, tables: 8, number: 48, unknown_type: 49, more: 50);
is_laid_out!(OpenReply, 72, film: 0, chunks: 56, more: 64);
is_laid_out!(FilmAudio, 8, codec: 0, present: 4, has_codec: 5);
is_laid_out!(StepReply, 40, refused_at: 0, next: 8, payload: 16, length: 24, number: 32, unknown_type: 33, found: 34, kind: 35, data_type: 36, channel: 37, mask: 38);
is_laid_out!(TurnReply, 64, head: 0, next: 24, from: 32, length: 40, padding: 48, found: 56, kind: 57, mask: 58);
is_laid_out!(SeekReply, 24, chunk: 0, offset: 8, found: 16);

#[link(name = "player", kind = "static")]
unsafe extern "C" {
    pub fn usm_key_table(key: u64, table: *mut u8, len: usize) -> usize;
    pub fn usm_unmask_video(key: u64, payload: *mut u8, len: usize);
    pub fn usm_mask_video(key: u64, payload: *mut u8, len: usize);
    pub fn usm_unmask_audio(key: u64, payload: *mut u8, len: usize);
    pub fn usm_mask_audio(key: u64, payload: *mut u8, len: usize);
}

#[link(name = "usm", kind = "static")]
unsafe extern "C" {
    pub fn usm_table(bytes: *const u8, len: usize, place: usize, reading: Reading) -> TableReply;
    pub fn usm_cell(
        bytes: *const u8,
        len: usize,
        place: usize,
        name: *const u8,
        name_len: usize,
        row: usize,
        reading: Reading,
    ) -> CellReply;
    pub fn usm_column(bytes: *const u8, len: usize, place: usize, column: usize, reading: Reading) -> ColumnReply;
    pub fn usm_cell_at(
        bytes: *const u8,
        len: usize,
        place: usize,
        column: usize,
        row: usize,
        reading: Reading,
    ) -> CellReply;
    pub fn usm_extract(
        container: *const u8,
        len: usize,
        reading: Reading,
        key: Key,
        fallback: *const u8,
        fallback_len: usize,
        video: *mut u8,
        video_len: usize,
        audio: *mut u8,
        audio_len: usize,
    ) -> FilmReply;
    pub fn usm_list(container: *const u8, len: usize, reading: Reading, list: *mut Chunk, room: usize) -> ListReply;
    pub fn usm_write(
        name: *const u8,
        name_len: usize,
        video: *const u8,
        video_len: usize,
        audio: *const u8,
        audio_len: usize,
        packing: Packing,
        out: *mut u8,
        out_len: usize,
    ) -> SizeReply;
    pub fn usm_write_open(
        name: *const u8,
        name_len: usize,
        video: usize,
        audio: usize,
        packing: Packing,
        out: *mut u8,
        out_len: usize,
    ) -> SizeReply;
    pub fn usm_write_chunk(
        video: usize,
        audio: usize,
        turn: usize,
        packing: Packing,
        head: *mut u8,
        head_len: usize,
    ) -> TurnReply;
    pub fn usm_write_payload(key: u64, mask: u8, payload: *mut u8, len: usize) -> SizeReply;
    pub fn usm_write_end(packing: Packing, out: *mut u8, out_len: usize) -> SizeReply;
    pub fn usm_from_old(container: *const u8, len: usize, codecs: Codecs, out: *mut u8, out_len: usize) -> SizeReply;
    pub fn usm_to_old(container: *const u8, len: usize, out: *mut u8, out_len: usize) -> SizeReply;
    pub fn usm_csv(
        bytes: *const u8,
        len: usize,
        place: usize,
        reading: Reading,
        out: *mut u8,
        out_len: usize,
    ) -> SizeReply;
    pub fn usm_salvage(container: *const u8, len: usize) -> SalvageReply;
    pub fn usm_profile(container: *const u8, len: usize) -> ProfileReply;
    pub fn usm_profile_begin(audio: FilmAudio) -> Profiling;
    pub fn usm_profile_step(window: *const u8, len: usize, place: usize, known: Profiling) -> Profiling;
    pub fn usm_profile_end(total: usize, known: Profiling) -> ProfileReply;
    pub fn usm_statement(
        container: *const u8,
        len: usize,
        tenants: *const Tenant,
        count: usize,
        lines: *mut Share,
        room: usize,
    ) -> ListReply;
    pub fn usm_index(container: *const u8, len: usize, index: *mut IndexEntry, room: usize) -> ListReply;
    pub fn usm_key_bits(container: *const u8, len: usize, reading: Reading) -> KeyBitsReply;
    pub fn usm_open(beginning: *const u8, len: usize, total: usize, reading: Reading) -> OpenReply;
    pub fn usm_header_tables(beginning: *const u8, len: usize, total: usize, reading: Reading) -> TablesReply;
    pub fn usm_step(
        window: *const u8,
        len: usize,
        place: usize,
        total: usize,
        reading: Reading,
        audio: FilmAudio,
    ) -> StepReply;
    pub fn usm_clear(key: u64, mask: u8, payload: *mut u8, len: usize);
    pub fn usm_clear_piece(
        key: u64,
        mask: u8,
        total: usize,
        place: usize,
        row: *const u8,
        row_len: usize,
        piece: *mut u8,
        len: usize,
    ) -> u8;
    pub fn usm_payload_bits(mask: u8, length: usize) -> u64;
    pub fn usm_apart(container: *const u8, len: usize, reading: Reading, key: u64, other: u64) -> ApartReply;
    pub fn usm_payload_apart(mask: u8, length: usize, key: u64, other: u64) -> usize;
    pub fn usm_why(bits: u64, key: u64, other: u64) -> u8;
    pub fn usm_statement_by(
        bits: u64,
        size: usize,
        tenants: *const Tenant,
        tenant_count: usize,
        lines: *mut Share,
        room: usize,
    ) -> ListReply;
    pub fn usm_seek(index: *const IndexEntry, count: usize, byte: u64) -> SeekReply;
}

// Where the libraries are installed ones: a symbol that only those of this version have. Nothing reads it.
include!(concat!(env!("OUT_DIR"), "/version.rs"));

// SAFETY, for every call below: each pointer and length are those of one slice, or of a vector's spare capacity, borrowed
// for the call; what is written is borrowed mutably. The functions touch nothing else and keep no pointer; each is proved
// to write no byte outside of what it is given.

pub fn key_table(key: u64) -> [u8; KEY_TABLE_BYTES] {
    let mut table = [0; KEY_TABLE_BYTES];
    unsafe { usm_key_table(key, table.as_mut_ptr(), table.len()) };
    table
}

pub fn unmask_video(key: u64, payload: &mut [u8]) {
    unsafe { usm_unmask_video(key, payload.as_mut_ptr(), payload.len()) }
}

pub fn mask_video(key: u64, payload: &mut [u8]) {
    unsafe { usm_mask_video(key, payload.as_mut_ptr(), payload.len()) }
}

pub fn unmask_audio(key: u64, payload: &mut [u8]) {
    unsafe { usm_unmask_audio(key, payload.as_mut_ptr(), payload.len()) }
}

pub fn mask_audio(key: u64, payload: &mut [u8]) {
    unsafe { usm_mask_audio(key, payload.as_mut_ptr(), payload.len()) }
}

/// How tables are read by themselves: of a reading only `tables` counts.
fn by_itself(tables: u8) -> Reading {
    Reading { audio: 0, channel: 0, payloads: 0, tables }
}

pub fn table(bytes: &[u8], place: usize, tables: u8) -> TableReply {
    unsafe { usm_table(bytes.as_ptr(), bytes.len(), place, by_itself(tables)) }
}

pub fn cell(bytes: &[u8], place: usize, name: &[u8], row: usize, tables: u8) -> CellReply {
    unsafe { usm_cell(bytes.as_ptr(), bytes.len(), place, name.as_ptr(), name.len(), row, by_itself(tables)) }
}

pub fn column(bytes: &[u8], place: usize, column: usize, tables: u8) -> ColumnReply {
    unsafe { usm_column(bytes.as_ptr(), bytes.len(), place, column, by_itself(tables)) }
}

pub fn cell_at(bytes: &[u8], place: usize, column: usize, row: usize, tables: u8) -> CellReply {
    unsafe { usm_cell_at(bytes.as_ptr(), bytes.len(), place, column, row, by_itself(tables)) }
}

/// A film's reply without its streams: both outputs have no room.
pub fn measure(container: &[u8], reading: Reading) -> FilmReply {
    const NO_KEY: Key = Key { number: 0, given: 0 };
    extract_to(container, reading, NO_KEY, &mut [], &mut [])
}

/// Extracts to the room of two vectors, which become as long as their streams. Where the reply refuses, as it does where
/// one of them has too little room, both are empty.
pub fn extract(container: &[u8], reading: Reading, key: Key, video: &mut Vec<u8>, audio: &mut Vec<u8>) -> FilmReply {
    video.clear();
    audio.clear();
    let reply = extract_to(container, reading, key, video.spare_capacity_mut(), audio.spare_capacity_mut());
    if reply.number == 0 {
        assert!(reply.video_size <= video.capacity() && reply.audio_size <= audio.capacity());
        // SAFETY: an accepted film has written as many bytes to each as its size says, and they fit the room.
        unsafe {
            video.set_len(reply.video_size);
            audio.set_len(reply.audio_size);
        }
    }
    reply
}

/// Outputs need not hold anything: the contract is an equation for every content that they have at the call, so no answer
/// depends on it, and the code writes a byte before it reads it.
fn extract_to(
    container: &[u8],
    reading: Reading,
    key: Key,
    video: &mut [MaybeUninit<u8>],
    audio: &mut [MaybeUninit<u8>],
) -> FilmReply {
    unsafe {
        usm_extract(
            container.as_ptr(),
            container.len(),
            reading,
            key,
            [].as_ptr(),
            0,
            video.as_mut_ptr().cast(),
            video.len(),
            audio.as_mut_ptr().cast(),
            audio.len(),
        )
    }
}

/// Lists a film's chunks in the room of a vector, which becomes as long as their count. Where the reply refuses, as it
/// does where there is too little room, the vector is empty.
pub fn list(container: &[u8], reading: Reading, chunks: &mut Vec<Chunk>) -> ListReply {
    fill_list(chunks, |room| unsafe {
        usm_list(container.as_ptr(), container.len(), reading, room.as_mut_ptr().cast(), room.len())
    })
}

/// The shares of a film's bytes, likewise.
pub fn statement(container: &[u8], tenants: &[Tenant], shares: &mut Vec<Share>) -> ListReply {
    fill_list(shares, |room| unsafe {
        let lines = room.as_mut_ptr().cast();
        usm_statement(container.as_ptr(), container.len(), tenants.as_ptr(), tenants.len(), lines, room.len())
    })
}

/// The same of a film that is known by the bits of a key that it shows and by the size of a copy.
pub fn statement_by(bits: u64, size: usize, tenants: &[Tenant], shares: &mut Vec<Share>) -> ListReply {
    fill_list(shares, |room| unsafe {
        usm_statement_by(bits, size, tenants.as_ptr(), tenants.len(), room.as_mut_ptr().cast(), room.len())
    })
}

/// The index of a film's video, likewise.
pub fn index(container: &[u8], entries: &mut Vec<IndexEntry>) -> ListReply {
    fill_list(entries, |room| unsafe {
        usm_index(container.as_ptr(), container.len(), room.as_mut_ptr().cast(), room.len())
    })
}

fn fill_list<T>(list: &mut Vec<T>, call: impl FnOnce(&mut [MaybeUninit<T>]) -> ListReply) -> ListReply {
    list.clear();
    let reply = call(list.spare_capacity_mut());
    if reply.number == 0 {
        assert!(reply.count <= list.capacity());
        // SAFETY: an accepted call has filled as many records as its count says, and they fit the room.
        unsafe { list.set_len(reply.count) };
    }
    reply
}

pub fn salvage(container: &[u8]) -> SalvageReply {
    unsafe { usm_salvage(container.as_ptr(), container.len()) }
}

pub fn seek(entries: &[IndexEntry], byte: u64) -> SeekReply {
    unsafe { usm_seek(entries.as_ptr(), entries.len(), byte) }
}

pub fn key_bits(container: &[u8], reading: Reading) -> KeyBitsReply {
    unsafe { usm_key_bits(container.as_ptr(), container.len(), reading) }
}

pub fn open(beginning: &[u8], total: usize, reading: Reading) -> OpenReply {
    unsafe { usm_open(beginning.as_ptr(), beginning.len(), total, reading) }
}

/// Where the tables of a film's header stand, by its first bytes.
pub fn header_tables(beginning: &[u8], total: usize, reading: Reading) -> TablesReply {
    unsafe { usm_header_tables(beginning.as_ptr(), beginning.len(), total, reading) }
}

pub fn step(window: &[u8], place: usize, total: usize, reading: Reading, audio: FilmAudio) -> StepReply {
    unsafe { usm_step(window.as_ptr(), window.len(), place, total, reading, audio) }
}

pub fn payload_bits(mask: u8, length: usize) -> u64 {
    unsafe { usm_payload_bits(mask, length) }
}

pub fn apart(container: &[u8], reading: Reading, key: u64, other: u64) -> ApartReply {
    unsafe { usm_apart(container.as_ptr(), container.len(), reading, key, other) }
}

pub fn payload_apart(mask: u8, length: usize, key: u64, other: u64) -> usize {
    unsafe { usm_payload_apart(mask, length, key, other) }
}

pub fn why(bits: u64, key: u64, other: u64) -> u8 {
    unsafe { usm_why(bits, key, other) }
}

pub fn clear(key: u64, mask: u8, payload: &mut [u8]) {
    unsafe { usm_clear(key, mask, payload.as_mut_ptr(), payload.len()) }
}

pub fn clear_piece(key: u64, mask: u8, total: usize, place: usize, row: &[u8], piece: &mut [u8]) -> bool {
    let (at, len) = (piece.as_mut_ptr(), piece.len());
    unsafe { usm_clear_piece(key, mask, total, place, row.as_ptr(), row.len(), at, len) != 0 }
}

pub fn profile(container: &[u8]) -> ProfileReply {
    unsafe { usm_profile(container.as_ptr(), container.len()) }
}

/// What is known of a film's profile before its first chunk.
pub fn profile_begin(audio: FilmAudio) -> Profiling {
    unsafe { usm_profile_begin(audio) }
}

/// What is known after one chunk more, by the bytes that stand at its place.
pub fn profile_step(window: &[u8], place: usize, known: Profiling) -> Profiling {
    unsafe { usm_profile_step(window.as_ptr(), window.len(), place, known) }
}

/// The profile of a film of `total` bytes, by what is known after its last chunk.
pub fn profile_end(total: usize, known: Profiling) -> ProfileReply {
    unsafe { usm_profile_end(total, known) }
}

/// Writes a film to the room of a vector, whose contents it replaces. Where the reply refuses, as it does where there is
/// too little room, the vector stays as it is.
pub fn write(name: &[u8], video: &[u8], audio: &[u8], packing: Packing, film: &mut Vec<u8>) -> SizeReply {
    fill(film, |out, room| unsafe {
        let [name, video, audio] = [name, video, audio].map(|bytes| (bytes.as_ptr(), bytes.len()));
        usm_write(name.0, name.1, video.0, video.1, audio.0, audio.1, packing, out, room)
    })
}

/// Writes the header of a film whose streams have these lengths, likewise.
pub fn write_open(name: &[u8], video: usize, audio: usize, packing: Packing, header: &mut Vec<u8>) -> SizeReply {
    fill(header, |out, room| unsafe { usm_write_open(name.as_ptr(), name.len(), video, audio, packing, out, room) })
}

/// What is written at a turn, and the head of its chunk.
pub fn write_chunk(
    video: usize,
    audio: usize,
    turn: usize,
    packing: Packing,
    head: &mut [u8; HEAD_BYTES],
) -> TurnReply {
    unsafe { usm_write_chunk(video, audio, turn, packing, head.as_mut_ptr(), head.len()) }
}

/// Masks a payload as it is stored, in place.
pub fn write_payload(key: u64, mask: u8, payload: &mut [u8]) -> SizeReply {
    unsafe { usm_write_payload(key, mask, payload.as_mut_ptr(), payload.len()) }
}

/// Writes the ends of a film's streams to the room of a vector, as `write` does.
pub fn write_end(packing: Packing, ends: &mut Vec<u8>) -> SizeReply {
    fill(ends, |out, room| unsafe { usm_write_end(packing, out, room) })
}

/// Moves a film from the old builder's container, likewise.
pub fn from_old(container: &[u8], codecs: Codecs, film: &mut Vec<u8>) -> SizeReply {
    fill(film, |out, room| unsafe { usm_from_old(container.as_ptr(), container.len(), codecs, out, room) })
}

/// Moves a film to the old builder's container, likewise.
pub fn to_old(container: &[u8], film: &mut Vec<u8>) -> SizeReply {
    fill(film, |out, room| unsafe { usm_to_old(container.as_ptr(), container.len(), out, room) })
}

/// Writes a table as CSV, likewise.
pub fn csv(bytes: &[u8], place: usize, tables: u8, text: &mut Vec<u8>) -> SizeReply {
    fill(text, |out, room| unsafe { usm_csv(bytes.as_ptr(), bytes.len(), place, by_itself(tables), out, room) })
}

fn fill(output: &mut Vec<u8>, call: impl FnOnce(*mut u8, usize) -> SizeReply) -> SizeReply {
    let reply = call(output.as_mut_ptr(), output.capacity());
    if reply.number == 0 {
        assert!(reply.size <= output.capacity());
        // SAFETY: an accepted call has written as many bytes as its size says, and they fit the room.
        unsafe { output.set_len(reply.size) };
    }
    reply
}
