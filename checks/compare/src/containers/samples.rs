//! Containers made by hand: example F of docs/RULES.md, and one at least for each rule.

use super::film::{Chunk, Film, Tables, empty_table};
use super::rules::{END, SFA, SFV};
use crate::random::Random;
use crate::tables::columns::{CONSTANT, DATA, FLOAT, STORED, STRING, is_constant};
use crate::tables::header;
use crate::tables::sketch::Sketch;

/// Example F: 448 bytes.
pub fn f() -> Vec<u8> {
    Film::with_chunks(&Tables::empty(), &[Chunk::new(SFV, &[0; 32]), Chunk::end(SFV)]).bytes
}

/// F with audio, and with metadata for it.
pub fn with_audio() -> Vec<u8> {
    Film::with_chunks(&audio(codec(STORED, 2)), &two_chunks()).bytes
}

pub fn with_audio_metadata() -> Vec<u8> {
    let tables = Tables { audio_metadata: Some(empty_table()), ..audio(codec(STORED, 2)) };
    Film::with_chunks(&tables, &two_chunks()).bytes
}

fn two_chunks() -> [Chunk; 4] {
    [Chunk::new(SFV, &[1; 32]), Chunk::new(SFA, &[2; 32]), Chunk::end(SFV), Chunk::end(SFA)]
}

/// Tables with audio of this codec.
pub fn with_codec(number: u8) -> Tables {
    audio(codec(STORED, number))
}

fn audio(table: Vec<u8>) -> Tables {
    Tables { audio: Some(table), ..Tables::empty() }
}

pub fn all() -> Vec<Vec<u8>> {
    let groups = [shapes(), names(), codecs(), chunks(), ends(), masked(), vec![many()]];
    groups.into_iter().flatten().collect()
}

fn shapes() -> Vec<Vec<u8>> {
    let without_codec = Film::with_chunks(&audio(empty_table()), &two_chunks()).bytes;
    vec![f(), with_audio(), with_audio_metadata(), without_codec, nested()]
}

/// The entry table's data, which is the film's name, holds all other blocks.
fn nested() -> Vec<u8> {
    let film = f();
    let rest = &film[64..];
    let mut table = Sketch::default();
    table.column(STORED | DATA, b"filename", &[]);
    let part = table.data(rest);
    table.row(&part);
    let mut nested = film[..32].to_vec();
    nested.extend(table.bytes());
    let size = (nested.len() - 8 - rest.len()) as u32;
    nested[4..8].copy_from_slice(&size.to_be_bytes());
    nested
}

/// A film whose entry table is this.
fn entry(table: Vec<u8>) -> Vec<u8> {
    let tables = Tables { entry: table, ..Tables::empty() };
    Film::with_chunks(&tables, &[Chunk::new(SFV, b"a payload")]).bytes
}

/// A name as string, data or absent, stored or constant, last of several, in the last row, in no row.
fn names() -> Vec<Vec<u8>> {
    let mut tables = Vec::new();
    for storage in [STORED, CONSTANT, 0x70, 0x10] {
        for rows in [0, 1, 2] {
            tables.push(named(storage | STRING, rows));
            tables.push(named(storage | DATA, rows));
        }
    }
    tables.extend([named(STORED, 1), named(STORED | FLOAT, 1), empty_data(), twice(true), twice(false)]);
    tables.into_iter().map(entry).collect()
}

fn named(type_byte: u8, rows: usize) -> Vec<u8> {
    let mut table = Sketch::default();
    let values: Vec<Vec<u8>> = ["first", "", "last"].iter().map(|name| value(type_byte, name, &mut table)).collect();
    table.column(STORED | 2, b"filenam", &[]);
    table.column(type_byte, b"filename", if is_constant(type_byte) { &values[0] } else { &[] });
    for row in 0..rows {
        let stored = if is_constant(type_byte) { &[][..] } else { &values[2 - row % 2] };
        table.row(&[&[0, 7], stored].concat());
    }
    table.bytes()
}

fn value(type_byte: u8, name: &str, table: &mut Sketch) -> Vec<u8> {
    match type_byte & 0xF {
        STRING => table.text(name.as_bytes()).to_be_bytes().to_vec(),
        DATA => table.data(name.as_bytes()).to_vec(),
        FLOAT => vec![0x40, 0, 0, 0],
        _ => vec![2],
    }
}

/// Empty data that points before the body.
fn empty_data() -> Vec<u8> {
    let mut table = Sketch::default();
    table.column(STORED | DATA, b"filename", &[]);
    table.row(&[0; 8]);
    let mut bytes = table.bytes();
    header::DATA_OFFSET.set(&mut bytes, 0);
    bytes
}

/// Two columns of one name: the last counts, a number too.
fn twice(last_is_text: bool) -> Vec<u8> {
    let mut table = Sketch::default();
    let text = table.text(b"text").to_be_bytes();
    let (first, last) = if last_is_text { (STORED, STORED | STRING) } else { (STORED | STRING, STORED) };
    table.column(first, b"filename", &[]);
    table.column(last, b"filename", &[]);
    table.row(&if last_is_text { [&[1][..], &text].concat() } else { [&text[..], &[1]].concat() });
    table.bytes()
}

/// A table with one codec, under both names.
pub fn codec(storage: u8, number: u8) -> Vec<u8> {
    codec_cell(storage, &[number])
}

/// Columns `mpeg_codec` and `audio_codec` with this value, in two rows, of which the second has zeros.
pub fn codec_cell(type_byte: u8, value: &[u8]) -> Vec<u8> {
    let mut table = Sketch::default();
    let constant = if is_constant(type_byte) { value } else { &[] };
    table.column(type_byte, b"mpeg_codec", constant);
    table.column(type_byte, b"audio_codec", constant);
    if is_constant(type_byte) {
        table.row(&[]);
    } else {
        table.row(&value.repeat(2));
        table.row(&vec![0; 2 * value.len()]);
    }
    table.bytes()
}

/// Every type with values that mean something, at their edges too.
fn codecs() -> Vec<Vec<u8>> {
    let cells: [(u8, &[u8]); 20] = [
        (0, &[2]),
        (0, &[4]),
        (0, &[9]),
        (1, &[0xFF]),
        (1, &[0x80]),
        (1, &[2]),
        (2, &[0, 2]),
        (2, &[0xFF, 0xFF]),
        (3, &[0x80, 0]),
        (3, &[0, 4]),
        (4, &[0, 0, 0, 2]),
        (4, &[0xFF; 4]),
        (5, &[0x80, 0, 0, 0]),
        (5, &[0, 0, 0, 9]),
        (6, &[0, 0, 0, 1, 0, 0, 0, 2]),
        (6, &[0, 0, 0, 1, 0, 0, 0, 9]),
        (6, &[0, 0, 0, 0, 0, 0, 0, 4]),
        (FLOAT, &[0x40, 0, 0, 0]),
        (STRING, &[0; 4]),
        (DATA, &[0; 8]),
    ];
    let chunks = [SFV, SFA].map(|letters| Chunk::new(letters, &[0; 0x148]));
    let mut films = Vec::new();
    for (index, (column_type, value)) in cells.into_iter().enumerate() {
        let storage = [STORED, CONSTANT, 0x70, 0][index % 4];
        let table = codec_cell(storage | column_type, value);
        films.push(Film::with_chunks(&Tables { video: table.clone(), ..audio(table) }, &chunks).bytes);
    }
    films
}

/// Odd frames, odd data types, letters that nobody knows, chunks that overlap, none at all.
fn chunks() -> Vec<Vec<u8>> {
    let payload = Random(12).bytes(0x250);
    let mut lists: Vec<Vec<Chunk>> = vec![
        vec![],
        vec![Chunk::new(b"@SBT", &[3; 40])],
        vec![Chunk { header_size: 0xFFFF, footer_size: 0xFFFF, ..Chunk::new(b"@CUE", &[3; 40]) }],
        vec![Chunk { block_size: 0xFFFF_FFFF, ..Chunk::new(b"@CUE", &[3; 40]) }],
        vec![Chunk { block_size: 0, ..Chunk::new(&[0; 4], &[0; 90]) }],
    ];
    let frames = [(0, 0), (0x10, 0), (0x17, 1), (0x18, 7), (0x19, 0), (0x40, 0x20), (0x18, 0x100)];
    for (header_size, footer_size) in frames {
        lists.push(vec![
            Chunk::new(SFV, &payload[..0x40]).framed(header_size, footer_size),
            Chunk::new(SFA, &payload[..0x30]).framed(header_size, footer_size),
            Chunk::end(SFV),
        ]);
    }
    for data_type in [0, 1, 2, 3, 4, 5, 6, 7, 0xFF] {
        lists.push(vec![Chunk::new(SFV, &payload).of_type(data_type), Chunk::new(SFA, &payload).of_type(data_type)]);
    }
    for length in [0, 1, 12, 13, 14] {
        lists.push(vec![Chunk::new(SFV, &payload[..length]), Chunk::new(SFA, &payload[..length]), Chunk::end(SFA)]);
    }
    lists.iter().map(|chunks| Film::with_chunks(&audio(codec(STORED, 2)), chunks).bytes).collect()
}

/// End markers under any letters, in a payload, and where only twelve of its bytes are there.
fn ends() -> Vec<Vec<u8>> {
    let mut payload = [7; 50];
    payload[..END.len()].copy_from_slice(END);
    let mut nearly = payload;
    nearly[END.len() - 1] = b'd';
    let ends = [Chunk::end(SFV), Chunk::end(SFA), Chunk::end(b"@SBT"), Chunk::end(&[0; 4]).of_type(6)];
    let impossible = Chunk { header_size: 0xFFFF, ..Chunk::new(SFV, &payload) };
    vec![
        Film::with_chunks(&audio(codec(STORED, 4)), &ends).bytes,
        Film::with_chunks(&Tables::empty(), &[Chunk::new(SFV, &payload), Chunk::new(SFV, &nearly)]).bytes,
        Film::with_chunks(&Tables::empty(), &[impossible, Chunk::new(SFA, &payload)]).bytes,
    ]
}

/// Payloads around every length at which a mask begins, for ADX and for HCA.
fn masked() -> Vec<Vec<u8>> {
    let lengths = [0x13F..0x142, 0x158..0x161, 0x23F..0x242].into_iter().flatten();
    let bytes = Random(13).bytes(0x300);
    let chunks: Vec<Chunk> =
        lengths.flat_map(|length| [SFV, SFA].map(|letters| Chunk::new(letters, &bytes[..length]))).collect();
    [2, 4].map(|number| Film::with_chunks(&audio(codec(STORED, number)), &chunks).bytes).to_vec()
}

/// Two thousand chunks, each 8 bytes after the one before.
fn many() -> Vec<u8> {
    let mut chunks = vec![Chunk { block_size: 0, ..Chunk::new(&[0; 4], &[]) }; 1999];
    chunks.push(Chunk::new(b"@SBT", &[0; 40]));
    Film::with_chunks(&Tables::empty(), &chunks).bytes
}
