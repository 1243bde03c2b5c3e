//! Films that are made in memory, for the tests and for measuring: any header, any chunks.

mod short_reads;

pub use short_reads::ShortReads;

/// What a header says. Each table has one row, and its values are stored in it.
#[derive(Clone, Copy, Default)]
pub struct Header<'a> {
    /// As data, so that it may hold any bytes.
    pub name: Option<&'a [u8]>,
    pub video_codec: Option<u32>,
    /// Whether there is audio, and its codec.
    pub audio: Option<Option<u32>>,
}

/// A film that grows chunk by chunk.
#[derive(Clone)]
pub struct Film {
    pub bytes: Vec<u8>,
}

/// A value of a table.
#[derive(Clone, Copy)]
pub enum Value<'a> {
    Byte(u8),
    SignedByte(i8),
    Short(u16),
    SignedShort(i16),
    Number(u32),
    SignedNumber(i32),
    Long(u64),
    Float(u32),
    Text(&'a [u8]),
    Data(&'a [u8]),
}

const HEADER_SIZE: u16 = 0x18;

impl Film {
    pub fn new(header: &Header) -> Film {
        let codec = |name: &'static [u8], codec: Option<u32>| codec.map(|codec| (name, Value::Number(codec)));
        let name = header.name.map(|name| (&b"filename"[..], Value::Data(name)));
        let audio = header.audio.map(|audio_codec| one_row(codec(b"audio_codec", audio_codec)));
        Film::with_tables(&one_row(name), &one_row(codec(b"mpeg_codec", header.video_codec)), audio.as_deref())
    }

    /// A film with these tables in its header: that of the film, that of the video, and that of the audio.
    pub fn with_tables(film_table: &[u8], video: &[u8], audio: Option<&[u8]>) -> Film {
        let mut film = Film { bytes: Vec::new() };
        film.block(b"CRID", film_table);
        film.block(b"@SFV", video);
        if let Some(audio) = audio {
            film.block(b"@SFA", audio);
        }
        film.block(b"@SFV", b"#HEADER END");
        if audio.is_some() {
            film.block(b"@SFA", b"#HEADER END");
        }
        film.block(b"@SFV", &one_row(None));
        if audio.is_some() {
            film.block(b"@SFA", &one_row(None));
            film.block(b"@SFV", b"#METADATA END");
            film.block(b"@SFA", b"#METADATA END");
        } else {
            film.block(b"@SFV", b"#METADATA END");
        }
        film
    }

    /// A chunk with a payload as it is stored.
    pub fn chunk(&mut self, letters: &[u8; 4], channel: u8, data_type: u8, payload: &[u8]) {
        let start = self.bytes.len();
        let padding = self.block(letters, payload);
        self.bytes[start + 8..start + 10].copy_from_slice(&HEADER_SIZE.to_be_bytes());
        self.bytes[start + 10..start + 12].copy_from_slice(&(padding as u16).to_be_bytes());
        self.bytes[start + 12] = channel;
        self.bytes[start + 15] = data_type;
    }

    /// The end chunk of a stream.
    pub fn end(&mut self, letters: &[u8; 4]) {
        let mut contents = b"#CONTENTS END".to_vec();
        contents.resize(0x20, 0);
        self.chunk(letters, 0, 0, &contents);
    }

    /// A block: letters, size, and contents at 0x20, padded to a multiple of 0x20. Gives the padding.
    fn block(&mut self, letters: &[u8; 4], contents: &[u8]) -> usize {
        let padding = contents.len().next_multiple_of(0x20) - contents.len();
        let size = (HEADER_SIZE as usize + contents.len() + padding) as u32;
        self.bytes.extend(letters);
        self.bytes.extend(size.to_be_bytes());
        self.bytes.extend([0; HEADER_SIZE as usize]);
        self.bytes.extend(contents);
        self.bytes.resize(self.bytes.len() + padding, 0);
        padding
    }
}

/// Example F of document 01: 448 bytes.
pub fn f() -> Vec<u8> {
    let mut film = Film::new(&Header::default());
    film.chunk(b"@SFV", 0, 0, &[0; 32]);
    film.end(b"@SFV");
    film.bytes
}

/// A film of about so many bytes with ADX audio: payloads of 32 KiB, fifteen of video to one of audio.
pub fn large(name: &[u8], length: usize) -> Vec<u8> {
    with_payloads(name, length, 32 << 10)
}

/// The same with payloads of another length.
pub fn with_payloads(name: &[u8], length: usize, payload: usize) -> Vec<u8> {
    let mut film = Film::new(&Header { name: Some(name), video_codec: Some(1), audio: Some(Some(2)) });
    film.bytes.reserve_exact(length.saturating_sub(film.bytes.len()));
    let payload: Vec<u8> = (0..payload as u32).map(|at| (at.wrapping_mul(2_654_435_761) >> 24) as u8).collect();
    let mut turn = 0;
    while film.bytes.len() + 2 * payload.len() < length {
        let letters = if turn % 16 == 15 { b"@SFA" } else { b"@SFV" };
        film.chunk(letters, 0, 0, &payload);
        turn += 1;
    }
    film.end(b"@SFV");
    film.end(b"@SFA");
    film.bytes
}

fn one_row(value: Option<(&[u8], Value)>) -> Vec<u8> {
    match value {
        Some(value) => table(&[value.0], &[&[value.1]]),
        None => empty_table(),
    }
}

/// A table without columns and rows, whose offsets are 0.
fn empty_table() -> Vec<u8> {
    let mut table = b"@UTF\0\0\0\x18".to_vec();
    table.resize(32, 0);
    table
}

/// A table with these names, and these values stored in its rows. The types are those of the first row.
pub fn table(names: &[&[u8]], rows: &[&[Value]]) -> Vec<u8> {
    let (mut columns, mut cells, mut texts, mut data) = (Vec::new(), Vec::new(), Vec::new(), Vec::new());
    let types = rows.first().map_or(&[][..], |row| row);
    for (name, value) in names.iter().zip(types) {
        columns.push(0x50 | value.type_number());
        columns.extend((texts.len() as u32).to_be_bytes());
        texts.extend([name, &[0][..]].concat());
    }
    for value in rows.iter().flat_map(|row| row.iter()) {
        cells.extend(value.stored(&mut texts, &mut data));
    }
    let rows_at = 24 + columns.len();
    let texts_at = rows_at + cells.len();
    let data_at = texts_at + texts.len();
    let mut table = b"@UTF".to_vec();
    table.extend(((data_at + data.len()) as u32).to_be_bytes());
    table.extend(1_u16.to_be_bytes());
    table.extend((rows_at as u16).to_be_bytes());
    table.extend((texts_at as u32).to_be_bytes());
    table.extend((data_at as u32).to_be_bytes());
    table.extend(0_u32.to_be_bytes());
    table.extend((names.len() as u16).to_be_bytes());
    table.extend(0_u16.to_be_bytes());
    table.extend((rows.len() as u32).to_be_bytes());
    [table, columns, cells, texts, data].concat()
}

impl Value<'_> {
    fn type_number(&self) -> u8 {
        match self {
            Value::Byte(_) => 0,
            Value::SignedByte(_) => 1,
            Value::Short(_) => 2,
            Value::SignedShort(_) => 3,
            Value::Number(_) => 4,
            Value::SignedNumber(_) => 5,
            Value::Long(_) => 6,
            Value::Float(_) => 8,
            Value::Text(_) => 0xA,
            Value::Data(_) => 0xB,
        }
    }

    /// The bytes of the cell. A text or data is added to the others of the table.
    fn stored(&self, texts: &mut Vec<u8>, data: &mut Vec<u8>) -> Vec<u8> {
        match *self {
            Value::Byte(number) => number.to_be_bytes().to_vec(),
            Value::SignedByte(number) => number.to_be_bytes().to_vec(),
            Value::Short(number) => number.to_be_bytes().to_vec(),
            Value::SignedShort(number) => number.to_be_bytes().to_vec(),
            Value::Number(number) | Value::Float(number) => number.to_be_bytes().to_vec(),
            Value::SignedNumber(number) => number.to_be_bytes().to_vec(),
            Value::Long(number) => number.to_be_bytes().to_vec(),
            Value::Text(text) => {
                let pointer = texts.len() as u32;
                texts.extend([text, &[0]].concat());
                pointer.to_be_bytes().to_vec()
            }
            Value::Data(bytes) => {
                let pointer = data.len() as u64;
                data.extend(bytes);
                (pointer << 32 | bytes.len() as u64).to_be_bytes().to_vec()
            }
        }
    }
}
