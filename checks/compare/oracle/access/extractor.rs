
// Appended by checks/compare/run: the text above is as published.
/// The private functions behind calls that are never inlined into their caller, those of the masks
/// each with its own `get_mask`, as an export has.
pub mod access {
    use super::{AudioMask, ChunkHeader, Reader, UsmError, UsmHeaderInfo, UtfTable, VideoMask, io};
    use std::io::{Read, Seek, SeekFrom};

    #[inline(never)]
    pub fn get_mask(key: u64) -> (VideoMask, AudioMask) {
        super::get_mask(key)
    }

    #[inline(never)]
    pub fn mask_video(payload: &mut [u8], key: u64) {
        let (mask, _) = super::get_mask(key);
        super::mask_video(payload, &mask)
    }

    #[inline(never)]
    pub fn mask_audio(payload: &mut [u8], key: u64) {
        let (_, mask) = super::get_mask(key);
        super::mask_audio(payload, &mask)
    }

    /// The table that begins at a place of a slice.
    #[inline(never)]
    pub fn get_utf_table(bytes: &[u8], place: u64) -> Result<UtfTable, UsmError> {
        let mut reader = Reader::new(io::Cursor::new(bytes));
        reader.seek(SeekFrom::Start(place))?;
        super::get_utf_table(&mut reader)
    }

    /// The raw name, whether there is audio, and both codecs. The reader is left at the first chunk.
    #[inline(never)]
    pub fn parse_usm_header<R: Read + Seek>(
        reader: &mut Reader<R>,
        fallback: &[u8],
    ) -> Result<UsmHeaderInfo, UsmError> {
        super::parse_usm_header(reader, fallback)
    }

    /// A chunk's header, as the original has it.
    pub struct Chunk {
        pub letters: [u8; 4],
        pub next: u64,
        pub data_type: u8,
        pub is_end: bool,
        header: ChunkHeader,
    }

    impl Chunk {
        /// Of a chunk whose payload is read. It panics where the block is too small for its header and footer.
        pub fn payload_length(&self) -> usize {
            self.header.read_data_len()
        }
    }

    /// The chunk at a place, at which the reader must stand.
    #[inline(never)]
    pub fn read_chunk_header<R: Read + Seek>(reader: &mut Reader<R>, place: u64) -> Result<Option<Chunk>, UsmError> {
        let header = super::read_chunk_header(reader, place)?;
        Ok(header.map(|header| Chunk {
            letters: header.sig,
            next: header.next_offset,
            data_type: header.data_type,
            is_end: header.contents_end,
            header,
        }))
    }

    pub fn video_ext(codec: Option<u32>) -> &'static str {
        super::video_ext(codec)
    }

    pub fn audio_ext(codec: Option<u32>) -> &'static str {
        super::audio_ext(codec)
    }
}
