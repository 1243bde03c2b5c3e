//! Bytes of any encoding: as text, as hex, and as text that moves nothing on a terminal.

use std::fmt::{self, Display, Write};
use std::os::unix::ffi::OsStrExt;
use std::path::Path;

use encoding_rs::{CoderResult, DecoderResult, SHIFT_JIS};

/// Bytes as text: UTF-8, else Shift-JIS, else UTF-8 with a mark for each wrong place.
pub struct Text<'a>(pub &'a [u8]);

impl Display for Text<'_> {
    fn fmt(&self, f: &mut fmt::Formatter) -> fmt::Result {
        if let Ok(text) = std::str::from_utf8(self.0) {
            f.write_str(text)
        } else if is_shift_jis(self.0) {
            write_shift_jis(self.0, f)
        } else {
            self.0.utf8_chunks().try_for_each(|chunk| {
                f.write_str(chunk.valid())?;
                if chunk.invalid().is_empty() { Ok(()) } else { f.write_char(char::REPLACEMENT_CHARACTER) }
            })
        }
    }
}

impl Text<'_> {
    /// Whether it is text without a wrong place.
    fn is_whole(&self) -> bool {
        std::str::from_utf8(self.0).is_ok() || is_shift_jis(self.0)
    }
}

/// So many bytes are decoded at once: a name may be as long as a film.
pub const PIECE: usize = 4096;

fn is_shift_jis(bytes: &[u8]) -> bool {
    let mut decoder = SHIFT_JIS.new_decoder_without_bom_handling();
    let mut piece = [0; PIECE];
    let mut rest = bytes;
    loop {
        let (result, read, _) = decoder.decode_to_utf8_without_replacement(rest, &mut piece, true);
        rest = &rest[read..];
        match result {
            DecoderResult::InputEmpty => return true,
            DecoderResult::OutputFull => {}
            DecoderResult::Malformed(..) => return false,
        }
    }
}

fn write_shift_jis(bytes: &[u8], f: &mut fmt::Formatter) -> fmt::Result {
    let mut decoder = SHIFT_JIS.new_decoder_without_bom_handling();
    let mut piece = [0; PIECE];
    let mut rest = bytes;
    loop {
        let (result, read, written, _) = decoder.decode_to_utf8(rest, &mut piece, true);
        rest = &rest[read..];
        f.write_str(std::str::from_utf8(&piece[..written]).unwrap_or_default())?;
        if result == CoderResult::InputEmpty {
            return Ok(());
        }
    }
}

/// Bytes as lower-case hex.
pub struct Hex<'a>(pub &'a [u8]);

impl Display for Hex<'_> {
    fn fmt(&self, f: &mut fmt::Formatter) -> fmt::Result {
        self.0.iter().try_for_each(|byte| write!(f, "{byte:02x}"))
    }
}

/// Text for a terminal: what could move the cursor or hide other text is shown by its number.
pub struct Shown<'a>(pub Text<'a>);

impl<'a> Shown<'a> {
    pub fn path(path: &'a Path) -> Shown<'a> {
        Shown::bytes(path.as_os_str().as_bytes())
    }

    pub fn bytes(bytes: &'a [u8]) -> Shown<'a> {
        Shown(Text(bytes))
    }

    /// The beginning of text that may be long, with .. where more follows.
    pub fn cut(bytes: &'a [u8]) -> Cut<'a> {
        Cut(bytes)
    }
}

impl Display for Shown<'_> {
    fn fmt(&self, f: &mut fmt::Formatter) -> fmt::Result {
        write!(Visible(f), "{}", self.0)
    }
}

/// So many bytes of a text are shown to a person.
pub const CUT: usize = 200;

/// The beginning of a text, for a terminal.
pub struct Cut<'a>(&'a [u8]);

impl Display for Cut<'_> {
    fn fmt(&self, f: &mut fmt::Formatter) -> fmt::Result {
        if self.0.len() <= CUT {
            return Shown::bytes(self.0).fmt(f);
        }
        // A character that is cut in two is left out.
        let is_text = |end: &usize| Text(&self.0[..*end]).is_whole() || !Text(self.0).is_whole();
        let end = (CUT - 3..=CUT).rev().find(is_text).unwrap_or(CUT);
        write!(f, "{}..", Shown::bytes(&self.0[..end]))
    }
}

struct Visible<'a, 'b>(&'a mut fmt::Formatter<'b>);

impl Write for Visible<'_, '_> {
    fn write_str(&mut self, text: &str) -> fmt::Result {
        text.chars().try_for_each(|character| match character {
            character if is_plain(character) => self.0.write_char(character),
            character => write!(self.0, "\\u{{{:x}}}", u32::from(character)),
        })
    }
}

/// Neither a control character nor one that changes the direction or the look of others.
pub fn is_plain(character: char) -> bool {
    let is_format = matches!(
        character,
        '\u{AD}' | '\u{61C}' | '\u{180E}' | '\u{200B}'..='\u{200F}' | '\u{2028}'..='\u{202E}' | '\u{2060}'..='\u{206F}'
            | '\u{FEFF}' | '\u{FFF9}'..='\u{FFFB}' | '\u{E0000}'..='\u{E0FFF}'
    );
    !character.is_control() && !is_format
}

#[cfg(test)]
mod tests {
    use super::{Hex, Shown, Text};

    #[test]
    fn text_is_utf8_or_shift_jis() {
        assert_eq!(Text("lärk".as_bytes()).to_string(), "lärk");
        assert_eq!(Text(b"\x83\x81\x83C\x83\x93").to_string(), "メイン");
        assert_eq!(Text(b"a\xFFb").to_string(), "a\u{FFFD}b");
        let long = b"\x83\x81".repeat(5000);
        assert_eq!(Text(&long).to_string(), "メ".repeat(5000));
        assert_eq!(Hex(b"\0\xAB").to_string(), "00ab");
    }

    #[test]
    fn long_text_is_cut() {
        assert_eq!(Shown::cut(b"short").to_string(), "short");
        assert_eq!(Shown::cut(&b"x".repeat(5000)).to_string(), format!("{}..", "x".repeat(200)));
        assert_eq!(Shown::cut("é漢".repeat(100).as_bytes()).to_string(), format!("{}..", "é漢".repeat(40)));
        assert_eq!(Shown::cut(&b"\x83\x81".repeat(500)).to_string(), format!("{}..", "メ".repeat(100)));
    }

    #[test]
    fn what_is_shown_moves_nothing() {
        assert_eq!(Shown::bytes(b"a\x1B[2Jb\n\0").to_string(), "a\\u{1b}[2Jb\\u{a}\\u{0}");
        assert_eq!(Shown::bytes("a\u{202E}b".as_bytes()).to_string(), "a\\u{202e}b");
        assert_eq!(Shown::bytes("メイン é".as_bytes()).to_string(), "メイン é");
    }
}
