//! HOLDINGS: a CSV file that says which tenant holds which film under which key. The package for Python, which is installed
//! without the command, reads it too: tests/holdings.json has what both make of a file.

use std::ffi::OsStr;
use std::fs::File;
use std::io::{self, BufRead, BufReader, Read};
use std::os::unix::ffi::OsStrExt;
use std::path::{Path, PathBuf};

use crate::options::key;
use crate::output::numbers::counted;
use crate::output::text::Shown;
use crate::output::{Error, Status, report};

/// A line of HOLDINGS.
#[derive(Debug, PartialEq)]
pub struct Holding<'a> {
    pub line: u64,
    pub tenant: u64,
    /// `None` where the streams are held as they are stored.
    pub key: Option<u64>,
    /// As it is written in the file.
    pub film: &'a Path,
    /// The columns that are not asked for, by their headings.
    pub further: Vec<(&'a [u8], &'a [u8])>,
}

impl<'a> Holding<'a> {
    /// What a further column says, of any case, where it says something.
    pub fn further(&self, heading: &str) -> Option<&'a [u8]> {
        let is_it = |name: &[u8]| name.eq_ignore_ascii_case(heading.as_bytes());
        self.further.iter().find(|(name, value)| is_it(name) && !value.is_empty()).map(|&(_, value)| value)
    }
}

/// HOLDINGS, and the folder that its films' paths start from.
pub struct Holdings {
    path: PathBuf,
    lines: Lines,
    columns: Columns,
}

impl Holdings {
    /// Opens the file and reads its heading.
    pub fn open(path: &Path) -> Result<Holdings, Error> {
        let wrong = |why: String| Error::with(path, why);
        let file: Box<dyn Read> = if is_standard_input(path) {
            Box::new(io::stdin())
        } else {
            Box::new(File::open(path).map_err(|error| Error::with(path, error))?)
        };
        let mut lines = Lines::new(file);
        lines.next().map_err(|error| Error::with(path, error))?;
        let columns = lines.heading().map_err(|why| wrong(format!("line 1: {why}")))?;
        Ok(Holdings { path: path.to_path_buf(), lines, columns })
    }

    /// Reads every line, and reports all that are wrong on standard error.
    pub fn read(&mut self, mut take: impl FnMut(&Holding) -> Result<(), Error>) -> Result<Reading, Error> {
        let mut reading = Reading::default();
        while self.lines.next().map_err(|error| Error::with(&self.path, error))? {
            let line = self.lines.number;
            let fields = self.lines.fields();
            match fields.and_then(|fields| self.columns.holding(line, &fields, &mut reading)) {
                Ok(holding) if reading.wrong == 0 => take(&holding)?,
                Ok(_) => {}
                Err(why) => {
                    reading.wrong += 1;
                    report(Status::Failed, &format!("{}: line {line}: {why}", Shown::path(&self.path)));
                }
            }
        }
        Ok(reading)
    }

    /// The file of a film, whose path is relative to HOLDINGS.
    pub fn file(&self, film: &Path) -> PathBuf {
        let folder = if is_standard_input(&self.path) { None } else { self.path.parent() };
        folder.unwrap_or(Path::new("")).join(film)
    }
}

/// What was noticed while reading.
#[derive(Default, Debug, PartialEq)]
pub struct Reading {
    pub wrong: u64,
    /// Keys that may be decimal numbers, and the line of the first.
    pub decimal: u64,
    pub first_decimal: u64,
}

fn is_standard_input(path: &Path) -> bool {
    path.as_os_str() == "-"
}

/// The most bytes that a line may have.
const LONGEST: u64 = 1 << 20;

const BYTE_ORDER_MARK: &[u8] = b"\xEF\xBB\xBF";

/// The lines of a CSV file that have something in them, each a record: an open quotation mark spoils only its own line,
/// and line numbers are those that an editor shows.
struct Lines {
    file: BufReader<Box<dyn Read>>,
    number: u64,
    line: Vec<u8>,
    delimiter: u8,
    csv: csv_core::Reader,
    /// The fields of a line without their quotation marks, one after the other, and where each ends.
    text: Vec<u8>,
    ends: Vec<usize>,
}

impl Lines {
    fn new(file: Box<dyn Read>) -> Lines {
        Lines {
            file: BufReader::with_capacity(1 << 16, file),
            number: 0,
            line: Vec::new(),
            delimiter: b',',
            csv: csv_core::Reader::new(),
            text: Vec::new(),
            ends: Vec::new(),
        }
    }

    /// Goes to the next line that has something in it; the heading may be empty. Returns whether there is one.
    fn next(&mut self) -> io::Result<bool> {
        loop {
            self.line.clear();
            let is_there = self.file.by_ref().take(LONGEST).read_until(b'\n', &mut self.line)? > 0;
            self.number += u64::from(is_there);
            if self.line.len() as u64 == LONGEST {
                return Err(io::Error::other(format!("line {} is longer than 1 MiB", self.number)));
            }
            if self.number <= 1 && self.line.starts_with(BYTE_ORDER_MARK) {
                self.line.drain(..BYTE_ORDER_MARK.len());
            }
            while self.line.last().is_some_and(|last| matches!(last, b'\n' | b'\r')) {
                self.line.pop();
            }
            if !is_there || !self.line.trim_ascii().is_empty() || self.number == 1 {
                return Ok(is_there);
            }
        }
    }

    /// The columns that the heading names. The delimiter is the one that occurs more often in it.
    fn heading(&mut self) -> Result<Columns, String> {
        if self.line.starts_with(b"\xFF\xFE") || self.line.starts_with(b"\xFE\xFF") {
            return Err("it is UTF-16: it has to be saved as CSV in UTF-8".to_string());
        }
        let count = |delimiter: u8| self.line.iter().filter(|&&byte| byte == delimiter).count();
        self.delimiter = if count(b';') > count(b',') { b';' } else { b',' };
        self.reset_parser();
        Columns::of(&self.fields()?)
    }

    fn reset_parser(&mut self) {
        self.csv = csv_core::ReaderBuilder::new().delimiter(self.delimiter).build();
        // It skips a byte order mark at the start of what it reads first, and the file's own is gone.
        self.csv.read_record(b"\n", &mut [], &mut []);
    }

    /// The fields of the line.
    fn fields(&mut self) -> Result<Vec<&[u8]>, String> {
        // Before a record, csv_core would skip it.
        if self.line.starts_with(b"\r") {
            return Err(CARRIAGE_RETURN.to_string());
        }
        self.line.push(b'\n');
        self.text.resize(self.line.len(), 0);
        self.ends.resize(self.line.len(), 0);
        let (result, read, _, count) = self.csv.read_record(&self.line, &mut self.text, &mut self.ends);
        if result != csv_core::ReadRecordResult::Record && self.line != b"\n" {
            // The parser waits for the end of a quoted field, and would look for it in the next line.
            self.reset_parser();
            return Err("a quotation mark is left open".to_string());
        }
        if read < self.line.len() {
            return Err(CARRIAGE_RETURN.to_string());
        }
        let starts = std::iter::once(0).chain(self.ends.iter().copied());
        Ok(starts.zip(&self.ends[..count]).map(|(start, &end)| self.text[start..end].trim_ascii()).collect())
    }
}

const CARRIAGE_RETURN: &str = "it contains a carriage return; lines end in LF or CR LF";

const ASKED: [&str; 3] = ["tenant", "key", "film"];

/// Which column is which.
#[derive(Debug)]
struct Columns {
    names: Vec<Vec<u8>>,
    /// Where those stand that are asked for.
    asked: [usize; 3],
}

impl Columns {
    fn of(names: &[&[u8]]) -> Result<Columns, String> {
        let mut asked = [0; 3];
        for (place, word) in asked.iter_mut().zip(ASKED) {
            let mut found = (0..names.len()).filter(|&at| names[at].eq_ignore_ascii_case(word.as_bytes()));
            *place = found
                .next()
                .ok_or_else(|| format!("the heading has no column `{word}`; it needs tenant, key and film"))?;
            if found.next().is_some() {
                return Err(format!("the heading has the column `{word}` twice"));
            }
        }
        Ok(Columns { names: names.iter().map(|name| name.to_vec()).collect(), asked })
    }

    /// The holding of a line, or all that is wrong with it.
    fn holding<'a>(&'a self, line: u64, fields: &[&'a [u8]], reading: &mut Reading) -> Result<Holding<'a>, String> {
        if fields.len() != self.names.len() {
            let own = counted(fields.len() as u64, "field");
            return Err(format!("it has {own}, and the heading has {}", self.names.len()));
        }
        let [tenant, key, film] = self.asked.map(|at| fields[at]);
        match (number(tenant), typed(line, key, reading), path(film)) {
            (Ok(tenant), Ok(key), Ok(film)) => Ok(Holding { line, tenant, key, film, further: self.further(fields) }),
            (tenant, key, film) => {
                let faults: Vec<String> = [tenant.err(), key.err(), film.err()].into_iter().flatten().collect();
                Err(faults.join("; "))
            }
        }
    }

    fn further<'a>(&'a self, fields: &[&'a [u8]]) -> Vec<(&'a [u8], &'a [u8])> {
        let columns = self.names.iter().zip(fields).enumerate();
        columns.filter(|(at, _)| !self.asked.contains(at)).map(|(_, (name, &value))| (&name[..], value)).collect()
    }
}

/// A tenant's number: decimal digits, of 64 bits.
fn number(word: &[u8]) -> Result<u64, String> {
    let digits = std::str::from_utf8(word).ok().filter(|word| word.bytes().all(|byte| byte.is_ascii_digit()));
    let number = digits.and_then(|digits| digits.parse().ok());
    number.ok_or_else(|| match word {
        b"" => "no tenant".to_string(),
        word => format!("{} is no tenant's number", Shown::bytes(word)),
    })
}

/// A key; an empty one stands for the streams as they are stored.
fn typed(line: u64, word: &[u8], reading: &mut Reading) -> Result<Option<u64>, String> {
    if word.is_empty() {
        return Ok(None);
    }
    let key = key::typed(&String::from_utf8_lossy(word)).map_err(|why| format!("{} is {why}", Shown::bytes(word)))?;
    if key.note.is_some() {
        reading.decimal += 1;
        if reading.first_decimal == 0 {
            reading.first_decimal = line;
        }
    }
    Ok(Some(key.number))
}

fn path(word: &[u8]) -> Result<&Path, String> {
    if word.is_empty() { Err("no film".to_string()) } else { Ok(Path::new(OsStr::from_bytes(word))) }
}

#[cfg(test)]
mod tests {
    use super::{Columns, Lines};

    fn heading(text: &[u8]) -> Result<Columns, String> {
        let mut lines = Lines::new(Box::new(std::io::Cursor::new(text.to_vec())));
        lines.next().unwrap();
        lines.heading()
    }

    #[test]
    fn headings_in_any_order_and_case() {
        for (line, asked) in [
            ("tenant,key,film", [0, 1, 2]),
            ("Film;TENANT;name;Key\r\n", [1, 3, 0]),
            ("\u{FEFF}\"tenant\" ,\"key\",film,\"a;b\"\n", [0, 1, 2]),
        ] {
            assert_eq!(heading(line.as_bytes()).unwrap().asked, asked, "{line}");
        }
    }

    #[test]
    fn headings_that_are_none() {
        for (line, why) in [
            ("", "no column `tenant`"),
            ("1,2,3", "no column `tenant`"),
            ("\ntenant,key,film", "no column `tenant`"),
            ("tenant,key", "no column `film`"),
            ("tenant,key,film,KEY", "the column `key` twice"),
        ] {
            let error = heading(line.as_bytes()).unwrap_err();
            assert!(error.contains(why), "{line}: {error}");
        }
        assert!(heading(b"\xFF\xFEt\0").unwrap_err().contains("UTF-16"));
        assert!(heading(b"tenant,key,film\r1,2,a\r").unwrap_err().contains("carriage return"));
    }

    #[test]
    fn an_open_quotation_mark_spoils_only_its_own_line() {
        for open in ["1\",,\"z", "\"a", "a,\"b\"\"", "\"\"\"", "x,\"\"\"y"] {
            let text = format!("a,b,c\n{open}\n2,,a.usm\n");
            let mut lines = Lines::new(Box::new(std::io::Cursor::new(text.into_bytes())));
            lines.next().unwrap();
            assert_eq!(lines.fields().unwrap(), [b"a", b"b", b"c"]);
            lines.next().unwrap();
            assert!(lines.fields().unwrap_err().contains("left open"), "{open}");
            lines.next().unwrap();
            assert_eq!(lines.fields().unwrap(), [&b"2"[..], b"", b"a.usm"], "{open}");
        }
    }

    #[test]
    fn lines_have_their_numbers() {
        let text = b"a,b\r\n1,2\r\n\r\n \n\"3\",\"4,\"\"5\"\"\"\r\n6,\"7\n8";
        let mut lines = Lines::new(Box::new(std::io::Cursor::new(text.to_vec())));
        let mut found = Vec::new();
        while lines.next().unwrap() {
            let number = lines.number;
            let fields =
                lines.fields().map(|fields| fields.iter().map(|field| field.escape_ascii().to_string()).collect());
            found.push((number, fields.unwrap_or_else(|why| vec![why])));
        }
        let line = |number, fields: &[&str]| (number, fields.iter().map(|field| field.to_string()).collect::<Vec<_>>());
        let open = &["a quotation mark is left open"];
        let all = [
            line(1, &["a", "b"]),
            line(2, &["1", "2"]),
            line(5, &["3", "4,\\\"5\\\""]),
            line(6, open),
            line(7, &["8"]),
        ];
        assert_eq!(found, all);
    }
}
