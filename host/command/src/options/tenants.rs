//! The tenants of a statement, as a file has them.

use std::fs;
use std::io::{self, Read};
use std::path::Path;

use usm::{Reason, Tenant};

use crate::options::key;
use crate::output::text::Shown;
use crate::output::{Error, Status, report};

/// No file of tenants is longer.
const MOST: u64 = 1 << 20;

/// Reads the tenants of a file, or of standard input. Whether they may stand together is for the proved function to say.
pub fn read(path: &Path) -> Result<Vec<Tenant>, Error> {
    let text = text_of(path).map_err(|error| Error::with(path, error))?;
    let tenants = parse(&text).map_err(|why| Error::with(path, why))?;
    for note in tenants.iter().filter_map(|(_, note)| note.as_ref()) {
        report(Status::Success, &format!("note: {}: {note}", Shown::path(path)));
    }
    let tenants: Vec<Tenant> = tenants.into_iter().map(|(tenant, _)| tenant).collect();
    // Whatever the film, its tenants are looked at first.
    match usm::statement_by(0, 0, &tenants) {
        Err(refusal) => Err(Error::with(path, why_refused(tenants.len(), refusal.reason))),
        Ok(_) => Ok(tenants),
    }
}

/// Why so many tenants are refused, each of which is there once.
fn why_refused(count: usize, reason: Reason) -> String {
    match (reason, count) {
        (Reason::BadTenants, 0) => "no line has a tenant".to_string(),
        (Reason::BadTenants, _) => {
            format!("{count} tenants, and a statement is for 16 at most; usm bill takes any number")
        }
        _ => reason.to_string(),
    }
}

fn text_of(path: &Path) -> io::Result<Vec<u8>> {
    let mut text = Vec::new();
    if path.as_os_str() == "-" {
        io::stdin().take(MOST).read_to_end(&mut text)?;
    } else {
        fs::File::open(path)?.take(MOST).read_to_end(&mut text)?;
    }
    Ok(text)
}

/// The tenants of a text, each with a note on its key where there is one.
fn parse(text: &[u8]) -> Result<Vec<(Tenant, Option<String>)>, String> {
    let text = text.strip_prefix(b"\xEF\xBB\xBF").unwrap_or(text);
    let mut reader =
        csv::ReaderBuilder::new().has_headers(false).flexible(true).delimiter(delimiter(text)).from_reader(text);
    let mut tenants: Vec<(Tenant, Option<String>)> = Vec::new();
    let mut lines = Vec::new();
    for (number, record) in reader.byte_records().enumerate() {
        let record = record.map_err(|error| error.to_string())?;
        let line = line_at(text, record.position().map_or(0, csv::Position::byte) as usize);
        let words: Vec<&[u8]> = record.iter().map(<[u8]>::trim_ascii).collect();
        if number == 0 && is_heading(&words) {
            continue;
        }
        let (tenant, note) = tenant_of(&words).map_err(|why| format!("line {line}: {why}"))?;
        if let Some(at) = tenants.iter().position(|(other, _)| other.number == tenant.number) {
            return Err(format!("line {line}: tenant {} is there already, in line {}", tenant.number, lines[at]));
        }
        tenants.push((tenant, note.map(|note| format!("line {line}: {note}"))));
        lines.push(line);
    }
    Ok(tenants)
}

/// The number of the line that the next record stands in, empty ones before it counted.
fn line_at(text: &[u8], place: usize) -> usize {
    let place = place.min(text.len());
    let empty = text[place..].iter().take_while(|&&byte| byte == b'\r' || byte == b'\n').count();
    1 + text[..place + empty].iter().filter(|&&byte| byte == b'\n').count()
}

/// A semicolon where the first line has one and no comma.
fn delimiter(text: &[u8]) -> u8 {
    let first = text.split(|&byte| byte == b'\n').find(|line| !line.trim_ascii().is_empty()).unwrap_or_default();
    if first.contains(&b';') && !first.contains(&b',') { b';' } else { b',' }
}

fn is_heading(words: &[&[u8]]) -> bool {
    matches!(words, [first, second] if first.eq_ignore_ascii_case(b"tenant") && second.eq_ignore_ascii_case(b"key"))
}

fn tenant_of(words: &[&[u8]]) -> Result<(Tenant, Option<String>), String> {
    let [number, key] = words else {
        let fields = if words.len() == 1 { "1 field".to_string() } else { format!("{} fields", words.len()) };
        return Err(format!("{fields}, and 2 are expected: NUMBER,KEY"));
    };
    let digits = std::str::from_utf8(number).ok().filter(|word| word.bytes().all(|digit| digit.is_ascii_digit()));
    let number = digits
        .and_then(|word| word.parse().ok())
        .ok_or_else(|| format!("{} is no tenant's number", Shown::bytes(number)))?;
    let typed = key::typed(&String::from_utf8_lossy(key)).map_err(|why| format!("{} is {why}", Shown::bytes(key)))?;
    Ok((Tenant { number, key: typed.number }, typed.note))
}

#[cfg(test)]
mod tests {
    use super::parse;

    fn tenants(text: &str) -> Result<Vec<(u64, u64)>, String> {
        Ok(parse(text.as_bytes())?.into_iter().map(|(tenant, _)| (tenant.number, tenant.key)).collect())
    }

    #[test]
    fn as_spreadsheets_write_them() {
        let both = Ok(vec![(3, 4), (1, 2)]);
        for text in [
            "3,4\n1,2\n",
            " 3 , 4 \n1,2",
            "tenant,key\r\n3,4\r\n1,2\r\n",
            "Tenant , KEY\n3,4\n1,2\n",
            "3;4\n1;2\n",
            "tenant;key\n3;4\n1;2\n",
            "\u{FEFF}3,4\n1,2\n",
            "\"3\",\"4\"\n\n1,2\n",
        ] {
            assert_eq!(tenants(text), both, "{text:?}");
        }
    }

    #[test]
    fn what_is_wrong_and_where() {
        for (text, why) in [
            ("1,2\n+3,4\n", "line 2: +3 is no tenant's number"),
            ("1,2\n\n1,3\n", "line 3: tenant 1 is there already, in line 1"),
            ("1\n", "line 1: 1 field, and 2 are expected: NUMBER,KEY"),
            ("1,2,3\n", "line 1: 3 fields, and 2 are expected: NUMBER,KEY"),
        ] {
            assert_eq!(tenants(text), Err(why.to_string()), "{text:?}");
        }
    }
}
