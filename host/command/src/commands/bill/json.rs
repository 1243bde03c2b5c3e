//! The bill as JSON: an object on each line. docs/JSON.md says what each holds.

use serde::ser::{Error as _, SerializeSeq};
use serde::{Serialize, Serializer};
use serde_json::value::RawValue;

use super::books::{Amount, Books, HeldLine, Summary, Total, Unbilled};
use super::copies::{Copy, Film, Key, OtherCopy, Share};
use crate::output::json::{AsText, FileName, Kind, Number, StreamObject};
use crate::output::{Error, Output};

/// Everything: what is not billed first.
pub fn write(books: &Books, summary: &Summary, output: &mut Output) -> Result<(), Error> {
    output.object(&bill(summary))?;
    write_unbilled(books, output)?;
    write_total_objects(books, output)?;
    books.copies(None, |copy| output.object(&copy_object(books, &copy)))?;
    books.holdings(|held| output.object(&holding_object(&held)?))
}

/// The sums by tenant, and what they leave out.
pub fn write_totals(books: &Books, summary: &Summary, output: &mut Output) -> Result<(), Error> {
    output.object(&bill(summary))?;
    write_unbilled(books, output)?;
    write_total_objects(books, output)
}

fn write_unbilled(books: &Books, output: &mut Output) -> Result<(), Error> {
    books.unbilled(None, |Unbilled { line, tenant, path, why }| {
        let (kind, file) = (Kind::new("unbilled"), FileName::new(&path));
        output.object(&UnbilledObject { kind, line, tenant: tenant.to_string(), file, why })
    })
}

fn write_total_objects(books: &Books, output: &mut Output) -> Result<(), Error> {
    books.totals(None, |Total { tenant, name, copies, before, share }| {
        output.object(&TotalObject {
            kind: Kind::new("total"),
            tenant: tenant.to_string(),
            name: name.as_deref().map(AsText),
            copies,
            before: Number(before),
            share: Number(share),
        })
    })
}

#[derive(Serialize)]
struct BillObject {
    #[serde(flatten)]
    kind: Kind,
    version: &'static str,
    incomplete: bool,
    holdings: u64,
    tenants: u64,
    films: u64,
    unbilled_films: u64,
    unbilled_holdings: u64,
    /// A copy for each film and key.
    before: AmountObject,
    /// A copy for equal streams.
    now: AmountObject,
}

#[derive(Serialize)]
struct AmountObject {
    copies: u64,
    bytes: Number,
}

fn bill(summary: &Summary) -> BillObject {
    let amount = |amount: Amount| AmountObject { copies: amount.copies, bytes: Number(amount.bytes) };
    BillObject {
        kind: Kind::new("bill"),
        version: env!("CARGO_PKG_VERSION"),
        incomplete: summary.is_incomplete(),
        holdings: summary.holdings,
        tenants: summary.tenants,
        films: summary.films,
        unbilled_films: summary.unbilled_films,
        unbilled_holdings: summary.unbilled_holdings,
        before: amount(summary.before),
        now: amount(summary.now),
    }
}

#[derive(Serialize)]
struct UnbilledObject<'a> {
    #[serde(flatten)]
    kind: Kind,
    line: u64,
    tenant: String,
    #[serde(flatten)]
    file: FileName<'a>,
    why: String,
}

#[derive(Serialize)]
struct TotalObject<'a> {
    #[serde(flatten)]
    kind: Kind,
    tenant: String,
    #[serde(skip_serializing_if = "Option::is_none")]
    name: Option<AsText<'a>>,
    copies: u64,
    before: Number,
    share: Number,
}

#[derive(Serialize)]
struct CopyObject<'a> {
    #[serde(flatten)]
    kind: Kind,
    copy: u64,
    group: String,
    video: StreamObject<'a>,
    audio: StreamObject<'a>,
    shares: Shares<'a>,
    films: Films<'a>,
}

fn copy_object<'a>(books: &'a Books, copy: &'a Copy) -> CopyObject<'a> {
    CopyObject {
        kind: Kind::new("copy"),
        copy: copy.number,
        group: copy.group.to_string(),
        video: StreamObject::of(&copy.streams.video),
        audio: StreamObject::of(&copy.streams.audio),
        shares: Shares { books, copy },
        films: Films { books, copy },
    }
}

/// An array that is written as its elements come: all of them need not be in memory.
struct Array<S: SerializeSeq> {
    elements: S,
    failed: Option<S::Error>,
}

impl<S: SerializeSeq> Array<S> {
    fn put(&mut self, element: &impl Serialize) -> Result<(), Error> {
        self.elements.serialize_element(element).map_err(|error| {
            let what = error.to_string();
            self.failed = Some(error);
            Error::System(what)
        })
    }
}

fn array<S: Serializer>(
    serializer: S,
    write: impl FnOnce(&mut Array<S::SerializeSeq>) -> Result<(), Error>,
) -> Result<S::Ok, S::Error> {
    let mut array = Array { elements: serializer.serialize_seq(None)?, failed: None };
    let written = write(&mut array);
    match (written, array.failed) {
        (_, Some(failed)) => Err(failed),
        (Err(error), None) => Err(S::Error::custom(error)),
        (Ok(()), None) => array.elements.end(),
    }
}

struct Shares<'a> {
    books: &'a Books,
    copy: &'a Copy,
}

impl Serialize for Shares<'_> {
    fn serialize<S: Serializer>(&self, serializer: S) -> Result<S::Ok, S::Error> {
        array(serializer, |array| self.books.shares(self.copy, None, |share| array.put(&share_object(&share))))
    }
}

#[derive(Serialize)]
struct ShareObject<'a> {
    tenant: String,
    #[serde(skip_serializing_if = "Option::is_none")]
    name: Option<AsText<'a>>,
    bytes: u64,
}

fn share_object(share: &Share) -> ShareObject<'_> {
    ShareObject { tenant: share.tenant.to_string(), name: share.name.as_deref().map(AsText), bytes: share.bytes }
}

struct Films<'a> {
    books: &'a Books,
    copy: &'a Copy,
}

impl Serialize for Films<'_> {
    fn serialize<S: Serializer>(&self, serializer: S) -> Result<S::Ok, S::Error> {
        let books = self.books;
        array(serializer, |array| books.films(self.copy, None, |film| array.put(&film_object(books, &film)?)))
    }
}

#[derive(Serialize)]
struct FilmObject<'a> {
    #[serde(flatten)]
    file: FileName<'a>,
    #[serde(skip_serializing_if = "Option::is_none")]
    title: Option<AsText<'a>>,
    /// The bits of a key that this film shows.
    key_bits: String,
    /// What all these keys are where it counts; null for the streams as they are stored.
    class: Option<String>,
    why: &'static str,
    keys: Keys<'a>,
    #[serde(skip_serializing_if = "Option::is_none")]
    apart: Option<ApartObject<'a>>,
}

fn film_object<'a>(books: &'a Books, film: &'a Film) -> Result<FilmObject<'a>, Error> {
    Ok(FilmObject {
        file: FileName::new(&film.path),
        title: film.title.as_deref().map(AsText),
        key_bits: hex(film.bits),
        class: books.class(film)?.map(hex),
        why: books.why(film)?.word(),
        keys: Keys { books, film },
        apart: books.apart(film)?.map(|other| apart_object(books, film, &other)),
    })
}

struct Keys<'a> {
    books: &'a Books,
    film: &'a Film,
}

impl Serialize for Keys<'_> {
    fn serialize<S: Serializer>(&self, serializer: S) -> Result<S::Ok, S::Error> {
        let books = self.books;
        array(serializer, |array| books.keys(self.film, None, |key| array.put(&key_object(books, &key))))
    }
}

#[derive(Serialize)]
struct KeyObject<'a> {
    key: Option<String>,
    tenants: Holders<'a>,
}

fn key_object<'a>(books: &'a Books, key: &'a Key) -> KeyObject<'a> {
    KeyObject { key: key.key.map(hex), tenants: Holders { books, key } }
}

struct Holders<'a> {
    books: &'a Books,
    key: &'a Key,
}

impl Serialize for Holders<'_> {
    fn serialize<S: Serializer>(&self, serializer: S) -> Result<S::Ok, S::Error> {
        array(serializer, |array| self.books.holders(self.key, |holder| array.put(&holder.tenant.to_string())))
    }
}

/// Another copy of the same film, and the first byte at which the two differ.
#[derive(Serialize)]
struct ApartObject<'a> {
    from_copy: u64,
    stream: &'static str,
    byte: u64,
    chunk: u64,
    both: HoldersOfBoth<'a>,
}

fn apart_object<'a>(books: &'a Books, film: &'a Film, other: &OtherCopy) -> ApartObject<'a> {
    ApartObject {
        from_copy: other.number,
        stream: other.at.stream(),
        byte: other.at.byte,
        chunk: other.at.chunk,
        both: HoldersOfBoth { books, film },
    }
}

/// Tenants that hold the film under a key of each.
struct HoldersOfBoth<'a> {
    books: &'a Books,
    film: &'a Film,
}

impl Serialize for HoldersOfBoth<'_> {
    fn serialize<S: Serializer>(&self, serializer: S) -> Result<S::Ok, S::Error> {
        let books = self.books;
        array(serializer, |array| {
            books.holders_of_both(self.film, None, |holder| array.put(&holder.tenant.to_string()))
        })
    }
}

/// A line of HOLDINGS with the copy that it shares.
#[derive(Serialize)]
struct HoldingObject<'a> {
    #[serde(flatten)]
    kind: Kind,
    line: u64,
    tenant: String,
    key: Option<String>,
    #[serde(flatten)]
    file: FileName<'a>,
    /// null where it is not billed.
    copy: Option<u64>,
    /// The columns that are not asked for, as they stand.
    #[serde(skip_serializing_if = "Option::is_none")]
    further: Option<&'a RawValue>,
}

fn holding_object(held: &HeldLine) -> Result<HoldingObject<'_>, Error> {
    let further = held.further.as_deref().map(serde_json::from_str).transpose();
    Ok(HoldingObject {
        kind: Kind::new("holding"),
        line: held.line,
        tenant: held.tenant.to_string(),
        key: held.key.map(hex),
        file: FileName::new(&held.path),
        copy: held.copy,
        further: further.map_err(|error| Error::System(error.to_string()))?,
    })
}

fn hex(number: u64) -> String {
    format!("{number:016X}")
}
