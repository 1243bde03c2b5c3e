//! The bill as one page for a person: it needs no script and fetches nothing. Of keys it shows where they agree, and no
//! digit; the page for one tenant shows the digits of its own.

use std::fmt::{self, Display, Write as _};
use std::io::Write;

use super::books::{Books, Summary, Total, Unbilled};
use super::copies::{Copy, Film, Key, OtherCopy, Share};
use super::date;
use crate::output::Error;
use crate::output::digits::{PLACES, digit, has};
use crate::output::numbers::{Few, MOST, counted, grouped, listed};
use crate::output::text::{Hex, Shown};
use crate::sharing::why;

const STYLE: &str = include_str!("page.css");

/// Writes a part of the page.
macro_rules! put {
    ($page:expr, $($word:tt)*) => {
        write!($page.out, $($word)*).map_err(|error| Error::System(error.to_string()))?
    };
}

/// Whom the page is for: the house, or one of its tenants.
#[derive(Clone, Copy, PartialEq)]
pub enum Reader {
    House,
    Tenant(u64),
}

impl Reader {
    /// The tenant that alone is on the page, if it is for one.
    fn tenant(self) -> Option<u64> {
        match self {
            Reader::House => None,
            Reader::Tenant(tenant) => Some(tenant),
        }
    }
}

/// Writes the whole page.
pub fn write(books: &Books, summary: &Summary, reader: Reader, out: &mut impl Write) -> Result<(), Error> {
    let mut page = Page { books, summary, reader, out };
    page.begin()?;
    page.unbilled()?;
    page.tiles()?;
    page.chart()?;
    page.all_copies()?;
    page.end()
}

struct Page<'a, W> {
    books: &'a Books,
    summary: &'a Summary,
    reader: Reader,
    out: &'a mut W,
}

impl<W: Write> Page<'_, W> {
    fn begin(&mut self) -> Result<(), Error> {
        let (date, version) = (date::today(), env!("CARGO_PKG_VERSION"));
        let Summary { holdings, tenants, films, .. } = *self.summary;
        let (title, about) = match self.reader {
            Reader::House => {
                let [holdings, tenants, films] = [(holdings, "holding"), (tenants, "tenant"), (films, "film")]
                    .map(|(number, word)| counted(number, word));
                ("Bill of copies".to_string(), format!("{holdings} by {tenants} of {films} · "))
            }
            Reader::Tenant(tenant) => {
                let name = self.books.name(tenant)?;
                (format!("Bill of copies for {}", who(tenant, name.as_deref())), String::new())
            }
        };
        put!(
            self,
            "<!doctype html>\n<html lang=\"en\"><head><meta charset=\"utf-8\">\n\
             <meta name=\"viewport\" content=\"width=device-width, initial-scale=1\">\n\
             <meta http-equiv=\"Content-Security-Policy\" content=\"default-src 'none'; style-src 'unsafe-inline'\">\n\
             <title>{title}, {date}</title>\n<style>\n{STYLE}</style></head><body><main>\n\
             <h1>{title}</h1>\n<p class=\"sub\">{about}made on {date} by usm {version}</p>\n"
        );
        Ok(())
    }

    /// The films that are not billed, each with its holdings.
    fn unbilled(&mut self) -> Result<(), Error> {
        let (books, tenant) = (self.books, self.reader.tenant());
        let films = tenant.map_or(Ok(self.summary.unbilled_films), |tenant| books.unbilled_films_of(tenant))?;
        if films == 0 {
            return Ok(());
        }
        let films = counted(films, "film");
        put!(self, "<div class=\"warn\"><b>This bill is incomplete.</b> {films} could not be billed:\n<ul>\n");
        books.unbilled(tenant, |Unbilled { line, tenant, path, why }| {
            let (file, why) = (Escaped(Shown::path(&path)), Escaped(&why));
            put!(self, "<li><code>{file}</code>: {why} (line {line}, tenant {tenant})</li>\n");
            Ok(())
        })?;
        put!(self, "</ul></div>\n");
        Ok(())
    }

    fn tiles(&mut self) -> Result<(), Error> {
        let tiles = match self.reader {
            Reader::House => self.tiles_of_house(),
            Reader::Tenant(tenant) => self.tiles_of_tenant(tenant)?,
        };
        put!(self, "<div class=\"tiles\">\n");
        for (number, said) in tiles {
            put!(self, "<div class=\"tile\"><b>{}</b><span>{said}</span></div>\n", grouped(number));
        }
        put!(self, "</div>\n");
        Ok(())
    }

    fn tiles_of_house(&self) -> Vec<(u64, &'static str)> {
        let Summary { before, now, .. } = *self.summary;
        vec![
            (before.copies, "copies before: one for each film and key"),
            (now.copies, "copies now: one for equal streams"),
            (before.bytes, "bytes before"),
            (now.bytes, "bytes now"),
            (before.bytes - now.bytes, "bytes that were charged for nothing"),
        ]
    }

    fn tiles_of_tenant(&self, tenant: u64) -> Result<Vec<(u64, &'static str)>, Error> {
        let mut tiles = Vec::new();
        self.books.totals(Some(tenant), |total| {
            tiles.push((total.copies, "copies that you hold or share"));
            tiles.push((total.before, "bytes that you bore before, with a copy for each film and key"));
            tiles.push((total.share, "bytes that you bear now"));
            Ok(())
        })?;
        Ok(tiles)
    }

    /// What each tenant bears, before and now.
    fn chart(&mut self) -> Result<(), Error> {
        let (books, tenant) = (self.books, self.reader.tenant());
        let mut most = 0;
        books.totals(tenant, |total| {
            most = most.max(total.before).max(total.share);
            Ok(())
        })?;
        put!(
            self,
            "<h2>{}</h2>\n<p class=\"soft\"><span class=\"key-to\" style=\"background:var(--before)\"></span>before\
             <span class=\"key-to\" style=\"background:var(--now)\"></span>now</p>\n\
             <table class=\"totals\"><thead><tr><th>tenant</th><th></th><th class=\"number\">copies</th>\
             <th class=\"number\">bytes before</th><th class=\"number\">bytes now</th></tr></thead><tbody>\n",
            if self.reader == Reader::House { "What each tenant bears" } else { "What you bear" }
        );
        books.totals(tenant, |total| self.total(&total, most))?;
        put!(self, "</tbody></table>\n");
        Ok(())
    }

    fn total(&mut self, total: &Total, most: u64) -> Result<(), Error> {
        let Total { tenant, ref name, copies, before, share } = *total;
        put!(
            self,
            "<tr><td>{}</td><td class=\"bars\"><div class=\"bar before\" style=\"width:{}\"></div>\
             <div class=\"bar\" style=\"width:{}\"></div></td><td class=\"number\">{}</td>\
             <td class=\"number\">{}</td><td class=\"number\">{}</td></tr>\n",
            who(tenant, name.as_deref()),
            percent(before, most),
            percent(share, most),
            grouped(copies),
            grouped(before),
            grouped(share)
        );
        Ok(())
    }

    fn all_copies(&mut self) -> Result<(), Error> {
        put!(
            self,
            "<h2>{}</h2>\n{LEGEND}",
            if self.reader == Reader::House { "The copies, and why" } else { "Your copies, and why" }
        );
        let books = self.books;
        books.copies(self.reader.tenant(), |copy| self.copy(&copy))
    }

    fn copy(&mut self, copy: &Copy) -> Result<(), Error> {
        let (video, audio) = (&copy.streams.video, &copy.streams.audio);
        let [all, pictures, sound] = [copy.bytes(), video.bytes, audio.bytes].map(grouped);
        let tenants = counted(copy.tenants, "tenant");
        put!(self, "<section class=\"copy\">\n<h3>Copy {}{}</h3>\n", copy.number, self.titles(copy)?);
        put!(self, "<p class=\"meta\">{all} bytes, {pictures} of video and {sound} of audio · {tenants}</p>\n");
        put!(self, "<p>{}</p>\n", copy.why());
        self.films(copy)?;
        self.shares(copy)?;
        let [video, audio] = [&video.sha256, &audio.sha256].map(|digest| Hex(digest));
        put!(self, "<p class=\"hash\">SHA-256 of the video {video}<br>SHA-256 of the audio {audio}</p>\n</section>\n");
        Ok(())
    }

    /// What the films of a copy are called, each name once.
    fn titles(&self, copy: &Copy) -> Result<String, Error> {
        let names = Few::gather(|take| self.books.titles(copy, self.reader.tenant(), take))?;
        let first: Vec<String> =
            names.shown.iter().take(2).map(|name| Escaped(Shown::bytes(name)).to_string()).collect();
        let names = Few { shown: first, all: names.all };
        Ok(if names.all == 0 { String::new() } else { format!(" · {}", listed(&names)) })
    }

    fn films(&mut self, copy: &Copy) -> Result<(), Error> {
        let mut seen = 0;
        let books = self.books;
        books.films(copy, self.reader.tenant(), |film| {
            seen += 1;
            if seen <= MOST as u64 { self.film(&film) } else { Ok(()) }
        })?;
        if seen > MOST as u64 {
            let more = grouped(seen - MOST as u64);
            put!(self, "<p class=\"soft\">And {more} more films with the same streams.</p>\n");
        }
        if copy.films > seen {
            let films = counted(copy.films - seen, "film");
            put!(self, "<p class=\"soft\">{films} of other tenants with the same streams.</p>\n");
        }
        Ok(())
    }

    fn film(&mut self, film: &Film) -> Result<(), Error> {
        let file = Escaped(Shown::path(&film.path));
        let why = self.books.why(film)?.sentence();
        put!(self, "<div class=\"film\"><span class=\"file\">{file}</span>\n<p>{why}</p>\n");
        // Own keys stand first on a tenant's page, and all others beside the first of them.
        let keys = Few::gather(|take| self.books.keys(film, self.reader.tenant(), take))?;
        let Some(base) = keys.shown.first() else { return Ok(()) };
        for (at, key) in keys.shown.iter().enumerate() {
            let digits = if key.is_own { Digits::Shown } else { Digits::Hidden };
            let said = if at == 0 { counting(film) } else { agreement(base, key, film.bits) };
            self.strip(&self.holders(key)?, key.key, base.key, film.bits, digits, &said)?;
        }
        if keys.more() > 0 {
            put!(self, "<p class=\"soft\">And {} more keys.</p>\n", grouped(keys.more()));
        }
        if let Some(other) = self.books.apart(film)? {
            self.apart(base, film, &other)?;
        }
        put!(self, "</div>\n");
        Ok(())
    }

    /// Who holds a film under a key, as far as the reader may know.
    fn holders(&self, key: &Key) -> Result<String, Error> {
        Ok(match self.reader {
            Reader::House => {
                listed(&self.books.few_holders(key)?.map(|holder| who(holder.tenant, holder.name.as_deref())))
            }
            Reader::Tenant(_) if key.is_own => "your key".to_string(),
            Reader::Tenant(_) if key.tenants == 1 => "another tenant".to_string(),
            Reader::Tenant(_) => format!("{} other tenants", grouped(key.tenants)),
        })
    }

    /// A key as sixteen squares, beside another.
    fn strip(
        &mut self,
        label: &str,
        key: Option<u64>,
        base: Option<u64>,
        bits: u64,
        digits: Digits,
        said: &str,
    ) -> Result<(), Error> {
        put!(self, "<div class=\"strip\"><span>{label}</span>");
        match key {
            Some(key) => {
                let differ = base.map_or(0, |base| base ^ key);
                put!(self, "<span class=\"digits\" role=\"img\" aria-label=\"{said}\">");
                for place in 0..PLACES {
                    let class = match (has(bits, place), has(differ, place)) {
                        (true, false) => "",
                        (true, true) => " class=\"differs\"",
                        (false, false) => " class=\"never\"",
                        (false, true) => " class=\"never differs\"",
                    };
                    let digit = match digits {
                        Digits::Shown => format!("{:X}", digit(key, place)),
                        Digits::Hidden => String::new(),
                    };
                    put!(self, "<i{class}>{digit}</i>");
                }
                put!(self, "</span><span class=\"said\">{said}</span></div>\n");
            }
            None => put!(self, "<span class=\"said\">no key: as it is stored</span><span></span></div>\n"),
        }
        Ok(())
    }

    /// Another copy of the same film: where its key differs, and where its streams part.
    fn apart(&mut self, base: &Key, film: &Film, other: &OtherCopy) -> Result<(), Error> {
        let named =
            if self.has_copy(other.number)? { format!("copy {}", other.number) } else { "another copy".to_string() };
        let twice = self.holder_of_both(film)?;
        let stream = if other.at.is_audio { "sound" } else { "picture" };
        let place = format!(
            "The {stream} parts at byte {}, in the chunk at {}",
            grouped(other.at.byte),
            grouped(other.at.chunk)
        );
        match (base.key, other.key) {
            (Some(own), Some(key)) => {
                let digits = why::in_digits((own ^ key) & film.bits);
                put!(self, "<p>It is not {named} of this film: the keys differ in {digits}. {place}.{twice}</p>\n");
                let said = format!("differs in {digits}");
                self.strip(&format!("the key of {named}"), Some(key), Some(own), film.bits, Digits::Hidden, &said)
            }
            _ => {
                put!(
                    self,
                    "<p>It is not {named} of this film: one of the two is taken as it is stored. {place}.</p>\n"
                );
                Ok(())
            }
        }
    }

    /// Whether a copy is on the page.
    fn has_copy(&self, number: u64) -> Result<bool, Error> {
        self.reader.tenant().map_or(Ok(true), |tenant| self.books.shares_copy(tenant, number))
    }

    /// Says that a tenant holds a film under a key of each of two copies, as far as the reader may know.
    fn holder_of_both(&self, film: &Film) -> Result<String, Error> {
        let both = Few::gather(|take| self.books.holders_of_both(film, self.reader.tenant(), take))?;
        Ok(match (self.reader, both.shown.first()) {
            (_, None) => String::new(),
            (Reader::Tenant(_), Some(_)) => " You hold the film under both: one key may be mistyped.".to_string(),
            (Reader::House, Some(holder)) => {
                let who = who(holder.tenant, holder.name.as_deref());
                format!(" Tenant {who} holds the film under both: one key may be mistyped.")
            }
        })
    }

    fn shares(&mut self, copy: &Copy) -> Result<(), Error> {
        put!(
            self,
            "<table class=\"shares\"><thead><tr><th>tenant</th><th></th><th class=\"number\">bytes</th></tr></thead><tbody>\n"
        );
        let books = self.books;
        books.shares(copy, self.reader.tenant(), |Share { tenant, name, bytes }| {
            put!(
                self,
                "<tr><td>{}</td><td class=\"bars\"><div class=\"bar\" style=\"width:{}\"></div></td>\
                 <td class=\"number\">{}</td></tr>\n",
                who(tenant, name.as_deref()),
                percent(bytes, copy.bytes()),
                grouped(bytes)
            );
            Ok(())
        })?;
        put!(self, "</tbody></table>\n");
        Ok(())
    }

    fn end(&mut self) -> Result<(), Error> {
        let key = if self.reader == Reader::House { "KEY" } else { "YOUR-KEY" };
        put!(
            self,
            "<h2>Check a line yourself</h2>\n\
             <p><code>usm extract FILM --key {key}</code> writes the two streams of a film as files, and \
             <code>sha256sum FILE</code> gives the digest of each: it is the one on this page. \
             <code>usm digest FILM --key {key}</code> gives both at once.</p>\n"
        );
        if self.reader == Reader::House {
            put!(self, "<p><code>usm bill HOLDINGS --csv</code> gives every line of this page.</p>\n");
        }
        put!(
            self,
            "<footer>A copy's bytes are divided evenly among its tenants; a remainder goes one byte each to the lowest \
             numbers. That two keys give one film the same streams exactly where they agree in the digits that count for \
             it is proved of every film and every two keys. That different films have the same streams is shown by \
             their sizes and their SHA-256.</footer>\n</main></body></html>\n"
        );
        Ok(())
    }
}

const LEGEND: &str = "<ul class=\"legend\">\
    <li>A key has sixteen digits, a square each:</li>\
    <li><span class=\"digits\"><i></i></span>counts for this film</li>\
    <li><span class=\"digits\"><i class=\"never\"></i></span>does not reach its pictures and sounds</li>\
    <li><span class=\"digits\"><i class=\"never differs\"></i></span>differs, and does not matter</li>\
    <li><span class=\"digits\"><i class=\"differs\"></i></span>differs and counts: another copy</li></ul>\n";

/// Whether a key's squares show its digits.
#[derive(Clone, Copy)]
enum Digits {
    Shown,
    Hidden,
}

/// How many digits count for a film.
fn counting(film: &Film) -> String {
    match why::how_many(film.bits) {
        0 => "no digit counts".to_string(),
        count => format!("{count} of 16 digits count"),
    }
}

/// Where two keys of one class agree.
fn agreement(base: &Key, key: &Key, bits: u64) -> String {
    match (base.key, key.key) {
        (Some(_), Some(_)) if bits != 0 => format!("agrees in all {} that count", why::how_many(bits)),
        _ => "the same streams".to_string(),
    }
}

/// A tenant by number and name.
fn who(tenant: u64, name: Option<&[u8]>) -> String {
    match name {
        Some(name) => format!("{tenant} {}", Escaped(Shown::bytes(name))),
        None => tenant.to_string(),
    }
}

/// A part of the most, for the width of a bar.
fn percent(part: u64, most: u64) -> String {
    let tenths = (u128::from(part) * 1000).checked_div(u128::from(most)).unwrap_or(0);
    format!("{}.{}%", tenths / 10, tenths % 10)
}

/// Text that is no markup.
struct Escaped<T>(T);

impl<T: Display> Display for Escaped<T> {
    fn fmt(&self, f: &mut fmt::Formatter) -> fmt::Result {
        struct Marks<'a, 'b>(&'a mut fmt::Formatter<'b>);
        impl fmt::Write for Marks<'_, '_> {
            fn write_str(&mut self, text: &str) -> fmt::Result {
                text.chars().try_for_each(|character| match character {
                    '&' => self.0.write_str("&amp;"),
                    '<' => self.0.write_str("&lt;"),
                    '>' => self.0.write_str("&gt;"),
                    '"' => self.0.write_str("&quot;"),
                    '\'' => self.0.write_str("&#39;"),
                    character => self.0.write_char(character),
                })
            }
        }
        write!(Marks(f), "{}", self.0)
    }
}

#[cfg(test)]
mod tests {
    use super::{Escaped, percent};

    #[test]
    fn text_is_no_markup() {
        assert_eq!(Escaped("<a href='x'>&\"").to_string(), "&lt;a href=&#39;x&#39;&gt;&amp;&quot;");
    }

    #[test]
    fn widths() {
        assert_eq!([percent(0, 0), percent(1, 3), percent(u64::MAX, u64::MAX)], ["0.0%", "33.3%", "100.0%"]);
    }
}
