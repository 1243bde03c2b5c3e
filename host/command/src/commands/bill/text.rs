//! The bill for a person, as text.

use super::books::{Amount, Books, Summary, Total, Unbilled};
use super::copies::{Copy, Film, OtherCopy, Share};
use crate::output::digits::{PLACES, has, marks};
use crate::output::numbers::{Few, counted, grouped, tenants};
use crate::output::text::{Hex, Shown};
use crate::output::{Error, Output, print_to};
use crate::sharing::why;

/// The whole bill: what is not billed first, then the sums, then the copies and why they are.
pub fn write(books: &Books, summary: &Summary, output: &mut Output) -> Result<(), Error> {
    write_unbilled(books, summary, output)?;
    write_summary(summary, output)?;
    write_totals(books, output)?;
    books.copies(None, |copy| write_copy(books, &copy, summary.now.copies, output))
}

/// The films that are not billed, each with its holdings.
pub fn write_unbilled(books: &Books, summary: &Summary, output: &mut Output) -> Result<(), Error> {
    if !summary.is_incomplete() {
        return Ok(());
    }
    let films = counted(summary.unbilled_films, "film");
    let holdings = counted(summary.unbilled_holdings, "holding");
    print_to!(output, "This bill is incomplete: {films} with {holdings} could not be billed.\n");
    let mut last = None;
    books.unbilled(None, |Unbilled { line, tenant, path, why }| {
        if last.as_ref() != Some(&path) {
            print_to!(&mut *output, "  {}: {why}\n", Shown::path(&path));
        }
        print_to!(&mut *output, "    line {line}: tenant {tenant}\n");
        last = Some(path);
        Ok(())
    })?;
    output.gap()
}

fn write_summary(summary: &Summary, output: &mut Output) -> Result<(), Error> {
    let [holdings, tenants, films] =
        [(summary.holdings, "holding"), (summary.tenants, "tenant"), (summary.films, "film")]
            .map(|(number, word)| counted(number, word));
    print_to!(output, "{holdings} by {tenants} of {films}\n\n");
    print_to!(output, "{:16}{:>14}{:>26}\n", "", "copies", "bytes");
    let Summary { before, now, .. } = *summary;
    let saved = Amount { copies: before.copies - now.copies, bytes: before.bytes - now.bytes };
    for (name, amount) in [("filed before", before), ("now", now), ("saved", saved)] {
        print_to!(output, "{name:16}{:>14}{:>26}\n", grouped(amount.copies), grouped(amount.bytes));
    }
    print_to!(output, "\nBefore, each film and key was a copy. Now, equal streams are one.\n");
    Ok(())
}

/// What each tenant bears.
pub fn write_totals(books: &Books, output: &mut Output) -> Result<(), Error> {
    output.gap()?;
    print_to!(output, "{:>20}{:>10}{:>22}{:>22}\n", "tenant", "copies", "before", "now");
    books.totals(None, |Total { tenant, name, copies, before, share }| {
        let [copies, before, share] = [copies, before, share].map(grouped);
        print_to!(&mut *output, "{tenant:>20}{copies:>10}{before:>22}{share:>22}");
        if let Some(name) = &name {
            print_to!(&mut *output, "  {}", Shown::bytes(name));
        }
        print_to!(&mut *output, "\n");
        Ok(())
    })
}

fn write_copy(books: &Books, copy: &Copy, all: u64, output: &mut Output) -> Result<(), Error> {
    let (video, audio) = (&copy.streams.video, &copy.streams.audio);
    let tenants = counted(copy.tenants, "tenant");
    output.gap()?;
    print_to!(output, "Copy {} of {all}: {} bytes, {tenants}\n", copy.number, grouped(copy.bytes()));
    for (name, stream) in [("video", video), ("audio", audio)] {
        print_to!(output, "  {name} {:>14}  {}\n", grouped(stream.bytes), Hex(&stream.sha256));
    }
    books.shares(copy, None, |share| write_share(&share, output))?;
    print_to!(output, "  {}\n", copy.why());
    books.films(copy, None, |film| write_film(books, &film, output))
}

fn write_share(share: &Share, output: &mut Output) -> Result<(), Error> {
    print_to!(output, "  share {:>14}  tenant {}", grouped(share.bytes), share.tenant);
    if let Some(name) = &share.name {
        print_to!(output, " {}", Shown::bytes(name));
    }
    print_to!(output, "\n");
    Ok(())
}

/// A film of a copy: why its keys give one copy, and the digits that count.
fn write_film(books: &Books, film: &Film, output: &mut Output) -> Result<(), Error> {
    print_to!(output, "  {}", Shown::path(&film.path));
    if let Some(title) = &film.title {
        print_to!(output, " ({})", Shown::bytes(title));
    }
    print_to!(output, "\n    {}\n", books.why(film)?.sentence());
    let counts = marks(|place| if has(film.bits, place) { '+' } else { '-' });
    print_to!(output, "    {counts}  + counts for this film, - does not\n");
    let keys = Few::gather(|take| books.keys(film, None, take))?;
    for key in &keys.shown {
        let holders = books.few_holders(key)?.map(|holder| holder.tenant);
        print_to!(output, "    {}  {}\n", digits(key.key), tenants(holders));
    }
    if keys.more() > 0 {
        print_to!(output, "    and {} more keys\n", grouped(keys.more()));
    }
    match books.apart(film)? {
        Some(other) => write_apart(books, film, keys.shown.first().and_then(|key| key.key), &other, output),
        None => Ok(()),
    }
}

/// Another copy of the same film: in which digits the keys differ, and where the streams do.
fn write_apart(
    books: &Books,
    film: &Film,
    own: Option<u64>,
    other: &OtherCopy,
    output: &mut Output,
) -> Result<(), Error> {
    let OtherCopy { number, key, at } = other;
    print_to!(output, "    Apart from copy {number} of this film");
    if let (Some(own), Some(key)) = (own, *key) {
        let differ = (own ^ key) & film.bits;
        let differs = marks(|place| if has(differ, place) { '^' } else { '.' });
        print_to!(output, ": the keys differ in {}\n", why::in_digits(differ));
        print_to!(output, "    {}  copy {number}\n    {differs}  ^ differs and counts", digits(Some(key)));
    }
    print_to!(output, "\n    {}\n", at.sentence());
    let both = Few::gather(|take| books.holders_of_both(film, None, take))?;
    if both.all > 0 {
        print_to!(
            output,
            "    Held under both by {}: one key may be mistyped\n",
            tenants(both.map(|holder| holder.tenant))
        );
    }
    Ok(())
}

fn digits(key: Option<u64>) -> String {
    key.map_or_else(|| format!("{:PLACES$}", "as stored"), |key| format!("{key:016X}"))
}
