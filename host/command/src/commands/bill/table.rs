//! The bill as CSV.

use super::books::{Books, Line, Total};
use crate::output::csv::{CsvLines, field};
use crate::output::text::Hex;
use crate::output::{Error, Output};

const LINES: [&str; 7] = ["tenant", "group", "video_bytes", "audio_bytes", "share", "video_sha256", "audio_sha256"];
const TOTALS: [&str; 4] = ["tenant", "copies", "before", "share"];

/// A line for each tenant of each copy.
pub fn write_lines(books: &Books, output: &mut Output) -> Result<(), Error> {
    let mut csv = CsvLines::new(output, false);
    csv.line(LINES.map(field))?;
    books.lines(|Line { tenant, group, streams, share }| {
        let numbers = [tenant, group, streams.video.bytes, streams.audio.bytes, share].map(field);
        let digests = [streams.video.sha256, streams.audio.sha256].map(|digest| field(Hex(&digest)));
        csv.line(numbers.into_iter().chain(digests))
    })?;
    csv.end()
}

/// A line for each tenant.
pub fn write_totals(books: &Books, output: &mut Output) -> Result<(), Error> {
    let mut csv = CsvLines::new(output, false);
    csv.line(TOTALS.map(field))?;
    books.totals(None, |Total { tenant, copies, before, share, .. }| {
        csv.line([tenant, copies, before, share].map(field))
    })?;
    csv.end()
}
