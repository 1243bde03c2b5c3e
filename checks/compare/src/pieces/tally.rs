//! What the check of pieces has seen, and the lines that say so at its end.

use crate::containers::work::Counts;

#[derive(Default)]
pub struct Tally {
    pub containers: u64,
    pub accepted: u64,
    pub refused: u64,
    /// Outside the domain, or too costly to ask the original: as the rules say.
    pub by_the_rules: u64,
    pub opens: u64,
    /// Bytes of the beginnings that were enough, and of their films.
    pub opened: u64,
    pub whole: u64,
    pub steps: u64,
    pub short_windows: u64,
    pub chunks: u64,
    pub bytes: u64,
    /// Pieces of payloads that were unmasked by themselves.
    pub pieces: u64,
    /// Pairs of keys, and those that agree in the bits that a film shows.
    pub pairs: u64,
    pub agreeing: u64,
    /// Pairs whose streams part in the video, and in the audio.
    pub in_video: u64,
    pub in_audio: u64,
    /// Films whose payloads part where the film does.
    pub parted: u64,
}

impl Tally {
    fn counts(&mut self) -> [&mut u64; 17] {
        [
            &mut self.containers,
            &mut self.accepted,
            &mut self.refused,
            &mut self.by_the_rules,
            &mut self.opens,
            &mut self.opened,
            &mut self.whole,
            &mut self.steps,
            &mut self.short_windows,
            &mut self.chunks,
            &mut self.bytes,
            &mut self.pieces,
            &mut self.pairs,
            &mut self.agreeing,
            &mut self.in_video,
            &mut self.in_audio,
            &mut self.parted,
        ]
    }

    pub fn print(&self) {
        let line =
            |what: &str, count: u64, words: &str| println!("{}", format!("{what:<26}{count:>9}  {words}").trim_end());
        line("containers", self.containers, "");
        line("accepted", self.accepted, "piece by piece, and all agree with the original");
        line("refused", self.refused, "with the original's number and place");
        line("by the rules", self.by_the_rules, "as the rules say; the original panics or is not asked");
        line("beginnings", self.opens, &format!("{} of {} bytes were enough", self.opened, self.whole));
        line("steps", self.steps, &format!("{} by windows that were too short", self.short_windows));
        line("chunks", self.chunks, "");
        line("bytes of streams", self.bytes, "put together of payloads");
        line("pairs of keys", self.pairs, &format!("{} agree in the bits that the film shows", self.agreeing));
        line(
            "pairs that part",
            self.in_video + self.in_audio,
            &format!("{} in the audio, at the original's byte", self.in_audio),
        );
        line("films by payloads", self.parted, "part where the film does");
    }
}

impl Counts for Tally {
    type Seen = Tally;

    fn add(&mut self, seen: &Tally) {
        self.join(seen);
    }

    fn join(&mut self, other: &Tally) {
        let mut other = Tally { ..*other };
        for (sum, more) in self.counts().into_iter().zip(other.counts()) {
            *sum += *more;
        }
    }

    fn containers(&self) -> u64 {
        self.containers
    }
}
