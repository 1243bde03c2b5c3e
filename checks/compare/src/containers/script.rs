//! The lines of a replay: a container changed step by step, what is asked of it, and the original's answers.

use super::domain::{Domain, domain};
use super::original::{self, Answer, Film};
use super::rules;
use crate::hex::hex;

/// Zero bytes, or bytes that stay, between two runs that are put as one: a line of its own costs about as many.
const GAP: usize = 5;

/// What is asked of a container.
#[derive(Clone)]
pub enum Ask {
    Extract { audio: bool, key: Option<u64>, fallback: &'static str },
    List { audio: bool },
}

#[derive(Default)]
pub struct Script {
    container: Vec<u8>,
    pub input: String,
    pub output: String,
}

impl Script {
    /// Asks of a container; whatever is outside the domain there is left out.
    pub fn ask(&mut self, container: &[u8], asks: &[Ask]) {
        let inside: Vec<&Ask> = asks.iter().filter(|ask| is_inside(container, ask)).collect();
        if !inside.is_empty() {
            self.change_to(container);
        }
        for ask in inside {
            match *ask {
                Ask::Extract { audio, key, fallback } => self.extract(audio, key, fallback),
                Ask::List { audio } => self.list(audio),
            }
        }
    }

    /// Makes the current container another one, from nothing or by what differs: whichever takes fewer lines.
    fn change_to(&mut self, container: &[u8]) {
        let mut kept = self.container.clone();
        kept.resize(container.len(), 0);
        let length_line = match self.container.len() == container.len() {
            true => String::new(),
            false => format!("l {}\n", container.len()),
        };
        let changed = length_line + &patches(&kept, container);
        let anew = format!("n {}\n", container.len()) + &patches(&vec![0; container.len()], container);
        self.input += if changed.len() <= anew.len() { &changed } else { &anew };
        self.container = container.to_vec();
    }

    fn extract(&mut self, audio: bool, key: Option<u64>, fallback: &str) {
        let digits = key.map_or("-".to_string(), |key| format!("{key:016x}"));
        self.input += &format!("e {} {digits} {}\n", u8::from(audio), hex(fallback.as_bytes()));
        self.output += &match original::extract(&self.container, audio, key, fallback.as_bytes()) {
            Answer::Accepted(film) => extracted(&film),
            answer => refused(answer),
        };
    }

    fn list(&mut self, audio: bool) {
        self.input += &format!("c {}\n", u8::from(audio));
        self.output += &match original::extract(&self.container, audio, None, b"") {
            Answer::Accepted(film) => film.chunks.iter().map(|chunk| format!("{chunk}\n")).collect(),
            answer => refused(answer),
        };
    }
}

fn is_inside(container: &[u8], ask: &Ask) -> bool {
    let (Ask::Extract { audio, .. } | Ask::List { audio }) = *ask;
    domain(container, &rules::read(container, audio)) == Domain::Inside
}

/// The lines that make one container another of its length.
fn patches(from: &[u8], to: &[u8]) -> String {
    let differ: Vec<usize> = (0..to.len()).filter(|&at| from[at] != to[at]).collect();
    let runs = differ.chunk_by(|before, at| at - before <= GAP);
    runs.map(|run| format!("p {} {}\n", run[0], hex(&to[run[0]..=run[run.len() - 1]]))).collect()
}

fn extracted(film: &Film) -> String {
    let tracks = &film.header.tracks;
    let stream = |codec: Option<u32>, kind: &str, bytes: &[u8]| {
        let codec = codec.map_or("-".to_string(), |codec| codec.to_string());
        format!("{codec} {kind} {} {}", bytes.len(), hex(bytes))
    };
    let name = hex(&film.header.name);
    let video = stream(tracks.video_codec, &film.video_kind, &film.video);
    let audio = match tracks.has_audio {
        true => format!("audio {}", stream(tracks.audio_codec, &film.audio_kind, &film.audio)),
        false => "silent".to_string(),
    };
    format!("name {name}\nvideo {video}\n{audio}\n")
}

fn refused(answer: Answer) -> String {
    match answer {
        Answer::Refused(refusal) => format!("{refusal}\n"),
        Answer::Panicked(what, _) => panic!("the original panics inside the domain: {what}"),
        Answer::Accepted(_) => panic!("an accepted container is not refused"),
    }
}
