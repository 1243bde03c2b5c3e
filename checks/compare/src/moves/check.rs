//! The check of moves: films of the builder to request 1's container and back, and damaged copies of both.

use super::compare::{self, Difference, Made, Way, moved};
use super::damage::{self, Copy, Form};
use super::exports::NO_CODECS;
use super::generate::{self, LENGTHS};
use super::original::{self, Film};
use super::tally::Tally;
use super::{limits, names, shrink};
use crate::containers::samples;
use crate::progress::Progress;
use crate::random::Random;
use crate::writes::exports as writes;

/// Films of random shape, beside those with every two lengths that matter.
const RANDOM_FILMS: usize = 24_000;
/// Films so small that all damaged copies are moved.
const SMALL_FILMS: usize = 48;

/// Moves everything, both ways; gives the counts, or the first difference, made small.
pub fn run() -> Result<Tally, Difference> {
    let mut check = Check { tally: Tally::default(), random: Random(9), progress: Progress::of("films") };
    check.lengths()?;
    check.random_films()?;
    check.small_films()?;
    check.names()?;
    check.foreign()?;
    limits::check(&mut check.tally)?;
    Ok(check.tally)
}

struct Check {
    tally: Tally,
    random: Random,
    progress: Progress,
}

impl Check {
    /// Video and audio of every two lengths that matter, and video alone.
    fn lengths(&mut self) -> Result<(), Difference> {
        for video in LENGTHS {
            for audio in LENGTHS.map(Some).into_iter().chain([None]) {
                let audios: Vec<usize> = audio.into_iter().collect();
                let film = generate::shaped(video, &audios, &mut self.random);
                let made = generate::under_all_codecs(&film, &mut self.random);
                let one = self.random.within(0..made.len() as u64) as usize;
                self.film(&made[one..=one])?;
            }
        }
        Ok(())
    }

    fn random_films(&mut self) -> Result<(), Difference> {
        for _ in 0..RANDOM_FILMS {
            let film = generate::film(&mut self.random);
            let made = generate::under_all_codecs(&film, &mut self.random);
            self.film(&made)?;
            self.damaged(&made[0], damage::some)?;
            self.written(&film)?;
        }
        Ok(())
    }

    fn small_films(&mut self) -> Result<(), Difference> {
        for _ in 0..SMALL_FILMS {
            let film = generate::small(&mut self.random);
            let made = generate::under_all_codecs(&film, &mut self.random);
            self.film(&made)?;
            self.damaged(&made[1], damage::every)?;
        }
        Ok(())
    }

    /// A film under some codecs.
    fn film(&mut self, made: &[Made]) -> Result<(), Difference> {
        for made in made {
            if compare::film(made, &mut self.tally).is_err() {
                return shrink::film(made).map_or(Ok(()), Err);
            }
        }
        self.tally.films += 1;
        self.tally.several += u64::from(made[0].film.audios.len() > 1);
        self.progress.at(self.tally.films);
        Ok(())
    }

    /// Damaged copies of both containers of a film.
    fn damaged(&mut self, made: &Made, copies: fn(&[u8], Form, &mut Random) -> Vec<Copy>) -> Result<(), Difference> {
        let stored = original::stored(&made.film, made.key);
        for copy in copies(&original::build(&stored, None), Form::Old, &mut self.random) {
            self.any(copy, Way::FromOld(made.codecs))?;
        }
        let new = moved(&stored, made.codecs);
        for copy in new.map_or(Vec::new(), |new| copies(&new, Form::New, &mut self.random)) {
            self.any(copy, Way::ToOld)?;
        }
        Ok(())
    }

    /// A film that our writer wrote, masked under a key, and under a name that need not be UTF-8.
    fn written(&mut self, film: &Film) -> Result<(), Difference> {
        let name = if self.random.one_in(2) { self.random.bytes(3) } else { film.name.clone().into_bytes() };
        let audio = film.audios.first().map(Vec::as_slice);
        let film = writes::Film {
            name: &name,
            video: &film.video,
            audio,
            video_codec: Some(generate::codec(&mut self.random)),
            audio_codec: audio.map(|_| generate::codec(&mut self.random)),
            key: generate::key(&mut self.random),
        };
        let mut written = vec![0; writes::write(film, &mut []).size];
        writes::write(film, &mut written);
        self.any(Copy::new(&written), Way::ToOld)
    }

    /// Every name that could be a character, in both containers of a film.
    fn names(&mut self) -> Result<(), Difference> {
        for name in names::all() {
            let film = Film { name: "x".repeat(name.len()), video: vec![7; 3], audios: Vec::new() };
            let old = original::build(&film, None);
            let new = moved(&film, NO_CODECS).unwrap_or_default();
            self.any(names::put(&old, Form::Old, &name), Way::FromOld(NO_CODECS))?;
            self.any(names::put(&new, Form::New, &name), Way::ToOld)?;
        }
        Ok(())
    }

    /// Containers of other kinds, and no bytes at all.
    fn foreign(&mut self) -> Result<(), Difference> {
        for container in samples::all().into_iter().chain([Vec::new()]) {
            self.any(Copy::new(&container), Way::FromOld(NO_CODECS))?;
            self.any(Copy::new(&container), Way::ToOld)?;
        }
        Ok(())
    }

    fn any(&mut self, copy: Copy, way: Way) -> Result<(), Difference> {
        match compare::any(copy.container(), way, &mut self.tally) {
            Err(_) => return shrink::container(&copy, way).map_or(Ok(()), Err),
            Ok(is_film) => self.tally.other_films += u64::from(is_film),
        }
        self.tally.others += 1;
        Ok(())
    }
}
