//! The steps by which a film or container that differs is made smaller.

use std::iter;

use super::compare::{self, Difference, Made, Way};
use super::damage::{Copy, Form};
use super::exports::Codecs;
use super::original::Film;
use super::tally::Tally;
use crate::shrink::{halves, shorter, smallest, with_a_zero};

/// The difference that the smallest film makes.
pub fn film(made: &Made) -> Option<Difference> {
    let compare = |made: &Made| compare::film(made, &mut Tally::default()).err();
    compare(&smallest(made, |made| Box::new(smaller_films(made)), |made| compare(made).is_some()))
}

/// The difference that the smallest container makes.
pub fn container(copy: &Copy, way: Way) -> Option<Difference> {
    let compare = |copy: &Copy| compare::any(copy.container(), way, &mut Tally::default()).err();
    compare(&smallest(copy, |copy| Box::new(smaller_containers(copy)), |copy| compare(copy).is_some()))
}

fn smaller_films(made: &Made) -> impl Iterator<Item = Made> {
    let plainer = [
        made.key.map(|_| Made { key: None, ..made.clone() }),
        made.codecs.video.map(|_| Made { codecs: Codecs { video: None, ..made.codecs }, ..made.clone() }),
        made.codecs.audio.map(|_| Made { codecs: Codecs { audio: None, ..made.codecs }, ..made.clone() }),
    ];
    let with = |film: Film| Made { film, ..made.clone() };
    let film = &made.film;
    let fewer = (0..film.audios.len()).map(move |at| {
        let mut fewer = film.clone();
        fewer.audios.remove(at);
        fewer
    });
    let names = less(film.name.chars().count()).map(|left| film.name.chars().take(left).collect());
    let videos = less(film.video.len()).map(|left| film.video[..left].to_vec());
    let audios = (0..film.audios.len()).flat_map(move |at| {
        less(film.audios[at].len()).map(move |left| {
            let mut shorter = film.clone();
            shorter.audios[at].truncate(left);
            shorter
        })
    });
    let films = fewer
        .chain(names.map(|name| Film { name, ..film.clone() }))
        .chain(videos.map(|video| Film { video, ..film.clone() }))
        .chain(audios);
    plainer.into_iter().flatten().chain(films.map(with))
}

/// Nothing of a length, half of it, three quarters, and so on.
fn less(length: usize) -> impl Iterator<Item = usize> {
    let nothing = if length > 0 { Some(0) } else { None };
    nothing.into_iter().chain(halves(length).map(move |half| length - half))
}

fn smaller_containers(copy: &Copy) -> impl Iterator<Item = Copy> {
    let blocks = [Form::Old, Form::New].map(|form| form.blocks(copy.container()));
    let without = blocks.into_iter().flatten().map(|block| {
        let container = copy.container();
        Copy::new(&[&container[..block.start], &container[block.end..]].concat())
    });
    iter::empty().chain(shorter(copy)).chain(without).chain(with_a_zero(copy))
}
