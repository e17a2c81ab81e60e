//! What a sweep is matched with: a library, and a factory's beside it if one is named. The factory's is only read: nothing is written there,
//! nor is it locked.

use super::arguments::Arguments;
use super::reading::Wanted;
use super::shelf::Shelf;
use super::{disk, labels, numbers, plain, refused, words, wrong, Failure};
use silkendoz::{scan, Label, Library, Neighbour, Refusal, TraceLibrary};
use std::collections::BTreeSet;
use std::os::unix::fs::MetadataExt;
use std::path::{Path, PathBuf};

/// The option that names the factory's library.
pub const FACTORY: &str = "--factory";

pub struct Shelves {
    /// The library that the command is about: the bench's.
    pub own: Shelf,
    pub factory: Option<Shelf>,
}

/// A stored trace, with its distance to a sweep. Traces of two libraries have one numbering, the factory's first.
#[derive(Clone, Copy, Debug, PartialEq, Eq)]
pub struct Near {
    pub trace: usize,
    pub distance: u64,
}

/// A stored trace that could be the match of a sweep with clipped samples: its distance is at least the one and at most the other.
#[derive(Clone, Copy, Debug, PartialEq, Eq)]
pub struct Possible {
    pub trace: usize,
    pub least: u64,
    pub greatest: u64,
}

/// How much of a library was read.
#[derive(Clone, Copy, Debug, Default, PartialEq, Eq)]
pub struct Read {
    pub leaves: usize,
    pub traces: usize,
}

impl Read {
    /// Of all that a library has.
    pub fn of(self, shelf: &Shelf) -> String {
        let (leaves, traces) = (numbers::count(shelf.library.leaf_count(), "leaf"), numbers::count(shelf.library.len(), "trace"));
        format!("{} of {leaves}, {} of {traces}", self.leaves, self.traces)
    }
}

/// What a search found.
pub struct Searched {
    /// The nearest, by distance, then by number: so the factory's come first among equals.
    pub list: Vec<Near>,
    pub own: Read,
    /// Of the factory's library, if there is one.
    pub factory: Option<Read>,
}

impl Searched {
    /// Leaves and traces over both.
    pub fn read(&self) -> Read {
        let other = self.factory.unwrap_or_default();
        Read { leaves: self.own.leaves + other.leaves, traces: self.own.traces + other.traces }
    }
}

/// A stored trace by its number in its own library, and which that is, if there are two.
pub struct Place<'a> {
    pub shelf: &'a Shelf,
    pub number: usize,
    pub which: Option<&'static str>,
}

impl Shelves {
    /// The library at this path, and the one that `--factory` names.
    pub fn load(a: &Arguments, path: &Path) -> Result<Shelves, Failure> {
        let own = Shelf::load(path)?;
        let Some(named) = a.path(FACTORY) else { return Ok(Shelves { own, factory: None }) };
        let which = |path: &Path| disk::follow(path).ok().flatten().map(|it| (it.dev(), it.ino()));
        if which(path) == which(&named) {
            return wrong(format!("{FACTORY}: {} is the LIBRARY itself. Name another one.", plain::path(&named)));
        }
        let factory = Shelf::load(&named)?;
        if factory.library.n() != own.library.n() {
            let [own, other] = [&own, &factory].map(|shelf| format!("those of {} {}", plain::path(&shelf.path), shelf.library.n()));
            return refused(format!("{} Samples a trace: {own}, {other}.", words::of_call(Refusal::UnlikeLibraries)));
        }
        Ok(Shelves { own, factory: Some(factory) })
    }

    /// The factory's, if there is one, and the library.
    pub fn each(&self) -> impl Iterator<Item = &Shelf> {
        self.factory.iter().chain([&self.own])
    }

    pub fn n(&self) -> usize {
        self.own.library.n()
    }

    /// How many traces are stored in both.
    pub fn len(&self) -> usize {
        self.each().map(|shelf| shelf.library.len()).sum()
    }

    /// Where a number of both leads to.
    pub fn place(&self, number: usize) -> Place<'_> {
        match &self.factory {
            None => Place { shelf: &self.own, number, which: None },
            Some(factory) => match number.checked_sub(factory.library.len()) {
                None => Place { shelf: factory, number, which: Some("factory") },
                Some(number) => Place { shelf: &self.own, number, which: Some("bench") },
            },
        }
    }

    /// `trace 7`, and of which library, if there are two.
    pub fn called(&self, number: usize) -> String {
        let place = self.place(number);
        place.which.map_or(format!("trace {}", place.number), |which| format!("{which} trace {}", place.number))
    }

    pub fn trace(&self, number: usize) -> Vec<i32> {
        let place = self.place(number);
        place.shelf.trace(place.number)
    }

    pub fn label(&self, number: usize) -> Label {
        let place = self.place(number);
        place.shelf.label(place.number)
    }

    pub fn is_labelled(&self) -> bool {
        self.each().any(Shelf::is_labelled)
    }

    /// The name to show.
    pub fn shown(&self, number: usize) -> &str {
        let place = self.place(number);
        place.shelf.names.shown(place.number)
    }

    /// The name, if it has one.
    pub fn name(&self, number: usize) -> Option<&str> {
        let place = self.place(number);
        place.shelf.names.of(place.number).map(|name| name.name.as_str())
    }

    /// A code as a fault. It is one fault in both libraries, with the factory's word for it, if there is one.
    pub fn fault(&self, code: u16) -> String {
        let known = self.each().find(|shelf| shelf.codes.word(code).is_some());
        known.map_or_else(|| labels::Codes::default().fault(code), |shelf| shelf.codes.fault(code))
    }

    pub fn rate_of(&self, number: usize) -> Option<u32> {
        let place = self.place(number);
        place.shelf.names.rate_of(place.number)
    }

    /// All rates that are known of stored traces, rising, each once.
    pub fn rates(&self) -> Vec<u32> {
        let mut rates: Vec<u32> = self.each().flat_map(|shelf| shelf.names.rates()).collect();
        rates.sort_unstable();
        rates.dedup();
        rates
    }

    /// The rate that all stored traces of a known rate have.
    pub fn rate(&self) -> Option<u32> {
        match self.rates().as_slice() {
            [one] => Some(*one),
            _ => None,
        }
    }

    /// What sweeps have to be like.
    pub fn wanted(&self, a: &Arguments) -> Result<Wanted, Failure> {
        let narrow = self.len() > 0 && !self.each().any(|shelf| shelf.library.is_wide());
        Ok(Wanted { narrow, ..Wanted::of(a, self.n())? })
    }

    /// The files of both, none of which an output may overwrite.
    pub fn files(&self) -> Result<Vec<PathBuf>, Failure> {
        self.each().map(Shelf::files).collect::<Result<Vec<_>, _>>().map(|files| files.concat())
    }

    /// The paths of both, for a message.
    pub fn paths(&self) -> String {
        self.each().map(|shelf| plain::path(&shelf.path)).collect::<Vec<_>>().join(", ")
    }

    /// The k nearest of all stored traces. Of two libraries the nearest is what the call over both answers; the others of a longer list are
    /// among the k nearest of each.
    pub fn k_nearest(&self, sweep: &[i32], k: usize) -> Result<Searched, Refusal> {
        let Some(factory) = &self.factory else {
            let found = listed(&self.own.library, sweep, k, 0)?;
            return Ok(Searched { list: found.0, own: found.1, factory: None });
        };
        let behind = factory.library.len();
        let nearest = TraceLibrary::match_both(&factory.library, &self.own.library, sweep)?;
        let first = match nearest.library {
            Library::Factory => Near { trace: nearest.trace, distance: nearest.distance },
            Library::Bench => Near { trace: behind + nearest.trace, distance: nearest.distance },
        };
        if k == 1 {
            let theirs = traces_in(&factory.library, &nearest.factory_trail);
            let read = Read { leaves: nearest.factory_trail.len(), traces: theirs };
            let own = Read { leaves: nearest.bench_trail.len(), traces: nearest.traces - theirs };
            return Ok(Searched { list: vec![first], own, factory: Some(read) });
        }
        // one without a trace has none to list
        let of = |shelf: &Shelf, from: usize| match shelf.library.is_empty() {
            true => Ok((Vec::new(), Read::default())),
            false => listed(&shelf.library, sweep, k, from),
        };
        let ((theirs, read), (mine, own)) = (of(factory, 0)?, of(&self.own, behind)?);
        let mut list = [theirs, mine].concat();
        list.sort_by_key(|near| (near.distance, near.trace));
        list.truncate(k);
        debug_assert_eq!(list.first(), Some(&first));
        Ok(Searched { list, own, factory: Some(read) })
    }

    /// Every stored trace that could be the match of a sweep whose samples lie between these figures, by number. Of two libraries each lists
    /// its own, among them the one that has its smallest greatest distance. So the smallest of both is known, and those stay that are no
    /// farther at least.
    pub fn match_clipped(&self, lows: &[i32], highs: &[i32]) -> Result<Vec<Possible>, Refusal> {
        let mut list = Vec::new();
        let mut from = 0;
        for library in self.each().map(|shelf| &shelf.library) {
            // one of the two may have no trace, and only if neither has one is there none to list
            let listed = if library.is_empty() && self.len() > 0 { Vec::new() } else { library.match_clipped(lows, highs)? };
            list.extend(listed.into_iter().filter_map(|number| {
                let (least, greatest) = scan::possible_distances(library.trace(number)?, lows, highs);
                Some(Possible { trace: from + number, least, greatest })
            }));
            from += library.len();
        }
        let smallest = list.iter().map(|one: &Possible| one.greatest).min();
        list.retain(|one| Some(one.least) <= smallest);
        Ok(list)
    }

    /// How much of each library was read.
    pub fn read(&self, found: &Searched) -> String {
        match (&self.factory, found.factory) {
            (Some(factory), Some(read)) => format!("factory {}; bench {}", read.of(factory), found.own.of(&self.own)),
            _ => found.own.of(&self.own),
        }
    }
}

/// The k nearest of one library, numbered from so many on.
fn listed(library: &TraceLibrary, sweep: &[i32], k: usize, from: usize) -> Result<(Vec<Near>, Read), Refusal> {
    let found = library.k_nearest(sweep, k)?;
    let near = |near: &Neighbour| Near { trace: from + near.trace, distance: near.distance };
    Ok((found.list.iter().map(near).collect(), Read { leaves: found.leaves, traces: found.traces }))
}

/// How many traces these leaves hold.
fn traces_in(library: &TraceLibrary, leaves: &[u16]) -> usize {
    let read: BTreeSet<usize> = leaves.iter().map(|&leaf| leaf.into()).collect();
    library.leaves().iter().filter(|leaf| read.contains(&leaf.number)).map(|leaf| leaf.traces).sum()
}
