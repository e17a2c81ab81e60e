//! `add`: more traces into a library, all of them or none.

use super::arguments::Arguments;
use super::reading::{self, Sweep, Wanted};
use super::shelf::{Held, Shelf};
use super::{again, files, labels, notes, numbers, plain, refused, saved, Answer, Failure};

pub fn run(a: &Arguments) -> Answer {
    let (path, sources) = a.one_and_more("LIBRARY", "a FILE with recordings")?;
    if sources.iter().any(|source| reading::is_standard(source)) {
        // nobody waits for a lock while somebody types
        files::read_standard()?;
    }
    let given = labels::Given::of(a)?;
    let held = Held::of(path, !a.has("--no-wait"))?;
    let mut shelf = Shelf::load(path)?;
    held.must_take(true, &[])?;
    let before = shelf.library.len();
    let shown = plain::path(path);
    let mut found = reading::all(&sources, &Wanted::by(a, &shelf.library)?)?;
    given.put(&mut found.sweeps)?;
    let known = shelf.names.rates();
    if !a.has("--again") {
        must_be_new(&shelf, &found.sweeps)?;
    }
    if let Err(Failure::Refused(why)) = shelf.put(&found.sweeps) {
        return refused(format!("{shown}: {why} Nothing was added. {}", larger(&shelf, before + found.sweeps.len())));
    }
    let trouble = held.save(&shelf)?;
    let added = numbers::count(found.sweeps.len(), "trace");
    let now = format!("{} of {} are taken", shelf.library.len(), shelf.library.capacity());
    let first = match found.sweeps.len() {
        1 => format!("number {before}"),
        _ => format!("numbers {before} to {}", shelf.library.len() - 1),
    };
    let (rates, labelled) = (reading::other_rates(&found.sweeps, &known), labels::counted(found.sweeps.iter().map(|sweep| sweep.label)));
    saved(format!("{}{shown}: {added} added, {first}{labelled}; {now}.\n{rates}", notes(&found)), trouble)
}

/// Refuses traces that are stored already, or that come twice.
fn must_be_new(shelf: &Shelf, sweeps: &[Sweep]) -> Result<(), Failure> {
    let again = again::lines(shelf.library.traces(), sweeps, |number| shelf.names.shown(number).to_string());
    match again.is_empty() {
        true => Ok(()),
        false => refused(format!("{}\nNothing was added. Say `--again` to add such traces all the same.", again.join("\n"))),
    }
}

/// What to do about a library without room.
fn larger(shelf: &Shelf, wanted: usize) -> String {
    let (n, own) = (shelf.library.n(), plain::word(&shelf.path));
    if wanted > reading::MOST_TRACES {
        let other = format!("`silkendoz build NEW.sheet --samples {n} --without N,M {own} FILE..` leaves out what you need no more");
        return format!("No library holds more than {} traces. Begin another library for these, or {other}.", reading::MOST_TRACES);
    }
    let measures = format!("--samples {n} --capacity {wanted} --leaf-size {}", shelf.library.leaf_size());
    format!("`silkendoz build NEW.sheet {measures} {own}` makes a larger one of it, with its names.")
}
