//! `build`: recordings into a library, with their names.

use super::arguments::Arguments;
use super::files::Place;
use super::names::{beside, Names};
use super::reading::{self, Found, Wanted, MOST_TRACES};
use super::shelf::{Held, Shelf};
use super::{again, labels, notes, numbers, plain, refused, saved, words, wrong, Answer, Failure};
use silkendoz::TraceLibrary;
use std::collections::BTreeSet;
use std::path::{Path, PathBuf};

/// What the leaf size is unless it is said.
pub const LEAF_SIZE: usize = 16;

pub fn run(a: &Arguments) -> Answer {
    let (out, sources) = a.one_and_more("OUT.sheet", "a FILE with recordings")?;
    let n = a.needed_number("--samples")?;
    let leaf_size = a.number("--leaf-size")?.unwrap_or(LEAF_SIZE);
    let said = a.number("--capacity")?;
    let without: BTreeSet<usize> = a.numbers("--without")?.into_iter().collect();
    let given = labels::Given::of(a)?;
    let over = a.has("--force");
    // measures and the place are judged before a file is looked at, the place again when it is written
    measures(a, n, said, leaf_size)?;
    let inputs = inputs(&sources);
    let inputs: Vec<&Path> = inputs.iter().map(PathBuf::as_path).chain(given.file()).collect();
    Held::of(out, !a.has("--no-wait"))?.must_take(over, &inputs)?;
    let mut found = reading::all(&sources, &Wanted { spare: without.len(), ..Wanted::of(a, n)? })?;
    leave_out(&mut found, &without)?;
    found.notes.extend(again::lines(std::iter::empty(), &found.sweeps, |_| String::new()));
    let capacity = said.unwrap_or_else(|| room_for(found.sweeps.len()));
    let library = TraceLibrary::open(n, capacity, leaf_size).or_else(|why| refused(words::of_call(why)))?;
    given.put(&mut found.sweeps)?;
    let mut shelf = Shelf::new(out, library, Names::default());
    let shown = plain::path(out);
    if let Err(Failure::Refused(why)) = shelf.put(&found.sweeps) {
        return refused(format!("{shown}: {why} Say `--capacity {}` or more, or leave some out.", found.sweeps.len()));
    }
    let held = Held::of(out, !a.has("--no-wait"))?;
    held.must_take(over, &found.files.iter().map(PathBuf::as_path).chain(inputs).collect::<Vec<_>>())?;
    let trouble = held.save(&shelf)?;
    let traces = numbers::count(shelf.library.len(), "trace");
    let samples = numbers::count(n, "sample");
    let (rates, labelled) = (mixed_rates(&shelf.names), labels::counted(shelf.library.labels()));
    let text = format!("{shown}: {traces} of {samples}, room for {capacity}, leaf size {leaf_size}{labelled}.\n{rates}");
    saved(notes(&found) + &text, trouble)
}

/// As many again as there are, 64 at least. If that is more than a library holds, as many as it holds.
pub fn room_for(traces: usize) -> usize {
    (2 * traces).clamp(64, MOST_TRACES)
}

/// Refuses measures that no library has, naming those that were given.
fn measures(a: &Arguments, n: usize, capacity: Option<usize>, leaf_size: usize) -> Result<(), Failure> {
    match TraceLibrary::open(n, capacity.unwrap_or(1), leaf_size) {
        Ok(_) => Ok(()),
        Err(why) => {
            let mut said = vec![numbers::count(n, "sample")];
            said.extend(capacity.map(|capacity| format!("capacity {capacity}")));
            said.extend(a.number("--leaf-size")?.map(|leaf_size| format!("leaf size {leaf_size}")));
            wrong(format!("{}: {}", said.join(", "), words::of_call(why)))
        }
    }
}

/// The files that are read, with the names beside those that are libraries, also behind a link.
fn inputs(sources: &[&Path]) -> Vec<PathBuf> {
    let names = |source: &Path| beside(Place::of(source).as_ref().map_or(source, Place::real));
    sources.iter().flat_map(|source| [source.to_path_buf(), names(source)]).collect()
}

/// Leaves out traces by their place among all that were read, counted from 0: the numbers that they have in a sheet read alone.
fn leave_out(found: &mut Found, without: &BTreeSet<usize>) -> Result<(), Failure> {
    let count = found.sweeps.len();
    if let Some(none) = without.iter().find(|number| **number >= count) {
        return refused(format!("--without: there is no trace {none}; the files hold {count}, counted from 0."));
    }
    let mut at = 0;
    found.sweeps.retain(|sweep| {
        let stays = !without.contains(&at);
        if !stays {
            found.notes.push(format!("without trace {at}, {}.", sweep.name));
        }
        at += 1;
        stays
    });
    match found.sweeps.is_empty() {
        true => refused("--without: no trace is left.".to_string()),
        false => Ok(()),
    }
}

/// Traces of different rates do not compare sample by sample.
fn mixed_rates(names: &Names) -> String {
    match names.rates().as_slice() {
        [] | [_] => String::new(),
        many => {
            let many: Vec<String> = many.iter().map(u32::to_string).collect();
            format!("Its recordings are of different rates: {} samples a second. Traces of different rates do not compare.\n", many.join(", "))
        }
    }
}
