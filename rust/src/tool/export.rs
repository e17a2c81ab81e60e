//! `export`: a stored trace as a recording, or as a line of text.

use super::arguments::{number, Arguments};
use super::files::{shown, Output};
use super::shelf::Shelf;
use super::{csv, numbers, plain, recordings, refused, written, wrong, Answer, Failure};
use silkendoz::Refusal;
use std::path::{Path, PathBuf};

/// Samples a second unless it is said or known.
const RATE: usize = 8000;
const MOST_RATE: usize = (1 << 31) - 1;

pub fn run(a: &Arguments) -> Answer {
    let [library, trace] = a.exactly(["LIBRARY", "the trace's NUMBER"])?;
    let (library, trace) = (Path::new(library), number("NUMBER", trace)?);
    let (said, as_text) = (a.number("--rate")?, a.has("--csv"));
    if said.is_some_and(|rate| rate > MOST_RATE) {
        return wrong(format!("--rate: a rate is 0 to {MOST_RATE}."));
    }
    if said.is_some() && as_text {
        return wrong("--rate: a line of text has none. Leave it out, or `--csv`.".to_string());
    }
    let out = a.needed_path("-o")?;
    let shelf = Shelf::load(library)?;
    let output = Output::of(&out, a.has("--force"), &shelf.files()?.each_ref().map(PathBuf::as_path))?;
    let (name, samples) = (shelf.names.shown(trace), numbers::count(shelf.library.n(), "sample"));
    let (bytes, how) = if as_text { text(&shelf, trace)? } else { recording(&shelf, trace, said)? };
    written(format!("{}: trace {trace}, {name}, {samples}{how}.\n", shown(&out)), output.write(&bytes)?)
}

/// The trace as a line that `build` and `add` read: its name, if it has one, and its samples.
fn text(shelf: &Shelf, trace: usize) -> Result<(Vec<u8>, String), Failure> {
    if trace >= shelf.library.len() {
        return no_such_trace(shelf, trace, Refusal::BadRecording);
    }
    let name = shelf.names.of(trace).map(|name| name.name.as_str());
    Ok((csv::line(name, &shelf.trace(trace)).into_bytes(), " as text".to_string()))
}

/// The trace as a WAV file, at the rate that was said or is known.
fn recording(shelf: &Shelf, trace: usize, said: Option<usize>) -> Result<(Vec<u8>, String), Failure> {
    let known = said.or(shelf.names.rate_of(trace).map(|rate| rate as usize));
    let rate = known.unwrap_or(RATE);
    match recordings::export(&shelf.library, trace, rate) {
        Ok(bytes) => Ok((bytes, format!(" at {rate} a second{}", if known.is_none() { ", which nobody said" } else { "" }))),
        Err(why) if trace < shelf.library.len() => too_wide(shelf, trace, why),
        Err(why) => no_such_trace(shelf, trace, why),
    }
}

/// A trace with a sample that a WAV of 16 bits does not hold.
fn too_wide<T>(shelf: &Shelf, trace: usize, why: Refusal) -> Result<T, Failure> {
    let samples = shelf.trace(trace);
    let first = samples.iter().position(|&sample| i16::try_from(sample).is_err()).unwrap_or_default();
    let which = format!("trace {trace}, {}, has samples beyond 16 bits", shelf.names.shown(trace));
    let what = format!("sample {} is {}, and a WAV file here holds -32768 to 32767", first + 1, samples[first]);
    refused(format!("{}: refused {}: {which}: {what}. `--csv` writes it as text.", plain::path(&shelf.path), why.number()))
}

fn no_such_trace<T>(shelf: &Shelf, trace: usize, why: Refusal) -> Result<T, Failure> {
    let stored = match shelf.library.len() {
        0 => "it holds no trace".to_string(),
        many => format!("it holds traces 0 to {}", many - 1),
    };
    refused(format!("{}: refused {}: there is no trace {trace}; {stored}.", plain::path(&shelf.path), why.number()))
}
