//! `remote`: what the jog remote is told of a sweep, and nothing else: the nearest trace's number, distance and fault code. Names stay out,
//! since they may say which machine a trace is of.

use super::arguments::Arguments;
use super::reading::{self, Sweep, Wanted};
use super::shelf::Shelf;
use super::table::{self, Column};
use super::{done, json, labels, notes, numbers, plain, refused, words, Answer, Failure};
use silkendoz::RemoteMatch;

pub fn run(a: &Arguments) -> Answer {
    let (library, files) = a.one_and_more("LIBRARY", "a FILE with a sweep")?;
    let shelf = Shelf::load(library)?;
    let read = reading::all(&files, &Wanted::by(a, &shelf.library)?)?;
    let told = read.sweeps.iter().map(|sweep| Ok((sweep, told(&shelf, sweep)?))).collect::<Result<Vec<_>, Failure>>()?;
    done(match a.has("--json") {
        true => in_json(&told),
        false => format!("{}{}", notes(&read), in_lines(&shelf, &told)),
    })
}

fn told(shelf: &Shelf, sweep: &Sweep) -> Result<RemoteMatch, Failure> {
    shelf.library.remote_match(&sweep.samples).or_else(|why| refused(format!("{}: {}", plain::path(&shelf.path), words::of_call(why))))
}

fn in_lines(shelf: &Shelf, told: &[(&Sweep, RemoteMatch)]) -> String {
    let heads = [("sweep", false), ("no.", true), ("code", false), ("fault", false), ("distance", true), ("a sample", true)];
    let columns: Vec<Column> = heads.into_iter().chain([("leaves", true), ("traces", true)]).map(|(name, right)| Column(name, right)).collect();
    let row = |(sweep, found): &(&Sweep, RemoteMatch)| {
        let apart = numbers::per_sample(found.distance, shelf.library.n());
        let fault = shelf.codes.word(found.code).unwrap_or("-").to_string();
        let figures = [found.distance.to_string(), format!("{apart:.1}"), found.leaves.to_string(), found.traces.to_string()];
        [sweep.name.clone(), found.trace.to_string(), labels::shown(found.code), fault].into_iter().chain(figures).collect()
    };
    table::text(&columns, &told.iter().map(row).collect::<Vec<Vec<String>>>())
}

fn in_json(told: &[(&Sweep, RemoteMatch)]) -> String {
    let sweep = |(sweep, found): &(&Sweep, RemoteMatch)| {
        json::object(&[
            ("name", json::text(&sweep.name)),
            ("file", json::text(&sweep.file)),
            ("number", found.trace.to_string()),
            ("distance", found.distance.to_string()),
            ("code", found.code.to_string()),
            ("leaves_read", found.leaves.to_string()),
            ("traces_read", found.traces.to_string()),
        ])
    };
    format!("{}\n", json::object(&[("sweeps", json::array(&told.iter().map(sweep).collect::<Vec<_>>()))]))
}
