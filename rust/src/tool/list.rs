//! `list`: the traces of a library, with their names, files and rates.

use super::arguments::Arguments;
use super::shelf::Shelf;
use super::table::{self, Column};
use super::{done, hash, json, labels, numbers, plain, Answer};
use std::path::Path;

pub fn run(a: &Arguments) -> Answer {
    let [library] = a.exactly(["LIBRARY"])?;
    let shelf = Shelf::load(Path::new(library))?;
    done(match a.has("--json") {
        true => in_json(&shelf),
        false => in_lines(&shelf),
    })
}

fn in_lines(shelf: &Shelf) -> String {
    let labelled = shelf.is_labelled();
    let mut columns = vec![Column("no.", true), Column("name", false), Column("file", false), Column("rate", true)];
    if labelled {
        columns.extend([Column("code", false), Column("serial", true)]);
    }
    let row = |number: usize| {
        let file = shelf.names.of(number).map_or("-", |name| &name.file);
        let rate = shelf.names.rate_of(number).map_or("-".to_string(), |rate| rate.to_string());
        let mut row = vec![number.to_string(), shelf.names.shown(number).to_string(), file.to_string(), rate];
        if labelled {
            row.extend([labels::shown(shelf.label(number).code), labels::shown_serial(shelf.label(number).serial)]);
        }
        row
    };
    let rows: Vec<Vec<String>> = (0..shelf.library.len()).map(row).collect();
    let (traces, samples) = (numbers::count(rows.len(), "trace"), numbers::count(shelf.library.n(), "sample"));
    format!("{}: {traces} of {samples}\n{}", plain::path(&shelf.path), table::text(&columns, &rows))
}

fn in_json(shelf: &Shelf) -> String {
    let null = || "null".to_string();
    let trace = |number: usize| {
        let name = shelf.names.of(number);
        json::object(&[
            ("number", number.to_string()),
            ("name", name.map_or_else(null, |name| json::text(&name.name))),
            ("file", name.map_or_else(null, |name| json::text(&name.file))),
            ("rate", shelf.names.rate_of(number).map_or_else(null, |rate| rate.to_string())),
            ("code", shelf.label(number).code.to_string()),
            ("serial", shelf.label(number).serial.to_string()),
            ("hash", json::text(&hash::of_trace(&shelf.trace(number)))),
        ])
    };
    let traces: Vec<String> = (0..shelf.library.len()).map(trace).collect();
    let fields = [("file", json::text(&plain::path(&shelf.path))), ("samples", shelf.library.n().to_string()), ("traces", json::array(&traces))];
    format!("{}\n", json::object(&fields))
}
