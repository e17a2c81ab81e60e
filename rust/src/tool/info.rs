//! `info`: what a library holds, its tree, and the memory that a controller needs for it.

use super::arguments::Arguments;
use super::blocks::{Width, LABELS};
use super::shelf::Shelf;
use super::table::{self, Column};
use super::{done, json, numbers, plain, Answer, Failure};
use silkendoz::{Label, TraceLibrary};
use std::collections::BTreeSet;
use std::path::Path;

pub fn run(a: &Arguments) -> Answer {
    let [library] = a.exactly(["LIBRARY"])?;
    let shelf = Shelf::load(Path::new(library))?;
    let l = &shelf.library;
    if a.has("--json") {
        return done(in_json(&shelf));
    }
    let mut text = format!("{}\n", plain::path(&shelf.path));
    let mut line = |what: &str, value: String| text.push_str(&format!("  {what:<18}{value}\n"));
    line("samples a trace", l.n().to_string());
    line("sheet", sheet(l));
    line("traces", format!("{} of {}", l.len(), l.capacity()));
    line("names", named(&shelf)?);
    line("rate", rates(&shelf));
    if shelf.is_labelled() {
        line("labels", labelled(&shelf)?);
    }
    line("leaf size", l.leaf_size().to_string());
    line("tree", tree(l));
    text.push_str("Memory for a controller, in bytes:\n");
    text.push_str(&memory(l));
    done(text)
}

/// How many traces have a sample that does not fit 16 bits.
fn wide_traces(l: &TraceLibrary) -> usize {
    l.traces().filter(|trace| trace.iter().any(|sample| sample.is_wide())).count()
}

/// Which kind of sheet it has, and because of how many traces.
fn sheet(l: &TraceLibrary) -> String {
    match wide_traces(l) {
        0 => "narrow: all samples fit 16 bits, and take two bytes".to_string(),
        many => format!("wide: {many} of {} with samples beyond 16 bits; all take four bytes", numbers::count(l.len(), "trace")),
    }
}

fn named(shelf: &Shelf) -> Result<String, Failure> {
    let [_, path, _] = shelf.files()?.map(|path| plain::path(&path));
    let left = match shelf.names.left() {
        0 => String::new(),
        left => format!("; {} there fit no trace", numbers::count(left, "line")),
    };
    Ok(match shelf.names.known() {
        0 => format!("none (no line of {path} fits, or it is not there){left}"),
        known => format!("{known}, in {path}{left}"),
    })
}

/// The codes and the serials of its traces, each once.
fn different(shelf: &Shelf) -> (BTreeSet<u16>, BTreeSet<u32>) {
    let codes = shelf.library.labels().map(|label| label.code).filter(|code| *code != 0);
    let serials = shelf.library.labels().map(|label| label.serial).filter(|serial| *serial != 0);
    (codes.collect(), serials.collect())
}

/// How many traces have a label.
fn with_label(shelf: &Shelf) -> usize {
    shelf.library.labels().filter(|label| *label != Label::default()).count()
}

fn labelled(shelf: &Shelf) -> Result<String, Failure> {
    let [_, _, path] = shelf.files()?.map(|path| plain::path(&path));
    let (codes, serials) = different(shelf);
    let known = codes.iter().filter(|code| shelf.codes.word(**code).is_some()).count();
    let words = match known {
        0 => String::new(),
        known => format!(" ({known} with a word in {path})"),
    };
    let (some, all) = (with_label(shelf), shelf.library.len());
    Ok(format!("{some} of {all}: {}{words}, {}", numbers::count(codes.len(), "code"), numbers::count(serials.len(), "serial")))
}

/// The rates of its recordings, as far as they are known.
fn rates(shelf: &Shelf) -> String {
    let rates: Vec<String> = shelf.names.rates().iter().map(u32::to_string).collect();
    match rates.is_empty() {
        true => "not known".to_string(),
        false => format!("{} samples a second", rates.join(", ")),
    }
}

fn tree(l: &TraceLibrary) -> String {
    let leaves = l.leaves();
    let depth = leaves.iter().map(|leaf| leaf.depth).max();
    let held = leaves.iter().map(|leaf| leaf.traces);
    match (held.clone().min(), held.max(), depth) {
        (Some(least), Some(most), Some(depth)) => {
            let fill = 100.0 * l.len() as f64 / (leaves.len() * l.leaf_size()) as f64;
            let mean = l.len() as f64 / leaves.len() as f64;
            let shape = format!("{}, {}, depth {depth}", numbers::count(l.node_count(), "node"), numbers::count(leaves.len(), "leaf"));
            format!("{shape}; traces a leaf {least} to {most}, {mean:.1} on average ({fill:.0} % of the leaf size)")
        }
        _ => "none: no trace is stored".to_string(),
    }
}

/// As the guide's table of memory needs: each table, all of them with the control record, the trail, a full sheet with labels, narrow and
/// wide.
fn needs(l: &TraceLibrary) -> [usize; 9] {
    let (n, c) = (l.n(), l.capacity());
    let [samples, nodes, links, work, labels] = [4 * c * n, 8 * (2 * c - 1) * 87, 2 * c, 8 * (2 * c - 1), 8 * c];
    let all = samples + nodes + links + work + labels + 10;
    let [narrow, wide] = [Width::Narrow, Width::Wide].map(|width| 512 * (1 + (c * n).div_ceil(width.samples()) + c.div_ceil(LABELS)));
    [samples, nodes, links, work, labels, all, 2 * c, narrow, wide]
}

fn memory(l: &TraceLibrary) -> String {
    let tables = ["samples", "node records", "links", "search work", "labels", "in all, with the control record", "trail"];
    let tables = tables.into_iter().chain(["sheet, when full", "if wide"]).map(|name| Column(name, true)).collect::<Vec<_>>();
    table::text(&tables, &[needs(l).map(numbers::grouped).to_vec()])
}

fn in_json(shelf: &Shelf) -> String {
    let l = &shelf.library;
    let depth = l.leaves().iter().map(|leaf| leaf.depth).max().unwrap_or_default();
    let columns = ["samples", "node_records", "links", "search_work", "labels", "all", "trail", "full_sheet", "full_wide_sheet"];
    let memory: Vec<(&str, String)> = columns.into_iter().zip(needs(l).map(|bytes| bytes.to_string())).collect();
    let rates: Vec<String> = shelf.names.rates().iter().map(u32::to_string).collect();
    let fields = [
        ("file", json::text(&plain::path(&shelf.path))),
        ("hash", json::text(&shelf.hash())),
        ("samples", l.n().to_string()),
        ("traces", l.len().to_string()),
        ("capacity", l.capacity().to_string()),
        ("leaf_size", l.leaf_size().to_string()),
        ("wide_traces", wide_traces(l).to_string()),
        ("names", shelf.names.known().to_string()),
        ("lines_that_fit_no_trace", shelf.names.left().to_string()),
        ("rates", json::array(&rates)),
        ("labels", with_label(shelf).to_string()),
        ("codes", different(shelf).0.len().to_string()),
        ("serials", different(shelf).1.len().to_string()),
        ("nodes", l.node_count().to_string()),
        ("leaves", l.leaf_count().to_string()),
        ("depth", depth.to_string()),
        ("memory", json::object(&memory)),
    ];
    format!("{}\n", json::object(&fields))
}
