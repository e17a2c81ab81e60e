//! `match --clipped`: every trace that could be the match of a sweep with clipped samples, by fault, with a bar from its least to its greatest
//! distance. What is only possible is called no more than that.

use super::arguments::Arguments;
use super::clipped::{Asked, Found, Group, CLIPPED};
use super::limited;
use super::matching::{in_json, sweep_in_json};
use super::reading::{self, Found as Files};
use super::shelves::{Possible, Shelves};
use super::table::{self, Column};
use super::verdict::{behind_fault, Apart, Faults};
use super::{done, json, labels, notes, numbers, plain, wrong, Answer, Failure};
use std::path::Path;

/// Cells of the longest bar.
const LONGEST_BAR: usize = 40;

/// All that are listed are shown if they are no more than so many; else of each of so many faults the first few.
const SHOWN: usize = 24;
const FAULTS_SHOWN: usize = 12;
const TRACES_A_FAULT: usize = 3;

/// What was said of clipped samples, if anything was. Every trace that could be the match is listed, so that there is no number to say.
pub fn asked(a: &Arguments) -> Result<Option<Asked>, Failure> {
    let Some(asked) = Asked::of(a)? else { return Ok(None) };
    if a.number("-k")?.is_some() {
        return wrong(format!("`{CLIPPED}` and `-k` do not go together: every trace that could be the match is listed, however many they are."));
    }
    if a.one_or_more(limited::LEAVES)?.is_some() {
        let leaves = limited::LEAVES;
        return wrong(format!("`{CLIPPED}` and `{leaves}` do not go together: a trace in an unread leaf could be the match, too. Leave out one."));
    }
    Ok(Some(asked))
}

pub fn run(a: &Arguments, asked: &Asked, library: &Path, files: &[&Path]) -> Answer {
    let shelves = Shelves::load(a, library)?;
    let read = reading::all(files, &shelves.wanted(a)?)?;
    let faults = Faults::of(&shelves)?;
    let found = read.sweeps.iter().map(|sweep| Found::of(&shelves, &faults, sweep, asked)).collect::<Result<Vec<_>, _>>()?;
    done(match found.as_slice() {
        many if a.has("--json") => in_json(&shelves, &read, &many.iter().map(|one| sweep_of(&shelves, one)).collect::<Vec<_>>()),
        many if a.has("--tsv") => in_tsv(many),
        [one] => format!("{}{}", notes(&read), in_full(&shelves, one)),
        many => format!("{}{}", notes(&read), in_lines(&read, many)),
    })
}

/// What is shown of a list: so many faults, and so many traces of each.
fn shown(found: &Found<'_>) -> [usize; 2] {
    match found.list.len() > SHOWN {
        true => [FAULTS_SHOWN, TRACES_A_FAULT],
        false => [SHOWN; 2],
    }
}

/// A sweep in full: what is clipped, what could be the match, and what is certain all the same.
fn in_full(shelves: &Shelves, found: &Found<'_>) -> String {
    let known = found.ranges.count() == 0;
    let [faults, traces] = shown(found);
    let columns: Vec<Column> = columns(shelves).into_iter().chain((!known).then_some(Column("bar", false))).collect();
    let bars = Bars::of(found);
    let mut rows = Vec::new();
    for group in found.groups.iter().take(faults) {
        for (at, one) in group.traces.iter().take(traces).enumerate() {
            let mut cells = row(shelves, group, one, at == 0);
            if !known {
                cells.push(bars.of_one(one));
            }
            rows.push(cells);
        }
    }
    let left = found.list.len() - rows.len();
    let mut text = format!("{}\n{}\n{}\n{}", found.sweep.shown(), found.ranges.text(), found.counted(), table::text(&columns, &rows));
    if left > 0 {
        text.push_str(&format!("And {}, which `--json` lists.\n", numbers::count(left, "more trace")));
    }
    if !known {
        text.push_str(&format!("{}\n", bars.legend()));
    }
    for line in found.said().iter().chain(&found.remarks) {
        text.push_str(&format!("{line}\n"));
    }
    text
}

/// The headings of a listed trace's row: its fault, whose it is if there are two libraries, its number; code and serial, if there are
/// labels; its name; what a sample is off by, at least and at most.
fn columns(shelves: &Shelves) -> Vec<Column> {
    let which = shelves.factory.as_ref().map(|_| Column("library", false));
    let told = match shelves.is_labelled() {
        true => vec![Column("no.", true), Column("code", false), Column("name", false), Column("serial", true)],
        false => vec![Column("no.", true), Column("name", false)],
    };
    [Column("fault", false)].into_iter().chain(which).chain(told).chain([Column("least", true), Column("greatest", true)]).collect()
}

/// The cells of these. A fault stands beside the first of its traces.
fn row(shelves: &Shelves, group: &Group, one: &Possible, first: bool) -> Vec<String> {
    let (place, label) = (shelves.place(one.trace), shelves.label(one.trace));
    let fault = if first { plain::short(&group.fault, 60) } else { String::new() };
    let (number, name) = (place.number.to_string(), behind_fault(shelves.shown(one.trace)).to_string());
    let told = match shelves.is_labelled() {
        true => vec![number, labels::shown(label.code), name, labels::shown_serial(label.serial)],
        false => vec![number, name],
    };
    let off = [one.least, one.greatest].map(|distance| format!("{:.1}", numbers::per_sample(distance, shelves.n())));
    [fault].into_iter().chain(place.which.map(str::to_string)).chain(told).chain(off).collect()
}

/// Bars of text, all at one scale, from 0 to the greatest of all: `#` as far as the trace could be the match, `-` where it is too far for
/// that. All of them cross the smallest greatest, since none begins behind it or ends before it.
struct Bars {
    n: usize,
    smallest: u64,
    greatest: f64,
}

impl Bars {
    fn of(found: &Found<'_>) -> Bars {
        let greatest = found.list.iter().map(|one| one.greatest).max().unwrap_or_default();
        Bars { n: found.n, smallest: found.most(), greatest: numbers::per_sample(greatest, found.n) }
    }

    /// The cell that a distance falls into.
    fn cell(&self, distance: u64) -> usize {
        match self.greatest > 0.0 {
            true => ((LONGEST_BAR - 1) as f64 * numbers::per_sample(distance, self.n) / self.greatest).round() as usize,
            false => 0,
        }
    }

    fn of_one(&self, one: &Possible) -> String {
        let [from, mark, to] = [one.least, self.smallest, one.greatest].map(|distance| self.cell(distance));
        let cell = |at: usize| match at {
            at if at < from => ' ',
            at if at == mark => '|',
            at if at < mark => '#',
            _ => '-',
        };
        (0..=to).map(cell).collect()
    }

    fn legend(&self) -> String {
        let off = numbers::per_sample(self.smallest, self.n);
        format!(
            "Off by, a sample: bars go from least to greatest, on a scale of 0 to {:.1}. Behind `|`, {off:.1}, no trace is the match.",
            self.greatest
        )
    }
}

/// The headings of a sweep's line.
fn line_columns() -> Vec<Column> {
    let words = [("sweep", false), ("verdict", false), ("clipped", true), ("could be the match", true), ("faults", true), ("fault", false)];
    let figures = [("at least, a sample", true), ("at most, a sample", true)];
    words.into_iter().chain(figures).map(|(heading, right)| Column(heading, right)).collect()
}

/// The cells of a sweep's line.
fn cells(found: &Found<'_>) -> Vec<String> {
    let fault = found.certain().unwrap_or("open").to_string();
    let counts = [found.ranges.count(), found.list.len(), found.groups.len()].map(|count| count.to_string());
    let off = [found.least(), found.most()].map(|distance| found.a_sample(distance));
    [found.sweep.name.clone(), found.word().to_string()].into_iter().chain(counts).chain([fault]).chain(off).collect()
}

/// The files of several traces; a line a sweep: how many samples are clipped, how many traces and faults could be the match, and where its
/// distance lies. Then of how many the fault is certain, what the verdicts are by, and whatever else is to be known of one of them.
fn in_lines(read: &Files, found: &[Found<'_>]) -> String {
    let mut text: String = read.several.iter().map(|line| format!("{line}\n")).collect();
    let rows: Vec<Vec<String>> = found.iter().map(cells).collect();
    text.push_str(&table::text(&line_columns(), &rows));
    let certain = found.iter().filter(|one| one.certain().is_some()).count();
    let beyond = found.first().map_or(0, |one| one.ranges.beyond);
    let taken = format!("Clipped samples are taken to have been up to {beyond} beyond their limit.");
    text.push_str(&format!("{taken} The fault is certain then of {certain} of {}.\n", numbers::count(found.len(), "sweep")));
    if let Some((apart, n)) = found.first().and_then(|one| Some((one.apart?, one.n))) {
        text.push_str(&format!("Verdicts are by this: {}.\n", apart.text(n)));
    }
    for one in found {
        text.extend(one.remarks.iter().map(|remark| format!("{}: {remark}\n", one.sweep.name)));
    }
    text
}

/// The same cells with tabs between them, the headings first; behind them what may have more words.
fn in_tsv(found: &[Found<'_>]) -> String {
    const BEHIND: [&str; 8] =
        ["beyond", "least", "smallest greatest", "all faults", "file", "remarks", "stored apart, least", "stored apart, greatest"];
    let mut lines = vec![line_columns().iter().map(|column| column.0).chain(BEHIND).collect::<Vec<_>>().join("\t")];
    for one in found {
        let faults: Vec<&str> = one.groups.iter().map(|group| group.fault.as_str()).collect();
        let mut cells = cells(one);
        cells.extend([one.ranges.beyond.to_string(), one.least().to_string(), one.most().to_string()]);
        cells.extend([faults.join("; "), one.sweep.file.clone(), one.remarks.join(" ")]);
        cells.extend(Apart::in_cells(one.apart, one.n));
        lines.push(cells.iter().map(|cell| plain::clean(cell)).collect::<Vec<_>>().join("\t"));
    }
    lines.join("\n") + "\n"
}

/// A sweep for programs. No field has a match's name that would say more here than is known.
fn sweep_of(shelves: &Shelves, found: &Found<'_>) -> String {
    let figure = |distance: u64| format!("{:.3}", numbers::per_sample(distance, found.n));
    let or_null = |limit: Option<i32>| limit.map_or("null".to_string(), |limit| limit.to_string());
    let ranges = &found.ranges;
    let sample = |&at: &usize| {
        json::object(&[
            ("sample", (at + 1).to_string()),
            ("recorded", found.sweep.samples[at].to_string()),
            ("low", ranges.lows[at].to_string()),
            ("high", ranges.highs[at].to_string()),
        ])
    };
    let clipped = json::object(&[
        ("limit_low", or_null(ranges.limits[0])),
        ("limit_high", or_null(ranges.limits[1])),
        ("beyond", ranges.beyond.to_string()),
        ("samples", json::array(&ranges.all().iter().map(sample).collect::<Vec<_>>())),
    ]);
    let fault_of =
        |trace: usize| found.groups.iter().find(|group| group.traces.iter().any(|one| one.trace == trace)).map(|group| group.fault.as_str());
    let listed = |one: &Possible| {
        let (place, label) = (shelves.place(one.trace), shelves.label(one.trace));
        json::object(&[
            ("library", json::or_null(place.which)),
            ("number", place.number.to_string()),
            ("name", json::or_null(shelves.name(one.trace))),
            ("fault", json::or_null(fault_of(one.trace))),
            ("least", one.least.to_string()),
            ("greatest", one.greatest.to_string()),
            ("least_a_sample", figure(one.least)),
            ("greatest_a_sample", figure(one.greatest)),
            ("code", label.code.to_string()),
            ("serial", label.serial.to_string()),
        ])
    };
    let group = |group: &Group| {
        let least = group.traces[0].least;
        let greatest = group.traces.iter().map(|one| one.greatest).min().unwrap_or_default();
        let fields = [("fault", json::text(&group.fault)), ("traces", group.traces.len().to_string())];
        json::object(&[&fields[..], &[("least", least.to_string()), ("smallest_greatest", greatest.to_string())]].concat())
    };
    let verdict = [
        ("word", json::text(found.word())),
        ("text", json::text(&found.said().join(" "))),
        ("fault_is_certain", found.certain().is_some().to_string()),
        ("fault", json::or_null(found.certain())),
    ];
    let remarks: Vec<String> = found.remarks.iter().map(|remark| json::text(remark)).collect();
    let fields = [
        ("clipped_samples", ranges.count().to_string()),
        ("clipped", clipped),
        ("could_be_the_match", json::array(&found.list.iter().map(listed).collect::<Vec<_>>())),
        ("faults", json::array(&found.groups.iter().map(group).collect::<Vec<_>>())),
        ("least", found.least().to_string()),
        ("least_a_sample", figure(found.least())),
        ("smallest_greatest", found.most().to_string()),
        ("smallest_greatest_a_sample", figure(found.most())),
        ("verdict", json::object(&[&verdict[..], &Apart::in_json(found.apart, found.n)].concat())),
        ("remarks", json::array(&remarks)),
    ];
    json::object(&[&sweep_in_json(found.sweep)[..], &fields].concat())
}

#[cfg(test)]
mod tests {
    use super::*;

    /// Bars are at one scale and have the mark in one place. A bar of one distance is the mark alone.
    #[test]
    fn bars_cross_the_mark() {
        let bars = Bars { n: 1, smallest: 100, greatest: 39.0 };
        let bar = |least: u64, greatest: u64| bars.of_one(&Possible { trace: 0, least, greatest });
        assert_eq!(bar(0, 100), "##########|");
        assert_eq!(bar(25, 400), "     #####|----------");
        assert_eq!(bar(100, 39 * 39), format!("          |{}", "-".repeat(29)));
        assert_eq!(bar(0, 39 * 39).len(), LONGEST_BAR);
        let zero = Bars { n: 1, smallest: 0, greatest: 0.0 };
        assert_eq!(zero.of_one(&Possible { trace: 0, least: 0, greatest: 0 }), "|");
    }
}
