//! `match`: the nearest stored traces, with their names, and what they say. With a limit on leaves it is `limited`'s, of clipped samples
//! `possible`'s.

use super::arguments::Arguments;
use super::limited;
use super::possible;
use super::reading::{self, Found, Sweep};
use super::shelf::Shelf;
use super::shelves::{Near, Searched, Shelves};
use super::table::{self, Column};
use super::verdict::{self, Apart, Faults, Verdict};
use super::{done, json, labels, notes, numbers, plain, refused, words, wrong, Answer, Failure};

/// How many are listed unless it is said.
const LISTED: usize = 5;
/// How many a search lists at most.
const MOST_LISTED: usize = 16;

/// What is said below samples at the limit.
const CLIPPED_HINT: &str = "`--clipped --beyond V` lists every trace that could be the match, if such samples may have been up to V larger.";

pub fn run(a: &Arguments) -> Answer {
    let (library, files) = a.one_and_more("LIBRARY", "a FILE with a sweep")?;
    let k = a.number("-k")?.unwrap_or(LISTED);
    if !(1..=MOST_LISTED).contains(&k) {
        return wrong(format!("-k: {k} traces cannot be listed. Take 1 to {MOST_LISTED}."));
    }
    if a.has("--json") && a.has("--tsv") {
        return wrong("`--json` and `--tsv` do not go together.".to_string());
    }
    if let Some(asked) = possible::asked(a)? {
        return possible::run(a, &asked, library, &files);
    }
    if let Some(most) = limited::asked(a)? {
        return limited::run(a, most, library, &files);
    }
    let shelves = Shelves::load(a, library)?;
    let read = reading::all(&files, &shelves.wanted(a)?)?;
    let faults = Faults::of(&shelves)?;
    let found = read.sweeps.iter().map(|sweep| Match::of(&shelves, &faults, sweep, k)).collect::<Result<Vec<_>, _>>()?;
    done(match found.as_slice() {
        many if a.has("--json") => in_json(&shelves, &read, &many.iter().map(|one| one.in_json(&shelves, &[])).collect::<Vec<_>>()),
        many if a.has("--tsv") => in_tsv(&shelves, many),
        [one] => format!("{}{}", notes(&read), one.in_full(&shelves)),
        many => format!("{}{}", notes(&read), in_lines(&shelves, &read, many)),
    })
}

/// What a search found for a sweep.
pub struct Match<'a> {
    pub sweep: &'a Sweep,
    /// As many as were asked for.
    pub list: Vec<Near>,
    /// These, and more if all of these are of one fault.
    pub found: Searched,
    pub verdict: Verdict,
    pub remarks: Vec<String>,
}

impl Match<'_> {
    /// The k nearest. If they are all of one fault, twice as many are looked at, until there is another or the list is full; with a k of 1
    /// that is not asked for. A longer list begins with the shorter one, and its leaves read are among the longer one's.
    pub fn of<'a>(shelves: &Shelves, faults: &Faults, sweep: &'a Sweep, k: usize) -> Result<Match<'a>, Failure> {
        let mut asked = k;
        let found = loop {
            let found = match shelves.k_nearest(&sweep.samples, asked) {
                Ok(found) => found,
                Err(why) => return refused(format!("{}: {}", shelves.paths(), words::of_call(why))),
            };
            if asked == 1 || asked == MOST_LISTED || found.list.len() < asked || faults.other(&found.list).is_some() {
                break found;
            }
            asked = (2 * asked).min(MOST_LISTED);
        };
        Match::by(shelves, faults, sweep, found, k, "-k 1")
    }

    /// Of what a search found, the first k listed. If that is one trace, `one` is the option that asked for one.
    pub fn by<'a>(shelves: &Shelves, faults: &Faults, sweep: &'a Sweep, found: Searched, k: usize, one: &'static str) -> Result<Match<'a>, Failure> {
        let Some(verdict) = Verdict::of(faults, shelves, &sweep.samples, &found.list, one) else {
            return refused(format!("{}: no trace was found.", shelves.paths()));
        };
        let remarks = verdict::remarks(sweep, verdict.nearest, "its nearest trace", shelves);
        Ok(Match { sweep, list: found.list.iter().take(k).copied().collect(), found, verdict, remarks })
    }

    /// How much was read.
    pub fn read(&self, shelves: &Shelves) -> String {
        let wider = match self.found.list.len() {
            looked if looked > self.list.len() => format!(" (for the {looked} nearest)"),
            _ => String::new(),
        };
        format!("Read: {}{wider}.", shelves.read(&self.found))
    }

    fn in_full(&self, shelves: &Shelves) -> String {
        let mut remarks = self.remarks.clone();
        if !self.sweep.clipped().is_empty() {
            remarks.push(CLIPPED_HINT.to_string());
        }
        in_full(shelves, self.sweep, &self.list, &self.verdict.text(), &remarks, &self.read(shelves))
    }

    /// For programs; what a match is not asked for stands before the rest.
    pub fn in_json(&self, shelves: &Shelves, before: &[(&str, String)]) -> String {
        let list: Vec<String> = self.list.iter().map(|near| near_in_json(shelves, near)).collect();
        let remarks: Vec<String> = self.remarks.iter().map(|remark| json::text(remark)).collect();
        let already = (self.verdict.nearest.distance == 0).then(|| shelves.place(self.verdict.nearest.trace));
        let (both, theirs) = (self.found.read(), self.found.factory);
        let or_null = |number: Option<usize>| number.map_or("null".to_string(), |number| number.to_string());
        let fields = [
            ("nearest", json::array(&list)),
            ("verdict", self.verdict.json(shelves)),
            ("clipped_samples", self.sweep.clipped().len().to_string()),
            ("stored_already_in", json::or_null(already.as_ref().and_then(|place| place.which))),
            ("stored_already_as", or_null(already.map(|place| place.number))),
            ("remarks", json::array(&remarks)),
            ("nearest_looked_at", self.found.list.len().to_string()),
            ("leaves_read", both.leaves.to_string()),
            ("traces_read", both.traces.to_string()),
            ("factory_leaves_read", or_null(theirs.map(|read| read.leaves))),
            ("factory_traces_read", or_null(theirs.map(|read| read.traces))),
        ];
        json::object(&[&sweep_in_json(self.sweep)[..], before, &fields].concat())
    }
}

/// A sweep in full: what was found for it in a table, what that says, and how much was read.
pub fn in_full(shelves: &Shelves, sweep: &Sweep, list: &[Near], said: &str, remarks: &[String], read: &str) -> String {
    let rows: Vec<Vec<String>> = list.iter().map(|near| row(shelves, near)).collect();
    let listed = table::text(&row_columns(shelves), &rows);
    let remarks: String = remarks.iter().map(|remark| format!("{remark}\n")).collect();
    format!("{}\n{listed}{said}\n{remarks}{read}\n", sweep.shown())
}

/// The fields of a sweep itself.
pub fn sweep_in_json(sweep: &Sweep) -> [(&'static str, String); 3] {
    [("name", json::text(&sweep.name)), ("file", json::text(&sweep.file)), ("rate", sweep.rate.map_or("null".to_string(), |rate| rate.to_string()))]
}

pub fn near_in_json(shelves: &Shelves, near: &Near) -> String {
    let (place, label) = (shelves.place(near.trace), shelves.label(near.trace));
    json::object(&[
        ("library", json::or_null(place.which)),
        ("number", place.number.to_string()),
        ("name", json::or_null(shelves.name(near.trace))),
        ("distance", near.distance.to_string()),
        ("a_sample", format!("{:.3}", numbers::per_sample(near.distance, shelves.n()))),
        ("code", label.code.to_string()),
        ("serial", label.serial.to_string()),
    ])
}

/// The library, if there are two; number, name, distance, distance a sample; code and serial, if there are labels.
pub fn row(shelves: &Shelves, near: &Near) -> Vec<String> {
    let (place, label) = (shelves.place(near.trace), shelves.label(near.trace));
    let apart = numbers::per_sample(near.distance, shelves.n());
    let (number, name) = (place.number.to_string(), shelves.shown(near.trace).to_string());
    let told = match shelves.is_labelled() {
        true => vec![number, labels::shown(label.code), name, labels::shown_serial(label.serial)],
        false => vec![number, name],
    };
    let which = place.which.map(str::to_string);
    which.into_iter().chain(told).chain([near.distance.to_string(), format!("{apart:.1}")]).collect()
}

/// The headings of these.
pub fn row_columns(shelves: &Shelves) -> Vec<Column> {
    let told = match shelves.is_labelled() {
        true => vec![Column("no.", true), Column("code", false), Column("name", false), Column("serial", true)],
        false => vec![Column("no.", true), Column("name", false)],
    };
    let which = shelves.factory.as_ref().map(|_| Column("library", false));
    which.into_iter().chain(told).chain([Column("distance", true), Column("a sample", true)]).collect()
}

/// The headings of a sweep's line.
fn columns(shelves: &Shelves) -> Vec<Column> {
    let before = [Column("sweep", false), Column("verdict", false)];
    let behind = [Column("nearest other fault", false), Column("as far", true)];
    let read = match shelves.factory {
        Some(_) => vec![Column("leaves read, factory", true), Column("leaves read, bench", true)],
        None => vec![Column("leaves read", true)],
    };
    before.into_iter().chain(row_columns(shelves)).chain(behind).chain(read).collect()
}

/// The cells of a sweep's line.
fn cells(shelves: &Shelves, one: &Match<'_>) -> Vec<String> {
    let (other, far) = one.verdict.other_in_cells();
    let mut cells = vec![one.sweep.name.clone(), one.verdict.word.text().to_string()];
    cells.extend(row(shelves, &one.verdict.nearest));
    cells.extend([other, far]);
    cells.extend(one.found.factory.map(|read| read.leaves.to_string()));
    cells.push(one.found.own.leaves.to_string());
    cells
}

/// The files of several traces; a line a sweep: its verdict and its nearest, the nearest other fault; then what the verdicts are by, and
/// whatever else is to be known of one of them.
fn in_lines(shelves: &Shelves, read: &Found, found: &[Match<'_>]) -> String {
    let mut text: String = read.several.iter().map(|line| format!("{line}\n")).collect();
    let rows: Vec<Vec<String>> = found.iter().map(|one| cells(shelves, one)).collect();
    text.push_str(&table::text(&columns(shelves), &rows));
    if let Some(apart) = found.first().and_then(|one| one.verdict.apart) {
        text.push_str(&format!("Verdicts are by this: {}.\n", apart.text(shelves.n())));
    }
    for one in found {
        text.extend(one.remarks.iter().map(|remark| format!("{}: {remark}\n", one.sweep.name)));
    }
    if found.iter().any(|one| !one.sweep.clipped().is_empty()) {
        text.push_str(&format!("{CLIPPED_HINT}\n"));
    }
    text
}

/// What stands behind those cells for programs: the last two are what the verdict is by.
pub const BEHIND: [&str; 4] = ["file", "remarks", "stored apart, least", "stored apart, greatest"];

/// The same cells with tabs between them, the headings first.
fn in_tsv(shelves: &Shelves, found: &[Match<'_>]) -> String {
    let mut lines = vec![columns(shelves).iter().map(|column| column.0).chain(BEHIND).collect::<Vec<_>>().join("\t")];
    for one in found {
        let mut cells = cells(shelves, one);
        cells.extend([one.sweep.file.clone(), one.remarks.join(" ")]);
        cells.extend(Apart::in_cells(one.verdict.apart, shelves.n()));
        lines.push(cells.iter().map(|cell| plain::clean(cell)).collect::<Vec<_>>().join("\t"));
    }
    lines.join("\n") + "\n"
}

/// An object for programs, of sweeps that are JSON already.
pub fn in_json(shelves: &Shelves, read: &Found, sweeps: &[String]) -> String {
    let notes: Vec<String> = read.notes.iter().chain(&read.several).map(|note| json::text(note)).collect();
    let fields = [
        ("library", library_in_json(&shelves.own)),
        ("factory", shelves.factory.as_ref().map_or("null".to_string(), library_in_json)),
        ("sweeps", json::array(sweeps)),
        ("notes", json::array(&notes)),
    ];
    format!("{}\n", json::object(&fields))
}

fn library_in_json(shelf: &Shelf) -> String {
    let rates: Vec<String> = shelf.names.rates().iter().map(u32::to_string).collect();
    json::object(&[
        ("file", json::text(&plain::path(&shelf.path))),
        ("samples", shelf.library.n().to_string()),
        ("traces", shelf.library.len().to_string()),
        ("leaves", shelf.library.leaf_count().to_string()),
        ("rates", json::array(&rates)),
    ])
}
