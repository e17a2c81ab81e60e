//! `match --leaves`: a match that reads so many leaves and no more, as a controller makes it. What is settled is a match, and is shown as one.
//! What is open is the best so far: a leaf that was not read may hold a trace that is nearer, so nothing here calls it more than that.

use super::arguments::Arguments;
use super::matching::{in_full, in_json, near_in_json, row, row_columns, sweep_in_json, Match, BEHIND};
use super::reading::{self, Found, Sweep};
use super::shelves::{Near, Read, Searched, Shelves, FACTORY};
use super::table::{self, Column};
use super::verdict::{self, Apart, Faults};
use super::{done, json, notes, numbers, plain, refused, words, wrong, Answer, Failure};
use silkendoz::LimitedMatch;
use std::path::Path;

/// The option that says how many leaves are read at most.
pub const LEAVES: &str = "--leaves";

/// What the best so far is called where a match would say that a trace is the nearest.
const SO_FAR: &str = "the best trace so far";

/// The limit that was said, if one was. Within it one trace of one library is found.
pub fn asked(a: &Arguments) -> Result<Option<u64>, Failure> {
    let Some(most) = a.one_or_more(LEAVES)? else { return Ok(None) };
    if a.number("-k")?.is_some_and(|k| k != 1) {
        return wrong(format!("`{LEAVES}` and `-k` do not go together: within a limit one trace is found. Leave out one of the two."));
    }
    if a.path(FACTORY).is_some() {
        let why = "a limit is on the leaves of one library. Match in each of them by itself";
        return wrong(format!("`{LEAVES}` and `{FACTORY}` do not go together: {why}."));
    }
    Ok(Some(most))
}

pub fn run(a: &Arguments, most: u64, library: &Path, files: &[&Path]) -> Answer {
    let shelves = Shelves::load(a, library)?;
    let read = reading::all(files, &shelves.wanted(a)?)?;
    let faults = Faults::of(&shelves)?;
    let found = read.sweeps.iter().map(|sweep| Limited::of(&shelves, &faults, sweep, most)).collect::<Result<Vec<_>, _>>()?;
    done(match found.as_slice() {
        many if a.has("--json") => in_json(&shelves, &read, &many.iter().map(|one| one.in_json(&shelves, most)).collect::<Vec<_>>()),
        many if a.has("--tsv") => in_tsv(&shelves, many, most),
        [one] => format!("{}{}", notes(&read), one.in_full(&shelves, most)),
        many => format!("{}{}", notes(&read), in_lines(&shelves, &read, many, most)),
    })
}

/// What was found for a sweep within the limit.
enum Limited<'a> {
    Settled(Match<'a>),
    Open(Open<'a>),
}

/// The best so far: a leaf that a match would read was not.
struct Open<'a> {
    sweep: &'a Sweep,
    best: Near,
    /// No stored trace is nearer than this.
    bound: u64,
    read: Read,
    /// The fault of the best so far.
    fault: String,
    apart: Option<Apart>,
    remarks: Vec<String>,
    n: usize,
}

/// What is sure of a sweep although its answer is open.
#[derive(Clone, Copy, Debug, PartialEq, Eq)]
pub enum Sure {
    /// It is as near to the best so far as traces of one fault are to each other. Another fault may be nearer.
    Near,
    /// It is farther than that from every stored trace, read or not.
    Far,
    /// Neither.
    Neither,
    /// No fault is stored twice, and so nothing says how far is far.
    NotJudged,
}

impl Sure {
    /// Of a true distance that is at least the bound and at most the distance.
    pub fn of(bound: u64, distance: u64, apart: Option<Apart>) -> Sure {
        match apart {
            None => Sure::NotJudged,
            Some(apart) if distance <= apart.greatest => Sure::Near,
            Some(apart) if bound > apart.greatest => Sure::Far,
            Some(_) => Sure::Neither,
        }
    }

    /// The word for a table: a match's, as far as it is sure. That a sweep fits a fault never is, since no other fault was looked for.
    fn word(self) -> &'static str {
        match self {
            Sure::Near | Sure::NotJudged => verdict::Word::NotJudged.text(),
            Sure::Far => verdict::Word::Nothing.text(),
            Sure::Neither => "open",
        }
    }
}

impl<'a> Limited<'a> {
    fn of(shelves: &Shelves, faults: &Faults, sweep: &'a Sweep, most: u64) -> Result<Limited<'a>, Failure> {
        match shelves.own.library.match_within(&sweep.samples, most) {
            Err(why) => refused(format!("{}: {}", shelves.paths(), words::of_call(why))),
            Ok(LimitedMatch::Settled(found)) => {
                let list = vec![Near { trace: found.trace, distance: found.distance }];
                let found = Searched { list, own: Read { leaves: found.leaves, traces: found.traces }, factory: None };
                Match::by(shelves, faults, sweep, found, 1, LEAVES).map(Limited::Settled)
            }
            Ok(LimitedMatch::Open(found)) => {
                let best = Near { trace: found.trace, distance: found.distance };
                let (fault, remarks) = (faults.name(best.trace).to_string(), verdict::remarks(sweep, best, SO_FAR, shelves));
                let read = Read { leaves: found.leaves, traces: found.traces };
                let (apart, n) = (faults.apart(), shelves.n());
                Ok(Limited::Open(Open { sweep, best, bound: found.bound, read, fault, apart, remarks, n }))
            }
        }
    }

    fn sweep(&self) -> &Sweep {
        match self {
            Limited::Settled(found) => found.sweep,
            Limited::Open(open) => open.sweep,
        }
    }

    fn best(&self) -> Near {
        match self {
            Limited::Settled(found) => found.verdict.nearest,
            Limited::Open(open) => open.best,
        }
    }

    /// The true distance is at least this: itself, if it is settled.
    fn at_least(&self) -> u64 {
        match self {
            Limited::Settled(found) => found.verdict.nearest.distance,
            Limited::Open(open) => open.bound,
        }
    }

    fn is_settled(&self) -> bool {
        matches!(self, Limited::Settled(_))
    }

    fn read(&self) -> Read {
        match self {
            Limited::Settled(found) => found.found.own,
            Limited::Open(open) => open.read,
        }
    }

    /// What its verdict is by.
    fn apart(&self) -> Option<Apart> {
        match self {
            Limited::Settled(found) => found.verdict.apart,
            Limited::Open(open) => open.apart,
        }
    }

    fn remarks(&self) -> &[String] {
        match self {
            Limited::Settled(found) => &found.remarks,
            Limited::Open(open) => &open.remarks,
        }
    }

    fn in_full(&self, shelves: &Shelves, most: u64) -> String {
        let said = match self {
            Limited::Settled(found) => found.verdict.text(),
            Limited::Open(open) => open.lines().join("\n"),
        };
        let within = match self.is_settled() {
            true => format!("settled within the limit of {}", leaves(most)),
            false => format!("the limit of {} came before the end", leaves(most)),
        };
        let read = format!("Read: {}: {within}.", self.read().of(&shelves.own));
        in_full(shelves, self.sweep(), &[self.best()], &said, self.remarks(), &read)
    }

    fn in_json(&self, shelves: &Shelves, most: u64) -> String {
        let limit = [("settled", self.is_settled().to_string()), ("leaves_limit", most.to_string())];
        match self {
            Limited::Settled(found) => found.in_json(shelves, &limit),
            Limited::Open(open) => json::object(&[&sweep_in_json(open.sweep)[..], &limit, &open.fields(shelves)].concat()),
        }
    }

    /// The cells of a sweep's line.
    fn cells(&self, shelves: &Shelves) -> Vec<String> {
        let (answer, verdict) = match self {
            Limited::Settled(found) => ("settled", found.verdict.word.text()),
            Limited::Open(open) => ("best so far", open.sure().word()),
        };
        let at_least = [self.at_least().to_string(), a_sample(self.at_least(), shelves.n())];
        let before = [self.sweep().name.clone(), answer.to_string(), verdict.to_string()];
        let read = [self.read().leaves.to_string()];
        before.into_iter().chain(row(shelves, &self.best())).chain(at_least).chain(read).collect()
    }
}

impl Open<'_> {
    fn sure(&self) -> Sure {
        Sure::of(self.bound, self.best.distance, self.apart)
    }

    /// What was found; and where the true distance lies, with what is sure of it.
    fn lines(&self) -> [String; 2] {
        let (fault, off) = (&self.fault, a_sample(self.best.distance, self.n));
        let apart = self.apart.map_or(String::new(), |apart| format!("; {}", apart.text(self.n)));
        let found = match self.sure() {
            Sure::Far => format!("Like nothing stored: the best so far, {fault}, is off by {off} a sample{apart}."),
            _ => format!("Best so far: {fault}, off by {off} a sample{apart}."),
        };
        let sure = match self.sure() {
            Sure::Near if self.bound == self.best.distance => "It is near enough for this fault; another may be as near.",
            Sure::Near => "It is near enough for this fault; another may be nearer.",
            Sure::Far => "No unread leaf changes the verdict.",
            Sure::Neither => "Whether any stored trace is near enough is open.",
            Sure::NotJudged => "Whether it fits is not judged: no fault is stored twice.",
        };
        [found, format!("{} {sure}", self.lies())]
    }

    /// Where the true distance lies. A bound that is as large as the distance leaves no room, and yet the number of the trace is open.
    fn lies(&self) -> String {
        let Open { bound, best: Near { distance, .. }, n, .. } = *self;
        match bound == distance {
            true => format!("The true distance is {distance}; a trace with a lower number may have it too."),
            false => format!("The true distance lies between {bound} and {distance}: off by {} to {}.", a_sample(bound, n), a_sample(distance, n)),
        }
    }

    /// For programs. No field has a match's name that would say more here than is known.
    fn fields(&self, shelves: &Shelves) -> Vec<(&'static str, String)> {
        let figure = |distance: u64| format!("{:.3}", numbers::per_sample(distance, self.n));
        let remarks: Vec<String> = self.remarks.iter().map(|remark| json::text(remark)).collect();
        let already = (self.best.distance == 0).then_some(self.best.trace);
        let verdict = [
            ("word", json::text(self.sure().word())),
            ("text", json::text(&self.lines().join(" "))),
            ("fault_so_far", json::text(&self.fault)),
            ("a_sample", figure(self.best.distance)),
        ];
        vec![
            ("best_so_far", near_in_json(shelves, &self.best)),
            ("bound", self.bound.to_string()),
            ("bound_a_sample", figure(self.bound)),
            ("verdict", json::object(&[&verdict[..], &Apart::in_json(self.apart, self.n)].concat())),
            ("clipped_samples", self.sweep.clipped().len().to_string()),
            ("stored_already_as", already.map_or("null".to_string(), |number| number.to_string())),
            ("remarks", json::array(&remarks)),
            ("leaves_read", self.read.leaves.to_string()),
            ("traces_read", self.read.traces.to_string()),
        ]
    }
}

fn a_sample(distance: u64, n: usize) -> String {
    format!("{:.1}", numbers::per_sample(distance, n))
}

/// A limit in words.
fn leaves(most: u64) -> String {
    numbers::count(usize::try_from(most).unwrap_or(usize::MAX), "leaf")
}

/// The headings of a sweep's line.
fn columns(shelves: &Shelves) -> Vec<Column> {
    let before = [Column("sweep", false), Column("answer", false), Column("verdict", false)];
    let behind = [Column("at least", true), Column("at least, a sample", true), Column("leaves read", true)];
    before.into_iter().chain(row_columns(shelves)).chain(behind).collect()
}

/// The files of several traces; a line a sweep: whether it is settled, its verdict, what was found and what the true distance is at least;
/// then how many are settled, what the verdicts are by, and whatever else is to be known of one of them.
fn in_lines(shelves: &Shelves, read: &Found, found: &[Limited<'_>], most: u64) -> String {
    let mut text: String = read.several.iter().map(|line| format!("{line}\n")).collect();
    let rows: Vec<Vec<String>> = found.iter().map(|one| one.cells(shelves)).collect();
    text.push_str(&table::text(&columns(shelves), &rows));
    let settled = found.iter().filter(|one| one.is_settled()).count();
    text.push_str(&format!("Settled within the limit of {}: {settled} of {}.\n", leaves(most), numbers::count(found.len(), "sweep")));
    if let Some(apart) = found.first().and_then(Limited::apart) {
        text.push_str(&format!("Verdicts are by this: {}.\n", apart.text(shelves.n())));
    }
    for one in found {
        text.extend(one.remarks().iter().map(|remark| format!("{}: {remark}\n", one.sweep().name)));
    }
    text
}

/// The same cells with tabs between them, the headings first.
fn in_tsv(shelves: &Shelves, found: &[Limited<'_>], most: u64) -> String {
    let mut lines = vec![columns(shelves).iter().map(|column| column.0).chain(["limit"]).chain(BEHIND).collect::<Vec<_>>().join("\t")];
    for one in found {
        let mut cells = one.cells(shelves);
        cells.extend([most.to_string(), one.sweep().file.clone(), one.remarks().join(" ")]);
        cells.extend(Apart::in_cells(one.apart(), shelves.n()));
        lines.push(cells.iter().map(|cell| plain::clean(cell)).collect::<Vec<_>>().join("\t"));
    }
    lines.join("\n") + "\n"
}

#[cfg(test)]
mod tests {
    use super::*;

    /// What is said is true of every distance between bound and distance, and nothing is left open that is sure.
    #[test]
    fn sure_of_every_distance_between() {
        let apart = Some(Apart { least: 1, greatest: 4 });
        for distance in 0..10 {
            for bound in 0..=distance {
                let near: Vec<bool> = (bound..=distance).map(|truly| truly <= 4).collect();
                let sure = Sure::of(bound, distance, apart);
                // a trace that was read is at the distance: it is near enough itself, whatever is nearer
                assert_eq!(sure == Sure::Near, near.iter().all(|is_near| *is_near), "{bound} {distance}");
                assert_eq!(sure == Sure::Far, near.iter().all(|is_near| !is_near), "{bound} {distance}");
                assert_eq!(Sure::of(bound, distance, None), Sure::NotJudged);
            }
        }
        assert_eq!(
            [Sure::Near, Sure::Far, Sure::Neither, Sure::NotJudged].map(Sure::word),
            ["not judged", "like nothing stored", "open", "not judged"]
        );
    }

    #[test]
    fn limits_in_words() {
        assert_eq!([leaves(1), leaves(2), leaves(u64::MAX)], ["1 leaf", "2 leaves", "18446744073709551615 leaves"]);
    }
}
