//! `limits`: what a match answers with a limit of 1 leaf, of 2 and so on, until it is settled: how the true distance is hemmed in. Each row is
//! an answer of the proved call. Of a long trail no more limits are asked for than are shown.

use super::arguments::Arguments;
use super::bracket::{Bracket, Step};
use super::drawing;
use super::files::shown;
use super::matching::{near_in_json, row, row_columns, sweep_in_json};
use super::plot::{chosen, output_of};
use super::progress::Progress;
use super::reading::{self, Sweep};
use super::shelves::{Near, Read, Shelves};
use super::svg::Svg;
use super::table::{self, Column};
use super::{done, json, notes, numbers, plain, refused, words, written, wrong, Answer, Failure};
use silkendoz::{LimitedMatch, Refusal, TraceLibrary};
use std::collections::{BTreeMap, BTreeSet};
use std::path::Path;

/// So many rows are all shown, and so many columns are all drawn.
const ALL_SHOWN: usize = 24;
const ALL_DRAWN: usize = 256;

pub fn run(a: &Arguments) -> Answer {
    let [library, file] = a.exactly(["LIBRARY", "a FILE with a sweep"])?.map(Path::new);
    let out = a.path("-o");
    for (option, said) in [("--json", a.has("--json")), ("--all", a.has("--all"))] {
        if said && out.is_some() {
            return wrong(format!("`{option}` and `-o` do not go together."));
        }
    }
    let shelves = Shelves::load(a, library)?;
    let output = out.as_ref().map(|out| output_of(a, out, &shelves, file)).transpose()?;
    let read = reading::one(file, &shelves.wanted(a)?)?;
    let (sweep, which) = chosen(a, file, &read.sweeps)?;
    let wanted = match out {
        Some(_) => Wanted::Drawn,
        None if a.has("--json") || a.has("--all") => Wanted::All,
        None => Wanted::Shown,
    };
    let limits = Limits::of(&shelves, sweep, wanted)?;
    match (out, output) {
        (Some(out), Some(output)) => {
            let put = output.write(limits.picture().as_bytes())?;
            let settled = numbers::count(limits.settled_with(), "leaf");
            written(format!("{}{}: {}{which}, settled with {settled}. A browser shows it.\n", notes(&read), shown(&out), sweep.name), put)
        }
        _ if a.has("--json") => done(limits.json()),
        _ => done(format!("{}{}", notes(&read), limits.text(&which))),
    }
}

/// What is answered with a limit.
struct Answered {
    best: Near,
    read: Read,
    /// Of the first unread leaf; nothing if it is settled.
    bound: Option<u64>,
}

impl Answered {
    /// The true distance is at least this.
    fn at_least(&self) -> u64 {
        self.bound.unwrap_or(self.best.distance)
    }

    fn word(&self) -> &'static str {
        if self.bound.is_some() {
            "open"
        } else {
            "settled"
        }
    }
}

/// Which limits are asked for.
#[derive(Clone, Copy, PartialEq, Eq)]
enum Wanted {
    All,
    /// A row each: of a long trail the powers of two.
    Shown,
    /// A column each: of a long trail as many as can be told apart.
    Drawn,
}

impl Wanted {
    /// Of a match that reads so many leaves.
    fn is(self, limit: usize, leaves: usize) -> bool {
        match self {
            Wanted::All => true,
            Wanted::Shown => leaves <= ALL_SHOWN || limit.is_power_of_two(),
            Wanted::Drawn => limit.is_multiple_of(leaves.div_ceil(ALL_DRAWN)),
        }
    }
}

/// The answers of a sweep by their limits: the first and the last, which alone is settled, those that are wanted, and each at which the best
/// changes.
struct Limits<'a> {
    shelves: &'a Shelves,
    sweep: &'a Sweep,
    answers: BTreeMap<usize, Answered>,
    last: Near,
}

impl<'a> Limits<'a> {
    fn of(shelves: &'a Shelves, sweep: &'a Sweep, wanted: Wanted) -> Result<Limits<'a>, Failure> {
        let made = Asked::of(&shelves.own.library, sweep).and_then(|mut asked| {
            let leaves = asked.leaves;
            let wanted: Vec<usize> = (1..=leaves).filter(|&limit| limit == 1 || limit == leaves || wanted.is(limit, leaves)).collect();
            let mut kept: BTreeSet<usize> = wanted.iter().copied().collect();
            for pair in wanted.windows(2) {
                asked.changes(pair[0], pair[1], &mut kept)?;
            }
            let last = asked.best(leaves)?;
            asked.answers.retain(|limit, _| kept.contains(limit));
            Ok(Limits { shelves, sweep, answers: asked.answers, last })
        });
        made.or_else(|why| refused(format!("{}: {}", shelves.paths(), words::of_call(why))))
    }

    fn settled_with(&self) -> usize {
        self.answers.last_key_value().map_or(0, |(limit, _)| *limit)
    }

    /// The limit from which on the best is the one that is settled in the end.
    fn found_with(&self) -> usize {
        self.answers.iter().find(|(_, one)| one.best == self.last).map_or(0, |(limit, _)| *limit)
    }

    fn text(&self, which: &str) -> String {
        let n = self.shelves.n();
        let before = [Column("leaves read", true), Column("traces read", true)];
        let behind = [Column("at least", true), Column("a sample", true), Column("", false)];
        let columns: Vec<Column> = before.into_iter().chain(row_columns(self.shelves)).chain(behind).collect();
        let cells = |one: &Answered| {
            let read = [one.read.leaves.to_string(), one.read.traces.to_string()];
            let at_least = [one.at_least().to_string(), format!("{:.1}", numbers::per_sample(one.at_least(), n)), one.word().to_string()];
            read.into_iter().chain(row(self.shelves, &one.best)).chain(at_least).collect()
        };
        let rows: Vec<Vec<String>> = self.answers.values().map(cells).collect();
        let left_out = match self.settled_with() - rows.len() {
            0 => String::new(),
            many => format!("{} left out: in each the best is that of the row above it. `--all` shows them.\n", numbers::count(many, "row")),
        };
        format!("{}{which}\n{}{left_out}{}\n", self.sweep.shown(), table::text(&columns, &rows), self.said())
    }

    /// How many leaves it took.
    fn said(&self) -> String {
        let (found, settled) = (self.found_with(), self.settled_with());
        let all = numbers::count(self.shelves.own.library.leaf_count(), "leaf");
        let trace = self.shelves.called(self.last.trace);
        match found == settled {
            true => format!("Of {all}: {trace} is found and settled with {}.", numbers::count(settled, "leaf")),
            false => {
                format!("Of {all}: {trace} is found with {}, and settled with {}.", numbers::count(found, "leaf"), numbers::count(settled, "leaf"))
            }
        }
    }

    fn json(&self) -> String {
        let figure = |distance: u64| format!("{:.3}", numbers::per_sample(distance, self.shelves.n()));
        let one = |(limit, one): (&usize, &Answered)| {
            json::object(&[
                ("limit", limit.to_string()),
                ("settled", one.bound.is_none().to_string()),
                ("best_so_far", near_in_json(self.shelves, &one.best)),
                ("bound", one.bound.map_or("null".to_string(), |bound| bound.to_string())),
                ("bound_a_sample", one.bound.map_or("null".to_string(), figure)),
                ("leaves_read", one.read.leaves.to_string()),
                ("traces_read", one.read.traces.to_string()),
            ])
        };
        let limits: Vec<String> = self.answers.iter().map(one).collect();
        let fields = [
            ("leaves", self.shelves.own.library.leaf_count().to_string()),
            ("traces", self.shelves.own.library.len().to_string()),
            ("found_with", self.found_with().to_string()),
            ("settled_with", self.settled_with().to_string()),
            ("limits", json::array(&limits)),
        ];
        format!("{}\n", json::object(&[&sweep_in_json(self.sweep)[..], &fields].concat()))
    }

    fn picture(&self) -> String {
        const TOP: f64 = 50.0;
        let n = self.shelves.n();
        let off = |distance: u64| numbers::per_sample(distance, n);
        let step = |(&limit, one): (&usize, &Answered)| Step { limit, distance: off(one.best.distance), bound: off(one.at_least()) };
        let steps = self.answers.iter().map(step).collect();
        let (called, name) = (self.shelves.called(self.last.trace), self.shelves.shown(self.last.trace));
        let bracket = Bracket { steps, leaves: self.shelves.own.library.leaf_count(), settled: format!("{called}, {name}") };
        let title = format!("How far {} is from the traces of {}", self.sweep.name, plain::path(&self.shelves.own.path));
        let mut svg = Svg::new(drawing::WIDTH, TOP + bracket.height(), &title, &bracket.style());
        svg.label("title", (20.0, 30.0), &drawing::short(&title, drawing::LONGEST_TITLE));
        bracket.draw(&mut svg, TOP);
        svg.finish()
    }
}

/// The call, asked for a sweep with one limit and another, each once.
struct Asked<'a> {
    library: &'a TraceLibrary,
    sweep: &'a Sweep,
    /// As many as the match reads: with so many it is settled, and with no fewer.
    leaves: usize,
    answers: BTreeMap<usize, Answered>,
    progress: Progress,
}

impl<'a> Asked<'a> {
    fn of(library: &'a TraceLibrary, sweep: &'a Sweep) -> Result<Asked<'a>, Refusal> {
        let leaves = library.nearest(&sweep.samples)?.leaves;
        Ok(Asked { library, sweep, leaves, answers: BTreeMap::new(), progress: Progress::new("limits tried", leaves) })
    }

    /// The best with a limit.
    fn best(&mut self, limit: usize) -> Result<Near, Refusal> {
        if let Some(known) = self.answers.get(&limit) {
            return Ok(known.best);
        }
        let answer = match self.library.match_within(&self.sweep.samples, limit as u64)? {
            LimitedMatch::Open(found) => Answered {
                best: Near { trace: found.trace, distance: found.distance },
                read: Read { leaves: found.leaves, traces: found.traces },
                bound: Some(found.bound),
            },
            LimitedMatch::Settled(found) => Answered {
                best: Near { trace: found.trace, distance: found.distance },
                read: Read { leaves: found.leaves, traces: found.traces },
                bound: None,
            },
        };
        let best = answer.best;
        self.answers.insert(limit, answer);
        self.progress.show(self.answers.len());
        Ok(best)
    }

    /// The limits above one and up to another at which the best changes. With more leaves the distance never rises, nor does the number at an
    /// equal distance: so if the best is the same with two limits, it is the same with all between.
    fn changes(&mut self, from: usize, to: usize, found: &mut BTreeSet<usize>) -> Result<(), Refusal> {
        if self.best(from)? == self.best(to)? {
            return Ok(());
        }
        if to - from == 1 {
            found.insert(to);
            return Ok(());
        }
        let middle = from + (to - from) / 2;
        self.changes(from, middle, found)?;
        self.changes(middle, to, found)
    }
}
