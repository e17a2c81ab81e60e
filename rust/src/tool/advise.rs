//! `advise`: which leaf size to take, tried on the library's own traces. What a match reads, the proved calls say; times are this
//! machine's.

use super::arguments::Arguments;
use super::avx::Held;
use super::noise::Noise;
use super::numbers::median;
use super::progress::Progress;
use super::shelf::Shelf;
use super::table::{self, Column};
use super::{done, numbers, plain, refused, Answer};
use silkendoz::{scan, StoredSample, TraceLibrary};
use std::hint::black_box;
use std::path::Path;
use std::time::Instant;

const LEAF_SIZES: [usize; 5] = [4, 8, 16, 32, 64];

/// A library of so many traces leaves them out one at a time, a larger one a tenth of them at a time.
const MOST_ALONE: usize = 64;

pub fn run(a: &Arguments) -> Answer {
    let [library] = a.exactly(["LIBRARY"])?;
    let shelf = Shelf::load(Path::new(library))?;
    let count = shelf.library.len();
    if count < 2 {
        return refused(format!("{}: holds {count} of the 2 traces that it takes to leave one out. Add some.", plain::path(&shelf.path)));
    }
    let traces: Vec<Vec<i32>> = shelf.library.traces().map(StoredSample::values).collect();
    let trial = Trial::of(&traces);
    let mut progress = Progress::new("leaving traces out, by group and leaf size", trial.groups * LEAF_SIZES.len());
    let tried = LEAF_SIZES.into_iter().enumerate().map(|(at, leaf_size)| trial.tried(leaf_size, at, &mut progress));
    let sizes: Vec<Tried> = tried.collect();
    drop(progress);
    let scans = trial.scanned();
    let samples = numbers::count(shelf.library.n(), "sample");
    done(format!(
        "{}: {count} traces of {samples}, leaf size {}\n{}\n{}\n{}",
        plain::path(&shelf.path),
        shelf.library.leaf_size(),
        shown(&sizes, &scans, trial.groups == count),
        advice(&shelf, &sizes, &scans),
        level_and_swing(&traces)
    ))
}

/// Queries: each trace, looked up where it was left out, and a noisy copy of each, looked up among all.
struct Trial<'a> {
    traces: &'a [Vec<i32>],
    noisy: Vec<Vec<i32>>,
    groups: usize,
}

/// What a lookup took: medians.
struct Lookup {
    /// Of all leaves, in per cent.
    leaves: f64,
    micros: f64,
}

struct Tried {
    leaf_size: usize,
    left_out: Lookup,
    noisy: Lookup,
}

/// Microseconds of a plain scan, by AVX2 if there is such, and of one that leaves a trace early: left out, and noisy.
struct Scanned {
    plain: [f64; 2],
    leaving: [f64; 2],
}

impl Trial<'_> {
    fn of(traces: &[Vec<i32>]) -> Trial<'_> {
        let noise = &mut Noise::seeded(2026);
        let noisy = traces.iter().map(|trace| noise.near(trace, noise_for(trace))).collect();
        let groups = if traces.len() <= MOST_ALONE { traces.len() } else { 10 };
        Trial { traces, noisy, groups }
    }

    fn without(&self, group: usize) -> impl Iterator<Item = &Vec<i32>> {
        self.traces.iter().enumerate().filter(move |(number, _)| number % self.groups != group).map(|(_, trace)| trace)
    }

    fn left_out(&self, group: usize) -> impl Iterator<Item = &Vec<i32>> {
        self.traces.iter().skip(group).step_by(self.groups)
    }

    /// With a leaf size, the one at this place among all.
    fn tried(&self, leaf_size: usize, at: usize, progress: &mut Progress) -> Tried {
        let mut found = Vec::new();
        for group in 0..self.groups {
            progress.show(at * self.groups + group);
            let library = library(self.without(group), leaf_size);
            found.extend(self.left_out(group).map(|query| lookup(&library, query)));
        }
        let all = library(self.traces.iter(), leaf_size);
        let noisy = self.noisy.iter().map(|query| lookup(&all, query)).collect();
        Tried { leaf_size, left_out: medians(found), noisy: medians(noisy) }
    }

    fn scanned(&self) -> Scanned {
        let left_out = (0..self.groups).map(|group| Table::of(self.without(group)).scanned(self.left_out(group))).collect();
        let noisy = vec![Table::of(self.traces.iter()).scanned(self.noisy.iter())];
        let of =
            |which: usize| [&left_out, &noisy].map(|parts: &Vec<[Vec<f64>; 2]>| median(parts.iter().flat_map(|part| part[which].clone()).collect()));
        Scanned { plain: of(0), leaving: of(1) }
    }
}

/// Traces to be scanned: as a plain scan holds them, and as a library's table does.
struct Table {
    n: usize,
    held: Held,
    stored: Vec<StoredSample>,
}

impl Table {
    fn of<'a>(traces: impl Iterator<Item = &'a Vec<i32>>) -> Table {
        let traces: Vec<&Vec<i32>> = traces.collect();
        let samples: Vec<i32> = traces.iter().flat_map(|trace| trace.iter().copied()).collect();
        let stored = samples.iter().map(|&sample| StoredSample::new(sample).expect("it was stored")).collect();
        Table { n: traces[0].len(), held: Held::of(&samples), stored }
    }

    /// Microseconds of each query by a plain scan, and then by one that leaves a trace early.
    fn scanned<'a>(&self, queries: impl Iterator<Item = &'a Vec<i32>>) -> [Vec<f64>; 2] {
        let queries: Vec<&Vec<i32>> = queries.collect();
        let plain = queries.iter().map(|query| micros(|| self.held.nearest(self.n, query))).collect();
        [plain, queries.iter().map(|query| micros(|| scan::nearest_abandoning(&self.stored, self.n, query))).collect()]
    }
}

/// Each sample of a noisy copy moves by up to a fiftieth of the trace's height.
fn noise_for(trace: &[i32]) -> i64 {
    let height = i64::from(*trace.iter().max().unwrap_or(&0)) - i64::from(*trace.iter().min().unwrap_or(&0));
    (height / 50).max(1)
}

fn library<'a>(traces: impl Iterator<Item = &'a Vec<i32>>, leaf_size: usize) -> TraceLibrary {
    let traces: Vec<&Vec<i32>> = traces.collect();
    let mut library = TraceLibrary::open(traces[0].len(), traces.len(), leaf_size).expect("as the library's own, with another leaf size");
    for trace in traces {
        library.add(trace).expect("there is room for each");
    }
    library
}

/// The part of leaves that a match reads, in per cent, and its microseconds.
fn lookup(library: &TraceLibrary, query: &[i32]) -> (f64, f64) {
    let mut leaves = 0;
    let micros = micros(|| leaves = library.nearest(query).map_or(0, |found| found.leaves));
    (100.0 * leaves as f64 / library.leaf_count() as f64, micros)
}

fn medians(found: Vec<(f64, f64)>) -> Lookup {
    let (leaves, micros) = found.into_iter().unzip();
    Lookup { leaves: median(leaves), micros: median(micros) }
}

fn micros<T>(work: impl FnOnce() -> T) -> f64 {
    let start = Instant::now();
    black_box(work());
    start.elapsed().as_secs_f64() * 1e6
}

fn shown(sizes: &[Tried], scans: &Scanned, alone: bool) -> String {
    let per_cent = |part: f64| format!("{part:.1} %");
    let mut rows: Vec<Vec<String>> = sizes
        .iter()
        .map(|tried| {
            let times = [&tried.left_out, &tried.noisy].map(|lookup| format!("{:.1}", lookup.micros));
            let [left_out, noisy] = times;
            vec![format!("leaf size {}", tried.leaf_size), per_cent(tried.left_out.leaves), left_out, per_cent(tried.noisy.leaves), noisy]
        })
        .collect();
    for (name, times) in [("plain scan", scans.plain), ("scan, leaving early", scans.leaving)] {
        let [left_out, noisy] = times.map(|time| format!("{time:.1}"));
        rows.push(vec![name.to_string(), "-".to_string(), left_out, "-".to_string(), noisy]);
    }
    let heads = [("", false), ("like none stored: leaves read", true), ("µs", true), ("like a stored one: leaves read", true), ("µs", true)];
    let columns = heads.map(|(head, right)| Column(head, right));
    let how = if alone { "alone" } else { "with a tenth of the others" };
    let fresh = format!("like none stored: each trace, looked up in a library without it ({how})");
    format!("{}  Medians, on this machine. {fresh}; like a stored one: each trace, its samples moved a little.\n", table::text(&columns, &rows))
}

/// The leaf size that is nearest to the best for both kinds of sweep; of those that are nearly as good, the largest, which makes the fewest
/// nodes.
fn best(sizes: &[Tried]) -> &Tried {
    let least = |of: fn(&Tried) -> f64| sizes.iter().map(of).fold(f64::INFINITY, f64::min);
    let (fresh, near) = (least(|tried| tried.left_out.micros), least(|tried| tried.noisy.micros));
    let worse = |tried: &Tried| tried.left_out.micros / fresh + tried.noisy.micros / near;
    let good = sizes.iter().map(worse).fold(f64::INFINITY, f64::min);
    sizes.iter().rev().find(|tried| worse(tried) <= 1.1 * good).unwrap_or(&sizes[0])
}

/// What to take, and for each kind of sweep what a match is worth beside a scan.
fn advice(shelf: &Shelf, sizes: &[Tried], scans: &Scanned) -> String {
    let library = &shelf.library;
    let best = best(sizes);
    let take = match best.leaf_size == library.leaf_size() {
        true => format!("Leaf size {} is as good as any.", best.leaf_size),
        false => {
            let measures = format!("--samples {} --capacity {} --leaf-size {}", library.n(), library.capacity(), best.leaf_size);
            let command = format!("`silkendoz build NEW.sheet {measures} {}`", plain::word(&shelf.path));
            format!("Take leaf size {}: {command}.", best.leaf_size)
        }
    };
    let fresh = beside_scan("A sweep like none stored", &best.left_out, scans.plain[0].min(scans.leaving[0]));
    let near = beside_scan("A sweep like a stored one", &best.noisy, scans.plain[1].min(scans.leaving[1]));
    format!("{take}\nIt changes how much is read, never which trace is found.\n{near}{fresh}")
}

/// A match beside the faster of the two scans.
fn beside_scan(what: &str, found: &Lookup, scan: f64) -> String {
    let read = format!("{what}: a match reads {:.0} % of the leaves, in {:.1} µs; a scan takes {scan:.1} µs", found.leaves, found.micros);
    match scan / found.micros {
        times if times < 1.2 => format!("{read}. A scan is as good here.\n"),
        times => format!("{read}, {times:.1} times as long.\n"),
    }
}

/// Whether the traces look normalised: then level and swing of the whole sweep, by which the tree parts traces, are the same for all.
fn level_and_swing(traces: &[Vec<i32>]) -> String {
    let levels: Vec<f64> = traces.iter().map(|trace| mean(trace)).collect();
    let swings: Vec<f64> = traces.iter().zip(&levels).map(|(trace, level)| swing(trace, *level)).collect();
    let spread = |list: &[f64]| list.iter().copied().fold(f64::NEG_INFINITY, f64::max) - list.iter().copied().fold(f64::INFINITY, f64::min);
    let typical = median(swings.clone()).max(1.0);
    let same_level = spread(&levels) < 0.02 * typical;
    let same_swing = spread(&swings) < 0.02 * typical;
    let found = match (same_level, same_swing) {
        (true, true) => {
            "The traces look normalised: all have the same level and the same swing. The tree cannot tell them apart by these;\n\
             keep level and scale of the recordings if you can."
        }
        (true, false) => "All traces have the same level: it looks taken away. The tree parts them by swing, and reads more than it would.",
        (false, true) => "All traces have the same swing: it looks taken away. The tree parts them by level, and reads more than it would.",
        (false, false) => "The traces do not look normalised: they differ in level and in swing, by which the tree parts them.",
    };
    format!("{found}\n")
}

fn mean(trace: &[i32]) -> f64 {
    trace.iter().map(|&x| f64::from(x)).sum::<f64>() / trace.len() as f64
}

/// The deviation from the level.
fn swing(trace: &[i32], level: f64) -> f64 {
    (trace.iter().map(|&x| (f64::from(x) - level).powi(2)).sum::<f64>() / trace.len() as f64).sqrt()
}
