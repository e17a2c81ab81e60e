//! `bands`: how many stored traces lie how far from a sweep, surely and at most, to choose an alarm distance by. The two numbers are the
//! proved call's, which reads no trace; here edges are read off the command line, and the numbers are shown.

use super::arguments::Arguments;
use super::drawing;
use super::files::{shown, Output};
use super::histogram::{Bar, Histogram};
use super::plot::chosen;
use super::reading::{self, Sweep, Wanted};
use super::shelf::Shelf;
use super::svg::Svg;
use super::table::{self, Column};
use super::{done, json, notes, numbers, plain, refused, words, written, wrong, Answer, Failure};
use silkendoz::Band;
use std::path::Path;

/// As few and as many edges as a report takes.
const FEWEST: usize = 2;
const MOST: usize = 16;

/// What a sample is off by, unless edges are said: a first look at any library.
const FIRST_LOOK: &str = "0,10,20,50,100,200,500,1000,2000,5000,10000,20000,50000,100000,300000,1100000";

/// Cells of the longest bar of text.
const LONGEST_BAR: usize = 40;

pub fn run(a: &Arguments) -> Answer {
    let [library, file] = a.exactly(["LIBRARY", "a FILE with a sweep"])?.map(Path::new);
    let shelf = Shelf::load(library)?;
    let edges = Edges::said(a, shelf.library.n())?;
    let out = a.path("-o");
    if a.has("--json") && out.is_some() {
        return wrong("`--json` and `-o` do not go together.".to_string());
    }
    let [sheet, names, codes] = shelf.files()?;
    let output = out.as_ref().map(|out| Output::of(out, a.has("--force"), &[&sheet, &names, &codes, file])).transpose()?;
    let read = reading::one(file, &Wanted::by(a, &shelf.library)?)?;
    let (sweep, which) = chosen(a, file, &read.sweeps)?;
    let report = Report::of(&shelf, sweep, edges.unwrap_or_else(|| Edges::first_look(shelf.library.n())))?;
    match (out, output) {
        (Some(out), Some(output)) => {
            let put = output.write(report.picture(&shelf).as_bytes())?;
            let bands = numbers::count(report.rows.len(), "band");
            written(format!("{}{}: {}{which}, {bands}. A browser shows it.\n", notes(&read), shown(&out), sweep.name), put)
        }
        _ if a.has("--json") => done(report.json(&shelf)),
        _ => done(format!("{}{}", notes(&read), report.text(&shelf, &which))),
    }
}

/// Distances at which bands begin and end, and how far a sample is off there, as it is shown.
#[derive(Debug, PartialEq, Eq)]
pub struct Edges {
    distances: Vec<u64>,
    off: Vec<String>,
    /// Nobody asked for these: bands at the ends that hold nothing are left out.
    first_look: bool,
}

impl Edges {
    /// `--edges` or `--off`, for traces of n samples; nothing if neither is said.
    pub fn said(a: &Arguments, n: usize) -> Result<Option<Edges>, Failure> {
        match (a.list("--edges"), a.list("--off")) {
            (Some(_), Some(_)) => wrong("`--edges` and `--off` do not go together.".to_string()),
            (Some(list), None) => Edges::of_distances(&list, n).map(Some),
            (None, Some(list)) => Edges::off_a_sample(&list, n).map(Some),
            (None, None) => Ok(None),
        }
    }

    fn first_look(n: usize) -> Edges {
        let list: Vec<String> = FIRST_LOOK.split(',').map(str::to_string).collect();
        let distances = list.iter().filter_map(|word| distance_of(word, n)).collect();
        Edges { distances, off: list, first_look: true }
    }

    fn of_distances(list: &[String], n: usize) -> Result<Edges, Failure> {
        let number = |word: &String| match word.parse::<u64>() {
            Ok(edge) if !word.starts_with('+') => Ok(edge),
            _ => wrong(format!("--edges: `{}` is no distance. Take whole numbers, 0 and more.", plain::short(word, 40))),
        };
        let distances = list.iter().map(number).collect::<Result<Vec<u64>, Failure>>()?;
        let off = distances.iter().map(|&edge| format!("{:.1}", numbers::per_sample(edge, n))).collect();
        rising("--edges", list, &distances)?;
        Ok(Edges { distances, off, first_look: false })
    }

    fn off_a_sample(list: &[String], n: usize) -> Result<Edges, Failure> {
        let number = |word: &String| match distance_of(word, n) {
            Some(edge) => Ok(edge),
            None => wrong(format!(
                "--off: `{}` is nothing that a sample is off by. Take 0 to {MOST_OFF}, with up to {DIGITS} digits behind a point.",
                plain::short(word, 40)
            )),
        };
        let distances = list.iter().map(number).collect::<Result<Vec<u64>, Failure>>()?;
        rising("--off", list, &distances)?;
        Ok(Edges { distances, off: list.to_vec(), first_look: false })
    }
}

/// 2 to 16 edges, each above the last. The call refuses others too (16); here it is said which they are.
fn rising(option: &str, said: &[String], distances: &[u64]) -> Result<(), Failure> {
    if !(FEWEST..=MOST).contains(&distances.len()) {
        let many = numbers::count(distances.len(), "edge");
        return wrong(format!("{option}: {many}. Take {FEWEST} to {MOST}, with commas between them."));
    }
    match distances.windows(2).position(|pair| pair[0] >= pair[1]) {
        None => Ok(()),
        Some(at) => {
            let [first, second] = [&said[at], &said[at + 1]].map(|word| plain::short(word, 40));
            let (low, high) = (distances[at], distances[at + 1]);
            let why = if low == high && first != second { format!("both are distance {low}") } else { format!("{second} is not above {first}") };
            wrong(format!("{option}: {first} and {second}: {why}. Each edge has to be above the last."))
        }
    }
}

/// More than a sample can be off by, so that a last band can take all there is.
const MOST_OFF: u128 = 2_000_000;
/// Digits behind the point.
const DIGITS: usize = 6;

/// The least distance of traces of n samples at which a sample is off by that much, or more: n times its square, rounded up. Distances are
/// whole, so that just those are below this edge whose root of the mean square is below what was said: nothing is lost by the rounding.
fn distance_of(off: &str, n: usize) -> Option<u64> {
    let (whole, part) = off.split_once('.').unwrap_or((off, ""));
    let digits = |text: &str| !text.is_empty() && text.bytes().all(|byte| byte.is_ascii_digit());
    if !digits(whole) || (off.contains('.') && !digits(part)) || part.len() > DIGITS || whole.len() > 9 {
        return None;
    }
    let scaled: u128 = format!("{whole}{part:0<DIGITS$}").parse().ok()?;
    let scale = 10u128.pow(DIGITS as u32);
    (scaled <= MOST_OFF * scale).then(|| (n as u128 * scaled * scaled).div_ceil(scale * scale)).and_then(|edge| edge.try_into().ok())
}

/// A band as it is shown.
struct Row {
    off: [String; 2],
    distances: [u64; 2],
    within: Band,
    /// Of everything below its end.
    below: Band,
}

/// What the calls report of a sweep.
pub struct Report<'a> {
    sweep: &'a Sweep,
    rows: Vec<Row>,
    /// Of so many traces it is sure in which band they lie. More may surely lie in some band, though it is not sure in which.
    placed: u64,
}

impl<'a> Report<'a> {
    /// One report of all bands; and for each edge one of all below it, since bands cannot be added up: a leaf whose range reaches over several
    /// is possible in each of them, and sure in none.
    pub fn of(shelf: &Shelf, sweep: &'a Sweep, edges: Edges) -> Result<Report<'a>, Failure> {
        let counted = |edges: &[u64]| match shelf.library.count_bands(&sweep.samples, edges) {
            Ok(bands) => Ok(bands),
            Err(why) => refused(format!("{}: {}", plain::path(&shelf.path), words::of_call(why))),
        };
        let mut rows = Vec::new();
        for (at, within) in counted(&edges.distances)?.into_iter().enumerate() {
            let below = counted(&[0, edges.distances[at + 1]])?[0];
            let off = [edges.off[at].clone(), edges.off[at + 1].clone()];
            rows.push(Row { off, distances: [edges.distances[at], edges.distances[at + 1]], within, below });
        }
        let placed = rows.iter().map(|row| row.within.sure).sum();
        if edges.first_look {
            without_empty_ends(&mut rows);
        }
        Ok(Report { sweep, rows, placed })
    }

    fn text(&self, shelf: &Shelf, which: &str) -> String {
        let heads = [("off, from", true), ("below", true), ("distance, from", true), ("below", true), ("surely", true), ("at most", true)];
        let behind = [("all below, surely", true), ("at most", true), ("", false)];
        let columns: Vec<Column> = heads.into_iter().chain(behind).map(|(name, right)| Column(name, right)).collect();
        let most = self.most();
        let row = |row: &Row| {
            let [from, to] = row.off.clone();
            let figures = [row.distances[0], row.distances[1], row.within.sure, row.within.possible, row.below.sure, row.below.possible];
            [from, to].into_iter().chain(figures.map(|figure| figure.to_string())).chain([bar(row.within, most)]).collect()
        };
        let listed = table::text(&columns, &self.rows.iter().map(row).collect::<Vec<Vec<String>>>());
        format!("{}{which}\n{listed}{}\n", self.sweep.shown(), self.said(shelf))
    }

    fn most(&self) -> u64 {
        self.rows.iter().map(|row| row.within.possible).max().unwrap_or(0)
    }

    /// How much of it is sure.
    pub fn said(&self, shelf: &Shelf) -> String {
        let (traces, leaves) = (numbers::count(shelf.library.len(), "trace"), numbers::count(shelf.library.leaf_count(), "leaf"));
        format!("The band is sure for {} of {traces}. No trace was read: this is what {leaves} of the tree say of theirs.", self.placed)
    }

    /// Bars for the picture, and for the page of `report`.
    pub fn histogram(&self, shelf: &Shelf) -> Histogram {
        let label = |row: &Row| format!("{} to {}", row.off[0], row.off[1]);
        let bar = |row: &Row| Bar { label: label(row), sure: row.within.sure, possible: row.within.possible };
        Histogram { bars: self.rows.iter().map(bar).collect(), traces: shelf.library.len() as u64 }
    }

    fn picture(&self, shelf: &Shelf) -> String {
        const TOP: f64 = 50.0;
        let histogram = self.histogram(shelf);
        let title = format!("How far the traces of {} are from {}", plain::path(&shelf.path), self.sweep.name);
        let mut svg = Svg::new(drawing::WIDTH, TOP + histogram.height(), &title, &drawing::style());
        svg.label("title", (20.0, 30.0), &drawing::short(&title, drawing::LONGEST_TITLE));
        histogram.draw(&mut svg, TOP);
        svg.finish()
    }

    fn json(&self, shelf: &Shelf) -> String {
        let n = shelf.library.n();
        let row = |row: &Row| {
            let [from, to] = row.distances;
            let off = [from, to].map(|edge| format!("{:.3}", numbers::per_sample(edge, n)));
            let [sure, possible, below_sure, below_possible] = [row.within.sure, row.within.possible, row.below.sure, row.below.possible];
            json::object(&[
                ("from", from.to_string()),
                ("below", to.to_string()),
                ("from_a_sample", off[0].clone()),
                ("below_a_sample", off[1].clone()),
                ("surely", sure.to_string()),
                ("at_most", possible.to_string()),
                ("all_below_surely", below_sure.to_string()),
                ("all_below_at_most", below_possible.to_string()),
            ])
        };
        let bands: Vec<String> = self.rows.iter().map(row).collect();
        let fields = [
            ("name", json::text(&self.sweep.name)),
            ("file", json::text(&self.sweep.file)),
            ("traces", shelf.library.len().to_string()),
            ("band_is_sure", self.placed.to_string()),
            ("bands", json::array(&bands)),
        ];
        format!("{}\n", json::object(&fields))
    }
}

/// Bands before the first and behind the last that holds anything go; one stays.
fn without_empty_ends(rows: &mut Vec<Row>) {
    while rows.len() > 1 && rows.last().is_some_and(|row| row.within.possible == 0) {
        rows.pop();
    }
    let first = rows.iter().position(|row| row.within.possible > 0).unwrap_or(0);
    rows.drain(..first);
}

/// A cell a trace, or fewer if there is no room for so many: `#` for those that surely lie in the band, `.` for those that may besides. What is
/// not zero has a cell at least.
fn bar(band: Band, most: u64) -> String {
    let longest = most.min(LONGEST_BAR as u64);
    let cells = |count: u64| if most == 0 { 0 } else { (u128::from(count) * u128::from(longest)).div_ceil(most.into()) as usize };
    let (sure, possible) = (cells(band.sure), cells(band.possible));
    format!("{}{}", "#".repeat(sure), ".".repeat(possible - sure))
}

#[cfg(test)]
mod tests {
    use super::*;

    fn off(list: &str, n: usize) -> Result<Vec<u64>, Failure> {
        Edges::off_a_sample(&list.split(',').map(str::to_string).collect::<Vec<_>>(), n).map(|edges| edges.distances)
    }

    /// An edge is rounded up, and so takes just the distances whose root of the mean square is not below it.
    #[test]
    fn off_a_sample_as_a_distance() {
        assert_eq!(off("0,10,0012.5,100.25", 64).unwrap(), [0, 6400, 10_000, 643_204]);
        assert_eq!((distance_of("0.1", 3), distance_of("1.5", 3), distance_of("2", 3)), (Some(1), Some(7), Some(12)));
        assert_eq!(distance_of("0.000001", 1), Some(1));
        // the largest distance of all is below an edge just above what a sample can be off by
        assert_eq!(distance_of("1048575", 256), Some(281_474_439_840_000));
        assert_eq!((distance_of("2000000", 256), distance_of("2000000.1", 256)), (Some(1_024_000_000_000_000), None));
        for n in [1, 3, 64, 255] {
            for thousandths in (0..3000).step_by(7) {
                let edge = distance_of(&format!("{}.{:03}", thousandths / 1000, thousandths % 1000), n).unwrap();
                let squared = u64::from(thousandths as u32).pow(2) * n as u64;
                assert!(edge * 1_000_000 >= squared && (edge == 0 || (edge - 1) * 1_000_000 < squared));
            }
        }
    }

    #[test]
    fn edges_that_are_none() {
        for list in ["", "5", "0,x", "0,-1", "0,+1", "0,1e3", "0,.5", "0,5.", "0,1.2.3", "0,1.0000001", "0,99999999999", "5,5", "6,5", "0,1,2,2"] {
            assert!(off(list, 4).is_err(), "{list}");
        }
        let many: Vec<String> = (0..17).map(|edge| edge.to_string()).collect();
        assert!(off(&many.join(","), 4).is_err() && off(&many[..16].join(","), 4).is_ok());
        // different on the command line, and the same distance
        let Err(Failure::Usage(why)) = off("0,0.1,0.2", 1) else { panic!() };
        assert!(why.contains("0.1 and 0.2: both are distance 1"), "{why}");
        assert!(Edges::of_distances(&["0", "18446744073709551615"].map(str::to_string), 4).is_ok());
        assert!(Edges::of_distances(&["0", "18446744073709551616"].map(str::to_string), 4).is_err());
        for n in 1..=256 {
            assert!(rising("", &[], &Edges::first_look(n).distances).is_ok());
        }
    }

    #[test]
    fn bars() {
        let drawn = |sure, possible, most| bar(Band { sure, possible }, most);
        assert_eq!([drawn(0, 0, 0), drawn(0, 0, 5), drawn(2, 5, 5), drawn(0, 1, 5)], ["", "", "##...", "."]);
        assert_eq!(drawn(4096, 4096, 4096).len(), 40);
        assert_eq!(drawn(1, 2, 4096), "#");
        assert_eq!(drawn(1, 200, 4096), "#.");
    }
}
