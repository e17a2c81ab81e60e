//! What the nearest traces say of a sweep: it fits a fault, it lies between two, or it is like nothing stored. How far is far, the library
//! itself says: its traces lie so far from the nearest other trace of their own fault. No verdict is without its figures.

use super::numbers::{how_far, per_sample, times_as_far};
use super::reading::{Sweep, MOST_TRACES};
use super::shelves::{Near, Shelves};
use super::{json, numbers, refused, words, Failure};
use silkendoz::{Refusal, TraceLibrary};
use std::collections::BTreeMap;

/// Large leaves, since each trace is looked up once alone.
const OWN_LEAF_SIZE: usize = 64;

/// The fault that a trace's name says: what stands before its last comma, as in `dry rail, right, machine 4117`.
pub fn fault_of(name: &str) -> &str {
    match name.rsplit_once(',') {
        Some((fault, _)) if !fault.trim().is_empty() => fault.trim(),
        _ => name.trim(),
    }
}

/// What a trace's name says behind its fault; all of it, if nothing.
pub fn behind_fault(name: &str) -> &str {
    let behind = name.trim().strip_prefix(fault_of(name)).unwrap_or(name).trim_start_matches([',', ' ']);
    if behind.is_empty() {
        name
    } else {
        behind
    }
}

/// The fault of a stored trace: by its code, and where it has none, by its name. Traces with neither are no fault together.
fn fault_in(shelves: &Shelves, trace: usize) -> String {
    match (shelves.label(trace).code, shelves.name(trace)) {
        (0, Some(name)) => fault_of(name).to_string(),
        (0, None) => format!("{} (no name)", shelves.called(trace)),
        (code, _) => shelves.fault(code),
    }
}

/// The faults of a library, or of two together, by the codes and names of their traces.
pub struct Faults {
    /// Of each trace.
    names: Vec<String>,
    /// Nothing if no fault is stored twice.
    apart: Option<Apart>,
}

/// How far stored traces lie from the nearest other one of their fault: the least distance and the greatest.
#[derive(Clone, Copy, Debug, PartialEq, Eq)]
pub struct Apart {
    pub least: u64,
    pub greatest: u64,
}

impl Apart {
    /// Of traces of n samples.
    pub fn text(&self, n: usize) -> String {
        format!("traces of one fault lie {:.1} to {:.1} apart", per_sample(self.least, n), per_sample(self.greatest, n))
    }

    /// The same for a table, least and greatest.
    pub fn in_cells(apart: Option<Apart>, n: usize) -> [String; 2] {
        let cell = |distance: Option<u64>| distance.map_or("-".to_string(), |distance| format!("{:.1}", per_sample(distance, n)));
        [cell(apart.map(|apart| apart.least)), cell(apart.map(|apart| apart.greatest))]
    }

    /// The same for programs.
    pub fn in_json(apart: Option<Apart>, n: usize) -> [(&'static str, String); 2] {
        let figure = |distance: Option<u64>| distance.map_or("null".to_string(), |distance| format!("{:.3}", per_sample(distance, n)));
        [("stored_apart_least", figure(apart.map(|apart| apart.least))), ("stored_apart_greatest", figure(apart.map(|apart| apart.greatest)))]
    }
}

impl Faults {
    pub fn of(shelves: &Shelves) -> Result<Faults, Failure> {
        let names: Vec<String> = (0..shelves.len()).map(|t| fault_in(shelves, t)).collect();
        let mut groups: BTreeMap<&str, Vec<Vec<i32>>> = BTreeMap::new();
        for (t, name) in names.iter().enumerate() {
            groups.entry(name).or_default().push(shelves.trace(t));
        }
        let several = groups.values().filter(|group| group.len() > 1);
        let nearest: Vec<u64> = match several.map(|group| to_own(group)).collect::<Result<Vec<_>, _>>() {
            Ok(each) => each.concat(),
            Err(why) => return refused(format!("{}: {}", shelves.paths(), words::of_call(why))),
        };
        let apart = nearest.iter().min().zip(nearest.iter().max()).map(|(&least, &greatest)| Apart { least, greatest });
        Ok(Faults { names, apart })
    }

    pub fn apart(&self) -> Option<Apart> {
        self.apart
    }

    /// The fault of a stored trace.
    pub fn name(&self, trace: usize) -> &str {
        self.names.get(trace).map_or("", String::as_str)
    }

    /// The first of a list that is of another fault than its first.
    pub fn other<'a>(&self, list: &'a [Near]) -> Option<&'a Near> {
        let first = self.name(list.first()?.trace);
        list.iter().find(|near| self.name(near.trace) != first)
    }
}

/// The distance of each trace to the nearest other one, of two or more: in a library of them all, the second of its two nearest. Two
/// libraries may have more of a fault than one holds; then there are several, and the second of all is among the two nearest of each.
fn to_own(group: &[Vec<i32>]) -> Result<Vec<u64>, Refusal> {
    let libraries = group.chunks(MOST_TRACES).map(library_of).collect::<Result<Vec<_>, _>>()?;
    let second = |trace: &Vec<i32>| {
        let mut two = Vec::new();
        for library in &libraries {
            two.extend(library.k_nearest(trace, 2)?.list.iter().map(|near| near.distance));
        }
        two.sort_unstable();
        Ok(two.get(1).copied().unwrap_or_default())
    };
    group.iter().map(second).collect()
}

fn library_of(traces: &[Vec<i32>]) -> Result<TraceLibrary, Refusal> {
    let mut library = TraceLibrary::open(traces.first().map_or(0, Vec::len), traces.len(), OWN_LEAF_SIZE)?;
    for trace in traces {
        library.add(trace)?;
    }
    Ok(library)
}

/// The traces of a fault, of a list of nearest ones.
pub struct ByFault {
    pub fault: String,
    /// The nearest first; never empty.
    pub traces: Vec<Near>,
}

/// A list of nearest traces by fault, the fault of the nearest first.
pub fn by_fault(faults: &Faults, list: &[Near]) -> Vec<ByFault> {
    let mut groups: Vec<ByFault> = Vec::new();
    for near in list {
        let fault = faults.name(near.trace);
        match groups.iter_mut().find(|group| group.fault == fault) {
            Some(group) => group.traces.push(*near),
            None => groups.push(ByFault { fault: fault.to_string(), traces: vec![*near] }),
        }
    }
    groups
}

#[derive(Clone, Copy, Debug, PartialEq, Eq)]
pub enum Word {
    Fits,
    Between,
    Nothing,
    NotJudged,
}

impl Word {
    pub fn text(self) -> &'static str {
        match self {
            Word::Fits => "fits",
            Word::Between => "between",
            Word::Nothing => "like nothing stored",
            Word::NotJudged => "not judged",
        }
    }
}

/// What is known of the nearest trace of another fault.
#[derive(Clone, Debug, PartialEq, Eq)]
pub enum Other {
    Found(Near, String),
    /// So many nearest are all of one fault, and there are more traces.
    NotAmong(usize),
    /// All stored traces are of one fault.
    NoneStored,
    /// One trace was asked for, by this option.
    NotAsked(&'static str),
}

pub struct Verdict {
    pub word: Word,
    pub fault: String,
    pub nearest: Near,
    pub other: Other,
    /// On the way from the nearest trace to the nearest of the other fault.
    between: Option<Between>,
    pub apart: Option<Apart>,
    n: usize,
}

/// The point nearest to the sweep on the way from one trace to another: a mixture of the two.
#[derive(Clone, Copy, Debug, PartialEq)]
struct Between {
    /// How much of the way, 0 to 1.
    share: f64,
    /// The sum of squared differences to that point.
    distance: f64,
}

impl Between {
    /// Nothing if the two are the same.
    fn of(sweep: &[i32], from: &[i32], to: &[i32]) -> Option<Between> {
        let less = |a: &[i32], b: &[i32]| a.iter().zip(b).map(|(&a, &b)| f64::from(a) - f64::from(b)).collect::<Vec<f64>>();
        let product = |a: &[f64], b: &[f64]| a.iter().zip(b).map(|(a, b)| a * b).sum::<f64>();
        let (way, gone) = (less(to, from), less(sweep, from));
        let length = product(&way, &way);
        if length == 0.0 {
            return None;
        }
        let share = (product(&gone, &way) / length).clamp(0.0, 1.0);
        let distance = gone.iter().zip(&way).map(|(gone, way)| (gone - share * way).powi(2)).sum();
        Some(Between { share, distance })
    }
}

impl Verdict {
    /// Of the nearest traces of a sweep, which are so many as were looked for, or all. If that is one, `one` is the option that asked for one.
    pub fn of(faults: &Faults, shelves: &Shelves, sweep: &[i32], list: &[Near], one: &'static str) -> Option<Verdict> {
        let nearest = *list.first()?;
        let other = match faults.other(list) {
            Some(near) => Other::Found(*near, faults.name(near.trace).to_string()),
            None if list.len() == shelves.len() => Other::NoneStored,
            None if list.len() == 1 => Other::NotAsked(one),
            None => Other::NotAmong(list.len()),
        };
        let between = match &other {
            Other::Found(near, _) => Between::of(sweep, &shelves.trace(nearest.trace), &shelves.trace(near.trace)),
            _ => None,
        };
        let word = judged(nearest.distance, &other, between, faults.apart);
        let fault = faults.name(nearest.trace).to_string();
        Some(Verdict { word, fault, nearest, other, between, apart: faults.apart, n: shelves.n() })
    }

    fn a_sample(&self, distance: u64) -> String {
        format!("{:.1}", per_sample(distance, self.n))
    }

    /// All of it in one line.
    pub fn text(&self) -> String {
        let (fault, off) = (&self.fault, self.a_sample(self.nearest.distance));
        match (self.word, &self.other, self.apart.map(|apart| apart.text(self.n))) {
            (Word::Fits, _, Some(apart)) => format!("Fits: {fault}, off by {off} a sample; {apart}. {}", self.about_other()),
            (Word::Between, Other::Found(near, other), Some(apart)) => {
                let (second, how) = (self.a_sample(near.distance), how_far(self.nearest.distance, near.distance));
                let mixture = self.mixture().map_or_else(String::new, |mixture| format!("{mixture}; "));
                format!("Between two faults: {fault}, off by {off} a sample, and {other}, {how} ({second}); {mixture}{apart}.")
            }
            (Word::Nothing, _, Some(apart)) => {
                format!("Like nothing stored: the nearest, {fault}, is off by {off} a sample; {apart}. {}", self.about_other())
            }
            (_, _, Some(apart)) => format!("Nearest: {fault}, off by {off} a sample; {apart}. {}", self.about_other()),
            (_, _, None) => {
                let other = self.about_other();
                format!("Nearest: {fault}, off by {off} a sample. {other} Whether it fits is not judged: no fault is stored twice.")
            }
        }
    }

    /// The point between the two faults, where that is what the verdict is by.
    fn mixture(&self) -> Option<String> {
        let Apart { greatest, .. } = self.apart?;
        let between = self.between.filter(|_| self.nearest.distance > greatest)?;
        let off = (between.distance / self.n as f64).sqrt();
        Some(format!("a point {:.0} % of the way from one to the other is off by {off:.1}", 100.0 * between.share))
    }

    /// How many bytes of the text say what is most to be known: the verdict and the fault.
    pub fn headline(&self) -> usize {
        let text = self.text();
        match self.word {
            Word::Nothing => text.find(':').map_or(0, |at| at + 1),
            Word::Between => text.find(';').unwrap_or(text.len()),
            Word::Fits | Word::NotJudged => text.find(&self.fault).map_or(0, |at| at + self.fault.len()),
        }
    }

    fn about_other(&self) -> String {
        match &self.other {
            Other::Found(near, other) => {
                let (off, how) = (self.a_sample(near.distance), how_far(self.nearest.distance, near.distance));
                format!("Next fault: {other}, {how} ({off}).")
            }
            Other::NotAmong(many) => format!("All {many} nearest are of this fault."),
            Other::NoneStored => "No other fault is stored.".to_string(),
            Other::NotAsked(one) => format!("No other fault was looked for ({one})."),
        }
    }

    /// The other fault, and how much farther it is, for a table.
    pub fn other_in_cells(&self) -> (String, String) {
        let none = "-".to_string();
        match &self.other {
            Other::Found(near, other) => {
                let times = times_as_far(self.nearest.distance, near.distance);
                (other.clone(), times.map_or(none, |times| format!("{times:.2} x")))
            }
            Other::NotAmong(many) => (format!("none of the {many} nearest"), none),
            Other::NoneStored => ("none is stored".to_string(), none),
            Other::NotAsked(_) => ("not looked for".to_string(), none),
        }
    }

    /// Fields for programs, all of them there whatever the verdict; what there is none of is null.
    pub fn json(&self, shelves: &Shelves) -> String {
        let figure = |distance: Option<u64>| distance.map_or("null".to_string(), |d| format!("{:.3}", per_sample(d, self.n)));
        let (other, name) = match &self.other {
            Other::Found(near, name) => (Some(near), json::text(name)),
            _ => (None, "null".to_string()),
        };
        let times = other.and_then(|near| times_as_far(self.nearest.distance, near.distance));
        let fields = [
            ("word", json::text(self.word.text())),
            ("text", json::text(&self.text())),
            ("fault", json::text(&self.fault)),
            ("a_sample", figure(Some(self.nearest.distance))),
            ("other_fault", name),
            ("other_fault_library", other.map_or("null".to_string(), |near| json::or_null(shelves.place(near.trace).which))),
            ("other_fault_trace", other.map_or("null".to_string(), |near| shelves.place(near.trace).number.to_string())),
            ("other_fault_a_sample", figure(other.map(|near| near.distance))),
            ("other_fault_times_as_far", times.map_or("null".to_string(), |times| format!("{times:.3}"))),
            ("between_share", self.between.map_or("null".to_string(), |between| format!("{:.3}", between.share))),
            ("between_a_sample", self.between.map_or("null".to_string(), |between| format!("{:.3}", (between.distance / self.n as f64).sqrt()))),
            ("all_of_one_fault", matches!(self.other, Other::NotAmong(_) | Other::NoneStored).to_string()),
        ];
        json::object(&[&fields[..], &Apart::in_json(self.apart, self.n)].concat())
    }
}

/// A sweep is near a fault if it is no farther from it than stored traces are from the nearest of their own. One that is near none lies
/// between two if it is that near to a mixture of them.
fn judged(nearest: u64, other: &Other, between: Option<Between>, apart: Option<Apart>) -> Word {
    let Some(Apart { greatest, .. }) = apart else {
        return Word::NotJudged;
    };
    match other {
        _ if nearest > greatest => match between {
            Some(between) if between.distance <= greatest as f64 => Word::Between,
            _ => Word::Nothing,
        },
        Other::Found(near, _) if near.distance <= greatest => Word::Between,
        Other::NotAsked(_) => Word::NotJudged,
        _ => Word::Fits,
    }
}

/// That a sweep has another rate than every recording of the library, or than the trace found for it, by what that is called; nothing of a
/// rate that is not known.
pub fn other_rate(own: Option<u32>, found: Option<u32>, called: &str, rates: &[u32]) -> Option<String> {
    let own = own?;
    let others = match found {
        _ if !rates.is_empty() && !rates.contains(&own) => {
            format!("the library's recordings {}", rates.iter().map(u32::to_string).collect::<Vec<_>>().join(", "))
        }
        Some(found) if found != own => format!("{called} {found}"),
        _ => return None,
    };
    Some(format!("It has {own} samples a second, {others}: they do not compare."))
}

/// What else is to be known of a sweep before its verdict is believed; `called` is what the trace found for it is.
pub fn remarks(sweep: &Sweep, found: Near, called: &str, shelves: &Shelves) -> Vec<String> {
    let mut list = Vec::new();
    if found.distance == 0 {
        list.push(format!("It is stored already: {} is the same, sample by sample.", shelves.called(found.trace)));
    }
    let at_limit = sweep.clipped();
    if let Some(first) = at_limit.first() {
        let (count, verb) = (numbers::count(at_limit.len(), "sample"), if at_limit.len() == 1 { "is" } else { "are" });
        list.push(format!("{count} {verb} at the converter's limit, from sample {} on: there the current may have been larger.", first + 1));
    }
    list.extend(other_rate(sweep.rate, shelves.rate_of(found.trace), called, &shelves.rates()));
    list
}

#[cfg(test)]
mod tests {
    use super::*;

    #[test]
    fn faults_by_name() {
        let faults = ["dry rail, right, machine 4117", "healthy, slow", "encoder slip", ", 3", " belt , a"].map(fault_of);
        assert_eq!(faults, ["dry rail, right", "healthy", "encoder slip", ", 3", "belt"]);
        let behind = ["dry rail, right, machine 4117", "encoder slip", ", 3", "belt , a"].map(behind_fault);
        assert_eq!(behind, ["machine 4117", "encoder slip", ", 3", "a"]);
    }

    #[test]
    fn nearest_of_their_own() {
        assert_eq!(to_own(&[vec![0, 0], vec![3, 4], vec![3, 5], vec![100, 0]]), Ok(vec![25, 1, 1, 97 * 97 + 16]));
        assert_eq!(to_own(&[vec![7], vec![7], vec![9]]), Ok(vec![0, 0, 4]));
    }

    #[test]
    fn judged_by_the_library() {
        let apart = Some(Apart { least: 10, greatest: 40 });
        let near = |distance| Other::Found(Near { trace: 0, distance }, String::new());
        let far = Some(Between { share: 0.5, distance: 40.5 });
        let on_the_way = Some(Between { share: 0.5, distance: 40.0 });
        assert_eq!(judged(40, &near(41), far, apart), Word::Fits);
        assert_eq!(judged(0, &near(41), on_the_way, apart), Word::Fits);
        assert_eq!(judged(40, &near(40), far, apart), Word::Between);
        assert_eq!(judged(41, &near(41), far, apart), Word::Nothing);
        assert_eq!(judged(41, &near(41), on_the_way, apart), Word::Between);
        assert_eq!(judged(41, &Other::NotAmong(16), None, apart), Word::Nothing);
        assert_eq!(judged(5, &Other::NotAmong(16), None, apart), Word::Fits);
        assert_eq!(judged(5, &Other::NotAsked("-k 1"), None, apart), Word::NotJudged);
        assert_eq!(judged(5, &near(99), on_the_way, None), Word::NotJudged);
    }

    #[test]
    fn mixtures() {
        let between = |sweep| Between::of(sweep, &[0, 0], &[10, 0]);
        assert_eq!(between(&[5, 3]), Some(Between { share: 0.5, distance: 9.0 }));
        assert_eq!(between(&[-3, 4]), Some(Between { share: 0.0, distance: 25.0 }));
        assert_eq!(between(&[12, 0]), Some(Between { share: 1.0, distance: 4.0 }));
        assert_eq!(Between::of(&[1, 1], &[7, 7], &[7, 7]), None);
    }
}
