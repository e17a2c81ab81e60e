//! Sweeps with clipped samples: `--clipped`, for `match`, `plot` and `report`. A sample at the converter's limit may truly have been beyond it.
//! How far, no log says, so that it has to be said and is never guessed. Every trace that could be the match then is listed by the proved
//! call; least and greatest distances beside it are `silkendoz::scan`'s.

use super::arguments::Arguments;
use super::limited::Sure;
use super::plain;
use super::reading::Sweep;
use super::shelves::{Possible, Shelves};
use super::verdict::{self, Apart, Faults};
use super::{numbers, refused, words, wrong, Failure};
use silkendoz::SAMPLES;

/// The option that asks for it, the one that says how far beyond, and the one that names other limits.
pub const CLIPPED: &str = "--clipped";
pub const BEYOND: &str = "--beyond";
pub const AT: &str = "--at";

/// Runs of clipped samples that are named; the others are counted.
const NAMED_RUNS: usize = 6;

/// What was said of clipped samples.
#[derive(Clone, Copy, Debug, PartialEq, Eq)]
pub struct Asked {
    /// So far beyond its limit a clipped sample may have been. More than samples can be apart is as good as that.
    beyond: i64,
    /// Limits below and above, if others were named than the converter's.
    at: Option<[Option<i32>; 2]>,
}

impl Asked {
    /// By the options; nothing if none of them is there.
    pub fn of(a: &Arguments) -> Result<Option<Asked>, Failure> {
        let (beyond, at) = (a.one_or_more(BEYOND)?, at(a)?);
        match (a.has(CLIPPED), beyond) {
            (false, None) if at.is_none() => Ok(None),
            (false, _) => wrong(format!("`{BEYOND}` and `{AT}` are about clipped samples. Say `{CLIPPED}`, too.")),
            (true, None) => wrong(format!(
                "`{CLIPPED}` needs `{BEYOND} V`: a clipped sample may truly have been up to V beyond the limit. No log says how far, so it is not \
                 guessed. Take what the largest current would be in the converter's steps, less the limit."
            )),
            (true, Some(beyond)) => Ok(Some(Asked { beyond: i64::try_from(beyond).unwrap_or(i64::MAX).min(ALL), at })),
        }
    }
}

/// More than any two samples are apart.
const ALL: i64 = 1 << 40;

/// `--at LOW,HIGH`: one of the two may be left out.
fn at(a: &Arguments) -> Result<Option<[Option<i32>; 2]>, Failure> {
    let Some(said) = a.list(AT) else { return Ok(None) };
    let limit = |word: &String| match word.parse::<i32>() {
        _ if word.is_empty() => Ok(None),
        Ok(limit) if SAMPLES.contains(&limit) => Ok(Some(limit)),
        _ => {
            let (word, least, greatest) = (plain::short(word, 40), SAMPLES.start(), SAMPLES.end());
            wrong(format!("{AT}: `{word}` is no sample. Take whole numbers from {least} to {greatest}."))
        }
    };
    let limits = said.iter().map(limit).collect::<Result<Vec<_>, _>>()?;
    match limits[..] {
        [Some(low), Some(high)] if low >= high => wrong(format!("{AT}: {low} is not below {high}. Say the lower limit first.")),
        [low, high] if low.is_some() || high.is_some() => Ok(Some([low, high])),
        _ => wrong(format!("{AT}: takes LOW,HIGH, the limits that samples are clipped at; `,HIGH` is the upper one alone, `LOW,` the lower one.")),
    }
}

/// Between which figures the samples of a sweep lie.
#[derive(Clone, Debug, PartialEq, Eq)]
pub struct Ranges {
    pub lows: Vec<i32>,
    pub highs: Vec<i32>,
    /// Which samples are clipped, counted from 0: below, and above.
    pub clipped: [Vec<usize>; 2],
    pub limits: [Option<i32>; 2],
    pub beyond: i64,
}

impl Ranges {
    /// A sample at a limit, or past one that was named, lies from there to as far beyond it as was said. Any other is what it is. What cannot
    /// be given as a range is refused, and never cut: a list for a smaller range would promise too much.
    pub fn of(sweep: &Sweep, asked: &Asked) -> Result<Ranges, Failure> {
        let limits = asked.at.unwrap_or_else(|| sweep.limits().map(Some));
        let [low, high] = limits;
        let mut ranges =
            Ranges { lows: sweep.samples.clone(), highs: sweep.samples.clone(), clipped: [Vec::new(), Vec::new()], limits, beyond: asked.beyond };
        for (place, &sample) in sweep.samples.iter().enumerate() {
            let [below, above] = [low.filter(|&low| sample <= low), high.filter(|&high| sample >= high)];
            let Some(limit) = below.or(above) else { continue };
            let side = usize::from(below.is_none());
            let other = i64::from(limit) + if side == 0 { -asked.beyond } else { asked.beyond };
            let Some(other) = i32::try_from(other).ok().filter(|other| SAMPLES.contains(other)) else {
                return refused(format!("{}: {}", sweep.shown(), too_far([place as i64 + 1, sample.into(), limit.into()], side, asked.beyond)));
            };
            let [low, high] = [limit.min(other), limit.max(other)];
            if !(low..=high).contains(&sample) {
                let why = format!("sample {} is {sample}, more than {} beyond the limit {limit}", place + 1, asked.beyond);
                return refused(format!("{}: {why}. Say a larger `{BEYOND}`, or the limit that it was clipped at.", sweep.shown()));
            }
            (ranges.lows[place], ranges.highs[place]) = (low, high);
            ranges.clipped[side].push(place);
        }
        Ok(ranges)
    }

    pub fn count(&self) -> usize {
        self.clipped.iter().map(Vec::len).sum()
    }

    /// All clipped samples, counted from 0, rising.
    pub fn all(&self) -> Vec<usize> {
        let mut all = self.clipped.concat();
        all.sort_unstable();
        all
    }

    /// The limits in words.
    fn limits_in_words(&self) -> String {
        let limits: Vec<String> = self.limits.iter().flatten().map(i32::to_string).collect();
        limits.join(" or ")
    }

    /// How many samples are clipped, where, and what they are taken for.
    pub fn text(&self) -> String {
        let n = self.lows.len();
        if self.count() == 0 {
            return format!("No sample is clipped: none of {n} is at the limit, {}. So every sample is known.", self.limits_in_words());
        }
        let side = |side: usize| {
            let first = *self.clipped[side].first()?;
            let (many, limit) = (self.clipped[side].len(), self.limits[side]?);
            let each = if many == 1 { "taken to have been" } else { "each taken to have been" };
            Some(format!("{} at {limit}, {each} {} to {}", runs(&self.clipped[side]), self.lows[first], self.highs[first]))
        };
        let sides: Vec<String> = [1, 0].into_iter().filter_map(side).collect();
        format!("Clipped: {} of {}: {}.", self.count(), numbers::count(n, "sample"), sides.join("; "))
    }
}

/// That as far beyond the limit as was said there are no samples.
fn too_far([place, sample, limit]: [i64; 3], side: usize, beyond: i64) -> String {
    let [least, greatest] = [SAMPLES.start(), SAMPLES.end()].map(|&sample| i64::from(sample));
    let most = if side == 0 { limit - least } else { greatest - limit };
    let what = format!("sample {place} is {sample}, clipped at {limit}, and {beyond} beyond that is no sample: these are {least} to {greatest}");
    match most {
        0 => format!("{what}. Bring sweep and library to 16 bits, as `--convert --bits 16` does: then there is room."),
        most => format!("{what}. Take at most {most} for `{BEYOND}`, or bring sweep and library to smaller samples."),
    }
}

/// Samples that follow one another as from and to, counted from 1.
fn runs(places: &[usize]) -> String {
    let mut runs: Vec<[usize; 2]> = Vec::new();
    for &place in places {
        match runs.last_mut() {
            Some([_, last]) if *last + 1 == place => *last = place,
            _ => runs.push([place, place]),
        }
    }
    let word = |[first, last]: &[usize; 2]| if first == last { format!("{}", first + 1) } else { format!("{} to {}", first + 1, last + 1) };
    let mut words: Vec<String> = runs.iter().take(NAMED_RUNS).map(word).collect();
    let left: usize = runs.iter().skip(NAMED_RUNS).map(|[first, last]| last - first + 1).sum();
    if left > 0 {
        words.push(format!("and {left} more"));
    }
    words.join(", ")
}

/// The listed traces of a fault.
pub struct Group {
    pub fault: String,
    /// By their least distance; never empty.
    pub traces: Vec<Possible>,
}

/// What could be the match of a sweep.
pub struct Found<'a> {
    pub sweep: &'a Sweep,
    pub ranges: Ranges,
    /// By number; never empty.
    pub list: Vec<Possible>,
    /// The same by fault, that with the smallest least first: its first trace could be nearest of all.
    pub groups: Vec<Group>,
    pub apart: Option<Apart>,
    pub remarks: Vec<String>,
    /// Samples a trace, and how many traces are stored.
    pub n: usize,
    pub stored: usize,
}

impl Found<'_> {
    pub fn of<'a>(shelves: &Shelves, faults: &Faults, sweep: &'a Sweep, asked: &Asked) -> Result<Found<'a>, Failure> {
        let ranges = Ranges::of(sweep, asked)?;
        let list = match shelves.match_clipped(&ranges.lows, &ranges.highs) {
            Ok(list) => list,
            Err(why) => return refused(format!("{}: {}", shelves.paths(), words::of_call(why))),
        };
        let mut sorted = list.clone();
        sorted.sort_by_key(|one| (one.least, one.trace));
        let mut groups: Vec<Group> = Vec::new();
        for one in sorted {
            let fault = faults.name(one.trace);
            match groups.iter_mut().find(|group| group.fault == fault) {
                Some(group) => group.traces.push(one),
                None => groups.push(Group { fault: fault.to_string(), traces: vec![one] }),
            }
        }
        let remarks = verdict::other_rate(sweep.rate, None, "", &shelves.rates()).into_iter().collect();
        Ok(Found { sweep, ranges, list, groups, apart: faults.apart(), remarks, n: shelves.n(), stored: shelves.len() })
    }

    /// The distance of the match is at least this, whatever the clipped samples were.
    pub fn least(&self) -> u64 {
        self.list.iter().map(|one| one.least).min().unwrap_or_default()
    }

    /// It is at most this: the smallest greatest. A trace that is farther is not the match.
    pub fn most(&self) -> u64 {
        self.list.iter().map(|one| one.greatest).min().unwrap_or_default()
    }

    /// The one fault that all listed traces are of.
    pub fn certain(&self) -> Option<&str> {
        match self.groups.as_slice() {
            [one] => Some(&one.fault),
            _ => None,
        }
    }

    pub fn sure(&self) -> Sure {
        Sure::of(self.least(), self.most(), self.apart)
    }

    pub fn a_sample(&self, distance: u64) -> String {
        format!("{:.1}", numbers::per_sample(distance, self.n))
    }

    /// How many are listed.
    pub fn counted(&self) -> String {
        let (listed, stored) = (self.list.len(), numbers::count(self.stored, "trace"));
        format!("Could be the match: {listed} of {stored}, of {}.", numbers::count(self.groups.len(), "fault"))
    }

    /// A word or two for a table.
    pub fn word(&self) -> &'static str {
        match (self.sure(), self.certain()) {
            (Sure::Far, _) => verdict::Word::Nothing.text(),
            (_, Some(_)) => "fault certain",
            (_, None) => "fault open",
        }
    }

    /// What is certain of the fault, whatever the clipped samples were; what is certain of the distance.
    pub fn said(&self) -> [String; 2] {
        let listed = self.list.len();
        let all = match listed {
            1 => "It is the one trace that could be the match.".to_string(),
            _ => format!("All {listed} traces that could be the match are of it."),
        };
        let known = self.ranges.count() == 0;
        let fault = match (self.certain(), known) {
            (Some(fault), true) => format!("The match is of this fault: {fault}."),
            (Some(fault), false) => format!("The fault is certain within these ranges: {fault}. {all}"),
            (None, true) => format!("Faults at the match's distance: {}.", self.faults()),
            (None, false) => {
                format!("The fault is open within these ranges: {}. A listed trace need not be the match of any sweep within them.", self.faults())
            }
        };
        let fault = match (self.sure(), known) {
            (Sure::Far, true) => format!("Like nothing stored. {fault}"),
            (Sure::Far, false) => format!("Like nothing stored, whatever was clipped. {fault}"),
            _ => fault,
        };
        let apart = self.apart.map_or(String::new(), |apart| format!("; {}", apart.text(self.n)));
        let (least, most) = (self.least(), self.most());
        let lies = match least == most {
            true => format!("The match's distance is {least}: off by {} a sample{apart}.", self.a_sample(least)),
            false => {
                let off = format!("off by {} to {} a sample", self.a_sample(least), self.a_sample(most));
                format!("The match's distance is at least {least} and at most {most}, the smallest greatest: {off}{apart}.")
            }
        };
        let sure = match self.sure() {
            Sure::Near if known => "It is near enough for a fault.",
            Sure::Near => "It is near enough for a fault, whatever was clipped.",
            Sure::Far => "Every stored trace is farther than that.",
            Sure::Neither => "Whether it is near enough for a fault is open.",
            Sure::NotJudged => "Whether it fits is not judged: no fault is stored twice.",
        };
        [fault, format!("{lies} {sure}")]
    }

    /// The faults of the list in words, no more than a few.
    fn faults(&self) -> String {
        const NAMED: usize = 4;
        let named: Vec<String> = self.groups.iter().take(NAMED).map(|group| plain::short(&group.fault, 60)).collect();
        match self.groups.len().checked_sub(NAMED) {
            Some(more) if more > 0 => format!("{} and {}", named.join("; "), numbers::count(more, "other")),
            _ => named.join("; "),
        }
    }
}

#[cfg(test)]
mod tests {
    use super::*;

    #[test]
    fn runs_in_words() {
        let words = [&[3][..], &[0, 1, 2], &[0, 2, 3, 4, 9], &[0, 2, 4, 6, 8, 10, 12, 13, 20]].map(runs);
        assert_eq!(words, ["4", "1 to 3", "1, 3 to 5, 10", "1, 3, 5, 7, 9, 11, and 3 more"]);
    }
}
