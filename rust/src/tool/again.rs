//! Traces that are there already, sample by sample: who stores one twice mostly did not mean to.

use super::reading::Sweep;
use silkendoz::StoredSample;
use std::collections::HashMap;

/// Where a trace was seen first.
#[derive(Clone, Copy)]
enum First<'a> {
    /// It is stored, under this number.
    Stored(usize),
    /// It comes before, in the same command.
    Here(&'a Sweep),
}

/// So many are named.
const MOST_NAMED: usize = 10;

/// A line for each sweep that is stored already or comes before in the same command; of many, for the first ones. `shown` names a number.
pub fn lines<'a>(stored: impl Iterator<Item = &'a [StoredSample]>, sweeps: &'a [Sweep], shown: impl Fn(usize) -> String) -> Vec<String> {
    let mut seen: HashMap<Vec<i32>, First<'a>> = HashMap::new();
    for (number, trace) in stored.enumerate() {
        seen.entry(StoredSample::values(trace)).or_insert(First::Stored(number));
    }
    let mut again = Vec::new();
    for sweep in sweeps {
        match seen.get(&sweep.samples) {
            Some(first) => again.push((sweep, *first)),
            None => drop(seen.insert(sweep.samples.clone(), First::Here(sweep))),
        }
    }
    let one = |(sweep, first): &(&Sweep, First<'_>)| match first {
        First::Stored(number) => format!("{}: is stored already, as trace {number}, {}.", sweep.shown(), shown(*number)),
        First::Here(first) => format!("{}: is the same, sample by sample, as {}.", sweep.shown(), first.shown()),
    };
    let mut lines: Vec<String> = again.iter().take(MOST_NAMED).map(one).collect();
    if again.len() > MOST_NAMED {
        lines.push(format!("{} more are there already.", again.len() - MOST_NAMED));
    }
    lines
}
