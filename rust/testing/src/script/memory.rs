//! What calls are lent, and what they may do to it: every place that a call may not write is held to what it was before.

use super::{malformed, Line, Unanswered};
use crate::model::tables::{needs, sample_of, word_of, Lengths, Tables, CONTROL_FIELDS};
use crate::model::{Library, Measures, Refused};
use silkendoz::calls::Answer;

/// Places behind those that are lent: more than a node's record.
const BEHIND: usize = 100;

/// A value that no call writes, and that is another one in places near by.
pub trait Mark: Copy + PartialEq {
    fn mark(place: usize) -> Self;
}

macro_rules! marks {
    ($($number:ty),*) => {
        $(impl Mark for $number {
            fn mark(place: usize) -> $number {
                // never 0: the highest bit of a byte is set
                (0xa5a5_a5a5_a5a5_a5a5_u64 ^ (place as u64 % 89)) as $number
            }
        })*
    };
}

marks!(u8, u16, i32, u64, i64);

impl Mark for Answer {
    fn mark(place: usize) -> Answer {
        Answer { trace: u64::mark(2 * place), distance: u64::mark(2 * place + 1) }
    }
}

/// Marks up to a length.
fn extend<T: Mark>(table: &mut Vec<T>, length: usize) {
    table.extend((table.len()..length).map(T::mark));
}

/// What a call that is not refused does to the needed places of the tables. All other places stay.
#[derive(Clone, Copy, Debug)]
pub enum Effect {
    /// It puts a library of these measures there; needed search work, and labels of no trace, are then zero.
    Puts(Measures),
    /// It changes the library, and leaves search work, and the labels of traces that it does not add.
    Changes,
    /// It takes a query: needed search work is then zero, and all else stays.
    Searches,
    /// It leaves every place.
    Looks,
}

/// The tables of one library, each inside a longer memory.
pub struct Memory {
    tables: Tables,
}

/// How long the tables have to be, how long they are lent, and what they held before.
struct Lending {
    need: Lengths,
    lent: Lengths,
    before: Tables,
}

impl Memory {
    /// Nothing was opened: the control record holds zeros, by which the other tables need no place.
    pub fn unopened() -> Memory {
        let mut memory = Memory { tables: Tables { control: vec![0; CONTROL_FIELDS], ..Tables::default() } };
        memory.reach(memory.need());
        memory
    }

    /// How long the tables have to be, by the control record.
    fn need(&self) -> Lengths {
        let nothing = Lengths { control: CONTROL_FIELDS, samples: 0, nodes: 0, links: 0, work: 0, labels: 0 };
        Some(self.tables.measures()).filter(Measures::in_range).map_or(nothing, needs)
    }

    /// Makes the memory longer than this.
    fn reach(&mut self, need: Lengths) {
        extend(&mut self.tables.control, need.control + BEHIND);
        extend(&mut self.tables.samples, need.samples + BEHIND);
        extend(&mut self.tables.nodes, need.nodes + BEHIND);
        extend(&mut self.tables.links, need.links + BEHIND);
        extend(&mut self.tables.work, need.work + BEHIND);
        extend(&mut self.tables.labels, need.labels + BEHIND);
    }

    /// Makes a call: it is lent the tables as long as needed, but for those that the line names under `short`, which are one place shorter. Needed search
    /// work has marks before. Panics if the call leaves a place otherwise than its effect says, or any place changed when it is refused.
    pub fn call<A>(&mut self, line: &Line, effect: Effect, call: impl FnOnce(&mut Tables, Lengths) -> Result<A, Refused>) -> Result<A, Unanswered> {
        let lending = self.lend(line, "short", effect)?;
        let answer = call(&mut self.tables, lending.lent);
        self.hold(line, effect, lending, answer.is_ok());
        answer.map_err(Unanswered::Refused)
    }

    /// The same of a call that takes a query over two libraries; under `short2` the line names the tables of the second.
    pub fn call_both<A>(
        both: &mut [Memory; 2],
        line: &Line,
        call: impl FnOnce([&mut Tables; 2], [Lengths; 2]) -> Result<A, Refused>,
    ) -> Result<A, Unanswered> {
        let [first, second] = both;
        let lendings = [first.lend(line, "short", Effect::Searches)?, second.lend(line, "short2", Effect::Searches)?];
        let lent = [lendings[0].lent, lendings[1].lent];
        let answer = call([&mut first.tables, &mut second.tables], lent);
        for (memory, lending) in [first, second].into_iter().zip(lendings) {
            memory.hold(line, Effect::Searches, lending, answer.is_ok());
        }
        answer.map_err(Unanswered::Refused)
    }

    /// What a call is lent, by its effect and the tables that the line names under a key; with marks in needed search work.
    fn lend(&mut self, line: &Line, key: &str, effect: Effect) -> Result<Lending, Unanswered> {
        let need = match effect {
            Effect::Puts(measures) if measures.in_range() => needs(measures),
            _ => self.need(),
        };
        let mut lent = need;
        for table in line.tables(key)? {
            let length = &mut *lent.each()[table];
            *length = length.saturating_sub(1);
        }
        self.reach(need);
        self.tables.work[..need.work].iter_mut().enumerate().for_each(|(place, work)| *work = u64::mark(place));
        Ok(Lending { need, lent, before: self.tables.clone() })
    }

    /// Panics if a call that was answered has left a place otherwise than its effect says, or one that was refused any place changed.
    fn hold(&self, line: &Line, effect: Effect, lending: Lending, answered: bool) {
        let Lending { need, before: mut expected, .. } = lending;
        if answered {
            effect.allow(&mut expected, &self.tables, need);
        }
        if let Some((place, table)) = difference(&expected, &self.tables) {
            let how = if answered { "answered" } else { "refused" };
            panic!("{} was {how}, and left place {place} of the {table} otherwise than it may", line.name);
        }
    }

    /// The library as the tables record it.
    pub fn recorded(&self) -> Result<Library, Unanswered> {
        self.tables.recorded().ok_or_else(|| malformed("these tables record no tree"))
    }

    /// How many traces the tables record.
    pub fn stored(&self) -> usize {
        self.tables.recorded().map_or(0, |library| library.traces.len())
    }

    /// How many leaves the tables record.
    pub fn leaves(&self) -> usize {
        self.tables.recorded().map_or(0, |library| library.leaves().len())
    }

    /// The tables, for those who look at them or write them between two calls.
    pub fn tables(&mut self) -> &mut Tables {
        &mut self.tables
    }
}

impl Effect {
    /// Takes over what the call may have written, and sets to zero what it has to. The control record comes last: what was stored before is
    /// read off it.
    fn allow(self, expected: &mut Tables, after: &Tables, need: Lengths) {
        self.allow_labels(expected, after, need);
        self.allow_samples(expected, after, need);
        if matches!(self, Effect::Puts(_) | Effect::Changes) {
            expected.control[..need.control].copy_from_slice(&after.control[..need.control]);
            expected.nodes[..need.nodes].copy_from_slice(&after.nodes[..need.nodes]);
            expected.links[..need.links].copy_from_slice(&after.links[..need.links]);
        }
        if matches!(self, Effect::Puts(_) | Effect::Searches) {
            expected.work[..need.work].fill(0);
        }
    }

    /// Takes over the samples of traces that the call has added, of whose words the lower bits are zero; where it puts a library, all.
    fn allow_samples(self, expected: &mut Tables, after: &Tables, need: Lengths) {
        let end = |t: &Tables| usize::from(t.control[0]) * usize::from(t.control[3]);
        let added = match self {
            Effect::Puts(_) => 0..need.samples,
            Effect::Changes => end(expected)..end(after).min(need.samples),
            Effect::Searches | Effect::Looks => return,
        };
        for place in added {
            expected.samples[place] = word_of(sample_of(after.samples[place]));
        }
    }

    /// Takes over the labels of traces that the call has added, in which the bits above code and serial are zero.
    fn allow_labels(self, expected: &mut Tables, after: &Tables, need: Lengths) {
        let count = |t: &Tables| usize::from(t.control[3]);
        let added = match self {
            Effect::Puts(_) => {
                expected.labels[..need.labels].fill(0);
                0..count(after)
            }
            Effect::Changes => count(expected)..count(after),
            Effect::Searches | Effect::Looks => return,
        };
        for place in added.take_while(|&place| place < need.labels) {
            expected.labels[place] = after.labels[place] % (1 << 48);
        }
    }
}

/// The first place at which two memories differ, and the table.
fn difference(one: &Tables, other: &Tables) -> Option<(usize, &'static str)> {
    fn first<T: PartialEq>(one: &[T], other: &[T], table: &'static str) -> Option<(usize, &'static str)> {
        one.iter().zip(other).position(|(a, b)| a != b).map(|place| (place, table))
    }
    first(&one.control, &other.control, "control record")
        .or_else(|| first(&one.samples, &other.samples, "samples"))
        .or_else(|| first(&one.nodes, &other.nodes, "node records"))
        .or_else(|| first(&one.links, &other.links, "links"))
        .or_else(|| first(&one.work, &other.work, "search work"))
        .or_else(|| first(&one.labels, &other.labels, "labels"))
}

/// Places that a call is lent beside the tables, to fill from the first on: marks in all of them, and behind them.
pub struct Area<T> {
    name: &'static str,
    memory: Vec<T>,
    length: usize,
}

impl<T: Mark> Area<T> {
    pub fn of(name: &'static str, length: usize) -> Area<T> {
        let mut memory = Vec::new();
        extend(&mut memory, length + BEHIND);
        Area { name, memory, length }
    }

    pub fn lent(&mut self) -> &mut [T] {
        &mut self.memory[..self.length]
    }

    /// The places that a call has filled. Panics if it was lent fewer, or has written any other.
    pub fn filled(&self, count: u64) -> &[T] {
        let count = usize::try_from(count).expect("a count of places");
        assert!(count <= self.length, "{count} places of the {} are said to be filled, and {} were lent", self.name, self.length);
        if let Some(place) = (count..self.memory.len()).find(|&place| self.memory[place] != T::mark(place)) {
            panic!("place {place} of the {} was written, and {count} are filled", self.name);
        }
        &self.memory[..count]
    }

    /// The answer. Panics if it is a refusal, and a place was written.
    pub fn kept_if_refused<A>(&self, answer: Result<A, Unanswered>) -> Result<A, Unanswered> {
        if answer.is_err() {
            self.filled(0);
        }
        answer
    }
}

#[cfg(test)]
mod tests {
    use super::*;
    use crate::lending;

    const MEASURES: Measures = Measures { n: 2, capacity: 3, leaf_size: 1 };

    fn line(text: &str) -> Line<'_> {
        Line::parse(text).ok().expect("a line of the protocol")
    }

    fn opened() -> Memory {
        let mut memory = Memory::unopened();
        assert!(memory.call(&line("open 2 3 1"), Effect::Puts(MEASURES), |t, l| lending::open(t, l, MEASURES)).is_ok());
        memory
    }

    /// A call of this effect on an opened memory, which does this and answers so.
    fn call(effect: Effect, answer: Result<(), Refused>, does: impl FnOnce(&mut Tables, Lengths)) -> bool {
        let play = |t: &mut Tables, l: Lengths| {
            does(t, l);
            answer
        };
        opened().call(&line("add 1 2"), effect, play).is_ok()
    }

    #[test]
    fn what_is_lent() {
        let lengths = |text: &str| {
            let mut seen = None;
            let answer = opened().call(&line(text), Effect::Looks, |_, l| {
                seen = Some(l);
                Ok(())
            });
            assert!(answer.is_ok());
            seen
        };
        let need = needs(MEASURES);
        assert_eq!(lengths("write"), Some(need));
        assert_eq!(lengths("write | short=samples,work"), Some(Lengths { samples: need.samples - 1, work: need.work - 1, ..need }));
    }

    #[test]
    fn what_an_effect_allows() {
        assert!(call(Effect::Changes, Ok(()), |t, l| t.nodes[l.nodes - 1] = 7));
        assert!(call(Effect::Searches, Ok(()), |t, l| t.work[..l.work].fill(0)));
        assert!(call(Effect::Looks, Ok(()), |_, _| {}));
        assert!(!call(Effect::Changes, Err((5, 0)), |_, _| {}));
    }

    #[test]
    #[should_panic(expected = "was refused, and left place 0 of the links")]
    fn a_refusal_that_writes() {
        call(Effect::Changes, Err((5, 0)), |t, _| t.links[0] = 1);
    }

    #[test]
    #[should_panic(expected = "left place 6 of the samples")]
    fn a_place_behind_the_need() {
        call(Effect::Changes, Ok(()), |t, l| t.samples[l.samples] = 0);
    }

    #[test]
    fn the_samples_of_an_added_trace() {
        assert!(call(Effect::Changes, Ok(()), |t, _| (t.control[3], t.samples[1]) = (1, -4096)));
    }

    #[test]
    #[should_panic(expected = "left place 1 of the samples")]
    fn a_sample_with_lower_bits() {
        call(Effect::Changes, Ok(()), |t, _| (t.control[3], t.samples[1]) = (1, -1));
    }

    #[test]
    #[should_panic(expected = "left place 2 of the samples")]
    fn a_sample_of_no_trace() {
        call(Effect::Changes, Ok(()), |t, _| (t.control[3], t.samples[2]) = (1, 4096));
    }

    #[test]
    fn the_label_of_an_added_trace() {
        assert!(call(Effect::Changes, Ok(()), |t, _| (t.control[3], t.labels[0]) = (1, 65_536 + 7)));
    }

    #[test]
    #[should_panic(expected = "left place 0 of the labels")]
    fn a_label_with_more_bits() {
        call(Effect::Changes, Ok(()), |t, _| (t.control[3], t.labels[0]) = (1, 1 << 48));
    }

    #[test]
    #[should_panic(expected = "left place 1 of the labels")]
    fn a_label_of_no_trace() {
        call(Effect::Changes, Ok(()), |t, _| (t.control[3], t.labels[1]) = (1, 7));
    }

    #[test]
    #[should_panic(expected = "left place 2 of the search work")]
    fn search_work_that_has_to_stay() {
        call(Effect::Changes, Ok(()), |t, _| t.work[2] = 0);
    }

    #[test]
    #[should_panic(expected = "left place 4 of the search work")]
    fn search_work_that_has_to_be_zero() {
        call(Effect::Searches, Ok(()), |t, l| t.work[..l.work - 1].fill(0));
    }

    #[test]
    #[should_panic(expected = "place 1 of the trail was written, and 1 are filled")]
    fn a_place_behind_those_filled() {
        let mut trail = Area::of("trail", 3);
        trail.lent()[..2].copy_from_slice(&[0_u16, 0]);
        trail.filled(1);
    }

    #[test]
    #[should_panic(expected = "place 0 of the sheet was written, and 0 are filled")]
    fn a_refusal_that_fills() {
        let mut sheet = Area::of("sheet", 3);
        sheet.lent()[0] = 0_u8;
        let refused: Result<(), Unanswered> = sheet.kept_if_refused(Err(Unanswered::Refused((8, 0))));
        assert!(refused.is_err());
    }

    #[test]
    #[should_panic(expected = "4 places of the trail are said to be filled, and 3 were lent")]
    fn more_than_was_lent() {
        Area::<u16>::of("trail", 3).filled(4);
    }
}
