//! What a call refuses.

use std::fmt;

/// A refusal, by the word of documents 01 and 02. A refused call leaves everything as it was.
///
/// ```
/// use silkendoz::{Refusal, TraceLibrary};
///
/// let why = TraceLibrary::open(257, 8, 2).unwrap_err();
/// assert_eq!(why, Refusal::Measure);
/// assert_eq!((why.number(), why.place()), (1, 0));
/// assert_eq!(why.to_string(), "measure: n, capacity or leaf size outside its range");
/// ```
#[derive(Clone, Copy, Debug, PartialEq, Eq, Hash)]
#[non_exhaustive]
pub enum Refusal {
    /// 1: n, capacity or leaf size outside its range.
    Measure,
    /// 2: a lent table below the need.
    ShortTable,
    /// 3: tables not well formed.
    Spoiled,
    /// 4: length not n. [`crate::TraceLibrary`] knows both.
    WrongTrace(Option<Lengths>),
    /// 5: count equals capacity; an import of more traces than there is room for.
    Full,
    /// 6: a match with no trace stored; over two libraries, in neither of them.
    Empty,
    /// 7: trail shorter than the number of leaves, or a list shorter than k, than one record a band, or than the stored traces.
    ShortTrail,
    /// 8: writing and an export: below the need; reading: 0, not a multiple of 512, above 8,373 blocks.
    SheetLength,
    /// 9: check, block number or kind wrong, in this block first.
    TornBlock(u64),
    /// 10: letters, measures, count above capacity, number of blocks, a nonzero byte that must be 0, or blocks of labels or of wide samples
    /// that need not be.
    BadSheet,
    /// 11: k outside 1 to 16.
    BadK,
    /// 12: a file of any other form or length, an odd size, samples not a multiple of n; an export's rate or trace number out of range, or
    /// a trace with a sample beyond 16 bits; and the number of a trace whose label is asked for.
    BadRecording,
    /// 13: well-formed tables hold a figure that isn't exactly the recomputed one.
    LooseRecord,
    /// 14: 0 or more than 16 queries, or an answer list of another length than the batch.
    BadBatch,
    /// 15: an added trace, a query or a sheet has a sample outside −524,288 to 524,287 ([`crate::SAMPLES`]).
    SampleRange,
    /// 16: fewer than 2 edges of bands or more than 16, or one that is not above the last.
    BadEdges,
    /// 17: two libraries whose n differ.
    UnlikeLibraries,
    /// 18: a match with a limit of no leaf.
    NoLeaves,
    /// 19: a clipped sweep with a low figure above its high one.
    CrossedRange,
}

/// How many samples a trace or query has that is refused for its length, and how many it has to have.
#[derive(Clone, Copy, Debug, PartialEq, Eq, Hash)]
#[non_exhaustive]
pub struct Lengths {
    /// Samples that were given.
    pub given: usize,
    /// Samples a trace of this library.
    pub n: usize,
}

impl Refusal {
    /// The same, with both lengths if it is a wrong trace.
    pub(crate) fn with_lengths(self, given: usize, n: usize) -> Refusal {
        match self {
            Refusal::WrongTrace(_) => Refusal::WrongTrace(Some(Lengths { given, n })),
            other => other,
        }
    }

    /// The refusal with this number and place. There is none with another number.
    pub fn from_number(number: u64, place: u64) -> Option<Refusal> {
        Some(match number {
            1 => Refusal::Measure,
            2 => Refusal::ShortTable,
            3 => Refusal::Spoiled,
            4 => Refusal::WrongTrace(None),
            5 => Refusal::Full,
            6 => Refusal::Empty,
            7 => Refusal::ShortTrail,
            8 => Refusal::SheetLength,
            9 => Refusal::TornBlock(place),
            10 => Refusal::BadSheet,
            11 => Refusal::BadK,
            12 => Refusal::BadRecording,
            13 => Refusal::LooseRecord,
            14 => Refusal::BadBatch,
            15 => Refusal::SampleRange,
            16 => Refusal::BadEdges,
            17 => Refusal::UnlikeLibraries,
            18 => Refusal::NoLeaves,
            19 => Refusal::CrossedRange,
            _ => return None,
        })
    }

    /// The number in the table.
    pub fn number(self) -> u64 {
        match self {
            Refusal::Measure => 1,
            Refusal::ShortTable => 2,
            Refusal::Spoiled => 3,
            Refusal::WrongTrace(_) => 4,
            Refusal::Full => 5,
            Refusal::Empty => 6,
            Refusal::ShortTrail => 7,
            Refusal::SheetLength => 8,
            Refusal::TornBlock(_) => 9,
            Refusal::BadSheet => 10,
            Refusal::BadK => 11,
            Refusal::BadRecording => 12,
            Refusal::LooseRecord => 13,
            Refusal::BadBatch => 14,
            Refusal::SampleRange => 15,
            Refusal::BadEdges => 16,
            Refusal::UnlikeLibraries => 17,
            Refusal::NoLeaves => 18,
            Refusal::CrossedRange => 19,
        }
    }

    /// The first block at fault for a torn block, else 0.
    pub fn place(self) -> u64 {
        match self {
            Refusal::TornBlock(block) => block,
            _ => 0,
        }
    }

    /// The word in the table.
    pub fn word(self) -> &'static str {
        match self {
            Refusal::Measure => "measure",
            Refusal::ShortTable => "short table",
            Refusal::Spoiled => "spoiled",
            Refusal::WrongTrace(_) => "wrong trace",
            Refusal::Full => "full",
            Refusal::Empty => "empty",
            Refusal::ShortTrail => "short trail",
            Refusal::SheetLength => "sheet length",
            Refusal::TornBlock(_) => "torn block",
            Refusal::BadSheet => "bad sheet",
            Refusal::BadK => "bad k",
            Refusal::BadRecording => "bad recording",
            Refusal::LooseRecord => "loose record",
            Refusal::BadBatch => "bad batch",
            Refusal::SampleRange => "sample range",
            Refusal::BadEdges => "bad edges",
            Refusal::UnlikeLibraries => "unlike libraries",
            Refusal::NoLeaves => "no leaves",
            Refusal::CrossedRange => "crossed range",
        }
    }
}

impl fmt::Display for Refusal {
    fn fmt(&self, f: &mut fmt::Formatter<'_>) -> fmt::Result {
        let why = match self {
            Refusal::Measure => "n, capacity or leaf size outside its range",
            Refusal::ShortTable => "a lent table below the need",
            Refusal::Spoiled => "tables not well formed",
            Refusal::WrongTrace(Some(Lengths { given, n })) => return write!(f, "wrong trace: {given} samples, and n is {n}"),
            Refusal::WrongTrace(None) => "length not n",
            Refusal::Full => "no room for what is added",
            Refusal::Empty => "a match with no trace stored",
            Refusal::ShortTrail => "trail shorter than the number of leaves, or list shorter than k, than the bands or than the traces",
            Refusal::SheetLength => "a sheet or a buffer of another length than it needs",
            Refusal::TornBlock(block) => return write!(f, "torn block: check, block number or kind wrong in block {block}"),
            Refusal::BadSheet => "letters, measures, counts, a byte that must be 0, or blocks that need not be",
            Refusal::BadK => "k outside 1 to 16",
            Refusal::BadRecording => "no recording of whole traces, a rate or trace number out of range, or samples beyond 16 bits",
            Refusal::LooseRecord => "a recorded figure is not that of the traces below",
            Refusal::BadBatch => "no query or more than 16, or a list of another length",
            Refusal::SampleRange => "a sample outside -524,288 to 524,287",
            Refusal::BadEdges => "fewer than 2 edges or more than 16, or one that is not above the last",
            Refusal::UnlikeLibraries => "the traces of the two have different numbers of samples",
            Refusal::NoLeaves => "a limit of 0 leaves; a match needs 1 or more",
            Refusal::CrossedRange => "a low figure above its high one",
        };
        write!(f, "{}: {why}", self.word())
    }
}

impl std::error::Error for Refusal {}

#[cfg(test)]
mod tests {
    use super::*;

    #[test]
    fn numbers_go_both_ways() {
        for number in 1..=19 {
            let place = if number == 9 { 7 } else { 0 };
            let why = Refusal::from_number(number, place).unwrap();
            assert_eq!((why.number(), why.place()), (number, place));
            assert!(why.to_string().starts_with(why.word()));
        }
        assert_eq!(Refusal::from_number(0, 0), None);
        assert_eq!(Refusal::from_number(20, 0), None);
    }
}
