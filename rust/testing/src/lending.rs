//! The calls on a memory, each lent the first so many places of its tables, as tests and the script driver make them.

use crate::model::tables::{Lengths, Tables};
use crate::model::{Label, Measures, Refused};
use silkendoz::calls::{self, Answer, Found, Lent, Limited, Listed, RemoteFound};
use silkendoz::{Library, Refusal, StoredSample};

/// Number and place.
fn told<T>(answer: Result<T, Refusal>) -> Result<T, Refused> {
    answer.map_err(|why| (why.number(), why.place()))
}

/// Lent to be written.
fn lent(t: &mut Tables, l: Lengths) -> Lent<'_> {
    let samples = StoredSample::of_words_mut(&mut t.samples[..l.samples]);
    let (control, nodes) = (&mut t.control[..l.control], &mut t.nodes[..l.nodes]);
    Lent::new(control, samples, nodes, &mut t.links[..l.links], &mut t.work[..l.work]).with_labels(&mut t.labels[..l.labels])
}

/// Lent to be read, and search work that may be written.
fn searched(t: &mut Tables, l: Lengths) -> (silkendoz::Tables<'_>, &mut [u64]) {
    let samples = StoredSample::of_words(&t.samples[..l.samples]);
    let tables = silkendoz::Tables::new(&t.control[..l.control], samples, &t.nodes[..l.nodes], &t.links[..l.links]);
    (tables.with_labels(&t.labels[..l.labels]), &mut t.work[..l.work])
}

/// Lent to be read.
fn read(t: &Tables, l: Lengths) -> (silkendoz::Tables<'_>, &[u64]) {
    let samples = StoredSample::of_words(&t.samples[..l.samples]);
    let tables = silkendoz::Tables::new(&t.control[..l.control], samples, &t.nodes[..l.nodes], &t.links[..l.links]);
    (tables.with_labels(&t.labels[..l.labels]), &t.work[..l.work])
}

pub fn open(t: &mut Tables, l: Lengths, m: Measures) -> Result<(), Refused> {
    told(calls::open(lent(t, l), m.n, m.capacity, m.leaf_size))
}

pub fn add(t: &mut Tables, l: Lengths, trace: &[i32]) -> Result<u64, Refused> {
    told(calls::add(lent(t, l), trace))
}

pub fn add_labelled(t: &mut Tables, l: Lengths, trace: &[i32], label: Label) -> Result<u64, Refused> {
    told(calls::add_labelled(lent(t, l), trace, silkendoz::Label { code: label.code, serial: label.serial }))
}

pub fn label(t: &Tables, l: Lengths, number: u64) -> Result<Label, Refused> {
    let (t, work) = read(t, l);
    told(calls::label(t, work, number)).map(|label| Label { code: label.code, serial: label.serial })
}

pub fn remote_match(t: &mut Tables, l: Lengths, trail: &mut [u16], query: &[i32]) -> Result<RemoteFound, Refused> {
    let (t, work) = searched(t, l);
    told(calls::remote_match(t, work, trail, query))
}

pub fn nearest(t: &mut Tables, l: Lengths, trail: &mut [u16], query: &[i32]) -> Result<Found, Refused> {
    let (t, work) = searched(t, l);
    told(calls::nearest(t, work, trail, query))
}

pub fn k_nearest(t: &mut Tables, l: Lengths, trail: &mut [u16], list: &mut [u64], query: &[i32], k: u64) -> Result<Listed, Refused> {
    let (t, work) = searched(t, l);
    told(calls::k_nearest(t, work, trail, list, query, k))
}

pub fn write_sheet(t: &Tables, l: Lengths, sheet: &mut [u8]) -> Result<u64, Refused> {
    let (t, work) = read(t, l);
    told(calls::write_sheet(t, work, sheet))
}

pub fn read_sheet(t: &mut Tables, l: Lengths, sheet: &[u8]) -> Result<(), Refused> {
    told(calls::read_sheet(lent(t, l), sheet))
}

pub fn import_recording(t: &mut Tables, l: Lengths, bytes: &[u8]) -> Result<u64, Refused> {
    told(calls::import_recording(lent(t, l), bytes))
}

pub fn export_recording(t: &Tables, l: Lengths, buffer: &mut [u8], number: u64, rate: u64) -> Result<u64, Refused> {
    let (t, work) = read(t, l);
    told(calls::export_recording(t, work, buffer, number, rate))
}

pub fn check_tables(t: &Tables, l: Lengths) -> Result<(), Refused> {
    let (t, work) = read(t, l);
    told(calls::check_tables(t, work))
}

pub fn count_bands(t: &mut Tables, l: Lengths, list: &mut [u64], query: &[i32], edges: &[u64]) -> Result<(), Refused> {
    let (t, work) = searched(t, l);
    told(calls::count_bands(t, work, list, query, edges))
}

/// What a match over two libraries answers: library, trace, distance, leaves, traces, and how many of the leaves are the factory's; and the part
/// that it hands back, by its places in the table of that library. The factory's come first.
pub type PairTold = ([u64; 6], std::ops::Range<usize>);

pub fn match_both(both: [&mut Tables; 2], l: [Lengths; 2], trails: [&mut [u16]; 2], query: &[i32]) -> Result<PairTold, Refused> {
    let ([factory, bench], [trail, bench_trail]) = (both, trails);
    let ((factory, work), (bench, bench_work)) = (searched(factory, l[0]), searched(bench, l[1]));
    let found = told(calls::match_both(factory, work, trail, bench, bench_work, bench_trail, query))?;
    let (library, from) = match found.library {
        Library::Factory => (0, factory.samples),
        Library::Bench => (1, bench.samples),
    };
    // where it begins, in words from the table's first
    let start = (found.samples.as_ptr() as usize).wrapping_sub(from.as_ptr() as usize) / size_of::<StoredSample>();
    let figures = [library, found.trace, found.distance, found.leaves, found.traces, found.factory_leaves];
    Ok((figures, start..start.saturating_add(found.samples.len())))
}

/// What a match with a limit answers: trace, distance, leaves, traces; and the bound of the first unread leaf if it is not settled.
pub type LimitedTold = ([u64; 4], Option<u64>);

pub fn match_within(t: &mut Tables, l: Lengths, trail: &mut [u16], query: &[i32], most: u64) -> Result<LimitedTold, Refused> {
    let (t, work) = searched(t, l);
    let (best, unread) = match told(calls::match_within(t, work, trail, query, most))? {
        Limited::Settled(best) => (best, None),
        Limited::Open { best, bound } => (best, Some(bound)),
    };
    Ok(([best.trace, best.distance, best.leaves, best.traces], unread))
}

pub fn match_clipped(t: &mut Tables, l: Lengths, list: &mut [u16], lows: &[i32], highs: &[i32]) -> Result<u64, Refused> {
    let (t, work) = searched(t, l);
    told(calls::match_clipped(t, work, list, lows, highs))
}

pub fn match_batch(t: &mut Tables, l: Lengths, trail: &mut [u16], queries: &[i32], many: usize, answers: &mut [Answer]) -> Result<u64, Refused> {
    let (t, work) = searched(t, l);
    told(calls::match_batch(t, work, trail, queries, many, answers))
}
