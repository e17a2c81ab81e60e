//! The calls that a script plays: those of the library, or the model's.

use crate::lending::{LimitedTold, PairTold};
use crate::model::tables::{Lengths, Tables};
use crate::model::{sheet, Label, Measures, Refused};
use crate::{by_model, lending, program};
use silkendoz::calls::Answer;

type Told<A> = Result<A, Refused>;

/// A call that takes a query: it is lent a trail too; a listing its list, and a batch its answers behind the number of queries. A report of
/// bands has a list and no trail.
type Search<A> = fn(&mut Tables, Lengths, &mut [u16], &[i32]) -> Told<A>;
type Listing = fn(&mut Tables, Lengths, &mut [u16], &mut [u64], &[i32], u64) -> Told<[u64; 3]>;
type Banding = fn(&mut Tables, Lengths, &mut [u64], &[i32], &[u64]) -> Told<()>;
/// A match over two libraries: tables, their lengths and a trail of each, the factory's first.
type Pairing = fn([&mut Tables; 2], [Lengths; 2], [&mut [u16]; 2], &[i32]) -> Told<PairTold>;
/// A match with a limit of so many leaves.
type Limiting = fn(&mut Tables, Lengths, &mut [u16], &[i32], u64) -> Told<LimitedTold>;
/// A clipped sweep: a list, its lows and its highs.
type Clipping = fn(&mut Tables, Lengths, &mut [u16], &[i32], &[i32]) -> Told<u64>;
type Batching = fn(&mut Tables, Lengths, &mut [u16], &[i32], usize, &mut [Answer]) -> Told<u64>;

/// Each call over a memory, with the values of its answer in their order; and the program's line.
pub struct Calls {
    pub open: fn(&mut Tables, Lengths, Measures) -> Told<()>,
    pub add: fn(&mut Tables, Lengths, &[i32]) -> Told<u64>,
    pub add_labelled: fn(&mut Tables, Lengths, &[i32], Label) -> Told<u64>,
    pub label: fn(&Tables, Lengths, u64) -> Told<Label>,
    pub nearest: Search<[u64; 4]>,
    pub remote_match: Search<[u64; 5]>,
    pub k_nearest: Listing,
    pub write_sheet: fn(&Tables, Lengths, &mut [u8]) -> Told<u64>,
    pub read_sheet: fn(&mut Tables, Lengths, &[u8]) -> Told<()>,
    pub import_recording: fn(&mut Tables, Lengths, &[u8]) -> Told<u64>,
    pub export_recording: fn(&Tables, Lengths, &mut [u8], u64, u64) -> Told<u64>,
    pub check_tables: fn(&Tables, Lengths) -> Told<()>,
    pub match_batch: Batching,
    pub count_bands: Banding,
    pub match_both: Pairing,
    pub match_within: Limiting,
    pub match_clipped: Clipping,
    pub program: fn(&[u8]) -> Result<String, String>,
}

/// The library's own.
pub static LIBRARY: Calls = Calls {
    open: lending::open,
    add: lending::add,
    add_labelled: lending::add_labelled,
    label: lending::label,
    nearest: |t, l, trail, query| lending::nearest(t, l, trail, query).map(|f| [f.trace, f.distance, f.leaves, f.traces]),
    remote_match: |t, l, trail, query| lending::remote_match(t, l, trail, query).map(|f| [f.trace, f.distance, f.leaves, f.traces, f.code.into()]),
    k_nearest: |t, l, trail, list, query, k| lending::k_nearest(t, l, trail, list, query, k).map(|f| [f.leaves, f.traces, f.listed]),
    write_sheet: lending::write_sheet,
    read_sheet: lending::read_sheet,
    import_recording: lending::import_recording,
    export_recording: lending::export_recording,
    check_tables: lending::check_tables,
    match_batch: lending::match_batch,
    count_bands: lending::count_bands,
    match_both: lending::match_both,
    match_within: lending::match_within,
    match_clipped: lending::match_clipped,
    program: |sheet| program::printed(sheet).map_err(|why| format!("the program does not run: {why}")),
};

/// The model's, and the line that it says the program prints.
pub static MODEL: Calls = Calls {
    open: by_model::open,
    add: by_model::add,
    add_labelled: by_model::add_labelled,
    label: by_model::label,
    nearest: by_model::nearest,
    remote_match: by_model::remote_match,
    k_nearest: by_model::k_nearest,
    write_sheet: by_model::write_sheet,
    read_sheet: by_model::read_sheet,
    import_recording: by_model::import_recording,
    export_recording: by_model::export_recording,
    check_tables: by_model::check_tables,
    match_batch: by_model::match_batch,
    count_bands: by_model::count_bands,
    match_both: by_model::match_both,
    match_within: by_model::match_within,
    match_clipped: by_model::match_clipped,
    program: |sheet| Ok(format!("{}\n", sheet::program_line(sheet))),
};
