//! The proved calls, over slices that the caller lends.
//!
//! Each is safe for every input: the exported functions ask for nothing, refuse what they cannot do, and stay inside the lent slices. What a table
//! holds and how long it has to be is in `docs/LAYOUT.md`; [`crate::TraceLibrary`] takes care of both.

use crate::tables::with_tables;
pub use crate::tables::{Lent, Tables};
use crate::{Label, Library, Refusal, StoredSample};

/// What a match answers: the leaves read are those at the beginning of the trail.
#[derive(Clone, Copy, Debug, PartialEq, Eq)]
#[non_exhaustive]
pub struct Found {
    /// The nearest trace's number.
    pub trace: u64,
    /// The sum of squared differences.
    pub distance: u64,
    /// How many leaves were read.
    pub leaves: u64,
    /// How many traces those leaves hold.
    pub traces: u64,
}

/// What a match with a limit on leaves answers. The leaves read are those at the beginning of the trail.
#[derive(Clone, Copy, Debug, PartialEq, Eq)]
pub enum Limited {
    /// Every leaf was read that the match would read: this is its answer.
    Settled(Found),
    /// A leaf that the match would read was not.
    Open {
        /// The nearest of the traces read, and what was read.
        best: Found,
        /// The first unread leaf's bound: no stored trace is nearer than that.
        bound: u64,
    },
}

/// What the remote's match answers: a match's answer, and the nearest trace's fault code.
#[derive(Clone, Copy, Debug, PartialEq, Eq)]
#[non_exhaustive]
pub struct RemoteFound {
    /// The nearest trace's number.
    pub trace: u64,
    /// The sum of squared differences.
    pub distance: u64,
    /// How many leaves were read.
    pub leaves: u64,
    /// How many traces those leaves hold.
    pub traces: u64,
    /// The nearest trace's fault code.
    pub code: u16,
}

/// What a search for the k nearest answers: so many leaves and traces were read, and so many traces are listed. The leaves read are those at the beginning
/// of the trail; the list begins with two places for each trace that is listed, its number and its distance.
#[derive(Clone, Copy, Debug, PartialEq, Eq)]
#[non_exhaustive]
pub struct Listed {
    /// How many leaves were read.
    pub leaves: u64,
    /// How many traces those leaves hold.
    pub traces: u64,
    /// How many traces are listed.
    pub listed: u64,
}

/// The answer to one query of a batch. It lies in memory as C has it (`struct silkendoz_answer`).
#[repr(C)]
#[derive(Clone, Copy, Debug, Default, PartialEq, Eq)]
pub struct Answer {
    /// The nearest trace's number.
    pub trace: u64,
    /// The sum of squared differences.
    pub distance: u64,
}

/// A record of a report of bands. It lies in memory as C has it (`struct silkendoz_band`).
#[repr(C)]
#[derive(Clone, Copy, Debug, Default, PartialEq, Eq, Hash)]
pub struct Band {
    /// How many traces surely lie in the band.
    pub sure: u64,
    /// How many may.
    pub possible: u64,
}

/// What a match over two libraries answers. The leaves read are those at the beginning of each trail.
#[derive(Clone, Copy, Debug, PartialEq, Eq)]
#[non_exhaustive]
pub struct PairFound<'a> {
    /// Which of the two has the nearest trace.
    pub library: Library,
    /// The nearest trace's number there.
    pub trace: u64,
    /// The sum of squared differences.
    pub distance: u64,
    /// How many leaves were read, over both.
    pub leaves: u64,
    /// How many traces those leaves hold, over both.
    pub traces: u64,
    /// How many of the leaves are the factory's.
    pub factory_leaves: u64,
    /// The nearest trace, as it lies in the table that was lent: nothing is copied.
    pub samples: &'a [StoredSample],
}

/// A part of a table of samples, as C has it (`struct silkendoz_part`).
#[repr(C)]
struct Part {
    at: *const StoredSample,
    len: usize,
}

/// The version of the tables' layout (`docs/LAYOUT.md`). Another number is another layout, or another tree: who keeps tables keeps this number beside
/// them.
pub const LAYOUT: u64 = 4;

// A function of this name is in an archive of this layout alone. Its address is kept, so that a program links with no other.
extern "C" {
    fn silkendoz_layout_4() -> u64;
}

#[used]
static LAYOUT_OF_THE_ARCHIVE: unsafe extern "C" fn() -> u64 = silkendoz_layout_4;

/// A slice's pointer, as the call takes it.
macro_rules! pointer {
    (read $element:ty) => { *const $element };
    (write $element:ty) => { *mut $element };
}

/// A call of the static library, as include/silkendoz.h has it: how it is lent the tables, how search work, what stands between these and `out`.
/// A slice goes as a pointer and then its length.
macro_rules! exported {
    (
        $name:ident($library:ident, $work:ident; $($between:tt)*)
        [$($(#[$says:meta])* $table:ident: $element:ty,)*] [$($(#[$tells:meta])* $behind:ident: $kind:ty,)*]
    ) => {
        extern "C" {
            fn $name(
                $($table: pointer!($library $element), _: usize,)*
                work: pointer!($work u64), _: usize,
                $($behind: pointer!($library $kind), _: usize,)*
                $($between)*
                out: *mut u64, _: usize,
            ) -> u64;
        }
    };
}

/// A call over two libraries, of whose tables search work alone is written: each library's tables and its trail, the query, `out`, and what
/// becomes the winning trace.
macro_rules! exported_over_two {
    (
        $name:ident
        [$($(#[$says:meta])* $table:ident: $element:ty,)*] [$($(#[$tells:meta])* $behind:ident: $kind:ty,)*]
    ) => {
        extern "C" {
            fn $name(
                $($table: *const $element, _: usize,)*
                work: *mut u64, _: usize,
                $($behind: *const $kind, _: usize,)*
                trail: *mut u16, _: usize,
                $(_: *const $element, _: usize,)*
                _: *mut u64, _: usize,
                $(_: *const $kind, _: usize,)*
                _: *mut u16, _: usize,
                query: *const i32, _: usize,
                out: *mut u64, _: usize,
                won: *mut Part,
            ) -> u64;
        }
    };
}

impl Band {
    /// Bands as a list of places, two for each.
    pub fn places(bands: &mut [Band]) -> &mut [u64] {
        // Safety: a band is two places and nothing else, in C's order, and every two places are one.
        unsafe { std::slice::from_raw_parts_mut(bands.as_mut_ptr().cast(), 2 * bands.len()) }
    }
}

with_tables! { exported! silkendoz_open(write, write; n: u64, capacity: u64, leaf_size: u64,) }
with_tables! { exported! silkendoz_add(write, read; trace: *const i32, _: usize,) }
with_tables! { exported! silkendoz_add_labelled(write, read; trace: *const i32, _: usize, code: u16, serial: u32,) }
with_tables! { exported! silkendoz_label(read, read; number: u64,) }
with_tables! { exported! silkendoz_remote_match(read, write; trail: *mut u16, _: usize, query: *const i32, _: usize,) }
with_tables! { exported! silkendoz_nearest(read, write; trail: *mut u16, _: usize, query: *const i32, _: usize,) }
with_tables! { exported! silkendoz_k_nearest(
    read, write;
    trail: *mut u16, _: usize, list: *mut u64, _: usize, query: *const i32, _: usize, k: u64,
) }
with_tables! { exported! silkendoz_write_sheet(read, read; sheet: *mut u8, _: usize,) }
with_tables! { exported! silkendoz_read_sheet(write, write; sheet: *const u8, _: usize,) }
with_tables! { exported! silkendoz_import_recording(write, read; bytes: *const u8, _: usize,) }
with_tables! { exported! silkendoz_export_recording(read, read; buffer: *mut u8, _: usize, number: u64, rate: u64,) }
with_tables! { exported! silkendoz_check_tables(read, read;) }
with_tables! { exported! silkendoz_match_batch(
    read, write;
    trail: *mut u16, _: usize, queries: *const i32, _: usize, many: usize, answers: *mut Answer, _: usize,
) }
with_tables! { exported! silkendoz_count_bands(
    read, write;
    list: *mut u64, _: usize, query: *const i32, _: usize, edges: *const u64, _: usize,
) }
with_tables! { exported_over_two! silkendoz_match_both }
with_tables! { exported! silkendoz_match_within(read, write; trail: *mut u16, _: usize, query: *const i32, _: usize, most: u64,) }
with_tables! { exported! silkendoz_match_clipped(
    read, write;
    list: *mut u16, _: usize, lows: *const i32, _: usize, highs: *const i32, _: usize,
) }

/// Code 0 is the answer's values; any other is the number of a refusal, whose place is the first value.
fn answer<const K: usize>(code: u64, out: [u64; K]) -> Result<[u64; K], Refusal> {
    match code {
        0 => Ok(out),
        number => Err(Refusal::from_number(number, out[0]).expect("the code is a number of the table")),
    }
}

/// A fault code among an answer's values.
fn code_of(value: u64) -> u16 {
    u16::try_from(value).expect("a code has 16 bits")
}

/// Makes a call: the tables and search work, each with the way to its pointer (`as_ptr` or `as_mut_ptr`), further slices likewise, numbers, and the
/// slice for the answer's values; a batch has its list between these two.
macro_rules! made {
    (
        $name:ident($t:ident $pointer:ident, $work:expr => $work_pointer:ident),
        [$($slice:expr => $way:ident),*], [$($number:expr),*], [$($list:expr)?], $out:ident
        [$($(#[$says:meta])* $table:ident: $element:ty,)*] [$($(#[$tells:meta])* $behind:ident: $kind:ty,)*]
    ) => {
        // Safety: pointers and lengths are those of slices that are borrowed for the call, and the contract has no requires.
        unsafe {
            $name(
                $($t.$table.$pointer(), $t.$table.len(),)*
                $work.$work_pointer(), $work.len(),
                $($t.$behind.$pointer(), $t.$behind.len(),)*
                $($slice.$way(), $slice.len(),)*
                $($number,)*
                $($list.as_mut_ptr(), $list.len(),)?
                $out.as_mut_ptr(), $out.len(),
            )
        }
    };
}

/// Makes a call over two libraries: the tables, search work and trail of each.
macro_rules! made_over_two {
    (
        $name:ident, [$t:ident $work:ident $trail:ident], [$u:ident $bench_work:ident $bench_trail:ident], $query:ident, $out:ident, $won:ident
        [$($(#[$says:meta])* $table:ident: $element:ty,)*] [$($(#[$tells:meta])* $behind:ident: $kind:ty,)*]
    ) => {
        // Safety: pointers and lengths are those of slices that are borrowed for the call, the part is one before it too, and the contract
        // has no requires.
        unsafe {
            $name(
                $($t.$table.as_ptr(), $t.$table.len(),)*
                $work.as_mut_ptr(), $work.len(),
                $($t.$behind.as_ptr(), $t.$behind.len(),)*
                $trail.as_mut_ptr(), $trail.len(),
                $($u.$table.as_ptr(), $u.$table.len(),)*
                $bench_work.as_mut_ptr(), $bench_work.len(),
                $($u.$behind.as_ptr(), $u.$behind.len(),)*
                $bench_trail.as_mut_ptr(), $bench_trail.len(),
                $query.as_ptr(), $query.len(),
                $out.as_mut_ptr(), $out.len(),
                &mut $won,
            )
        }
    };
}

/// Opens an empty library in lent tables.
pub fn open(t: Lent<'_>, n: u64, capacity: u64, leaf_size: u64) -> Result<(), Refusal> {
    let mut out = [0; 1];
    let code = with_tables! { made! silkendoz_open(t as_mut_ptr, t.work => as_mut_ptr), [], [n, capacity, leaf_size], [], out };
    answer(code, out).map(|_| ())
}

/// Adds a trace with no label; its number is the answer. Search work is only looked at for its length.
pub fn add(t: Lent<'_>, trace: &[i32]) -> Result<u64, Refusal> {
    let mut out = [0; 1];
    let code = with_tables! { made! silkendoz_add(t as_mut_ptr, t.work => as_ptr), [trace => as_ptr], [], [], out };
    answer(code, out).map(|[number]| number)
}

/// Adds a trace with a label; its number is the answer. Search work is only looked at for its length.
pub fn add_labelled(t: Lent<'_>, trace: &[i32], label: Label) -> Result<u64, Refusal> {
    let mut out = [0; 1];
    let code = with_tables! {
        made! silkendoz_add_labelled(t as_mut_ptr, t.work => as_ptr), [trace => as_ptr], [label.code, label.serial], [], out
    };
    answer(code, out).map(|[number]| number)
}

/// The label of the trace with this number. Nothing is written; search work is only looked at for its length.
pub fn label(t: Tables<'_>, work: &[u64], number: u64) -> Result<Label, Refusal> {
    let mut out = [0; 2];
    let code = with_tables! { made! silkendoz_label(t as_ptr, work => as_ptr), [], [number], [], out };
    answer(code, out).map(|[code, serial]| Label { code: code_of(code), serial: u32::try_from(serial).expect("a serial has 32 bits") })
}

/// Finds the nearest trace as [`nearest`] does, and tells its fault code. Of serials it tells nothing: over tables that are alike but for
/// them it answers, refuses and leaves the same.
pub fn remote_match(t: Tables<'_>, work: &mut [u64], trail: &mut [u16], query: &[i32]) -> Result<RemoteFound, Refusal> {
    let mut out = [0; 5];
    let code = with_tables! {
        made! silkendoz_remote_match(t as_ptr, work => as_mut_ptr), [trail => as_mut_ptr, query => as_ptr], [], [], out
    };
    answer(code, out).map(|[trace, distance, leaves, traces, code]| RemoteFound { trace, distance, leaves, traces, code: code_of(code) })
}

/// Finds the nearest trace. The trail begins with the leaves read; the needed search work is left zero.
pub fn nearest(t: Tables<'_>, work: &mut [u64], trail: &mut [u16], query: &[i32]) -> Result<Found, Refusal> {
    let mut out = [0; 4];
    let code = with_tables! {
        made! silkendoz_nearest(t as_ptr, work => as_mut_ptr), [trail => as_mut_ptr, query => as_ptr], [], [], out
    };
    answer(code, out).map(|[trace, distance, leaves, traces]| Found { trace, distance, leaves, traces })
}

/// Finds the nearest trace as [`nearest`] does, and reads at most so many leaves: the first of those that the match would read. If these are
/// all, the answer is settled. The trail has to have a place for each leaf, whatever the limit; it begins with the leaves read. The needed
/// search work is left zero.
pub fn match_within(t: Tables<'_>, work: &mut [u64], trail: &mut [u16], query: &[i32], most: u64) -> Result<Limited, Refusal> {
    let mut out = [0; 6];
    let code = with_tables! {
        made! silkendoz_match_within(t as_ptr, work => as_mut_ptr), [trail => as_mut_ptr, query => as_ptr], [most], [], out
    };
    let [trace, distance, leaves, traces, settled, bound] = answer(code, out)?;
    let best = Found { trace, distance, leaves, traces };
    Ok(if settled == 1 { Limited::Settled(best) } else { Limited::Open { best, bound } })
}

/// Lists the k nearest traces, by distance, then number: two places of the list for each, its number and its distance. A library of fewer than k traces
/// lists all it has; a list of fewer than 2 × k places is refused. The trail begins with the leaves read; the needed search work is left zero.
pub fn k_nearest(t: Tables<'_>, work: &mut [u64], trail: &mut [u16], list: &mut [u64], query: &[i32], k: u64) -> Result<Listed, Refusal> {
    let mut out = [0; 3];
    let code = with_tables! {
        made! silkendoz_k_nearest(t as_ptr, work => as_mut_ptr),
        [trail => as_mut_ptr, list => as_mut_ptr, query => as_ptr], [k], [], out
    };
    answer(code, out).map(|[leaves, traces, listed]| Listed { leaves, traces, listed })
}

/// Writes the library as a sheet; the number of blocks is the answer. Search work is only looked at for its length.
pub fn write_sheet(t: Tables<'_>, work: &[u64], sheet: &mut [u8]) -> Result<u64, Refusal> {
    let mut out = [0; 1];
    let code = with_tables! { made! silkendoz_write_sheet(t as_ptr, work => as_ptr), [sheet => as_mut_ptr], [], [], out };
    answer(code, out).map(|[blocks]| blocks)
}

/// Opens the library that a sheet holds, and adds its traces in order, each with its label.
pub fn read_sheet(t: Lent<'_>, sheet: &[u8]) -> Result<(), Refusal> {
    let mut out = [0; 1];
    let code = with_tables! { made! silkendoz_read_sheet(t as_mut_ptr, t.work => as_mut_ptr), [sheet => as_ptr], [], [], out };
    answer(code, out).map(|_| ())
}

/// Adds the traces of a WAV recording, in order, all or none, with no labels; how many is the answer. Search work is only looked at for its
/// length.
pub fn import_recording(t: Lent<'_>, bytes: &[u8]) -> Result<u64, Refusal> {
    let mut out = [0; 1];
    let code = with_tables! { made! silkendoz_import_recording(t as_mut_ptr, t.work => as_ptr), [bytes => as_ptr], [], [], out };
    answer(code, out).map(|[count]| count)
}

/// Writes a stored trace as a WAV recording at a rate, into the first bytes of the buffer; how many bytes these are is the answer. Search work is only
/// looked at for its length.
pub fn export_recording(t: Tables<'_>, work: &[u64], buffer: &mut [u8], number: u64, rate: u64) -> Result<u64, Refusal> {
    let mut out = [0; 1];
    let code = with_tables! {
        made! silkendoz_export_recording(t as_ptr, work => as_ptr), [buffer => as_mut_ptr], [number, rate], [], out
    };
    answer(code, out).map(|[size]| size)
}

/// Whether tables may be trusted, whatever made them: every recorded least and greatest sum and scatter is that of the traces below. If it
/// is not refused, a match of these tables is the nearest stored trace. Nothing is written; search work is only looked at for its length.
pub fn check_tables(t: Tables<'_>, work: &[u64]) -> Result<(), Refusal> {
    let mut out = [0; 1];
    let code = with_tables! { made! silkendoz_check_tables(t as_ptr, work => as_ptr), [], [], [], out };
    answer(code, out).map(|_| ())
}

/// Matches up to 16 queries together, so that no leaf is read twice: one answer record for each, as if matched alone. The queries come as one run of
/// samples; the list has to have a place for each of them and no more. The trail begins with the leaves read, by rising number; how many these are is the
/// answer. The needed search work is left zero.
pub fn match_batch(t: Tables<'_>, work: &mut [u64], trail: &mut [u16], queries: &[i32], many: usize, answers: &mut [Answer]) -> Result<u64, Refusal> {
    let mut out = [0; 1];
    let code = with_tables! {
        made! silkendoz_match_batch(t as_ptr, work => as_mut_ptr),
        [trail => as_mut_ptr, queries => as_ptr], [many], [answers], out
    };
    answer(code, out).map(|[leaves]| leaves)
}

/// Reports how many traces surely lie in each band of distances to a query, and how many may, by the ranges that the tree records: no trace
/// is read. Edges are 2 to 16, each above the last; a band is from one up to but not including the next. The list takes two places for each
/// band, sure and possible ([`Band`] is both; [`Band::places`] makes a list of some), and those behind stay. The needed search work is left
/// zero.
pub fn count_bands(t: Tables<'_>, work: &mut [u64], list: &mut [u64], query: &[i32], edges: &[u64]) -> Result<(), Refusal> {
    let mut out = [0; 1];
    let code = with_tables! {
        made! silkendoz_count_bands(t as_ptr, work => as_mut_ptr),
        [list => as_mut_ptr, query => as_ptr, edges => as_ptr], [], [], out
    };
    answer(code, out).map(|_| ())
}

/// Finds the nearest trace of all that two libraries store: the factory's among equals, then the lowest number. In each library the leaves
/// read are those whose bound is at most the nearest trace's distance; each trail begins with its own. One of the two may be empty. The
/// needed search work of both is left zero; no other table is written, so that they may lie in memory that cannot be.
pub fn match_both<'a>(
    factory: Tables<'a>,
    factory_work: &mut [u64],
    factory_trail: &mut [u16],
    bench: Tables<'a>,
    bench_work: &mut [u64],
    bench_trail: &mut [u16],
    query: &[i32],
) -> Result<PairFound<'a>, Refusal> {
    let mut out = [0; 6];
    let nothing: &[StoredSample] = &factory.samples[..0];
    let mut won = Part { at: nothing.as_ptr(), len: 0 };
    let code = with_tables! {
        made_over_two! silkendoz_match_both,
        [factory factory_work factory_trail], [bench bench_work bench_trail], query, out, won
    };
    let [library, trace, distance, leaves, traces, factory_leaves] = answer(code, out)?;
    let library = if library == 0 { Library::Factory } else { Library::Bench };
    // Safety: by its contract the call hands back a part of one of the two tables of samples, and both are borrowed for as long as this is.
    let samples = unsafe { std::slice::from_raw_parts(won.at, won.len) };
    Ok(PairFound { library, trace, distance, leaves, traces, factory_leaves, samples })
}

/// Lists, by number, every trace that could be the match of a sweep of which only a low and a high figure is known per sample. Listed are
/// those whose least possible distance is no more than the smallest greatest possible distance among all stored. How many there are is the
/// answer: they stand at the list's beginning. The list has to have a place for each stored trace, and the places behind those filled stay.
/// Nothing is asked of the tree; the needed search work is left zero.
pub fn match_clipped(t: Tables<'_>, work: &mut [u64], list: &mut [u16], lows: &[i32], highs: &[i32]) -> Result<u64, Refusal> {
    let mut out = [0; 1];
    let code = with_tables! {
        made! silkendoz_match_clipped(t as_ptr, work => as_mut_ptr),
        [list => as_mut_ptr, lows => as_ptr, highs => as_ptr], [], [], out
    };
    answer(code, out).map(|[listed]| listed)
}

/// What the archive says of its layout: [`LAYOUT`].
pub fn layout() -> u64 {
    // Safety: it takes nothing, and its contract has no requires.
    unsafe { LAYOUT_OF_THE_ARCHIVE() }
}
