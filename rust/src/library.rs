//! A library that owns its tables.

use crate::calls::{self, Lent, Limited, Tables};
use crate::{Band, Label, Refusal, StoredSample};
use std::fmt;
use std::slice::ChunksExact;

/// Fields of the control record, and places of a node's record (`docs/LAYOUT.md`).
const CONTROL_FIELDS: usize = 5;
pub(crate) const RECORD_PLACES: usize = 87;

/// As many traces as a search lists at most.
const MOST_LISTED: usize = 16;

/// As many queries as are matched together at most.
const MOST_TOGETHER: usize = 16;

/// As many edges as a report of bands takes at most.
const MOST_EDGES: usize = 16;

/// Stored traces, and the tree by which the nearest is found.
///
/// ```
/// use silkendoz::{Refusal, TraceLibrary};
///
/// let mut library = TraceLibrary::open(3, 2, 1)?;
/// assert_eq!(library.nearest(&[1, 0, 0]), Err(Refusal::Empty));
/// assert_eq!(library.add(&[0, 0, 0])?, 0);
/// assert_eq!(library.add(&[7, 7, 7])?, 1);
/// assert_eq!(library.add(&[8, 8, 8]), Err(Refusal::Full));
/// assert_eq!(library.add(&[8, 8]).unwrap_err().to_string(), "wrong trace: 2 samples, and n is 3");
/// assert_eq!(library.nearest(&[7, 6, 7])?.trace, 1);
/// assert_eq!(library.trace(1).unwrap(), [7, 7, 7]);
/// # Ok::<(), Refusal>(())
/// ```
///
/// A search writes nothing of the library, so that several threads may search one at once:
///
/// ```
/// # use silkendoz::TraceLibrary;
/// let mut library = TraceLibrary::open(1, 8, 2)?;
/// for trace in [0, 10, 20] {
///     library.add(&[trace])?;
/// }
/// let library = &library;
/// std::thread::scope(|threads| {
///     for query in [1, 11, 21] {
///         threads.spawn(move || assert_eq!(library.nearest(&[query]).unwrap().distance, 1));
///     }
/// });
/// # Ok::<(), silkendoz::Refusal>(())
/// ```
#[derive(Clone, PartialEq, Eq)]
pub struct TraceLibrary {
    pub(crate) control: Vec<u16>,
    samples: Vec<StoredSample>,
    pub(crate) nodes: Vec<i64>,
    pub(crate) links: Vec<u16>,
    work: Vec<u64>,
    labels: Vec<u64>,
}

/// Measures and counts; the traces themselves would be too many.
impl fmt::Debug for TraceLibrary {
    fn fmt(&self, f: &mut fmt::Formatter<'_>) -> fmt::Result {
        f.debug_struct("TraceLibrary")
            .field("n", &self.n())
            .field("capacity", &self.capacity())
            .field("leaf_size", &self.leaf_size())
            .field("traces", &self.len())
            .field("nodes", &self.node_count())
            .finish()
    }
}

/// The nearest trace, and what was read to find it.
#[derive(Clone, Debug, PartialEq, Eq)]
#[non_exhaustive]
pub struct Nearest {
    /// The trace's number: traces are numbered from 0 as added.
    pub trace: usize,
    /// The sum of squared differences.
    pub distance: u64,
    /// How many leaves were read.
    pub leaves: usize,
    /// How many traces those leaves hold.
    pub traces: usize,
    /// The leaves read, in order.
    pub trail: Vec<u16>,
}

/// What a match with a limit on leaves found.
#[derive(Clone, Debug, PartialEq, Eq)]
pub enum LimitedMatch {
    /// The nearest trace: no leaf is left that the match would read.
    Settled(Nearest),
    /// The best so far: such a leaf is left.
    Open(BestSoFar),
}

/// The nearest of the traces that were read, when the limit on leaves came before the end. The distance of the nearest trace of all is
/// at least the bound and at most the distance given.
#[derive(Clone, Debug, PartialEq, Eq)]
#[non_exhaustive]
pub struct BestSoFar {
    /// The trace's number: the lowest among equals that were read.
    pub trace: usize,
    /// The sum of squared differences.
    pub distance: u64,
    /// How many leaves were read.
    pub leaves: usize,
    /// How many traces those leaves hold.
    pub traces: usize,
    /// The leaves read, in order.
    pub trail: Vec<u16>,
    /// The bound of the first leaf that was not read: the least of all that were not.
    pub bound: u64,
}

/// What the remote is told: the nearest trace, what was read to find it, and its fault code.
#[derive(Clone, Debug, PartialEq, Eq)]
#[non_exhaustive]
pub struct RemoteMatch {
    /// The trace's number.
    pub trace: usize,
    /// The sum of squared differences.
    pub distance: u64,
    /// How many leaves were read.
    pub leaves: usize,
    /// How many traces those leaves hold.
    pub traces: usize,
    /// The leaves read, in order.
    pub trail: Vec<u16>,
    /// The trace's fault code; 0 if it was given none.
    pub code: u16,
}

/// The k nearest traces, and what was read to find them.
#[derive(Clone, Debug, PartialEq, Eq)]
#[non_exhaustive]
pub struct KNearest {
    /// The traces, by distance, then number.
    pub list: Vec<Neighbour>,
    /// How many leaves were read.
    pub leaves: usize,
    /// How many traces those leaves hold.
    pub traces: usize,
    /// The leaves read, in order.
    pub trail: Vec<u16>,
}

/// What several queries found that were matched together.
#[derive(Clone, Debug, PartialEq, Eq)]
#[non_exhaustive]
pub struct Batch {
    /// The nearest trace of each query, in the queries' order.
    pub answers: Vec<Neighbour>,
    /// How many leaves were read, each of them once.
    pub leaves: usize,
    /// The leaves read, by rising number.
    pub trail: Vec<u16>,
}

/// One of two libraries that are matched together.
#[derive(Clone, Copy, Debug, PartialEq, Eq, Hash)]
pub enum Library {
    /// The one that every machine carries.
    Factory,
    /// The one that was built at the bench.
    Bench,
}

/// The nearest trace of two libraries, and what was read to find it.
#[derive(Clone, Debug, PartialEq, Eq)]
#[non_exhaustive]
pub struct PairMatch<'a> {
    /// Which of the two has it.
    pub library: Library,
    /// The trace's number there.
    pub trace: usize,
    /// The sum of squared differences.
    pub distance: u64,
    /// How many leaves were read, over both.
    pub leaves: usize,
    /// How many traces those leaves hold, over both.
    pub traces: usize,
    /// The factory's leaves that were read, in order.
    pub factory_trail: Vec<u16>,
    /// The bench's.
    pub bench_trail: Vec<u16>,
    /// The trace, as it lies in its library.
    pub samples: &'a [StoredSample],
}

/// A trace of a list, with its distance to the query.
#[derive(Clone, Copy, Debug, PartialEq, Eq)]
#[non_exhaustive]
pub struct Neighbour {
    /// The trace's number.
    pub trace: usize,
    /// The sum of squared differences.
    pub distance: u64,
}

impl TraceLibrary {
    /// Opens an empty library for up to `capacity` traces (1 to 4,096) of `n` samples (1 to 256), in leaves of up to `leaf_size` traces (1 to 64).
    ///
    /// ```
    /// use silkendoz::{Refusal, TraceLibrary};
    ///
    /// assert!(TraceLibrary::open(256, 4096, 64).is_ok());
    /// assert_eq!(TraceLibrary::open(256, 4096, 65), Err(Refusal::Measure));
    /// ```
    pub fn open(n: usize, capacity: usize, leaf_size: usize) -> Result<TraceLibrary, Refusal> {
        let (n64, capacity64, leaf_size64) = (n as u64, capacity as u64, leaf_size as u64);
        // measures are judged before lengths: with no tables at all, good ones are refused as short tables
        let mut library = TraceLibrary::with_tables(0, 0, 0);
        match calls::open(library.lent(), n64, capacity64, leaf_size64) {
            Err(Refusal::ShortTable) => {}
            other => return other.map(|()| library),
        }
        library = TraceLibrary::with_tables(CONTROL_FIELDS, n, capacity);
        calls::open(library.lent(), n64, capacity64, leaf_size64)?;
        Ok(library)
    }

    fn with_tables(fields: usize, n: usize, capacity: usize) -> TraceLibrary {
        let records = (2 * capacity).saturating_sub(1);
        TraceLibrary {
            control: vec![0; fields],
            samples: vec![StoredSample::default(); n * capacity],
            nodes: vec![0; records * RECORD_PLACES],
            links: vec![0; capacity],
            work: vec![0; records],
            labels: vec![0; capacity],
        }
    }

    fn lent(&mut self) -> Lent<'_> {
        Lent::new(&mut self.control, &mut self.samples, &mut self.nodes, &mut self.links, &mut self.work).with_labels(&mut self.labels)
    }

    /// Adds a trace of n samples, with no label. Its number is the answer.
    pub fn add(&mut self, trace: &[i32]) -> Result<usize, Refusal> {
        let n = self.n();
        calls::add(self.lent(), trace).map(|number| number as usize).map_err(|why| why.with_lengths(trace.len(), n))
    }

    /// Adds a trace of n samples with a label. Its number is the answer.
    ///
    /// ```
    /// use silkendoz::{Label, Refusal, TraceLibrary};
    ///
    /// let mut library = TraceLibrary::open(1, 1, 1)?;
    /// let label = Label { code: 65_535, serial: u32::MAX };
    /// assert_eq!(library.add_labelled(&[7], label)?, 0);
    /// assert_eq!(library.label(0)?, label);
    /// assert_eq!(library.add_labelled(&[8], label), Err(Refusal::Full));
    /// // a sheet keeps labels
    /// assert_eq!(TraceLibrary::read_sheet(&library.write_sheet()?)?, library);
    /// # Ok::<(), Refusal>(())
    /// ```
    pub fn add_labelled(&mut self, trace: &[i32], label: Label) -> Result<usize, Refusal> {
        let n = self.n();
        calls::add_labelled(self.lent(), trace, label).map(|number| number as usize).map_err(|why| why.with_lengths(trace.len(), n))
    }

    /// The label of the trace with this number; zero if it was given none.
    ///
    /// ```
    /// use silkendoz::{Label, Refusal, TraceLibrary};
    ///
    /// let mut library = TraceLibrary::open(1, 4, 1)?;
    /// assert_eq!(library.label(0), Err(Refusal::BadRecording));
    /// library.add(&[7])?;
    /// library.add_labelled(&[8], Label { code: 17, serial: 4119 })?;
    /// assert_eq!(library.label(0)?, Label { code: 0, serial: 0 });
    /// assert_eq!(library.label(1)?.code, 17);
    /// assert_eq!(library.label(2).unwrap_err().number(), 12);
    /// # Ok::<(), Refusal>(())
    /// ```
    pub fn label(&self, number: usize) -> Result<Label, Refusal> {
        calls::label(self.tables(), &self.work, number as u64)
    }

    /// The jog remote's one call: finds the nearest trace as [`TraceLibrary::nearest`] does, and tells its fault code and nothing else of
    /// its label. Of two libraries that are alike but for serials it tells the same.
    ///
    /// ```
    /// use silkendoz::{Label, TraceLibrary};
    ///
    /// let mut library = TraceLibrary::open(1, 4, 1)?;
    /// library.add_labelled(&[0], Label { code: 3, serial: 4118 })?;
    /// library.add_labelled(&[9], Label { code: 17, serial: 4119 })?;
    /// let found = library.remote_match(&[8])?;
    /// assert_eq!((found.trace, found.distance, found.code), (1, 1, 17));
    /// assert_eq!(found.trail, library.nearest(&[8])?.trail);
    /// # Ok::<(), silkendoz::Refusal>(())
    /// ```
    pub fn remote_match(&self, query: &[i32]) -> Result<RemoteMatch, Refusal> {
        let (mut work, mut trail) = self.room();
        let found = calls::remote_match(self.tables(), &mut work, &mut trail, query).map_err(|why| why.with_lengths(query.len(), self.n()))?;
        let (trace, leaves, traces) = (found.trace as usize, found.leaves as usize, found.traces as usize);
        trail.truncate(leaves);
        Ok(RemoteMatch { trace, distance: found.distance, leaves, traces, trail, code: found.code })
    }

    /// Search work and a trail, of a search's own.
    fn room(&self) -> (Vec<u64>, Vec<u16>) {
        (vec![0; self.work.len()], vec![0; self.capacity()])
    }

    /// Finds the stored trace that is nearest to a query of n samples: the lowest number among equals.
    pub fn nearest(&self, query: &[i32]) -> Result<Nearest, Refusal> {
        let (mut work, mut trail) = self.room();
        let found = calls::nearest(self.tables(), &mut work, &mut trail, query).map_err(|why| why.with_lengths(query.len(), self.n()))?;
        trail.truncate(found.leaves as usize);
        Ok(Nearest { trace: found.trace as usize, distance: found.distance, leaves: found.leaves as usize, traces: found.traces as usize, trail })
    }

    /// Finds the stored trace that is nearest to a query of n samples, and reads at most so many leaves (1 or more): the first of those that
    /// [`TraceLibrary::nearest`] would read. If these are all, the answer is settled and is the same. Else it is the best so far, with the bound
    /// of the first unread leaf. A larger limit never gives a greater distance.
    ///
    /// ```
    /// use silkendoz::{LimitedMatch, Refusal, TraceLibrary};
    ///
    /// let mut library = TraceLibrary::open(2, 8, 2)?;
    /// for trace in [[4, 0], [0, 0], [5, 4]] {
    ///     library.add(&trace)?;
    /// }
    /// let query = [1, 5];
    /// let nearest = library.nearest(&query)?;
    /// assert_eq!((nearest.trace, nearest.distance, nearest.leaves), (2, 17, 2));
    ///
    /// // one leaf: the nearest trace's distance is at least the bound and at most the one given
    /// let LimitedMatch::Open(best) = library.match_within(&query, 1)? else { panic!("the match reads two") };
    /// assert_eq!((best.trace, best.distance, best.leaves, best.traces, best.bound), (1, 26, 1, 2, 9));
    /// assert!(best.bound <= nearest.distance && nearest.distance <= best.distance);
    /// assert_eq!(best.trail, nearest.trail[..1]);
    ///
    /// // two leaves or more: all that the match reads
    /// assert_eq!(library.match_within(&query, 2)?, LimitedMatch::Settled(nearest.clone()));
    /// assert_eq!(library.match_within(&query, u64::MAX)?, LimitedMatch::Settled(nearest));
    ///
    /// assert_eq!(library.match_within(&query, 0), Err(Refusal::NoLeaves));
    /// assert_eq!(library.match_within(&query, 0).unwrap_err().number(), 18);
    /// # Ok::<(), Refusal>(())
    /// ```
    pub fn match_within(&self, query: &[i32], most: u64) -> Result<LimitedMatch, Refusal> {
        let (mut work, mut trail) = self.room();
        let found = calls::match_within(self.tables(), &mut work, &mut trail, query, most).map_err(|why| why.with_lengths(query.len(), self.n()))?;
        let (Limited::Settled(best) | Limited::Open { best, .. }) = found;
        let (trace, distance, leaves, traces) = (best.trace as usize, best.distance, best.leaves as usize, best.traces as usize);
        trail.truncate(leaves);
        Ok(match found {
            Limited::Settled(_) => LimitedMatch::Settled(Nearest { trace, distance, leaves, traces, trail }),
            Limited::Open { bound, .. } => LimitedMatch::Open(BestSoFar { trace, distance, leaves, traces, trail, bound }),
        })
    }

    /// Lists the k stored traces (1 to 16) that are nearest to a query of n samples, by distance, then number. A library of fewer traces lists all it has.
    ///
    /// ```
    /// use silkendoz::{Refusal, TraceLibrary};
    ///
    /// let mut library = TraceLibrary::open(1, 8, 1)?;
    /// for trace in [4, 0, 9] {
    ///     library.add(&[trace])?;
    /// }
    /// let found = library.k_nearest(&[2], 2)?;
    /// let list: Vec<(usize, u64)> = found.list.iter().map(|near| (near.trace, near.distance)).collect();
    /// assert_eq!(list, [(0, 4), (1, 4)]);
    /// assert_eq!((found.leaves, found.traces), (2, 2));
    /// assert_eq!(library.k_nearest(&[2], 16)?.list.len(), 3);
    /// assert_eq!(library.k_nearest(&[2], 17), Err(Refusal::BadK));
    /// # Ok::<(), Refusal>(())
    /// ```
    pub fn k_nearest(&self, query: &[i32], k: usize) -> Result<KNearest, Refusal> {
        let (mut work, mut trail) = self.room();
        // a larger k is refused before the list is looked at
        let mut list = vec![0; 2 * k.min(MOST_LISTED)];
        let found = calls::k_nearest(self.tables(), &mut work, &mut trail, &mut list, query, k as u64)
            .map_err(|why| why.with_lengths(query.len(), self.n()))?;
        trail.truncate(found.leaves as usize);
        let listed = list.chunks_exact(2).take(found.listed as usize);
        let list = listed.map(|record| Neighbour { trace: record[0] as usize, distance: record[1] }).collect();
        Ok(KNearest { list, leaves: found.leaves as usize, traces: found.traces as usize, trail })
    }

    /// Finds the nearest trace of each of 1 to 16 queries of n samples, as [`TraceLibrary::nearest`] does, and reads no leaf twice: the leaves read are
    /// those that at least one of the queries alone would read.
    ///
    /// ```
    /// use silkendoz::{Refusal, TraceLibrary};
    ///
    /// let mut library = TraceLibrary::open(1, 8, 1)?;
    /// for trace in [0, 4, 9] {
    ///     library.add(&[trace])?;
    /// }
    /// let found = library.match_batch(&[&[9], &[1], &[8]])?;
    /// let answers: Vec<(usize, u64)> = found.answers.iter().map(|near| (near.trace, near.distance)).collect();
    /// assert_eq!(answers, [(2, 0), (0, 1), (2, 1)]);
    /// assert_eq!(found.leaves, 2);
    /// assert_eq!(library.match_batch(&[]), Err(Refusal::BadBatch));
    /// assert_eq!(library.match_batch(&[&[9], &[1, 8]]).unwrap_err().to_string(), "wrong trace: 2 samples, and n is 1");
    /// # Ok::<(), Refusal>(())
    /// ```
    pub fn match_batch(&self, queries: &[&[i32]]) -> Result<Batch, Refusal> {
        let (mut work, mut trail) = self.room();
        let n = self.n();
        // the call sees one run: queries of other lengths might make one of the right length, and a run of no samples never is
        let unlike = queries.iter().find(|query| query.len() != n);
        // too many are refused before their samples are looked at, so that these are not even put together
        let run = if unlike.is_some() || queries.len() > MOST_TOGETHER { Vec::new() } else { queries.concat() };
        let mut answers = vec![calls::Answer::default(); queries.len()];
        let leaves = calls::match_batch(self.tables(), &mut work, &mut trail, &run, queries.len(), &mut answers)
            .map_err(|why| why.with_lengths(unlike.map_or(n, |query| query.len()), n))?;
        trail.truncate(leaves as usize);
        let answers = answers.iter().map(|near| Neighbour { trace: near.trace as usize, distance: near.distance }).collect();
        Ok(Batch { answers, leaves: leaves as usize, trail })
    }

    /// How many stored traces lie in each band of distances to a query, from one edge up to but not including the next: surely, and at most. Edges
    /// are 2 to 16, each above the last. No trace is read: it is by the ranges that the tree records, so that the two may be far apart; the true
    /// number lies between. A library without a trace reports zeros.
    ///
    /// ```
    /// use silkendoz::{Band, Refusal, TraceLibrary};
    ///
    /// let mut library = TraceLibrary::open(4, 8, 2)?;
    /// assert_eq!(library.count_bands(&[1, 1, 1, 1], &[0, 5])?, [Band { sure: 0, possible: 0 }]);
    /// library.add(&[0, 0, 0, 0])?;
    /// library.add(&[4, 4, 4, 4])?;
    /// library.add(&[0, 8, 0, 8])?;
    /// // one trace is at 4; the leaf of the two others says of them that they are at 36 to 100
    /// let bands = library.count_bands(&[1, 1, 1, 1], &[0, 5, 100, 101])?;
    /// assert_eq!(bands, [(1, 1), (0, 2), (0, 2)].map(|(sure, possible)| Band { sure, possible }));
    /// assert_eq!(library.count_bands(&[1, 1, 1, 1], &[0, 101])?, [Band { sure: 3, possible: 3 }]);
    /// assert_eq!(library.count_bands(&[1, 1, 1, 1], &[5, 5]), Err(Refusal::BadEdges));
    /// assert_eq!(library.count_bands(&[1, 1, 1, 1], &[5]), Err(Refusal::BadEdges));
    /// # Ok::<(), Refusal>(())
    /// ```
    pub fn count_bands(&self, query: &[i32], edges: &[u64]) -> Result<Vec<Band>, Refusal> {
        let mut work = vec![0; self.work.len()];
        // more edges are refused before the list is looked at
        let mut bands = vec![Band::default(); edges.len().min(MOST_EDGES).saturating_sub(1)];
        calls::count_bands(self.tables(), &mut work, Band::places(&mut bands), query, edges)
            .map_err(|why| why.with_lengths(query.len(), self.n()))?;
        Ok(bands)
    }

    /// Lists, by number, every stored trace that could be the match of a sweep of which only a low and a high figure is known per sample, as
    /// where a log clips. Each trace has a least and a greatest possible distance ([`crate::scan::possible_distances`] says both). Listed are
    /// those whose least is no more than the smallest greatest among all stored.
    ///
    /// Whatever the samples were between their figures, the nearest trace is in the list. With low equal to high everywhere, the list is all
    /// traces at the match's distance.
    ///
    /// ```
    /// use silkendoz::{Refusal, TraceLibrary};
    ///
    /// let mut library = TraceLibrary::open(2, 8, 2)?;
    /// for trace in [[0, 32_000], [0, 36_000], [9_000, 33_000]] {
    ///     library.add(&trace)?;
    /// }
    /// // the log clips at 32,767, and the drive gives no more than 40,000
    /// let (lows, highs) = ([10, 32_767], [10, 40_000]);
    /// assert_eq!(library.match_clipped(&lows, &highs)?, [0, 1]);
    /// // either could be the match; trace 2 could not
    /// assert_eq!(library.nearest(&lows)?.trace, 0);
    /// assert_eq!(library.nearest(&highs)?.trace, 1);
    ///
    /// // every sample known: all traces at the match's distance
    /// let sweep = [10, 34_000];
    /// assert_eq!(library.match_clipped(&sweep, &sweep)?, [0, 1]);
    /// assert_eq!(library.nearest(&sweep)?.trace, 0);
    ///
    /// assert_eq!(library.match_clipped(&highs, &lows), Err(Refusal::CrossedRange));
    /// assert_eq!(library.match_clipped(&highs, &lows).unwrap_err().number(), 19);
    /// # Ok::<(), Refusal>(())
    /// ```
    pub fn match_clipped(&self, lows: &[i32], highs: &[i32]) -> Result<Vec<usize>, Refusal> {
        let mut work = vec![0; self.work.len()];
        let mut list = vec![0; self.len()];
        let given = if lows.len() == self.n() { highs.len() } else { lows.len() };
        let listed = calls::match_clipped(self.tables(), &mut work, &mut list, lows, highs).map_err(|why| why.with_lengths(given, self.n()))?;
        Ok(list[..listed as usize].iter().map(|&trace| trace.into()).collect())
    }

    /// Finds the trace that is nearest to a query of n samples, of all that two libraries store: the factory's among equals, then the lowest
    /// number. Both have to have the same n; one of them may be empty. In each only the leaves are read whose bound is at most the nearest
    /// trace's distance, wherever that lies. [`calls::match_both`] does the same over tables that are lent, such as constant ones.
    ///
    /// ```
    /// use silkendoz::{Library, Refusal, TraceLibrary};
    ///
    /// let mut factory = TraceLibrary::open(1, 8, 1)?;
    /// let mut bench = TraceLibrary::open(1, 4, 2)?;
    /// assert_eq!(TraceLibrary::match_both(&factory, &bench, &[2]), Err(Refusal::Empty));
    /// factory.add(&[0])?;
    /// factory.add(&[4])?;
    /// assert_eq!(TraceLibrary::match_both(&factory, &bench, &[3])?.trace, 1);
    /// bench.add(&[2])?;
    ///
    /// let found = TraceLibrary::match_both(&factory, &bench, &[2])?;
    /// assert_eq!((found.library, found.trace, found.distance), (Library::Bench, 0, 0));
    /// assert_eq!(found.samples, [2]);
    /// // no leaf of the factory's is as near as that
    /// assert_eq!((found.factory_trail.len(), found.bench_trail.len()), (0, 1));
    /// // the factory's at an equal distance
    /// assert_eq!(TraceLibrary::match_both(&factory, &bench, &[3])?.library, Library::Factory);
    ///
    /// let other = TraceLibrary::open(2, 4, 2)?;
    /// assert_eq!(TraceLibrary::match_both(&factory, &other, &[2]), Err(Refusal::UnlikeLibraries));
    /// # Ok::<(), Refusal>(())
    /// ```
    pub fn match_both<'a>(factory: &'a TraceLibrary, bench: &'a TraceLibrary, query: &[i32]) -> Result<PairMatch<'a>, Refusal> {
        let ((mut factory_work, mut factory_trail), (mut bench_work, mut bench_trail)) = (factory.room(), bench.room());
        let found =
            calls::match_both(factory.tables(), &mut factory_work, &mut factory_trail, bench.tables(), &mut bench_work, &mut bench_trail, query)
                .map_err(|why| why.with_lengths(query.len(), factory.n()))?;
        factory_trail.truncate(found.factory_leaves as usize);
        bench_trail.truncate((found.leaves - found.factory_leaves) as usize);
        Ok(PairMatch {
            library: found.library,
            trace: found.trace as usize,
            distance: found.distance,
            leaves: found.leaves as usize,
            traces: found.traces as usize,
            factory_trail,
            bench_trail,
            samples: found.samples,
        })
    }

    /// The library as a sheet: blocks of 512 bytes, to be stored or sent. It is a wide one, with samples of four bytes, if any sample does
    /// not fit 16 bits ([`TraceLibrary::is_wide`]); else a narrow one, with samples of two.
    ///
    /// ```
    /// use silkendoz::TraceLibrary;
    ///
    /// let mut library = TraceLibrary::open(1, 8, 2)?;
    /// library.add(&[-1])?;
    /// let sheet = library.write_sheet()?;
    /// assert_eq!(sheet.len(), 2 * 512);
    /// assert_eq!((sheet[2], &sheet[4..8]), (1, &b"TRCL"[..]));
    /// assert_eq!(TraceLibrary::read_sheet(&sheet)?, library);
    ///
    /// library.add(&[32_768])?;
    /// let sheet = library.write_sheet()?;
    /// assert_eq!(sheet[2], 3);
    /// assert_eq!(TraceLibrary::read_sheet(&sheet)?, library);
    /// # Ok::<(), silkendoz::Refusal>(())
    /// ```
    pub fn write_sheet(&self) -> Result<Vec<u8>, Refusal> {
        // of a wide sheet with blocks of labels: a narrow one is shorter, and labels are not written when every one is zero
        let most = 1 + (self.len() * self.n()).div_ceil(126) + self.len().div_ceil(84);
        let mut sheet = vec![0; 512 * most];
        let blocks = calls::write_sheet(self.tables(), &self.work, &mut sheet)?;
        sheet.truncate(512 * blocks as usize);
        Ok(sheet)
    }

    /// The library that a sheet holds.
    ///
    /// ```
    /// use silkendoz::{Refusal, TraceLibrary};
    ///
    /// let mut sheet = TraceLibrary::open(1, 8, 2)?.write_sheet()?;
    /// sheet[8] = 2;
    /// assert_eq!(TraceLibrary::read_sheet(&sheet), Err(Refusal::TornBlock(0)));
    /// assert_eq!(TraceLibrary::read_sheet(&[]), Err(Refusal::SheetLength));
    /// # Ok::<(), Refusal>(())
    /// ```
    pub fn read_sheet(sheet: &[u8]) -> Result<TraceLibrary, Refusal> {
        // a sheet is judged before lengths: with no tables at all, a sound one is refused as short tables
        let mut library = TraceLibrary::with_tables(0, 0, 0);
        match calls::read_sheet(library.lent(), sheet) {
            Err(Refusal::ShortTable) => {}
            other => return other.map(|()| library),
        }
        let field = |at: usize| usize::from(u16::from_le_bytes([sheet[at], sheet[at + 1]]));
        library = TraceLibrary::with_tables(CONTROL_FIELDS, field(8), field(10));
        calls::read_sheet(library.lent(), sheet)?;
        Ok(library)
    }

    /// Adds the traces of a WAV recording: its samples, 16 bits on one channel, are cut into traces of n. How many there are is the answer. All
    /// are added, in order, or none: a file whose header is not WAV's usual 44 bytes, or that holds no whole traces, is refused.
    ///
    /// ```
    /// use silkendoz::{Refusal, TraceLibrary};
    ///
    /// // a recorder's file: 8,000 samples a second, six samples
    /// let mut file = b"RIFF\x30\0\0\0WAVEfmt \x10\0\0\0\x01\0\x01\0\x40\x1f\0\0\x80\x3e\0\0\x02\0\x10\0data\x0c\0\0\0".to_vec();
    /// for sample in [5i16, -1, 2, 7, 0, -3] {
    ///     file.extend(sample.to_le_bytes());
    /// }
    /// let mut library = TraceLibrary::open(3, 4, 1)?;
    /// assert_eq!(library.import_recording(&file)?, 2);
    /// assert_eq!(library.trace(1).unwrap(), [7, 0, -3]);
    /// assert_eq!(library.import_recording(&file[..55]), Err(Refusal::BadRecording));
    /// assert_eq!(library.import_recording(&file)?, 2);
    /// assert_eq!(library.import_recording(&file), Err(Refusal::Full));
    /// # Ok::<(), Refusal>(())
    /// ```
    pub fn import_recording(&mut self, bytes: &[u8]) -> Result<usize, Refusal> {
        calls::import_recording(self.lent(), bytes).map(|count| count as usize)
    }

    /// A stored trace as a WAV recording, at a rate (0 to 2^31 − 1) that is written into its header and changes nothing else. Recordings
    /// have 16 bits: a trace with a wider sample is refused.
    ///
    /// ```
    /// use silkendoz::{Refusal, TraceLibrary};
    ///
    /// let mut library = TraceLibrary::open(3, 4, 1)?;
    /// library.add(&[5, -1, 2])?;
    /// let file = library.export_recording(0, 8000)?;
    /// assert_eq!(file.len(), 44 + 2 * 3);
    /// assert_eq!(file[44..], [5, 0, 0xff, 0xff, 2, 0]);
    /// assert_eq!(library.import_recording(&file)?, 1);
    /// assert_eq!(library.trace(1), library.trace(0));
    /// assert_eq!(library.export_recording(2, 8000), Err(Refusal::BadRecording));
    /// assert_eq!(library.export_recording(0, 1 << 31), Err(Refusal::BadRecording));
    /// library.add(&[0, 32_768, 0])?;
    /// assert_eq!(library.export_recording(2, 8000), Err(Refusal::BadRecording));
    /// # Ok::<(), Refusal>(())
    /// ```
    pub fn export_recording(&self, number: usize, rate: u32) -> Result<Vec<u8>, Refusal> {
        let mut file = vec![0; 44 + 2 * self.n()];
        let (number, rate) = (number as u64, rate.into());
        calls::export_recording(self.tables(), &self.work, &mut file, number, rate)?;
        Ok(file)
    }

    /// Whether every figure that the tree records is that of the traces below. It is, of every library that these methods made; a library from
    /// elsewhere is tested as it comes in ([`TraceLibrary::from_tables`]). So what may make this fail is memory that fails.
    ///
    /// ```
    /// use silkendoz::TraceLibrary;
    ///
    /// let mut library = TraceLibrary::open(3, 4, 1)?;
    /// assert_eq!(library.check(), Ok(()));
    /// library.add(&[5, -1, 2])?;
    /// library.add(&[0, 0, 7])?;
    /// assert_eq!(library.check(), Ok(()));
    /// # Ok::<(), silkendoz::Refusal>(())
    /// ```
    pub fn check(&self) -> Result<(), Refusal> {
        calls::check_tables(self.tables(), &self.work)
    }

    /// The tables, to be kept somewhere and taken back by [`TraceLibrary::from_tables`]. A sheet ([`TraceLibrary::write_sheet`]) is smaller and
    /// has check bytes; tables need no time to be read.
    pub fn tables(&self) -> Tables<'_> {
        Tables::new(&self.control, &self.samples, &self.nodes, &self.links).with_labels(&self.labels)
    }

    /// A library from tables that nobody vouches for, such as those of a controller that was switched off: they are taken, as far as their
    /// measures need them, if the check accepts them. Then every answer is right for the traces that they hold.
    ///
    /// ```
    /// use silkendoz::{Refusal, StoredSample, Tables, TraceLibrary};
    ///
    /// let mut library = TraceLibrary::open(3, 4, 1)?;
    /// library.add(&[5, -1, 2])?;
    /// library.add(&[0, 0, 7])?;
    /// let kept = library.tables();
    /// assert_eq!(TraceLibrary::from_tables(kept)?, library);
    ///
    /// // a sample that changed
    /// let mut samples = kept.samples.to_vec();
    /// samples[2] = StoredSample::new(3).unwrap();
    /// let changed = Tables::new(kept.control, &samples, kept.nodes, kept.links).with_labels(kept.labels);
    /// assert_eq!(TraceLibrary::from_tables(changed), Err(Refusal::LooseRecord));
    /// // a kind of node that there is not
    /// let mut nodes = kept.nodes.to_vec();
    /// nodes[0] = 7;
    /// let changed = Tables::new(kept.control, kept.samples, &nodes, kept.links).with_labels(kept.labels);
    /// assert_eq!(TraceLibrary::from_tables(changed), Err(Refusal::Spoiled));
    /// // no labels
    /// let changed = Tables::new(kept.control, kept.samples, kept.nodes, kept.links);
    /// assert_eq!(TraceLibrary::from_tables(changed), Err(Refusal::ShortTable));
    /// # Ok::<(), Refusal>(())
    /// ```
    pub fn from_tables(tables: Tables<'_>) -> Result<TraceLibrary, Refusal> {
        let Tables { control, samples, nodes, links, labels } = tables;
        let field = |place: usize| control.get(place).copied().map_or(0, usize::from);
        let (n, capacity) = (field(0), field(1));
        let work = vec![0; (2 * capacity).saturating_sub(1)];
        calls::check_tables(tables, &work)?;
        // nothing was refused, so that measures are in range and each table has the places that are taken here
        let (samples, nodes) = (samples[..n * capacity].to_vec(), nodes[..work.len() * RECORD_PLACES].to_vec());
        let (links, labels) = (links[..capacity].to_vec(), labels[..capacity].to_vec());
        Ok(TraceLibrary { control: control[..CONTROL_FIELDS].to_vec(), samples, nodes, links, work, labels })
    }

    /// Samples a trace.
    pub fn n(&self) -> usize {
        self.control[0].into()
    }

    /// How many traces there is room for.
    pub fn capacity(&self) -> usize {
        self.control[1].into()
    }

    /// How many traces a leaf holds before it splits.
    pub fn leaf_size(&self) -> usize {
        self.control[2].into()
    }

    /// How many traces are stored.
    pub fn len(&self) -> usize {
        self.control[3].into()
    }

    /// Whether no trace is stored.
    pub fn is_empty(&self) -> bool {
        self.len() == 0
    }

    /// The trace with this number. What a sample is, [`StoredSample::value`] says.
    pub fn trace(&self, number: usize) -> Option<&[StoredSample]> {
        (number < self.len()).then(|| &self.samples[number * self.n()..(number + 1) * self.n()])
    }

    /// The stored traces, in order.
    ///
    /// ```
    /// # use silkendoz::{StoredSample, TraceLibrary};
    /// let mut library = TraceLibrary::open(2, 8, 2)?;
    /// library.add(&[1, 2])?;
    /// library.add(&[3, 4])?;
    /// assert_eq!(library.traces().len(), 2);
    /// assert_eq!(library.traces().map(StoredSample::values).collect::<Vec<_>>(), [[1, 2], [3, 4]]);
    /// # Ok::<(), silkendoz::Refusal>(())
    /// ```
    pub fn traces(&self) -> ChunksExact<'_, StoredSample> {
        self.samples[..self.len() * self.n()].chunks_exact(self.n())
    }

    /// Whether any stored sample does not fit 16 bits (−32,768 to 32,767): then the library's sheet is a wide one.
    ///
    /// ```
    /// # use silkendoz::TraceLibrary;
    /// let mut library = TraceLibrary::open(1, 8, 2)?;
    /// library.add(&[-32_768])?;
    /// assert!(!library.is_wide());
    /// library.add(&[-32_769])?;
    /// assert!(library.is_wide());
    /// # Ok::<(), silkendoz::Refusal>(())
    /// ```
    pub fn is_wide(&self) -> bool {
        self.traces().any(|trace| trace.iter().any(|sample| sample.is_wide()))
    }

    /// The labels of the stored traces, in order: those that [`TraceLibrary::label`] tells one by one.
    ///
    /// ```
    /// # use silkendoz::{Label, TraceLibrary};
    /// let mut library = TraceLibrary::open(1, 8, 2)?;
    /// library.add(&[1])?;
    /// library.add_labelled(&[2], Label { code: 17, serial: u32::MAX })?;
    /// assert!(library.labels().eq([library.label(0)?, library.label(1)?]));
    /// # Ok::<(), silkendoz::Refusal>(())
    /// ```
    pub fn labels(&self) -> impl ExactSizeIterator<Item = Label> + '_ {
        self.labels[..self.len()].iter().map(|&place| Label::at(place))
    }
}

impl<'a> IntoIterator for &'a TraceLibrary {
    type Item = &'a [StoredSample];
    type IntoIter = ChunksExact<'a, StoredSample>;

    fn into_iter(self) -> Self::IntoIter {
        self.traces()
    }
}
