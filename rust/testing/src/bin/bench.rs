//! Tables of times, all in one run: the calls beside the scan on the same data, medians of many rounds, n = 256 and capacity 4,096. The
//! first is of all calls, the second of lists of five; below them, what it takes to add traces that are all the same, and to import a
//! recording beside reading the sheet of the same traces. `bench worst` is about many traces in one leaf, `bench check` about the check of
//! tables, `bench batch` about sixteen queries at once beside sixteen matches, `bench bands` about a report of bands beside a scan that counts,
//! `bench pair` about a match over two libraries beside a match in each, and beside one in a library that holds the traces of both,
//! `bench limit` about matches with a limit on leaves beside the match, `bench clipped` about sweeps with clipped samples beside the match and
//! the scan.
//!
//! Machines differ, and so do runs; within a line the columns belong together, and the ratios are what counts. Every answer is compared
//! with the scan's.

use silkendoz::calls::{self, Found, Limited};
use silkendoz::{scan, Band, StoredSample, TraceLibrary};
use std::fmt::Debug;
use std::hint::black_box;
use std::time::Instant;
use testing::lending;
use testing::model::tables::{needs, Tables};
use testing::model::{recording, segments_of, sheet, Figure, Kind, Label, Library, Measures, Node, Segment, Test, Trace};
use testing::random::{near, noisy_sine, uniform, walk, Random};

const N: usize = 256;
const CAPACITY: usize = 4096;
const QUERIES: usize = 201;
const ADDED: usize = 201;

/// How often a recording is imported, and a sheet read beside it.
const ROUNDS: usize = 21;

/// How many traces the second table lists.
const LISTED: usize = 5;

#[derive(Clone, Copy)]
enum Data {
    Walks,
    Sines,
    Noise,
}

impl Data {
    fn name(self) -> &'static str {
        match self {
            Data::Walks => "random walks",
            Data::Sines => "noisy sines",
            Data::Noise => "uniform noise",
        }
    }

    fn trace(self, random: &mut Random) -> Trace {
        match self {
            Data::Walks => walk(random, N, 200),
            Data::Sines => noisy_sine(random, N, 300),
            Data::Noise => uniform(random, N, -32_768, 32_767),
        }
    }
}

/// Microseconds of one run.
fn time<T>(run: impl FnOnce() -> T) -> (f64, T) {
    let start = Instant::now();
    let answer = run();
    (start.elapsed().as_secs_f64() * 1e6, answer)
}

fn median(mut times: Vec<f64>) -> f64 {
    times.sort_by(f64::total_cmp);
    times[times.len() / 2]
}

/// Medians over a list of queries: the search, the scan, the scan that leaves early, both scans over the search, and how many traces the
/// search read.
struct Compared {
    index: f64,
    plain: f64,
    leaving: f64,
    plain_ratio: f64,
    leaving_ratio: f64,
    read: f64,
}

/// A query's three times are taken one after the other, and ratios are taken query by query, so that a machine that is busy for a while
/// does not show. A search answers what the scans do, and how many traces it read.
fn compared<A: Debug + PartialEq>(
    queries: &[Trace],
    mut search: impl FnMut(&[i32]) -> (A, usize),
    plain: impl Fn(&[i32]) -> A,
    leaving: impl Fn(&[i32]) -> A,
) -> Compared {
    let mut rounds: Vec<[f64; 4]> = Vec::new();
    for q in queries {
        let (index_time, (found, traces)) = time(|| search(black_box(q)));
        let (plain_time, scanned) = time(|| plain(black_box(q)));
        let (leaving_time, left) = time(|| leaving(black_box(q)));
        assert_eq!(found, scanned);
        assert_eq!(left, scanned);
        rounds.push([index_time, plain_time, leaving_time, traces as f64]);
    }
    let of = |figure: fn(&[f64; 4]) -> f64| median(rounds.iter().map(figure).collect());
    Compared {
        index: of(|r| r[0]),
        plain: of(|r| r[1]),
        leaving: of(|r| r[2]),
        plain_ratio: of(|r| r[1] / r[0]),
        leaving_ratio: of(|r| r[2] / r[0]),
        read: of(|r| r[3]),
    }
}

impl Compared {
    fn columns(&self) -> String {
        let Compared { index, plain, leaving, plain_ratio, leaving_ratio, read } = self;
        format!("{index:>9.1}{read:>7.0}{plain:>9.1}{leaving:>9.1}{plain_ratio:>7.1}{leaving_ratio:>7.1}")
    }
}

/// The heads of those columns.
fn heads(queries: &str) -> String {
    format!("{queries:>9}{:>7}{:>9}{:>9}{:>7}{:>7}", "read", "scan", "leaving", "x", "x")
}

/// A full library, its samples, queries that are near a stored trace and new ones; and how long an adding took at the end.
struct Full {
    library: TraceLibrary,
    samples: Vec<StoredSample>,
    nearby: Vec<Trace>,
    fresh: Vec<Trace>,
    add: f64,
}

fn filled(data: Data, leaf_size: usize) -> Full {
    let random = &mut Random::seeded(2026);
    let stored: Vec<Trace> = (0..CAPACITY).map(|_| data.trace(random)).collect();
    let mut library = TraceLibrary::open(N, CAPACITY, leaf_size).expect("measures are in range");
    let mut add = Vec::new();
    for trace in &stored {
        add.push(time(|| library.add(trace).expect("there is room")).0);
    }
    let nearby = (0..QUERIES)
        .map(|_| {
            let centre = random.pick(&stored).clone();
            near(random, &centre, 20)
        })
        .collect();
    let fresh = (0..QUERIES).map(|_| data.trace(random)).collect();
    let samples = library.tables().samples.to_vec();
    Full { library, samples, nearby, fresh, add: median(add.split_off(CAPACITY - ADDED)) }
}

fn matched(library: &TraceLibrary, samples: &[StoredSample], queries: &[Trace]) -> Compared {
    compared(
        queries,
        |q| {
            let found = library.nearest(q).expect("traces are stored");
            (Some((found.trace, found.distance)), found.traces)
        },
        |q| scan::nearest(samples, N, q),
        |q| scan::nearest_abandoning(samples, N, q),
    )
}

fn listed(library: &TraceLibrary, samples: &[StoredSample], queries: &[Trace]) -> Compared {
    compared(
        queries,
        |q| {
            let found = library.k_nearest(q, LISTED).expect("traces are stored");
            (found.list.iter().map(|a| (a.trace, a.distance)).collect(), found.traces)
        },
        |q| scan::k_nearest(samples, N, q, LISTED),
        |q| scan::k_nearest_abandoning(samples, N, q, LISTED),
    )
}

/// A match whose query has another length is refused right behind the test of the tables.
fn test_of_tables(library: &TraceLibrary) -> f64 {
    let wrong = [0i32; N - 1];
    median((0..QUERIES).map(|_| time(|| black_box(library.nearest(black_box(&wrong)))).0).collect())
}

fn sheets(library: &TraceLibrary) -> (String, String) {
    let sheet = library.write_sheet().expect("it is sound");
    let write = median((0..21).map(|_| time(|| black_box(library.write_sheet())).0).collect());
    let read = median((0..3).map(|_| time(|| black_box(TraceLibrary::read_sheet(&sheet))).0).collect());
    (format!("{write:.0}"), format!("{read:.0}"))
}

fn line(data: Data, leaf_size: usize) {
    let Full { library, samples, nearby, fresh, add } = filled(data, leaf_size);
    // one round of each first, so that memory and branches are warm
    matched(&library, &samples, &nearby[..20]);
    let a = matched(&library, &samples, &nearby).columns();
    let b = matched(&library, &samples, &fresh).columns();
    let tested = test_of_tables(&library);
    let (write, read) = sheets(&library);
    println!("{:<14}{leaf_size:>5} |{a} |{b} |{tested:>8.1}{add:>8.1}{write:>8}{read:>9}", data.name());
}

fn line_of_lists(data: Data, leaf_size: usize) {
    let Full { library, samples, nearby, fresh, .. } = filled(data, leaf_size);
    listed(&library, &samples, &nearby[..20]);
    let a = listed(&library, &samples, &nearby).columns();
    let b = listed(&library, &samples, &fresh).columns();
    println!("{:<14}{leaf_size:>5} |{a} |{b}", data.name());
}

/// Traces that differ, and that no split parts: two samples of the same half change places, so that sums and scatters of the whole and of
/// its halves stay.
fn unparted(of: &Trace) -> Vec<Trace> {
    let half = N / 2;
    let pairs = (0..N).flat_map(|a| (a + 1..N).map(move |b| (a, b))).filter(|(a, b)| a / half == b / half && of[*a] != of[*b]);
    let swapped = pairs.map(|(a, b)| {
        let mut trace = of.clone();
        trace.swap(a, b);
        trace
    });
    swapped.take(CAPACITY).collect()
}

/// What an adding takes at the end, what reading a full sheet takes, and a match of a stored trace.
fn line_of_worst(name: &str, stored: &[Trace], leaf_size: usize) {
    let mut library = TraceLibrary::open(N, CAPACITY, leaf_size).expect("measures are in range");
    let mut add: Vec<f64> = stored.iter().map(|trace| time(|| library.add(trace).expect("there is room")).0).collect();
    let last = median(add.split_off(stored.len() - ADDED));
    let sheet = library.write_sheet().expect("it is sound");
    let read = median((0..3).map(|_| time(|| black_box(TraceLibrary::read_sheet(&sheet))).0).collect());
    let found = median(stored.iter().take(QUERIES).map(|q| time(|| black_box(library.nearest(q))).0).collect());
    println!("{leaf_size:>9}  {name:<22}{:>7}{last:>9.1}{found:>9.1}{:>10.1}", library.leaf_count(), read / 1000.0);
}

fn lines_of_worst(leaf_size: usize) {
    let random = &mut Random::seeded(2026);
    let walks: Vec<Trace> = (0..CAPACITY).map(|_| Data::Walks.trace(random)).collect();
    line_of_worst("random walks", &walks, leaf_size);
    line_of_worst("all the same", &vec![walks[0].clone(); CAPACITY], leaf_size);
    line_of_worst("differ, no test parts", &unparted(&walks[0]), leaf_size);
}

/// `bench worst`: many traces that end up in one leaf.
fn worst() {
    println!("n = {N}, {CAPACITY} traces; an adding at the end and a match of a stored trace in microseconds, reading a full sheet in milliseconds");
    println!("leaf size  {:<22}{:>7}{:>9}{:>9}{:>10}", "traces", "leaves", "add", "match", "read, ms");
    [64, 4].into_iter().for_each(lines_of_worst);
}

/// The ranges of two lists of traces together.
fn together(a: &[Segment], b: &[Segment]) -> Vec<Segment> {
    let both = |(a, b): (&Segment, &Segment)| Segment {
        end: a.end,
        least_sum: a.least_sum.min(b.least_sum),
        greatest_sum: a.greatest_sum.max(b.greatest_sum),
        least_scatter: a.least_scatter.min(b.least_scatter),
        greatest_scatter: a.greatest_scatter.max(b.greatest_scatter),
    };
    a.iter().zip(b).map(both).collect()
}

/// A tree that is a chain, a trace at each node of it, with one more cut at each of the first fifteen: below a cut, no record has the
/// segment, so that its figures come from the samples of all traces below.
fn chain(stored: Vec<Trace>) -> Library {
    let cuts: Vec<usize> = (1..16).map(|i| N * i / 16).chain([N]).collect();
    let ends = |depth: usize| cuts[15 - depth.min(15)..].to_vec();
    let last = stored.len() - 1;
    let mut nodes = vec![Node { segments: segments_of(&ends(last), &[&stored[last]]), kind: Kind::Leaf(vec![last]) }];
    for i in (0..last).rev() {
        let below: Vec<&[i32]> = stored[i..].iter().map(Vec::as_slice).collect();
        let leaf = Node { segments: segments_of(&ends(i + 1), &below[..1]), kind: Kind::Leaf(vec![i]) };
        let segments = if i < 15 { segments_of(&ends(i), &below) } else { together(&leaf.segments, &nodes[nodes.len() - 1].segments) };
        let test = Test { figure: Figure::Sum, first: 1, last: N, threshold: 0 };
        nodes.push(leaf);
        nodes.push(Node { segments, kind: Kind::Inner { test, left: 2 * i + 1, right: 2 * i + 2 } });
    }
    nodes.reverse();
    let measures = Measures { n: N as u64, capacity: CAPACITY as u64, leaf_size: 1 };
    Library { measures, labels: vec![Label::default(); stored.len()], traces: stored, nodes }
}

/// What a check takes, beside a scan of the same traces: how many passes over the samples that is.
fn line_of_check(name: &str, t: &Tables) {
    let (l, query) = (t.lengths(), vec![0; N]);
    let check = median((0..ROUNDS).map(|_| time(|| lending::check_tables(black_box(t), l).expect("it is exact")).0).collect());
    let scan = median((0..ROUNDS).map(|_| time(|| black_box(scan::nearest(StoredSample::of_words(&t.samples), N, black_box(&query)))).0).collect());
    println!("{name:<24}{:>7}{check:>10.0}{scan:>8.0}{:>9.1}", t.control[4], check / scan);
}

/// `bench check`: the check of full libraries, and of the tree that takes longest.
fn check() {
    println!("n = {N}, {CAPACITY} traces; microseconds, medians of {ROUNDS}; x: check / scan");
    println!("{:<24}{:>7}{:>10}{:>8}{:>9}", "data, leaf size", "nodes", "check", "scan", "x");
    let random = &mut Random::seeded(2026);
    for data in [Data::Walks, Data::Sines, Data::Noise] {
        let stored: Vec<Trace> = (0..CAPACITY).map(|_| data.trace(random)).collect();
        for leaf_size in [64, 16, 4] {
            let m = Measures { n: N as u64, capacity: CAPACITY as u64, leaf_size };
            let l = needs(m);
            let mut t = Tables::blank(l);
            lending::read_sheet(&mut t, l, &sheet::write(m, &stored)).expect("it is sound");
            line_of_check(&format!("{} {leaf_size}", data.name()), &t);
        }
        if matches!(data, Data::Walks) {
            line_of_check("a chain of cuts", &Tables::of(&chain(stored)));
        }
    }
}

/// How many queries come together, and how often such a batch is timed.
const TOGETHER: usize = 16;
const BATCHES: usize = 51;

/// Batches of these queries beside their matches one by one: a batch and its matches are timed one after the other, and answer the same.
fn batched(library: &TraceLibrary, batches: &[Vec<Trace>]) -> String {
    let mut rounds: Vec<[f64; 5]> = Vec::new();
    for queries in batches {
        let queries: Vec<&[i32]> = queries.iter().map(Vec::as_slice).collect();
        let (match_time, alone) = time(|| queries.iter().map(|q| library.nearest(black_box(q)).expect("traces are stored")).collect::<Vec<_>>());
        let (batch_time, found) = time(|| library.match_batch(black_box(&queries)).expect("traces are stored"));
        let answers: Vec<(usize, u64)> = found.answers.iter().map(|near| (near.trace, near.distance)).collect();
        assert_eq!(answers, alone.iter().map(|found| (found.trace, found.distance)).collect::<Vec<_>>());
        let read: usize = alone.iter().map(|found| found.leaves).sum();
        rounds.push([match_time, batch_time, match_time / batch_time, read as f64, found.leaves as f64]);
    }
    let of = |figure: usize| median(rounds.iter().map(|r| r[figure]).collect());
    format!("{:>9.0}{:>9.0}{:>7.2}{:>8.0}{:>8.0}", of(0), of(1), of(2), of(3), of(4))
}

/// As many batches as are timed, of the queries that are made for a batch's number and a place in it.
fn batches(mut query: impl FnMut(usize, usize) -> Trace) -> Vec<Vec<Trace>> {
    (0..BATCHES).map(|i| (0..TOGETHER).map(|j| query(i, j)).collect()).collect()
}

fn line_of_batches(data: Data, leaf_size: usize) {
    let Full { library, samples, .. } = filled(data, leaf_size);
    let random = &mut Random::seeded(2027);
    let stored: Vec<Trace> = samples.chunks(N).map(StoredSample::values).collect();
    let different = batches(|i, j| near(random, &stored[(257 * i + 1021 * j) % CAPACITY], 20));
    let one = batches(|i, _| near(random, &stored[(257 * i) % CAPACITY], 20));
    let fresh = batches(|_, _| data.trace(random));
    batched(&library, &different[..3]);
    let columns: Vec<String> = [different, fresh, one].iter().map(|kind| batched(&library, kind)).collect();
    println!("{:<14}{leaf_size:>5} |{}", data.name(), columns.join(" |"));
}

/// `bench batch`: sixteen queries near sixteen different traces, sixteen that are like none stored, and sixteen near one trace, as sweeps
/// of one machine are.
fn batch() {
    println!("n = {N}, {CAPACITY} traces, {TOGETHER} queries; microseconds, medians of {BATCHES}");
    println!("x: matches / batch; leaves that the matches read, and the batch");
    let heads = ["different", "fresh", "one"].map(|kind| format!("{kind:>9}{:>9}{:>7}{:>8}{:>8}", "batch", "x", "leaves", "leaves"));
    println!("{:<14}{:>5} |{}", "data", "leaf", heads.join(" |"));
    for data in [Data::Walks, Data::Sines, Data::Noise] {
        for leaf_size in [64, 16, 4] {
            line_of_batches(data, leaf_size);
        }
    }
}

/// How many of the queries are asked for bands; bands a report; and of how many nearest traces the last one is an alarm distance.
const BANDED: usize = 51;
const BANDS: usize = 10;
const ALARM: usize = 40;

/// Reports beside scans that count, query by query: both times and their ratio; how many per cent of the traces are surely in one band, in how
/// many bands a trace is possible; and at most how many traces are as near as the nearest forty. A band has a tenth of the traces each.
fn banded(library: &TraceLibrary, samples: &[StoredSample], queries: &[Trace]) -> String {
    let mut rounds: Vec<[f64; 6]> = Vec::new();
    for q in queries {
        let mut distances: Vec<u64> = samples.chunks(N).map(|trace| scan::distance(trace, q)).collect();
        distances.sort_unstable();
        distances.dedup();
        let mut edges: Vec<u64> = (0..BANDS).map(|tenth| if tenth == 0 { 0 } else { distances[distances.len() * tenth / BANDS] }).collect();
        edges.push(distances[distances.len() - 1] + 1);
        let (report_time, bands) = time(|| library.count_bands(black_box(q), black_box(&edges)).expect("edges rise"));
        let (scan_time, counted) = time(|| scan::bands(samples, N, black_box(q), black_box(&edges)));
        assert!(bands.iter().zip(&counted).all(|(band, &number)| band.sure <= number && number <= band.possible));
        let share = |figure: fn(&Band) -> u64| bands.iter().map(figure).sum::<u64>() as f64 / CAPACITY as f64;
        let near = library.count_bands(q, &[0, distances[ALARM - 1] + 1]).expect("edges rise")[0];
        let widths = [100.0 * share(|band| band.sure), share(|band| band.possible), near.possible as f64];
        rounds.push([report_time, scan_time, scan_time / report_time, widths[0], widths[1], widths[2]]);
    }
    let of = |figure: usize| median(rounds.iter().map(|r| r[figure]).collect());
    format!("{:>9.1}{:>9.1}{:>7.1}{:>7.1}{:>7.1}{:>7.0}", of(0), of(1), of(2), of(3), of(4), of(5))
}

/// `bench bands`: how long a report takes, and how wide it is.
fn bands() {
    println!("n = {N}, {CAPACITY} traces, {BANDS} bands of a tenth of them each; microseconds, medians of {BANDED}; x: scan that counts / report");
    println!("sure: per cent of the traces that are surely in one band (a scan: 100); in: bands a trace may be in (a scan: 1)");
    println!("near: at most so many traces are as near as the nearest {ALARM}");
    let heads = ["near", "fresh"].map(|kind| format!("{kind:>9}{:>9}{:>7}{:>7}{:>7}{:>7}", "scan", "x", "sure", "in", "near"));
    println!("{:<14}{:>5} |{}", "data", "leaf", heads.join(" |"));
    for data in [Data::Walks, Data::Sines, Data::Noise] {
        for leaf_size in [64, 16, 4, 1] {
            let Full { library, samples, nearby, fresh, .. } = filled(data, leaf_size);
            banded(&library, &samples, &nearby[..3]);
            let columns = [nearby, fresh].map(|queries| banded(&library, &samples, &queries[..BANDED]));
            println!("{:<14}{leaf_size:>5} |{}", data.name(), columns.join(" |"));
        }
    }
}

/// Two libraries with half of the traces each, and one with all of them.
struct Parted {
    factory: TraceLibrary,
    bench: TraceLibrary,
    whole: TraceLibrary,
}

/// A call is made once before it is timed, so that none finds in the caches what another one left there.
fn hot<A>(call: impl Fn() -> A) -> (f64, A) {
    black_box(call());
    time(call)
}

/// A match over both, a match in each, and one in the whole, query by query: the three times, the two others over the first, and the leaves that
/// each read.
fn paired(libraries: &Parted, queries: &[Trace]) -> String {
    let Parted { factory, bench, whole } = libraries;
    let mut rounds: Vec<[f64; 8]> = Vec::new();
    for q in queries {
        let (pair_time, both) = hot(|| TraceLibrary::match_both(factory, bench, black_box(q)).expect("traces are stored"));
        let (two_time, two) = hot(|| [factory, bench].map(|library| library.nearest(black_box(q)).expect("traces are stored")));
        let (one_time, one) = hot(|| whole.nearest(black_box(q)).expect("traces are stored"));
        assert!(both.distance == one.distance && both.distance == two[0].distance.min(two[1].distance));
        let leaves = [both.leaves, two[0].leaves + two[1].leaves, one.leaves].map(|leaves| leaves as f64);
        rounds.push([pair_time, two_time, one_time, two_time / pair_time, one_time / pair_time, leaves[0], leaves[1], leaves[2]]);
    }
    let of = |figure: usize| median(rounds.iter().map(|r| r[figure]).collect());
    let times: String = (0..3).map(|figure| format!("{:>8.1}", of(figure))).collect();
    let leaves: String = (5..8).map(|figure| format!("{:>6.0}", of(figure))).collect();
    format!("{times}{:>6.2}{:>6.2}{leaves}", of(3), of(4))
}

/// `bench pair`: a match over two libraries, of half of the traces each.
fn pair() {
    println!("n = {N}, {CAPACITY} traces, half of them in each library; microseconds, medians of {QUERIES} queries");
    println!("two: a match in each library; one: a match in a library with all traces; x: two / pair and one / pair; then the leaves that each read");
    let heads = ["near", "fresh"].map(|kind| format!("{kind:>8}{:>8}{:>8}{:>6}{:>6}{:>6}{:>6}{:>6}", "two", "one", "x", "x", "pair", "two", "one"));
    println!("{:<14}{:>5} |{}", "data", "leaf", heads.join(" |"));
    for data in [Data::Walks, Data::Sines, Data::Noise] {
        for leaf_size in [64, 16, 4] {
            let Full { library: whole, nearby, fresh, .. } = filled(data, leaf_size);
            let half = |first: usize| {
                let mut library = TraceLibrary::open(N, CAPACITY / 2, leaf_size).expect("measures are in range");
                // every other one
                for trace in whole.traces().skip(first).step_by(2) {
                    library.add(&StoredSample::values(trace)).expect("there is room");
                }
                library
            };
            let libraries = Parted { factory: half(0), bench: half(1), whole };
            paired(&libraries, &nearby[..3]);
            let columns = [nearby, fresh].map(|queries| paired(&libraries, &queries));
            println!("{:<14}{leaf_size:>5} |{}", data.name(), columns.join(" |"));
        }
    }
}

/// Limits on leaves; the last is none.
const LIMITS: [u64; 7] = [1, 2, 4, 8, 16, 64, u64::MAX];

/// One limit's figures, query by query: its time over the match's, whether it is settled, and whether its distance is the nearest trace's.
type Within = [Vec<f64>; 3];

/// The match's time and leaves, and each limit's figures. All are lent the same search work and trail, so that nothing but the call is timed. A query
/// is asked in three rounds, of which each call's least time counts: whichever comes first finds colder caches.
fn limited(library: &TraceLibrary, queries: &[Trace]) -> (f64, f64, [Within; LIMITS.len()]) {
    let (mut work, mut trail) = (vec![0; 2 * CAPACITY - 1], vec![0; CAPACITY]);
    let (mut times, mut leaves) = (Vec::new(), Vec::new());
    let mut figures: [Within; LIMITS.len()] = Default::default();
    for q in queries {
        let mut match_time = f64::INFINITY;
        let mut limit_times = [f64::INFINITY; LIMITS.len()];
        for round in 0..3 {
            let (time, found) = time(|| calls::nearest(library.tables(), &mut work, &mut trail, black_box(q)).expect("traces are stored"));
            match_time = match_time.min(time);
            for (at, most) in LIMITS.into_iter().enumerate() {
                let within = || calls::match_within(library.tables(), &mut work, &mut trail, black_box(q), most).expect("traces are stored");
                let (time, answer) = self::time(within);
                limit_times[at] = limit_times[at].min(time);
                if round == 0 {
                    let (settled, nearest) = against(&found, most, answer);
                    figures[at][1].push(f64::from(settled));
                    figures[at][2].push(f64::from(nearest));
                }
            }
            if round == 0 {
                leaves.push(found.leaves as f64);
            }
        }
        times.push(match_time);
        for (figures, time) in figures.iter_mut().zip(limit_times) {
            figures[0].push(time / match_time);
        }
    }
    (median(times), median(leaves), figures)
}

/// Whether a match with a limit is settled, and whether its distance is the match's. It is held to the match.
fn against(found: &Found, most: u64, answer: Limited) -> (bool, bool) {
    let (settled, best) = match answer {
        Limited::Settled(best) => (true, best),
        Limited::Open { best, bound } => {
            assert!(bound <= found.distance && found.distance <= best.distance);
            (false, best)
        }
    };
    assert!(settled == (found.leaves <= most) && (!settled || best == *found));
    (settled, best.distance == found.distance)
}

/// `bench limit`: a match that reads at most so many leaves.
fn limit() {
    println!(
        "n = {N}, {CAPACITY} traces; the match in microseconds and the leaves it reads, medians of {QUERIES} queries; then by the limit on leaves:"
    );
    println!("time: limited / match, median; settled: per cent of the queries; found: per cent whose distance is the nearest trace's already");
    let limits: String = LIMITS.map(|most| if most == u64::MAX { "all".into() } else { most.to_string() }).map(|most| format!("{most:>6}")).concat();
    println!("{:<14}{:>5} {:<6}{:>8}{:>7} {:<8}|{limits}", "data", "leaf", "query", "match", "leaves", "");
    for data in [Data::Walks, Data::Sines, Data::Noise] {
        for leaf_size in [64, 16, 4] {
            let Full { library, nearby, fresh, .. } = filled(data, leaf_size);
            limited(&library, &nearby[..3]);
            for (kind, queries) in [("near", nearby), ("fresh", fresh)] {
                let (time, leaves, figures) = limited(&library, &queries);
                let ratios = figures.each_ref().map(|[ratios, ..]| format!("{:>6.2}", median(ratios.clone()))).concat();
                let per_cent = |list: &[f64]| format!("{:>6.0}", 100.0 * list.iter().sum::<f64>() / list.len() as f64);
                let settled = figures.each_ref().map(|[_, settled, _]| per_cent(settled)).concat();
                let found = figures.each_ref().map(|[.., found]| per_cent(found)).concat();
                println!("{:<14}{leaf_size:>5} {kind:<6}{time:>8.1}{leaves:>7.0} {:<8}|{ratios}", data.name(), "time");
                for (name, row) in [("settled", settled), ("found", found)] {
                    println!("{:<42}{name:<8}|{row}", "");
                }
            }
        }
    }
}

/// How many per cent of a sweep's samples the log clips.
const CLIPPED: [usize; 4] = [0, 1, 5, 20];

/// What is known of a sweep if the log clips so many per cent of its samples, the highest ones: of each that it lies between the log's limit, which is
/// the highest sample that is not clipped, and twice as far beyond it as the sweep's highest.
fn clipped_by(sweep: &[i32], per_cent: usize) -> (Trace, Trace) {
    let mut rising = sweep.to_vec();
    rising.sort_unstable();
    let clipped = (sweep.len() * per_cent).div_ceil(100);
    let (limit, highest) = (rising[sweep.len() - 1 - clipped], rising[sweep.len() - 1]);
    sweep.iter().map(|&x| if x > limit { (limit, 2 * highest - limit) } else { (x, x) }).unzip()
}

/// The list by reading every trace to its end.
fn possible(samples: &[StoredSample], lows: &[i32], highs: &[i32]) -> Vec<u16> {
    let figures: Vec<(u64, u64)> = samples.chunks_exact(N).map(|trace| scan::possible_distances(trace, lows, highs)).collect();
    let smallest = figures.iter().map(|&(_, greatest)| greatest).min().expect("traces are stored");
    (0u16..).zip(figures).filter(|&(_, (least, _))| least <= smallest).map(|(trace, _)| trace).collect()
}

/// One percentage's figures, query by query: its time, that over the scan's and over the match's, and how many traces are listed.
type Clipped = [Vec<f64>; 4];

/// The times of the match and of the scan, and each percentage's figures. A query is asked in three rounds, of which each call's least time counts.
fn clipped_beside(library: &TraceLibrary, samples: &[StoredSample], queries: &[Trace]) -> (f64, f64, [Clipped; CLIPPED.len()]) {
    let (mut work, mut trail, mut list) = (vec![0; 2 * CAPACITY - 1], vec![0; CAPACITY], vec![0; CAPACITY]);
    let (mut match_times, mut scan_times) = (Vec::new(), Vec::new());
    let mut figures: [Clipped; CLIPPED.len()] = Default::default();
    for q in queries {
        let known = CLIPPED.map(|per_cent| clipped_by(q, per_cent));
        let (mut match_time, mut scan_time, mut times) = (f64::INFINITY, f64::INFINITY, [f64::INFINITY; CLIPPED.len()]);
        for round in 0..3 {
            let (taken, found) = time(|| calls::nearest(library.tables(), &mut work, &mut trail, black_box(q)).expect("traces are stored"));
            match_time = match_time.min(taken);
            let (taken, scanned) = time(|| scan::nearest(samples, N, black_box(q)));
            scan_time = scan_time.min(taken);
            assert_eq!(scanned, Some((found.trace as usize, found.distance)));
            for (at, (lows, highs)) in known.iter().enumerate() {
                let clipped = || calls::match_clipped(library.tables(), &mut work, &mut list, black_box(lows), black_box(highs));
                let (taken, listed) = time(clipped);
                let listed = listed.expect("traces are stored");
                times[at] = times[at].min(taken);
                if round == 0 {
                    let listed = &list[..listed as usize];
                    assert_eq!(listed, possible(samples, lows, highs));
                    assert!(listed.contains(&(found.trace as u16)), "the sweep itself lies in its ranges");
                    figures[at][3].push(listed.len() as f64);
                }
            }
        }
        match_times.push(match_time);
        scan_times.push(scan_time);
        for (figures, time) in figures.iter_mut().zip(times) {
            [time, time / scan_time, time / match_time].into_iter().zip(figures).for_each(|(figure, list)| list.push(figure));
        }
    }
    (median(match_times), median(scan_times), figures)
}

/// `bench clipped`: which traces could be the match of a sweep with clipped samples.
fn clipped() {
    println!("n = {N}, {CAPACITY} traces; times in microseconds, medians of {QUERIES} queries; then by the per cent of samples that are clipped:");
    println!("time: of the clipped sweep; / scan and / match: over theirs, medians; listed: traces, the median and the most");
    let heads: String = CLIPPED.map(|per_cent| format!("{per_cent:>8} %")).concat();
    println!("{:<14}{:>5} {:<6}{:>8}{:>8} {:<8}|{heads}", "data", "leaf", "query", "match", "scan", "");
    for data in [Data::Walks, Data::Sines, Data::Noise] {
        for leaf_size in [64, 4] {
            let Full { library, samples, nearby, fresh, .. } = filled(data, leaf_size);
            clipped_beside(&library, &samples, &nearby[..3]);
            for (kind, queries) in [("near", nearby), ("fresh", fresh)] {
                let (match_time, scan_time, figures) = clipped_beside(&library, &samples, &queries);
                let row = |at: usize, places: usize| figures.each_ref().map(|f| format!("{:>10.places$}", median(f[at].clone()))).concat();
                let most = figures.each_ref().map(|f| format!("{:>10.0}", f[3].iter().copied().fold(0.0, f64::max))).concat();
                println!("{:<14}{leaf_size:>5} {kind:<6}{match_time:>8.1}{scan_time:>8.1} {:<8}|{}", data.name(), "time", row(0, 1));
                for (name, row) in [("/ scan", row(1, 2)), ("/ match", row(2, 1)), ("listed", row(3, 0)), ("most", most)] {
                    println!("{:<43}{name:<8}|{row}", "");
                }
            }
        }
    }
}

/// Microseconds for adding all of these to an empty library.
fn building(stored: &[Trace], leaf_size: usize) -> f64 {
    let mut library = TraceLibrary::open(N, CAPACITY, leaf_size).expect("measures are in range");
    let add_all = || {
        for trace in stored {
            library.add(trace).expect("there is room");
        }
    };
    time(add_all).0
}

/// One trace again and again: no split parts such traces, so that one leaf holds them all.
fn line_of_equals(leaf_size: usize) {
    let random = &mut Random::seeded(2026);
    let walks: Vec<Trace> = (0..CAPACITY).map(|_| Data::Walks.trace(random)).collect();
    let equals = vec![walks[0].clone(); CAPACITY];
    let rounds: Vec<[f64; 2]> = (0..3).map(|_| [building(&equals, leaf_size), building(&walks, leaf_size)]).collect();
    let of = |figure: fn(&[f64; 2]) -> f64| median(rounds.iter().map(figure).collect());
    println!(
        "adding {CAPACITY} traces, leaf size {leaf_size}: all the same {:.0}, random walks {:.0}; same / walks {:.2}",
        of(|r| r[0]),
        of(|r| r[1]),
        of(|r| r[0] / r[1])
    );
}

/// All traces from a recording, into a library that is opened for them, and from a sheet, into the same tables: both zero the tables, judge
/// every byte and add trace by trace.
fn line_of_recordings(leaf_size: usize) {
    let random = &mut Random::seeded(2026);
    let walks: Vec<Trace> = (0..CAPACITY).map(|_| Data::Walks.trace(random)).collect();
    let m = Measures { n: N as u64, capacity: CAPACITY as u64, leaf_size: leaf_size as u64 };
    let (file, sheet) = (recording::write(8000, &walks.concat()), sheet::write(m, &walks));
    let l = needs(m);
    let mut t = Tables::blank(l);
    let import = |t: &mut Tables| {
        let opened = lending::open(t, l, m);
        opened.and_then(|()| lending::import_recording(t, l, black_box(&file)))
    };
    let mut rounds: Vec<[f64; 2]> = Vec::new();
    for _ in 0..ROUNDS {
        let (read_time, read) = time(|| lending::read_sheet(&mut t, l, black_box(&sheet)));
        let by_sheet = t.clone();
        let (import_time, imported) = time(|| import(&mut t));
        assert_eq!((read, imported), (Ok(()), Ok(CAPACITY as u64)));
        assert!(t == by_sheet, "the library is the same");
        rounds.push([import_time, read_time]);
    }
    let of = |figure: fn(&[f64; 2]) -> f64| median(rounds.iter().map(figure).collect());
    println!(
        "{CAPACITY} random walks, leaf size {leaf_size}: as a recording {:.0}, as a sheet {:.0}; recording / sheet {:.2}",
        of(|r| r[0]),
        of(|r| r[1]),
        of(|r| r[0] / r[1])
    );
}

fn main() {
    match std::env::args().nth(1).as_deref() {
        Some("worst") => return worst(),
        Some("check") => return check(),
        Some("batch") => return batch(),
        Some("bands") => return bands(),
        Some("pair") => return pair(),
        Some("limit") => return limit(),
        Some("clipped") => return clipped(),
        _ => {}
    }
    println!("n = {N}, capacity {CAPACITY}, full; times in microseconds, medians ({QUERIES} queries, the last {ADDED} traces added)");
    println!("scan: every trace; leaving: the same scan, leaving a trace that is no longer below the best; x: scan / match and leaving / match, query by query");
    println!();
    let kinds = [Data::Walks, Data::Sines, Data::Noise];
    println!("{:<14}{:>5} |{} |{} |{:>8}{:>8}{:>8}{:>9}", "data", "leaf", heads("near"), heads("fresh"), "test", "add", "write", "read");
    for data in kinds {
        for leaf_size in [64, 16, 4] {
            line(data, leaf_size);
        }
    }
    println!();
    println!("the {LISTED} nearest, beside scans that keep {LISTED}");
    println!("{:<14}{:>5} |{} |{}", "data", "leaf", heads("near"), heads("fresh"));
    for data in kinds {
        line_of_lists(data, 64);
    }
    println!();
    line_of_equals(64);
    for leaf_size in [64, 16] {
        line_of_recordings(leaf_size);
    }
}
