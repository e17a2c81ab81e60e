//! The lent tables, read by `docs/LAYOUT.md`: what they stand for, whether they are well formed, and what document 01's table refuses.

use super::{recording, sheet};
use super::{runs, width, within, Figure, Kind, Label, Library, Measures, Node, Refused, Segment, Test, Trace, NARROW_LIMIT, SAMPLE_LIMIT};

/// Fields of the control record.
pub const CONTROL_FIELDS: usize = 5;

/// Places of a node's record.
pub const RECORD_PLACES: usize = 87;

/// Where a record has the first and the last sample of its test's run, and its threshold.
pub const RUN: [usize; 2] = [4, 5];
pub const THRESHOLD: usize = 6;

/// Where a record has a segment's right end; its figures stand behind it.
pub fn segment_place(segment: usize) -> usize {
    7 + 5 * segment
}

/// The label that a place stands for, "code + 65,536 × serial": the upper 16 bits are free.
pub fn label_at(place: u64) -> Label {
    Label { code: (place % 65_536) as u16, serial: (place / 65_536 % (1 << 32)) as u32 }
}

/// The place of a label as calls write it.
pub fn label_place(label: Label) -> u64 {
    u64::from(label.code) + 65_536 * u64::from(label.serial)
}

/// The sample that a word of the table stands for: the word over 4,096, rounded down. So "A stored sample outside the limits makes the tables
/// spoiled" (document 02, §9) can be said of no word.
pub fn sample_of(word: i32) -> i32 {
    word.div_euclid(4096)
}

/// A sample's word as calls write it.
pub fn word_of(sample: i32) -> i32 {
    sample * 4096
}

/// The six lent tables.
#[derive(Clone, Debug, PartialEq, Eq, Default)]
pub struct Tables {
    pub control: Vec<u16>,
    /// Words.
    pub samples: Vec<i32>,
    pub nodes: Vec<i64>,
    pub links: Vec<u16>,
    pub work: Vec<u64>,
    pub labels: Vec<u64>,
}

/// The lengths of the six tables, in their places.
#[derive(Clone, Copy, Debug, PartialEq, Eq)]
pub struct Lengths {
    pub control: usize,
    pub samples: usize,
    pub nodes: usize,
    pub links: usize,
    pub work: usize,
    pub labels: usize,
}

/// The tables' names, in the order in which they are lent.
pub const TABLES: [&str; 6] = ["control", "samples", "nodes", "links", "work", "labels"];

impl Lengths {
    /// The lengths in the order of [`TABLES`].
    pub fn each(&mut self) -> [&mut usize; 6] {
        [&mut self.control, &mut self.samples, &mut self.nodes, &mut self.links, &mut self.work, &mut self.labels]
    }
}

/// "A capacity of c needs c × n samples, 2c − 1 node records, c links, one a trace, .. and 2c − 1 places of search work." Document 02, §8:
/// "Labels lie in a table of c places, under 2".
pub fn needs(m: Measures) -> Lengths {
    let (n, c) = (m.n as usize, m.capacity as usize);
    Lengths { control: CONTROL_FIELDS, samples: c * n, nodes: (2 * c - 1) * RECORD_PLACES, links: c, work: 2 * c - 1, labels: c }
}

impl Tables {
    /// Tables of these lengths with zero in every place.
    pub fn blank(l: Lengths) -> Tables {
        Tables {
            control: vec![0; l.control],
            samples: vec![0; l.samples],
            nodes: vec![0; l.nodes],
            links: vec![0; l.links],
            work: vec![0; l.work],
            labels: vec![0; l.labels],
        }
    }

    pub fn lengths(&self) -> Lengths {
        Lengths {
            control: self.control.len(),
            samples: self.samples.len(),
            nodes: self.nodes.len(),
            links: self.links.len(),
            work: self.work.len(),
            labels: self.labels.len(),
        }
    }

    /// The first so many places of each table.
    pub fn first(&self, l: Lengths) -> Tables {
        Tables {
            control: self.control[..l.control].to_vec(),
            samples: self.samples[..l.samples].to_vec(),
            nodes: self.nodes[..l.nodes].to_vec(),
            links: self.links[..l.links].to_vec(),
            work: self.work[..l.work].to_vec(),
            labels: self.labels[..l.labels].to_vec(),
        }
    }

    /// n, capacity and leaf size as the control record has them.
    pub fn measures(&self) -> Measures {
        Measures { n: self.control[0].into(), capacity: self.control[1].into(), leaf_size: self.control[2].into() }
    }

    fn record(&self, j: usize) -> &[i64] {
        &self.nodes[j * RECORD_PLACES..(j + 1) * RECORD_PLACES]
    }

    // ---- what the tables stand for

    /// The library that well-formed tables hold; nothing if they are not well formed. The tables have the places that their measures need.
    pub fn library(&self) -> Option<Library> {
        let rules = [figures_in_limits, tests_in_limits, each_a_child_once, ends_include_the_parents, each_trace_in_one_leaf];
        self.recorded().filter(|library| rules.iter().all(|rule| rule(library)))
    }

    /// The library as the tables record it, its figures and tests whatever they are; nothing if nodes and lists of traces can't be followed.
    pub fn recorded(&self) -> Option<Library> {
        let measures = self.measures();
        let (k, m) = (usize::from(self.control[3]), usize::from(self.control[4]));
        let (n, c) = (measures.n as usize, measures.capacity as usize);
        // "trace count at most capacity; no node exactly when no trace"; with one trace or more in each leaf there are at most 2c − 1 nodes
        if k > c || (k == 0) != (m == 0) || m > (2 * c).saturating_sub(1) {
            return None;
        }
        let traces: Vec<Trace> = (0..k).map(|t| self.samples[t * n..(t + 1) * n].iter().map(|&word| sample_of(word)).collect()).collect();
        let labels = self.labels[..k].iter().map(|&place| label_at(place)).collect();
        let mut nodes = Vec::new();
        for j in 0..m {
            nodes.push(Node { segments: self.segments(j, n)?, kind: self.kind(j, k, m)? });
        }
        Some(Library { measures, traces, labels, nodes })
    }

    /// "at most 16 ends, rising, last n"
    fn segments(&self, j: usize, n: usize) -> Option<Vec<Segment>> {
        let record = self.record(j);
        let q = record[1];
        if !(1..=16).contains(&q) {
            return None;
        }
        let mut before = 0;
        let mut list = Vec::new();
        for i in 0..q as usize {
            let [end, figures @ ..] = [0, 1, 2, 3, 4].map(|f| record[segment_place(i) + f]);
            if end <= before || end > n as i64 {
                return None;
            }
            let [least_sum, greatest_sum, least_scatter, greatest_scatter] = figures.map(i128::from);
            list.push(Segment { end: end as usize, least_sum, greatest_sum, least_scatter, greatest_scatter });
            before = end;
        }
        (before == n as i64).then_some(list)
    }

    /// "every kind field a value that its layout names"
    fn kind(&self, j: usize, k: usize, m: usize) -> Option<Kind> {
        let record = self.record(j);
        let figure = match record[0] {
            0 => return self.leaf(record[2], k).map(Kind::Leaf),
            1 => Figure::Sum,
            2 => Figure::Scatter,
            _ => return None,
        };
        // "inner children numbered above their parent", and below the node count: they are nodes
        let child = |x: i64| (j as i64 + 1..m as i64).contains(&x).then_some(x as usize);
        let (left, right) = (child(record[2])?, child(record[3])?);
        // a run that begins or ends below 0 is no run of samples
        let [first, last] = RUN.map(|place| usize::try_from(record[place]).ok());
        Some(Kind::Inner { test: Test { figure, first: first?, last: last?, threshold: record[THRESHOLD].into() }, left, right })
    }

    /// A leaf's list by the links: "every trace number in one leaf, rising there, no leaf empty".
    fn leaf(&self, first: i64, k: usize) -> Option<Vec<usize>> {
        if !(0..k as i64).contains(&first) {
            return None;
        }
        let mut numbers = vec![first as usize];
        loop {
            let last = numbers[numbers.len() - 1];
            let next = usize::from(self.links[last]);
            if next == 0 {
                return Some(numbers);
            }
            if next <= last || next >= k {
                return None;
            }
            numbers.push(next);
        }
    }

    // ---- a library laid into tables

    /// The needed parts as opening and adding leave them: places that nothing uses are zero.
    pub fn of(library: &Library) -> Tables {
        let (m, samples) = (library.measures, library.traces.concat().into_iter().map(word_of).collect::<Vec<i32>>());
        let mut t = Tables::blank(needs(m));
        t.control = vec![m.n as u16, m.capacity as u16, m.leaf_size as u16, library.traces.len() as u16, library.nodes.len() as u16];
        t.samples[..samples.len()].copy_from_slice(&samples);
        t.labels.iter_mut().zip(&library.labels).for_each(|(place, &label)| *place = label_place(label));
        for (j, node) in library.nodes.iter().enumerate() {
            let record = &mut t.nodes[j * RECORD_PLACES..(j + 1) * RECORD_PLACES];
            record[1] = node.segments.len() as i64;
            match &node.kind {
                Kind::Leaf(numbers) => {
                    record[2] = numbers[0] as i64;
                    for pair in numbers.windows(2) {
                        t.links[pair[0]] = pair[1] as u16;
                    }
                }
                Kind::Inner { test, left, right } => {
                    record[0] = if test.figure == Figure::Sum { 1 } else { 2 };
                    let fields = [*left as i64, *right as i64, test.first as i64, test.last as i64, test.threshold as i64];
                    record[2..7].copy_from_slice(&fields);
                }
            }
            for (i, s) in node.segments.iter().enumerate() {
                let fields = [s.end as i128, s.least_sum, s.greatest_sum, s.least_scatter, s.greatest_scatter];
                for (f, value) in fields.into_iter().enumerate() {
                    record[segment_place(i) + f] = value as i64;
                }
            }
        }
        t
    }

    // ---- refusals, in the table's order

    /// "control record too short (2); its measures (3); other tables (2); the rest of 3"
    pub fn judge_made(&self) -> Result<Library, Refused> {
        if self.control.len() < CONTROL_FIELDS {
            return Err((2, 0));
        }
        if !self.measures().in_range() {
            return Err((3, 0));
        }
        if short(self.lengths(), self.measures()) {
            return Err((2, 0));
        }
        self.library().ok_or((3, 0))
    }

    /// Adding: then 4, then 15, then 5.
    pub fn judge_adding(&self, trace: &[i32]) -> Result<Library, Refused> {
        let library = self.judge_made()?;
        judge_samples(trace, library.measures.n)?;
        if library.traces.len() as u64 == library.measures.capacity {
            return Err((5, 0));
        }
        Ok(library)
    }

    /// A match: then 4, then 15, then 6, then 7.
    pub fn judge_match(&self, query: &[i32], trail: usize) -> Result<Library, Refused> {
        let library = self.judge_made()?;
        library.judge_query(query, trail)?;
        Ok(library)
    }

    /// The k nearest: "11 bad k, outside 1 to 16, after 3"; then as a match; "a list shorter than k is refused as 7". A list has two places a record.
    pub fn judge_k_nearest(&self, query: &[i32], k: u64, trail: usize, list: usize) -> Result<Library, Refused> {
        let library = self.judge_made()?;
        library.judge_k(query, k, trail, list)?;
        Ok(library)
    }

    /// A match with a limit: "18 no leaves, for L = 0, after 3"; then as a match.
    pub fn judge_within(&self, query: &[i32], most: u64, trail: usize) -> Result<Library, Refused> {
        let library = self.judge_made()?;
        library.judge_limit(query, most, trail)?;
        Ok(library)
    }

    /// A clipped sweep: 4, then 15, of lows and highs; then "19 crossed range, a low above its high, after 15; no trace stored is 6; a list shorter
    /// than the trace count is 7".
    pub fn judge_clipped(&self, lows: &[i32], highs: &[i32], list: usize) -> Result<Library, Refused> {
        let library = self.judge_made()?;
        library.judge_ranges(lows, highs, list)?;
        Ok(library)
    }

    /// A batch: "14 bad batch, for 0 or more than 16 queries, or an answer list of another length than the batch, after 3"; "a run not n times their number
    /// long is 4"; then as a match.
    pub fn judge_batch(&self, run: &[i32], many: usize, trail: usize, list: usize) -> Result<Library, Refused> {
        let library = self.judge_made()?;
        library.judge_queries(run, many, trail, list)?;
        Ok(library)
    }

    /// A report of bands: 4, then 15; then "16 bad edges, wrong count or not rising, after 15; a report list short of one record per band is 7".
    pub fn judge_bands(&self, query: &[i32], edges: &[u64], list: usize) -> Result<Library, Refused> {
        let library = self.judge_made()?;
        library.judge_edges(query, edges, list)?;
        Ok(library)
    }

    /// Writing: then 8.
    pub fn judge_writing(&self, sheet: usize) -> Result<Library, Refused> {
        let library = self.judge_made()?;
        if sheet < sheet::need(&library) {
            return Err((8, 0));
        }
        Ok(library)
    }

    /// A trace's label: then 12.
    pub fn judge_label(&self, number: u64) -> Result<Library, Refused> {
        let library = self.judge_made()?;
        library.judge_number(number)?;
        Ok(library)
    }

    /// An import, and the traces of its file: then 12, then 5.
    pub fn judge_import(&self, file: &[u8]) -> Result<(Library, Vec<Trace>), Refused> {
        let library = self.judge_made()?;
        let traces = library.judge_file(file)?;
        Ok((library, traces))
    }

    /// An export: then 12, then 8.
    pub fn judge_export(&self, number: u64, rate: u64, buffer: usize) -> Result<Library, Refused> {
        let library = self.judge_made()?;
        library.judge_one(number, rate, buffer)?;
        Ok(library)
    }

    /// A check: then "13 loose record, when well-formed tables hold a figure that isn't exactly the recomputed one, last in order".
    pub fn judge_check(&self) -> Result<Library, Refused> {
        let library = self.judge_made()?;
        if !library.is_exact() {
            return Err((13, 0));
        }
        Ok(library)
    }
}

/// A match over two libraries: "The factory's tables are tested first", then the bench's; then as below. The places of the factory's trail come
/// first.
pub fn judge_pair(both: [&Tables; 2], query: &[i32], trails: [usize; 2]) -> Result<[Library; 2], Refused> {
    let factory = both[0].judge_made()?;
    let bench = both[1].judge_made()?;
    factory.judge_both(&bench, query, trails)?;
    Ok([factory, bench])
}

/// What a search, an import and an export refuse by the library alone, once its tables are sound.
impl Library {
    /// "17 unlike libraries, when their n differ, after both pass 3"; then 4, 15; "both empty is 6"; 7 for either trail.
    pub fn judge_both(&self, bench: &Library, query: &[i32], trails: [usize; 2]) -> Result<(), Refused> {
        if self.measures.n != bench.measures.n {
            return Err((17, 0));
        }
        judge_samples(query, self.measures.n)?;
        match () {
            _ if self.traces.is_empty() && bench.traces.is_empty() => Err((6, 0)),
            _ if trails[0] < self.leaves().len() || trails[1] < bench.leaves().len() => Err((7, 0)),
            _ => Ok(()),
        }
    }

    /// 4, then 15, then 6, then 7.
    pub fn judge_query(&self, query: &[i32], trail: usize) -> Result<(), Refused> {
        judge_samples(query, self.measures.n)?;
        match () {
            _ if self.traces.is_empty() => Err((6, 0)),
            _ if trail < self.leaves().len() => Err((7, 0)),
            _ => Ok(()),
        }
    }

    /// 11; then as above; then 7 for a list of fewer than k records.
    pub fn judge_k(&self, query: &[i32], k: u64, trail: usize, list: usize) -> Result<(), Refused> {
        if !(1..=16).contains(&k) {
            return Err((11, 0));
        }
        self.judge_query(query, trail)?;
        if ((list / 2) as u64) < k {
            return Err((7, 0));
        }
        Ok(())
    }

    /// 18; then as a match, 7 by the number of leaves whatever the limit.
    pub fn judge_limit(&self, query: &[i32], most: u64, trail: usize) -> Result<(), Refused> {
        if most == 0 {
            return Err((18, 0));
        }
        self.judge_query(query, trail)
    }

    /// 4, then 15, of either; then 19, then 6, then 7 by all that are stored.
    pub fn judge_ranges(&self, lows: &[i32], highs: &[i32], list: usize) -> Result<(), Refused> {
        match () {
            _ if lows.len() as u64 != self.measures.n || highs.len() as u64 != self.measures.n => Err((4, 0)),
            _ if !within(SAMPLE_LIMIT, lows) || !within(SAMPLE_LIMIT, highs) => Err((15, 0)),
            _ if lows.iter().zip(highs).any(|(low, high)| low > high) => Err((19, 0)),
            _ if self.traces.is_empty() => Err((6, 0)),
            _ if list < self.traces.len() => Err((7, 0)),
            _ => Ok(()),
        }
    }

    /// 14; then 4 for the run, 15 for any of its samples; then 6, then 7.
    pub fn judge_queries(&self, run: &[i32], many: usize, trail: usize, list: usize) -> Result<(), Refused> {
        if !(1..=16).contains(&many) || list != many {
            return Err((14, 0));
        }
        judge_samples(run, self.measures.n * many as u64)?;
        match () {
            _ if self.traces.is_empty() => Err((6, 0)),
            _ if trail < self.leaves().len() => Err((7, 0)),
            _ => Ok(()),
        }
    }

    /// 4, then 15; then 16; then 7 for a list of fewer records than bands. No 6: "An empty library reports zeros."
    pub fn judge_edges(&self, query: &[i32], edges: &[u64], list: usize) -> Result<(), Refused> {
        judge_samples(query, self.measures.n)?;
        match () {
            _ if !(2..=16).contains(&edges.len()) => Err((16, 0)),
            _ if edges.windows(2).any(|pair| pair[0] >= pair[1]) => Err((16, 0)),
            _ if list / 2 < edges.len() - 1 => Err((7, 0)),
            _ => Ok(()),
        }
    }

    /// "12 bad recording, for a file of any other form or length, ..; 5 if not all traces fit"
    pub fn judge_file(&self, file: &[u8]) -> Result<Vec<Trace>, Refused> {
        let (_, traces) = recording::read(self.measures.n, file).ok_or((12, 0))?;
        if (self.traces.len() + traces.len()) as u64 > self.measures.capacity {
            return Err((5, 0));
        }
        Ok(traces)
    }

    /// "one out of range is 12, as in export"
    pub fn judge_number(&self, number: u64) -> Result<(), Refused> {
        if number >= self.traces.len() as u64 {
            return Err((12, 0));
        }
        Ok(())
    }

    /// "12 .. an export rate or trace number out of range, ..; an export buffer too short is 8"; "WAV export refuses wider samples as 12."
    pub fn judge_one(&self, number: u64, rate: u64, buffer: usize) -> Result<(), Refused> {
        match () {
            _ if rate >= 1 << 31 || number >= self.traces.len() as u64 => Err((12, 0)),
            _ if !within(NARROW_LIMIT, &self.traces[number as usize]) => Err((12, 0)),
            _ if buffer < recording::size(self.measures.n) => Err((8, 0)),
            _ => Ok(()),
        }
    }
}

/// A trace or a run of queries: "length not n" (4); then "15 sample range, for an added trace, query .. with a sample outside the limits, after
/// 4".
fn judge_samples(samples: &[i32], length: u64) -> Result<(), Refused> {
    match () {
        _ if samples.len() as u64 != length => Err((4, 0)),
        _ if !within(SAMPLE_LIMIT, samples) => Err((15, 0)),
        _ => Ok(()),
    }
}

/// One of the tables is shorter than these measures need.
fn short(l: Lengths, m: Measures) -> bool {
    let need = needs(m);
    let tree = l.control < need.control || l.samples < need.samples || l.nodes < need.nodes || l.links < need.links;
    tree || l.work < need.work || l.labels < need.labels
}

/// Opening: 1, then 2.
pub fn judge_opening(l: Lengths, m: Measures) -> Result<Library, Refused> {
    if !m.in_range() {
        return Err((1, 0));
    }
    if short(l, m) {
        return Err((2, 0));
    }
    Ok(Library::open(m))
}

/// "Reading: 8; 9 over all blocks; 10; 2", and 15 behind 10
pub fn judge_reading(l: Lengths, bytes: &[u8]) -> Result<Library, Refused> {
    let sheet::Sheet { measures, traces, labels } = sheet::read(bytes)?;
    if short(l, measures) {
        return Err((2, 0));
    }
    Ok(Library::of(measures, &traces).labelled(&labels))
}

/// "least ≤ greatest; sums within w × 32,768 either side of 0, scatters 0 to w² × 2^30". Document 02, §9: "The well-formed limits become w ×
/// 524,288 and w² × 2^38".
fn figures_in_limits(library: &Library) -> bool {
    let inside = |(run, s): ((usize, usize), &Segment)| {
        let w = width(run);
        let sums = -w * SAMPLE_LIMIT <= s.least_sum && s.least_sum <= s.greatest_sum && s.greatest_sum <= w * SAMPLE_LIMIT;
        let scatters = 0 <= s.least_scatter && s.least_scatter <= s.greatest_scatter && s.greatest_scatter <= w * w * (1 << 38);
        sums && scatters
    };
    library.nodes.iter().all(|node| runs(&node.ends()).into_iter().zip(&node.segments).all(inside))
}

/// "T between twice those limits, on a run inside 1 to n"; by scatter (document 02, §9) "2 × w × 524,288"
fn tests_in_limits(library: &Library) -> bool {
    library.nodes.iter().all(|node| match &node.kind {
        Kind::Leaf(_) => true,
        Kind::Inner { test, .. } => {
            if test.first < 1 || test.last < test.first || test.last as u64 > library.measures.n {
                return false;
            }
            let w = width((test.first, test.last));
            match test.figure {
                Figure::Sum => (-2 * w * SAMPLE_LIMIT..=2 * w * SAMPLE_LIMIT).contains(&test.threshold),
                Figure::Scatter => (0..=2 * w * SAMPLE_LIMIT).contains(&test.threshold),
            }
        }
    })
}

/// "every node but 0 a child once"
fn each_a_child_once(library: &Library) -> bool {
    let mut times = vec![0; library.nodes.len()];
    for node in &library.nodes {
        if let Kind::Inner { left, right, .. } = node.kind {
            times[left] += 1;
            times[right] += 1;
        }
    }
    times.iter().skip(1).all(|&x| x == 1)
}

/// "a child's ends including its parent's"
fn ends_include_the_parents(library: &Library) -> bool {
    library.nodes.iter().all(|node| match node.kind {
        Kind::Leaf(_) => true,
        Kind::Inner { left, right, .. } => [left, right].iter().all(|&child| node.ends().iter().all(|end| library.nodes[child].ends().contains(end))),
    })
}

/// "every trace number in one leaf"
fn each_trace_in_one_leaf(library: &Library) -> bool {
    let mut times = vec![0; library.traces.len()];
    for node in &library.nodes {
        if let Kind::Leaf(numbers) = &node.kind {
            for &t in numbers {
                times[t] += 1;
            }
        }
    }
    times.iter().all(|&x| x == 1)
}
