//! Documents 01 and 02 once more, word for word, in plain Rust: no lent table, no cleverness, numbers of 128 bits.
//!
//! It shares no line with the proved code. Tests compare the two; where they differ, document 01 says who is right. [`tables`] reads the lent tables by
//! the layout of `docs/LAYOUT.md` and says what document 01's table refuses of them; [`sheet`] has sheets and the line that the program prints,
//! [`recording`] has recordings.

pub mod recording;
pub mod sheet;
pub mod tables;

use std::collections::BTreeSet;

/// A trace is n samples. Document 02, §9: "The long bed's converter gives −524,288 to 524,287."
pub type Trace = Vec<i32>;

/// The sample limit: samples lie from its negative to below it.
pub const SAMPLE_LIMIT: i128 = 524_288;

/// What 16 bits hold, likewise.
pub const NARROW_LIMIT: i128 = 32_768;

/// Whether all samples of a trace lie within a limit.
pub fn within(limit: i128, trace: &[i32]) -> bool {
    trace.iter().all(|&x| (-limit..limit).contains(&x.into()))
}

/// A refusal: its number and its place.
pub type Refused = (u64, u64);

/// Document 02, §8: "Each trace gets a 16-bit fault code and a 32-bit machine serial, given when it is added, and zero from callers that
/// give neither."
#[derive(Clone, Copy, Debug, Default, PartialEq, Eq)]
pub struct Label {
    pub code: u16,
    pub serial: u32,
}

/// n, capacity and leaf size.
#[derive(Clone, Copy, Debug, PartialEq, Eq)]
pub struct Measures {
    pub n: u64,
    pub capacity: u64,
    pub leaf_size: u64,
}

impl Measures {
    /// "n from 1 to 256. Capacity is 1 to 4,096 traces, leaf size 1 to 64."
    pub fn in_range(&self) -> bool {
        (1..=256).contains(&self.n) && (1..=4096).contains(&self.capacity) && (1..=64).contains(&self.leaf_size)
    }
}

// ---- sum, scatter, root

/// "Its sum is s."
pub fn sum(run: &[i32]) -> i128 {
    run.iter().map(|&x| i128::from(x)).sum()
}

/// "Its scatter is V = w × (sum of squares) − s²."
pub fn scatter(run: &[i32]) -> i128 {
    let squares: i128 = run.iter().map(|&x| i128::from(x) * i128::from(x)).sum();
    run.len() as i128 * squares - sum(run) * sum(run)
}

/// "The floor root of V is the largest whole r with r² ≤ V."
pub fn floor_root(v: i128) -> i128 {
    assert!(v >= 0);
    let (mut low, mut high) = (0, v + 1);
    while high - low > 1 {
        let middle = (low + high) / 2;
        if middle * middle <= v {
            low = middle;
        } else {
            high = middle;
        }
    }
    low
}

/// "The ceiling root is the least r with r² ≥ V."
pub fn ceiling_root(v: i128) -> i128 {
    let r = floor_root(v);
    if r * r >= v {
        r
    } else {
        r + 1
    }
}

/// "Distance is the sum of squared differences, never its root."
pub fn distance(a: &[i32], b: &[i32]) -> i128 {
    assert_eq!(a.len(), b.len());
    a.iter().zip(b).map(|(&x, &y)| (i128::from(x) - i128::from(y)).pow(2)).sum()
}

/// A distance with a limit.
#[derive(Clone, Copy, Debug, PartialEq, Eq)]
pub enum Within {
    Exact(i128),
    Beyond(usize),
}

/// Document 02, §5: "gives the exact distance when that is at most the limit, else "beyond" and how many samples it took, the fewest from the first on whose
/// squared differences total more than the limit".
pub fn distance_within(a: &[i32], b: &[i32], limit: i128) -> Within {
    match (1..=a.len()).find(|&taken| distance(&a[..taken], &b[..taken]) > limit) {
        Some(taken) => Within::Beyond(taken),
        None => Within::Exact(distance(a, b)),
    }
}

/// Document 02, §13: "we know a sample only as lying between two figures". "Each stored trace has a least and a greatest possible distance, summed
/// sample by sample": the least of a sample is what is missing to either figure, none between them, the greatest what lies to the farther one.
pub fn possible_distances(trace: &[i32], lows: &[i32], highs: &[i32]) -> (i128, i128) {
    assert_eq!((trace.len(), trace.len()), (lows.len(), highs.len()));
    let mut sums = (0, 0);
    for ((&x, &low), &high) in trace.iter().zip(lows).zip(highs) {
        let (above_low, below_high) = (i128::from(x) - i128::from(low), i128::from(high) - i128::from(x));
        sums.0 += (-above_low).max(-below_high).max(0).pow(2);
        sums.1 += above_low.abs().max(below_high.abs()).pow(2);
    }
    sums
}

// ---- a node's record

/// What a test looks at.
#[derive(Clone, Copy, Debug, PartialEq, Eq)]
pub enum Figure {
    Sum,
    Scatter,
}

impl Figure {
    /// What a test compares, of a trace's samples on its run: "From now on a scatter test compares floor roots" (document 02, §4).
    pub fn of(self, run: &[i32]) -> i128 {
        match self {
            Figure::Sum => sum(run),
            Figure::Scatter => floor_root(scatter(run)),
        }
    }
}

/// "a run of samples, sum or scatter, and a threshold T". Samples are numbered from 1.
#[derive(Clone, Debug, PartialEq, Eq)]
pub struct Test {
    pub figure: Figure,
    pub first: usize,
    pub last: usize,
    pub threshold: i128,
}

impl Test {
    /// "A trace goes left if twice its figure is at most T, else right": by scatter, "if twice its own floor root is at most T".
    pub fn goes_left(&self, trace: &[i32]) -> bool {
        2 * self.figure.of(&trace[self.first - 1..self.last]) <= self.threshold
    }
}

/// A segment by its right end, with "the least and greatest sum and scatter of the traces below".
#[derive(Clone, Debug, PartialEq, Eq)]
pub struct Segment {
    pub end: usize,
    pub least_sum: i128,
    pub greatest_sum: i128,
    pub least_scatter: i128,
    pub greatest_scatter: i128,
}

#[derive(Clone, Debug, PartialEq, Eq)]
pub enum Kind {
    /// "A leaf holds trace numbers, rising."
    Leaf(Vec<usize>),
    /// "An inner node has two children and a test."
    Inner { test: Test, left: usize, right: usize },
}

#[derive(Clone, Debug, PartialEq, Eq)]
pub struct Node {
    pub segments: Vec<Segment>,
    pub kind: Kind,
}

impl Node {
    pub fn ends(&self) -> Vec<usize> {
        self.segments.iter().map(|s| s.end).collect()
    }

    pub fn is_leaf(&self) -> bool {
        matches!(self.kind, Kind::Leaf(_))
    }
}

/// First and last sample of each segment, from 1.
pub fn runs(ends: &[usize]) -> Vec<(usize, usize)> {
    let mut first = 1;
    ends.iter()
        .map(|&end| {
            let run = (first, end);
            first = end + 1;
            run
        })
        .collect()
}

/// How many samples a run has.
pub fn width(run: (usize, usize)) -> i128 {
    (run.1 - run.0 + 1) as i128
}

fn part(trace: &[i32], run: (usize, usize)) -> &[i32] {
    &trace[run.0 - 1..run.1]
}

fn least(figures: &[i128]) -> i128 {
    *figures.iter().min().expect("no leaf is empty")
}

fn greatest(figures: &[i128]) -> i128 {
    *figures.iter().max().expect("no leaf is empty")
}

fn figures(of: impl Fn(&[i32]) -> i128, run: (usize, usize), traces: &[&[i32]]) -> Vec<i128> {
    traces.iter().map(|t| of(part(t, run))).collect()
}

/// The segments with these ends, of these traces.
pub fn segments_of(ends: &[usize], traces: &[&[i32]]) -> Vec<Segment> {
    runs(ends)
        .into_iter()
        .map(|run| {
            let sums = figures(sum, run, traces);
            let scatters = figures(scatter, run, traces);
            Segment {
                end: run.1,
                least_sum: least(&sums),
                greatest_sum: greatest(&sums),
                least_scatter: least(&scatters),
                greatest_scatter: greatest(&scatters),
            }
        })
        .collect()
}

/// "A node's spread is the total over its segments of ((greatest sum − least sum)² + greatest scatter) / w, each term rounded down, from its own traces."
pub fn spread(ends: &[usize], traces: &[&[i32]]) -> i128 {
    runs(ends)
        .into_iter()
        .map(|run| {
            let sums = figures(sum, run, traces);
            let scatters = figures(scatter, run, traces);
            let term = (greatest(&sums) - least(&sums)).pow(2) + greatest(&scatters);
            term.div_euclid(width(run))
        })
        .sum()
}

// ---- adding

/// A way to split a leaf: the children's ends, and what is tested.
#[derive(Clone, Debug, PartialEq, Eq)]
pub struct Candidate {
    pub ends: Vec<usize>,
    pub figure: Figure,
    pub run: (usize, usize),
}

/// "Candidates for each segment, left to right, in this order"
pub fn candidates(ends: &[usize]) -> Vec<Candidate> {
    let mut list = Vec::new();
    for run in runs(ends) {
        for figure in [Figure::Sum, Figure::Scatter] {
            list.push(Candidate { ends: ends.to_vec(), figure, run });
        }
        let w = run.1 - run.0 + 1;
        if ends.len() < 16 && w >= 2 {
            let middle = run.0 + w / 2 - 1;
            let mut cut = ends.to_vec();
            cut.push(middle);
            cut.sort_unstable();
            for half in [(run.0, middle), (middle + 1, run.1)] {
                for figure in [Figure::Sum, Figure::Scatter] {
                    list.push(Candidate { ends: cut.clone(), figure, run: half });
                }
            }
        }
    }
    list
}

/// A candidate that parts the leaf.
#[derive(Clone, Debug, PartialEq, Eq)]
pub struct Split {
    pub ends: Vec<usize>,
    pub test: Test,
    pub left: Vec<usize>,
    pub right: Vec<usize>,
    pub gain: i128,
}

/// Measures, traces in the order added with a label each, and the tree.
#[derive(Clone, Debug, PartialEq, Eq)]
pub struct Library {
    pub measures: Measures,
    pub traces: Vec<Trace>,
    pub labels: Vec<Label>,
    pub nodes: Vec<Node>,
}

/// What a match answers, with its trail.
#[derive(Clone, Debug, PartialEq, Eq)]
pub struct Match {
    pub trace: usize,
    pub distance: i128,
    pub leaves: usize,
    pub traces: usize,
    pub trail: Vec<usize>,
}

/// What a search for the k nearest answers, with its trail.
#[derive(Clone, Debug, PartialEq, Eq)]
pub struct KNearest {
    /// Traces and distances.
    pub list: Vec<(usize, i128)>,
    pub leaves: usize,
    pub traces: usize,
    pub trail: Vec<usize>,
}

/// What a batch answers, with its trail.
#[derive(Clone, Debug, PartialEq, Eq)]
pub struct Batch {
    /// Traces and distances, one of each query.
    pub answers: Vec<(usize, i128)>,
    pub trail: Vec<usize>,
}

/// What a match over two libraries answers, with both trails. Of the two the factory's comes first.
#[derive(Clone, Debug, PartialEq, Eq)]
pub struct Pair {
    /// 0 for the factory's, 1 for the bench's.
    pub library: usize,
    pub trace: usize,
    pub distance: i128,
    /// Over both.
    pub leaves: usize,
    pub traces: usize,
    pub trails: [Vec<usize>; 2],
}

/// What a match with a limit on leaves answers.
#[derive(Clone, Debug, PartialEq, Eq)]
pub struct Limited {
    /// The match where it is settled, else the best so far.
    pub best: Match,
    /// The bound of the first unread leaf; none where it is settled.
    pub unread: Option<i128>,
}

/// A band of a report: how many traces are sure, and how many possible.
pub type Band = (usize, usize);

impl Library {
    /// "An empty library has no node".
    pub fn open(measures: Measures) -> Library {
        Library { measures, traces: Vec::new(), labels: Vec::new(), nodes: Vec::new() }
    }

    /// The library that these traces make, added in order.
    pub fn of(measures: Measures, traces: &[Trace]) -> Library {
        let mut library = Library::open(measures);
        for trace in traces {
            library.add(trace);
        }
        library
    }

    /// .. with these labels.
    pub fn labelled(self, labels: &[Label]) -> Library {
        assert_eq!(labels.len(), self.traces.len());
        Library { labels: labels.to_vec(), ..self }
    }

    fn named(&self, numbers: &[usize]) -> Vec<&[i32]> {
        numbers.iter().map(|&t| self.traces[t].as_slice()).collect()
    }

    fn numbers(&self, leaf: usize) -> &[usize] {
        match &self.nodes[leaf].kind {
            Kind::Leaf(numbers) => numbers,
            Kind::Inner { .. } => panic!("node {leaf} is no leaf"),
        }
    }

    /// "the traces below", by the leaves' lists.
    pub fn below(&self, node: usize) -> Vec<usize> {
        match &self.nodes[node].kind {
            Kind::Leaf(numbers) => numbers.clone(),
            Kind::Inner { left, right, .. } => [self.below(*left), self.below(*right)].concat(),
        }
    }

    /// "recomputes every least and greatest sum and scatter from the traces below": whether each recorded one is exactly that.
    pub fn is_exact(&self) -> bool {
        let exact = |(j, node): (usize, &Node)| node.segments == segments_of(&node.ends(), &self.named(&self.below(j)));
        self.nodes.iter().enumerate().all(exact)
    }

    /// Adds a trace that nothing refuses, with no label; its number is the answer.
    pub fn add(&mut self, trace: &[i32]) -> usize {
        self.add_labelled(trace, Label::default())
    }

    /// .. with a label.
    pub fn add_labelled(&mut self, trace: &[i32], label: Label) -> usize {
        let number = self.traces.len();
        self.traces.push(trace.to_vec());
        self.labels.push(label);
        if self.nodes.is_empty() {
            // "its first trace makes leaf 0 with one segment"
            let segments = segments_of(&[self.measures.n as usize], &[trace]);
            self.nodes.push(Node { segments, kind: Kind::Leaf(vec![number]) });
            return number;
        }
        let joined = self.join(trace, number);
        // "New leaves above the leaf size split likewise, lowest number first."
        let mut waiting = BTreeSet::from([joined]);
        while let Some(leaf) = waiting.pop_first() {
            if self.numbers(leaf).len() as u64 > self.measures.leaf_size {
                if let Some(split) = self.best_split(leaf) {
                    waiting.extend(self.split(leaf, split));
                }
            }
        }
        number
    }

    /// "the trace goes down by the tests, widening least and greatest at every node it meets, the leaf too, moving no threshold, and joins a leaf"
    fn join(&mut self, trace: &[i32], number: usize) -> usize {
        let mut at = 0;
        loop {
            let node = &mut self.nodes[at];
            for (run, segment) in runs(&node.ends()).into_iter().zip(&mut node.segments) {
                let (s, v) = (sum(part(trace, run)), scatter(part(trace, run)));
                segment.least_sum = segment.least_sum.min(s);
                segment.greatest_sum = segment.greatest_sum.max(s);
                segment.least_scatter = segment.least_scatter.min(v);
                segment.greatest_scatter = segment.greatest_scatter.max(v);
            }
            match &mut node.kind {
                Kind::Leaf(numbers) => {
                    numbers.push(number);
                    return at;
                }
                Kind::Inner { test, left, right } => at = if test.goes_left(trace) { *left } else { *right },
            }
        }
    }

    /// The test of a candidate for a leaf: "T is the least plus the greatest figure among the leaf's traces"; by scatter (document 02, §4) "T is the floor
    /// root of the least scatter plus that of the greatest".
    fn test_of(&self, leaf: usize, candidate: &Candidate) -> Test {
        let all = figures(|run| candidate.figure.of(run), candidate.run, &self.named(self.numbers(leaf)));
        Test { figure: candidate.figure, first: candidate.run.0, last: candidate.run.1, threshold: least(&all) + greatest(&all) }
    }

    /// Document 02, §3: whether a leaf's traces show both sides of a candidate's test, and how many the walk took: "the fewest first ones that show both
    /// sides, or all when none do."
    pub fn walk(&self, leaf: usize, candidate: &Candidate) -> (bool, usize) {
        let test = self.test_of(leaf, candidate);
        let sides: Vec<bool> = self.named(self.numbers(leaf)).into_iter().map(|t| test.goes_left(t)).collect();
        let shown = |taken: &usize| sides[..*taken].contains(&true) && sides[..*taken].contains(&false);
        match (0..=sides.len()).find(shown) {
            Some(taken) => (true, taken),
            None => (false, sides.len()),
        }
    }

    /// What a candidate does to a leaf, if "both sides receive a trace".
    pub fn try_candidate(&self, leaf: usize, candidate: &Candidate) -> Option<Split> {
        let numbers = self.numbers(leaf).to_vec();
        let test = self.test_of(leaf, candidate);
        let (left, right): (Vec<usize>, Vec<usize>) = numbers.iter().partition(|&&t| test.goes_left(&self.traces[t]));
        if left.is_empty() || right.is_empty() {
            return None;
        }
        // "twice the leaf's spread less both children's. Children use the cut segments."
        let gain = 2 * spread(&self.nodes[leaf].ends(), &self.named(&numbers))
            - spread(&candidate.ends, &self.named(&left))
            - spread(&candidate.ends, &self.named(&right));
        Some(Split { ends: candidate.ends.clone(), test, left, right, gain })
    }

    /// "Among the candidates that part the leaf the greatest gain wins, the earliest among equals."
    pub fn best_split(&self, leaf: usize) -> Option<Split> {
        let mut best: Option<Split> = None;
        for candidate in candidates(&self.nodes[leaf].ends()) {
            if let Some(split) = self.try_candidate(leaf, &candidate) {
                if best.as_ref().is_none_or(|b| split.gain > b.gain) {
                    best = Some(split);
                }
            }
        }
        best
    }

    /// "The leaf keeps its number and becomes inner; left, then right child take the next two numbers."
    fn split(&mut self, leaf: usize, split: Split) -> [usize; 2] {
        let children = [self.nodes.len(), self.nodes.len() + 1];
        for numbers in [split.left, split.right] {
            let segments = segments_of(&split.ends, &self.named(&numbers));
            self.nodes.push(Node { segments, kind: Kind::Leaf(numbers) });
        }
        self.nodes[leaf].kind = Kind::Inner { test: split.test, left: children[0], right: children[1] };
        children
    }

    /// Leaf numbers, rising.
    pub fn leaves(&self) -> Vec<usize> {
        (0..self.nodes.len()).filter(|&j| self.nodes[j].is_leaf()).collect()
    }

    // ---- matching

    /// "The node's own bound totals (g² + h²) / w, each rounded up."
    pub fn own_bound(&self, node: usize, query: &[i32]) -> i128 {
        self.total(node, query, |segment, w, t, u| {
            let (g, h) = gaps(segment, t, u);
            -(-(g * g + h * h)).div_euclid(w)
        })
    }

    /// Document 02, §10: "A node's upper figure totals, per segment, (G² + (ceiling root of greatest scatter + ceiling root of U)²) / w rounded down, with
    /// G the larger distance from t to the least or greatest sum"
    pub fn own_upper(&self, node: usize, query: &[i32]) -> i128 {
        self.total(node, query, |segment, w, t, u| {
            let g = (t - segment.least_sum).abs().max((t - segment.greatest_sum).abs());
            let h = ceiling_root(segment.greatest_scatter) + ceiling_root(u);
            (g * g + h * h).div_euclid(w)
        })
    }

    /// The total over a node's segments of a term of the segment, its width w, and the query's sum t and scatter U on it.
    fn total(&self, node: usize, query: &[i32], term: impl Fn(&Segment, i128, i128, i128) -> i128) -> i128 {
        let node = &self.nodes[node];
        let terms = runs(&node.ends()).into_iter().zip(&node.segments).map(|(run, segment)| {
            let run_of_query = part(query, run);
            term(segment, width(run), sum(run_of_query), scatter(run_of_query))
        });
        terms.sum()
    }

    /// "A node's bound is the greatest own bound from node 0 down to it."
    pub fn bounds(&self, query: &[i32]) -> Vec<i128> {
        self.down_the_tree((0..self.nodes.len()).map(|j| self.own_bound(j, query)).collect(), i128::max)
    }

    /// Document 02, §10: "the smallest on the path counts"
    pub fn uppers(&self, query: &[i32]) -> Vec<i128> {
        self.down_the_tree((0..self.nodes.len()).map(|j| self.own_upper(j, query)).collect(), i128::min)
    }

    /// Document 02, §10: "For each band from one edge up to but not including the next, it says how many traces surely lie in it and how many may."
    /// "A leaf's traces are sure when bound and upper figure both lie in the band, possible when the bound is below the band's end and the upper
    /// figure not below its start." "An empty library reports zeros."
    pub fn bands(&self, query: &[i32], edges: &[u64]) -> Vec<Band> {
        let (bounds, uppers) = (self.bounds(query), self.uppers(query));
        let traces = |counts: &dyn Fn(i128, i128) -> bool| {
            let leaves = self.leaves().into_iter().filter(|&j| counts(bounds[j], uppers[j]));
            leaves.map(|j| self.numbers(j).len()).sum()
        };
        let band = |pair: &[u64]| {
            let (start, end) = (i128::from(pair[0]), i128::from(pair[1]));
            let lies = |figure: i128| start <= figure && figure < end;
            (traces(&|bound, upper| lies(bound) && lies(upper)), traces(&|bound, upper| bound < end && upper >= start))
        };
        edges.windows(2).map(band).collect()
    }

    /// Of each node's own figures, the one that counts among those from node 0 down to it.
    fn down_the_tree(&self, mut figures: Vec<i128>, counts: fn(i128, i128) -> i128) -> Vec<i128> {
        for j in 0..self.nodes.len() {
            // children are numbered above their parent, so that a parent's figure stands when its children's are taken
            if let Kind::Inner { left, right, .. } = self.nodes[j].kind {
                figures[left] = counts(figures[left], figures[j]);
                figures[right] = counts(figures[right], figures[j]);
            }
        }
        figures
    }

    /// All leaves "by bound, then by number".
    pub fn reading_order(&self, bounds: &[i128]) -> Vec<usize> {
        let mut order = self.leaves();
        order.sort_by_key(|&j| (bounds[j], j));
        order
    }

    /// "Leaves are read by bound, then by number, until the next bound is above the best distance found." That is the search for one.
    pub fn nearest(&self, query: &[i32]) -> Option<Match> {
        let KNearest { list, leaves, traces, trail } = self.k_nearest(query, 1);
        list.first().map(|&(trace, distance)| Match { trace, distance, leaves, traces, trail })
    }

    /// Document 02, §12: "The leaves read are the first L of the full trail, or all of it. Each leaf counts once against the limit, and the answer
    /// carries that count. If the whole trail was read the answer is settled and is the match. Else it is the best so far, with the bound of the
    /// first unread leaf". There is one where a trace is stored, "L at least 1".
    pub fn match_within(&self, query: &[i32], most: u64) -> Option<Limited> {
        let full = self.nearest(query)?;
        let Some(&unread) = usize::try_from(most).ok().and_then(|most| full.trail.get(most)) else {
            return Some(Limited { best: full, unread: None });
        };
        let trail = full.trail[..most as usize].to_vec();
        let read = || trail.iter().flat_map(|&leaf| self.numbers(leaf));
        let (distance, trace) = read().map(|&t| (distance(&self.traces[t], query), t)).min()?;
        let best = Match { trace, distance, leaves: trail.len(), traces: read().count(), trail };
        Some(Limited { best, unread: Some(self.bounds(query)[unread]) })
    }

    /// Document 02, §13: "List, by number, and count every trace whose least is no more than the smallest greatest among all stored." There is one
    /// where a trace is stored.
    pub fn match_clipped(&self, lows: &[i32], highs: &[i32]) -> Option<Vec<usize>> {
        let possible: Vec<(i128, i128)> = self.traces.iter().map(|trace| possible_distances(trace, lows, highs)).collect();
        let smallest = possible.iter().map(|&(_, greatest)| greatest).min()?;
        Some((0..possible.len()).filter(|&t| possible[t].0 <= smallest).collect())
    }

    /// Document 02, §8: "a match whose answer adds the fault code and nothing else".
    pub fn remote_match(&self, query: &[i32]) -> Option<(Match, u16)> {
        self.nearest(query).map(|found| (found.clone(), self.labels[found.trace].code))
    }

    /// Document 02, §1: "lists the k nearest traces by distance, then number; a smaller library lists all it has". "Leaves are read in the match's order,
    /// with its trail and counts, until the next bound is above the k-th best distance read". "the list is the nearest of the traces read".
    pub fn k_nearest(&self, query: &[i32], k: usize) -> KNearest {
        let bounds = self.bounds(query);
        // distances and numbers, rising
        let mut read: Vec<(i128, usize)> = Vec::new();
        let mut trail = Vec::new();
        for leaf in self.reading_order(&bounds) {
            if k <= read.len() && bounds[leaf] > read[k - 1].0 {
                break;
            }
            trail.push(leaf);
            read.extend(self.numbers(leaf).iter().map(|&t| (distance(&self.traces[t], query), t)));
            read.sort();
        }
        let list = read.iter().take(k).map(|&(distance, trace)| (trace, distance)).collect();
        KNearest { list, leaves: trail.len(), traces: read.len(), trail }
    }

    /// Document 02, §7: "the leaves read are exactly those that at least one query alone would read"; the answers "with trace and distance as if matched
    /// alone"; "The trail lists the leaves read by rising number". There is one where a trace is stored.
    pub fn batch(&self, queries: &[&[i32]]) -> Option<Batch> {
        let alone: Option<Vec<Match>> = queries.iter().map(|query| self.nearest(query)).collect();
        let alone = alone?;
        let trail: BTreeSet<usize> = alone.iter().flat_map(|found| found.trail.iter().copied()).collect();
        Some(Batch { answers: alone.iter().map(|found| (found.trace, found.distance)).collect(), trail: trail.into_iter().collect() })
    }

    /// The program's own steps, on any well-formed tables: query after query, each in the match's order until the next bound is above its best distance. A
    /// leaf that is read is read for all queries at once, and never again.
    pub fn batch_by_steps(&self, queries: &[&[i32]]) -> Option<Batch> {
        let mut trail: BTreeSet<usize> = BTreeSet::new();
        let best = |trail: &BTreeSet<usize>, query: &[i32]| {
            let numbers = trail.iter().flat_map(|&leaf| self.numbers(leaf));
            numbers.map(|&t| (distance(&self.traces[t], query), t)).min().map(|(distance, trace)| (trace, distance))
        };
        for query in queries {
            let bounds = self.bounds(query);
            for leaf in self.reading_order(&bounds) {
                if best(&trail, query).is_some_and(|(_, distance)| bounds[leaf] > distance) {
                    break;
                }
                trail.insert(leaf);
            }
        }
        let answers: Option<Vec<(usize, i128)>> = queries.iter().map(|query| best(&trail, query)).collect();
        Some(Batch { answers: answers?, trail: trail.into_iter().collect() })
    }
}

/// Document 02, §11: "nearest of all, the factory's on equal distance, then the lower number"; "In each library the leaves read are those with a
/// bound at most the joint distance. Each has its own trail, by bound, then number; counts are over both." There is one where a trace is stored.
pub fn pair(both: [&Library; 2], query: &[i32]) -> Option<Pair> {
    let stored = |which: usize| both[which].traces.iter().enumerate().map(move |(t, trace)| (distance(trace, query), which, t));
    let nearest = stored(0).chain(stored(1)).min()?;
    let trails = both.map(|library| {
        let bounds = library.bounds(query);
        let mut read = library.reading_order(&bounds);
        read.retain(|&leaf| bounds[leaf] <= nearest.0);
        read
    });
    Some(paired(both, nearest, trails))
}

/// The program's own steps, on any well-formed tables: of the two next leaves the one with the lower bound is read, of equal ones the factory's, until
/// no bound is within the best distance found in either.
pub fn pair_by_steps(both: [&Library; 2], query: &[i32]) -> Option<Pair> {
    let bounds = both.map(|library| library.bounds(query));
    let orders = [0, 1].map(|which: usize| both[which].reading_order(&bounds[which]));
    let mut trails = [Vec::new(), Vec::new()];
    let mut best: Option<(i128, usize, usize)> = None;
    loop {
        let ahead = |which: usize| orders[which].get(trails[which].len()).map(|&leaf| (bounds[which][leaf], which, leaf));
        match ahead(0).into_iter().chain(ahead(1)).min() {
            Some((bound, which, leaf)) if best.is_none_or(|(distance, ..)| bound <= distance) => {
                let numbers = both[which].numbers(leaf).iter();
                let read = numbers.map(|&t| (distance(&both[which].traces[t], query), which, t));
                best = read.chain(best).min();
                trails[which].push(leaf);
            }
            _ => break,
        }
    }
    best.map(|nearest| paired(both, nearest, trails))
}

fn paired(both: [&Library; 2], (distance, library, trace): (i128, usize, usize), trails: [Vec<usize>; 2]) -> Pair {
    let held = |which: usize| trails[which].iter().map(|&leaf| both[which].numbers(leaf).len()).sum::<usize>();
    Pair { library, trace, distance, leaves: trails[0].len() + trails[1].len(), traces: held(0) + held(1), trails }
}

/// "g is the distance from t to [least sum, greatest sum]; h is the largest of 0, floor root of least scatter − ceiling root of U, and floor root of U −
/// ceiling root of greatest scatter."
pub fn gaps(segment: &Segment, t: i128, u: i128) -> (i128, i128) {
    let g = (segment.least_sum - t).max(t - segment.greatest_sum).max(0);
    let below = floor_root(segment.least_scatter) - ceiling_root(u);
    let above = floor_root(u) - ceiling_root(segment.greatest_scatter);
    (g, below.max(above).max(0))
}

/// How many traces lie in each band, by their distances.
pub fn in_bands(traces: &[Trace], query: &[i32], edges: &[u64]) -> Vec<usize> {
    let lies = |pair: &[u64], d: i128| i128::from(pair[0]) <= d && d < i128::from(pair[1]);
    edges.windows(2).map(|pair| traces.iter().filter(|trace| lies(pair, distance(trace, query))).count()).collect()
}

/// Every trace with its distance, by distance, then number: the first is the nearest, the lowest number among equals.
pub fn scan(traces: &[Trace], query: &[i32]) -> Vec<(usize, i128)> {
    let mut all: Vec<(usize, i128)> = traces.iter().map(|trace| distance(trace, query)).enumerate().collect();
    all.sort_by_key(|&(t, d)| (d, t));
    all
}

#[cfg(test)]
mod tests {
    use super::*;

    fn example() -> Library {
        let m = Measures { n: 4, capacity: 8, leaf_size: 2 };
        Library::of(m, &[vec![0, 0, 0, 0], vec![4, 4, 4, 4], vec![0, 8, 0, 8]])
    }

    #[test]
    fn figures_of_the_examples() {
        assert_eq!((sum(&[0, 8, 0, 8]), scatter(&[0, 8, 0, 8])), (16, 256));
        let library = example();
        assert_eq!(spread(&[4], &library.named(&[0, 1, 2])), 128);
        let mut unsplit = Library::of(Measures { n: 4, capacity: 8, leaf_size: 3 }, &library.traces);
        unsplit.measures.leaf_size = 2;
        let gains: Vec<i128> = candidates(&[4]).iter().filter_map(|c| unsplit.try_candidate(0, c)).map(|s| s.gain).collect();
        assert_eq!(gains, [192, 128, 192, 128, 192, 128]);
        let Kind::Inner { test, left: 1, right: 2 } = &library.nodes[0].kind else { panic!() };
        assert_eq!((test.figure, test.threshold), (Figure::Sum, 16));
        assert_eq!((library.numbers(1), library.numbers(2)), (&[0][..], &[1, 2][..]));
    }

    #[test]
    fn matches_of_the_examples() {
        let library = example();
        let found = |q: [i32; 4]| library.nearest(&q).unwrap();
        assert_eq!(library.bounds(&[1, 1, 1, 1])[1..], [4, 36]);
        assert_eq!(found([1, 1, 1, 1]), Match { trace: 0, distance: 4, leaves: 1, traces: 1, trail: vec![1] });
        assert_eq!(found([2, 2, 2, 2]), Match { trace: 0, distance: 16, leaves: 2, traces: 3, trail: vec![1, 2] });
        assert_eq!(found([4, 4, 4, 4]), Match { trace: 1, distance: 0, leaves: 1, traces: 2, trail: vec![2] });
        let three = Library::of(Measures { n: 3, capacity: 1, leaf_size: 1 }, &[vec![0, 0, 0]]);
        assert_eq!(three.bounds(&[1, 0, 0]), [1]);
        let pair = Library::of(Measures { n: 4, capacity: 2, leaf_size: 1 }, &[vec![1, 2, 1, 2], vec![2, 1, 2, 1]]);
        assert_eq!(pair.nodes.len(), 1);
        assert_eq!(distance(&[-32_768; 256], &[32_767; 256]), 1_099_478_073_600);
        // "the largest distance becomes 281,474,439,840,000"
        assert_eq!(distance(&[-524_288; 256], &[524_287; 256]), 281_474_439_840_000);
    }

    #[test]
    fn lists_of_the_examples() {
        let library = example();
        let found = |k| library.k_nearest(&[2, 2, 2, 2], k);
        assert_eq!(found(1), KNearest { list: vec![(0, 16)], leaves: 2, traces: 3, trail: vec![1, 2] });
        assert_eq!(found(2).list, [(0, 16), (1, 16)]);
        assert_eq!(found(3).list, [(0, 16), (1, 16), (2, 80)]);
        assert_eq!(found(16), found(3));
        assert_eq!(library.k_nearest(&[4, 4, 4, 4], 2), KNearest { list: vec![(1, 0), (0, 64)], leaves: 2, traces: 3, trail: vec![2, 1] });
    }

    #[test]
    fn distances_with_a_limit() {
        let within = |limit| distance_within(&[0, 0], &[2, 2], limit);
        assert_eq!([within(0), within(3), within(4)], [Within::Beyond(1), Within::Beyond(1), Within::Beyond(2)]);
        assert_eq!([within(7), within(8), within(9)], [Within::Beyond(2), Within::Exact(8), Within::Exact(8)]);
        assert_eq!(distance_within(&[5], &[5], 0), Within::Exact(0));
    }

    #[test]
    fn batches_of_the_examples() {
        let library = example();
        let both = |queries: &[&[i32]]| {
            assert_eq!(library.batch(queries), library.batch_by_steps(queries));
            library.batch(queries)
        };
        assert_eq!(both(&[&[4, 4, 4, 4], &[2, 2, 2, 2]]), Some(Batch { answers: vec![(1, 0), (0, 16)], trail: vec![1, 2] }));
        assert_eq!(both(&[&[1, 1, 1, 1]]), Some(Batch { answers: vec![(0, 4)], trail: vec![1] }));
        assert_eq!(Library::open(library.measures).batch(&[&[1, 1, 1, 1]]), None);
    }

    #[test]
    fn pairs_of_the_examples() {
        let of = |capacity: u64, leaf_size: u64, samples: &[i32]| {
            Library::of(Measures { n: 1, capacity, leaf_size }, &samples.iter().map(|&x| vec![x]).collect::<Vec<_>>())
        };
        let (first, second, empty) = (of(8, 1, &[0, 4]), of(4, 2, &[2]), of(1, 1, &[]));
        let both = |factory: &Library, bench: &Library, query: i32| {
            assert_eq!(pair([factory, bench], &[query]), pair_by_steps([factory, bench], &[query]));
            pair([factory, bench], &[query])
        };
        let found = |library, trace, distance, leaves, traces, trails| Some(Pair { library, trace, distance, leaves, traces, trails });
        // no leaf of the factory's is within the joint distance
        assert_eq!(both(&first, &second, 2), found(1, 0, 0, 1, 1, [vec![], vec![0]]));
        assert_eq!(both(&first, &second, 3), found(0, 1, 1, 2, 2, [vec![2], vec![0]]));
        assert_eq!(both(&second, &first, 3), found(0, 0, 1, 2, 2, [vec![0], vec![2]]));
        assert_eq!(both(&empty, &first, 2), found(1, 0, 4, 2, 2, [vec![], vec![1, 2]]));
        assert_eq!(both(&empty, &empty, 2), None);
    }

    #[test]
    fn limits_of_the_examples() {
        let library = example();
        let within = |most: u64, query: [i32; 4]| library.match_within(&query, most).unwrap();
        let best = |trace, distance, leaves, traces, trail| Match { trace, distance, leaves, traces, trail };
        let settled = |best| Limited { best, unread: None };
        // one leaf is the whole trail: no look into another
        assert_eq!(within(1, [1, 1, 1, 1]), settled(best(0, 4, 1, 1, vec![1])));
        // the next bound equals the distance, and its leaf is in the trail
        assert_eq!(within(1, [2, 2, 2, 2]), Limited { best: best(0, 16, 1, 1, vec![1]), unread: Some(16) });
        for most in [2, 3, u64::MAX] {
            assert_eq!(within(most, [2, 2, 2, 2]), settled(best(0, 16, 2, 3, vec![1, 2])));
        }
        assert_eq!(within(1, [0, 4, 0, 4]), Limited { best: best(1, 32, 1, 2, vec![2]), unread: Some(32) });
        assert_eq!(within(2, [0, 4, 0, 4]), settled(best(0, 32, 2, 3, vec![2, 1])));
        assert_eq!(Library::open(library.measures).match_within(&[1, 1, 1, 1], 1), None);
    }

    #[test]
    fn clipped_sweeps_of_the_examples() {
        let library = example();
        let listed = |low: i32, high: i32| library.match_clipped(&[low; 4], &[high; 4]).unwrap();
        // "With low equal to high everywhere, it lists all traces at the match's distance."
        assert_eq!([listed(1, 1), listed(2, 2), listed(4, 4)], [vec![0], vec![0, 1], vec![1]]);
        // A at 4 to 16, B at 16 to 36: "no more than"
        assert_eq!(possible_distances(&library.traces[0], &[1; 4], &[2; 4]), (4, 16));
        assert_eq!(possible_distances(&library.traces[1], &[1; 4], &[2; 4]), (16, 36));
        assert_eq!([listed(1, 2), listed(0, 4)], [vec![0, 1], vec![0, 1, 2]]);
        assert_eq!(Library::open(library.measures).match_clipped(&[1; 4], &[1; 4]), None);
    }

    /// Of every number between two figures.
    #[test]
    fn least_and_greatest_distances() {
        for x in -4..=4 {
            for low in -4..=4 {
                for high in low..=4 {
                    let all: Vec<i128> = (low..=high).map(|y| distance(&[x], &[y])).collect();
                    assert_eq!(possible_distances(&[x], &[low], &[high]), (least(&all), greatest(&all)), "{x} {low} {high}");
                    // .. and sample by sample
                    let two = possible_distances(&[x, 1], &[low, 2], &[high, 3]);
                    assert_eq!(two, (least(&all) + 1, greatest(&all) + 4));
                }
            }
        }
        let ends = possible_distances(&[-524_288; 256], &[-524_288; 256], &[524_287; 256]);
        assert_eq!(ends, (0, 281_474_439_840_000));
    }

    #[test]
    fn bands_of_the_examples() {
        let library = example();
        let query = [1, 1, 1, 1];
        let figures = |j: usize| (library.bounds(&query)[j], library.uppers(&query)[j]);
        assert_eq!([figures(1), figures(2)], [(4, 4), (36, 100)]);
        // "up to but not including the next": an upper figure on an edge lies in the next band, and so is sure in neither
        assert_eq!(library.bands(&query, &[5, 100, 101]), [(0, 2), (0, 2)]);
        assert_eq!(library.bands(&query, &[0, 4, 5, 36, 101]), [(0, 0), (1, 1), (0, 0), (2, 2)]);
        assert_eq!(in_bands(&library.traces, &query, &[0, 4, 5, 36, 101]), [0, 1, 0, 2]);
        assert_eq!(Library::open(library.measures).bands(&query, &[0, 1, 2]), [(0, 0), (0, 0)]);
        // "the smallest on the path counts": of its own leaf 1 has 8
        let path = Library::of(Measures { n: 2, capacity: 4, leaf_size: 2 }, &[vec![1, -1], vec![0, -2], vec![0, 0]]);
        assert_eq!((path.own_upper(1, &[-1, 0]), path.uppers(&[-1, 0])[1]), (8, 5));
    }

    #[test]
    fn roots() {
        for v in 0..2000 {
            let (f, c) = (floor_root(v), ceiling_root(v));
            assert!(f >= 0 && f * f <= v && (f + 1) * (f + 1) > v);
            assert!(c >= 0 && c * c >= v && (c == 0 || (c - 1) * (c - 1) < v));
        }
    }

    #[test]
    fn a_cut_wins_by_the_uncut_spread() {
        // n = 2, leaf size 1: with the leaf's spread on the cut segments the whole segment would win
        let library = Library::of(Measures { n: 2, capacity: 2, leaf_size: 1 }, &[vec![-2, -3], vec![-1, -3]]);
        let Kind::Inner { test, .. } = &library.nodes[0].kind else { panic!() };
        assert_eq!((test.figure, test.first, test.last), (Figure::Sum, 1, 1));
    }

    #[test]
    fn a_gain_below_zero_splits() {
        let traces = [vec![1, 0, 0, 0, 0, 0, -1, 1], vec![0, 0, -1, 0, 1, 0, 1, 0], vec![0, 0, -1, 1, 0, 0, 1, 0]];
        let mut library = Library::of(Measures { n: 8, capacity: 3, leaf_size: 3 }, &traces);
        assert_eq!(library.nodes.len(), 1);
        library.measures.leaf_size = 2;
        assert_eq!(library.best_split(0).unwrap().gain, -1);
    }
}
