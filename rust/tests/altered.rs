//! Well-formed tables that no call made: the calls follow what is recorded, as the model does.

mod common;

use common::{
    check_add, check_add_labelled, check_bands, check_batch, check_both, check_checked, check_export, check_import, check_k_nearest, check_label,
    check_nearest,
};
use common::{check_clipped, check_limits, check_read_back, check_remote, is_narrow, measures, narrowed, some_edges, some_ranges};
use testing::model::recording;
use testing::model::tables::{Tables, RECORD_PLACES};
use testing::model::{runs, segments_of, width, Figure, Kind, Library, Node, Segment, Test, Trace, SAMPLE_LIMIT};
use testing::random::{label, labels, query, traces, Random, Shape, SHAPES};

/// Ends that include the given ones, the last n.
fn more_ends(random: &mut Random, ends: &[usize], n: usize) -> Vec<usize> {
    let mut more = ends.to_vec();
    more.push(n);
    let cuts = if random.once_in(4) { 10 + random.below(8) } else { random.below(5) };
    for _ in 0..cuts {
        more.push(1 + random.below(n));
    }
    more.sort_unstable();
    more.dedup();
    while more.len() > 16 {
        let extra: Vec<usize> = (0..more.len()).filter(|&i| !ends.contains(&more[i]) && more[i] != n).collect();
        more.remove(*random.pick(&extra));
    }
    more
}

fn pair(random: &mut Random, low: i128, high: i128) -> (i128, i128) {
    let mut any = || match random.below(6) {
        0 => low,
        1 => high,
        2 => (low + high) / 2,
        _ => low + (u128::from(random.word()) % (high - low + 1) as u128) as i128,
    };
    let (a, b) = (any(), any());
    (a.min(b), a.max(b))
}

/// Ranges as the traces have them, or any that the rules allow.
fn segments(random: &mut Random, ends: &[usize], below: &[&[i32]]) -> Vec<Segment> {
    let mut list = segments_of(ends, below);
    for (run, s) in runs(ends).into_iter().zip(&mut list) {
        let w = width(run);
        if random.once_in(3) {
            (s.least_sum, s.greatest_sum) = pair(random, -w * SAMPLE_LIMIT, w * SAMPLE_LIMIT);
        }
        if random.once_in(3) {
            (s.least_scatter, s.greatest_scatter) = pair(random, 0, (w * w) << 38);
        }
        if random.once_in(3) {
            s.least_sum = (s.least_sum - 3).max(-w * SAMPLE_LIMIT);
            s.greatest_scatter = (s.greatest_scatter + 5).min((w * w) << 38);
        }
    }
    list
}

fn test(random: &mut Random, n: usize, below: &[&[i32]]) -> Test {
    let first = 1 + random.below(n);
    let last = first + random.below(n - first + 1);
    let figure = *random.pick(&[Figure::Sum, Figure::Scatter]);
    let w = width((first, last));
    let (low, high) = match figure {
        Figure::Sum => (-2 * w * SAMPLE_LIMIT, 2 * w * SAMPLE_LIMIT),
        Figure::Scatter => (0, 2 * w * SAMPLE_LIMIT),
    };
    let threshold = if random.once_in(2) { 2 * figure.of(&below[random.below(below.len())][first - 1..last]) } else { pair(random, low, high).0 };
    Test { figure, first, last, threshold }
}

/// Trace numbers below a node, its ends, its children.
type Plan = (Vec<usize>, Vec<usize>, Option<(usize, usize)>);

/// A tree over all traces: any partition, any ends that the rules allow, nodes numbered anyhow with children above their parents.
fn library(random: &mut Random, shape: Shape, n: usize, count: usize, capacity: usize, leaf_size: usize, chain: bool) -> Library {
    let stored = traces(random, shape, n, count);
    let mut nodes: Vec<Plan> = Vec::new();
    let root = more_ends(random, &[], n);
    nodes.push(((0..count).collect(), root, None));
    let mut open = vec![0];
    while let Some(at) = (!open.is_empty()).then(|| open.swap_remove(random.below(open.len()))) {
        let numbers = nodes[at].0.clone();
        if numbers.len() < 2 || (!chain && random.once_in(5)) {
            continue;
        }
        let cut = 1 + random.below(numbers.len() - 1);
        let mut mixed = numbers.clone();
        for i in (1..mixed.len()).rev() {
            mixed.swap(i, random.below(i + 1));
        }
        let (mut left, mut right) = if chain { (mixed[..1].to_vec(), mixed[1..].to_vec()) } else { (mixed[..cut].to_vec(), mixed[cut..].to_vec()) };
        left.sort_unstable();
        right.sort_unstable();
        let children = (nodes.len(), nodes.len() + 1);
        for side in [left, right] {
            let ends = more_ends(random, &nodes[at].1.clone(), n);
            nodes.push((side, ends, None));
        }
        nodes[at].2 = Some(children);
        open.extend([children.0, children.1]);
    }
    // any numbering with children above parents
    let mut number = vec![0; nodes.len()];
    let mut ready = vec![0];
    let mut next = 0;
    while !ready.is_empty() {
        let at = ready.swap_remove(random.below(ready.len()));
        number[at] = next;
        next += 1;
        if let Some((left, right)) = nodes[at].2 {
            ready.extend([left, right]);
        }
    }
    let mut made: Vec<Option<Node>> = vec![None; nodes.len()];
    for (at, (numbers, ends, children)) in nodes.iter().enumerate() {
        let below: Vec<&[i32]> = numbers.iter().map(|&t| stored[t].as_slice()).collect();
        let kind = match children {
            None => Kind::Leaf(numbers.clone()),
            Some((left, right)) => {
                let (mut left, mut right) = (number[*left], number[*right]);
                if random.once_in(2) {
                    std::mem::swap(&mut left, &mut right);
                }
                Kind::Inner { test: test(random, n, &below), left, right }
            }
        };
        made[number[at]] = Some(Node { segments: segments(random, ends, &below), kind });
    }
    let nodes = made.into_iter().map(|node| node.expect("every node has a number")).collect();
    let labels = labels(random, stored.len());
    Library { measures: measures(n, capacity, leaf_size), traces: stored, labels, nodes }
}

/// The tables of a library, with junk in every place that no rule speaks of.
fn with_junk(random: &mut Random, library: &Library) -> Tables {
    let mut t = Tables::of(library);
    let (k, n) = (library.traces.len(), library.measures.n as usize);
    // the lower bits of a word, and the words of no trace
    t.samples[..k * n].iter_mut().for_each(|x| *x |= random.word() as i32 & 0xfff);
    t.samples[k * n..].iter_mut().for_each(|x| *x = random.word() as i32);
    t.links[k..].iter_mut().for_each(|x| *x = random.word() as u16);
    t.work.iter_mut().for_each(|x| *x = random.word());
    // the upper bits of a label, and the labels of no trace
    t.labels.iter_mut().enumerate().for_each(|(place, x)| *x |= random.word() << if place < k { 48 } else { 0 });
    for (j, record) in t.nodes.chunks_mut(RECORD_PLACES).enumerate() {
        let used = library.nodes.get(j).map_or(0, |node| 7 + 5 * node.segments.len());
        record[used..].iter_mut().for_each(|x| *x = random.word() as i64);
        if library.nodes.get(j).is_some_and(Node::is_leaf) {
            record[3..7].iter_mut().for_each(|x| *x = random.word() as i64);
        }
    }
    t
}

/// Every search of these tables, with any contents of search work.
fn search(random: &mut Random, t: &mut Tables, library: &Library, shape: Shape) {
    let (n, l) = (library.measures.n as usize, t.lengths());
    let q: Trace = query(random, shape, n, &library.traces);
    let mut trail = vec![1; library.leaves().len()];
    // what it leaves and answers is the match's, which is held to the model too
    check_remote(t, l, &mut trail, &q).expect("nothing is refused");
    t.work.iter_mut().for_each(|x| *x = random.word());
    let k = 1 + random.below(16);
    let mut list = vec![1; 2 * k];
    check_k_nearest(t, l, &mut trail, &mut list, &q, k as u64).expect("nothing is refused");
    t.work.iter_mut().for_each(|x| *x = random.word());
    let run: Vec<i32> = (0..k).flat_map(|_| query(random, shape, n, &library.traces)).collect();
    check_batch(t, l, &mut trail, &run, k, k).expect("nothing is refused");
    t.work.iter_mut().for_each(|x| *x = random.word());
    let edges = some_edges(random, library, &q, k.max(2));
    check_bands(t, l, &mut vec![1; 2 * k + 3], &q, &edges).expect("nothing is refused");
    t.work.iter_mut().for_each(|x| *x = random.word());
    let some = 1 + random.below(library.leaves().len()) as u64;
    let settled = check_limits(t, l, &q, &[1, 1 + some / 2, some, u64::MAX]);
    assert_eq!((Some(settled.best), settled.unread), (library.nearest(&q), None));
    t.work.iter_mut().for_each(|x| *x = random.word());
    let (lows, highs) = some_ranges(random, &q);
    for (lows, highs) in [(&lows, &highs), (&q, &q)] {
        check_clipped(t, l, &mut vec![1; library.traces.len()], lows, highs).expect("nothing is refused");
        t.work.iter_mut().for_each(|x| *x = random.word());
    }
}

/// Every call on the tables of a library; whether the check refused them, with 13.
fn follow(random: &mut Random, library: &Library, shape: Shape, queries: usize, more: usize) -> bool {
    let mut t = with_junk(random, library);
    let l = t.lengths();
    assert_eq!(t.library().as_ref(), Some(library), "the tables made here are well formed");
    let checked = check_checked(&t, l);
    check_read_back(&t, l);
    let n = library.measures.n as usize;
    for _ in 0..queries {
        search(random, &mut t, library, shape);
    }
    // recordings: a trace as it stands, and imports into these tables
    let number = random.below(library.traces.len());
    assert_eq!(check_label(&t, l, number as u64), Ok(library.labels[number]));
    let exported = check_export(&t, l, &mut vec![1; 44 + 2 * n], number as u64, 8000);
    assert_eq!(exported.map(|_| ()), if is_narrow(&library.traces[number]) { Ok(()) } else { Err((12, 0)) });
    let stored: Vec<Trace> = (0..more).map(|_| narrowed(&query(random, shape, n, &library.traces))).collect();
    for many in 0..=more {
        let _ = check_import(&mut t.clone(), l, &recording::write(8000, &stored[..many].concat()));
    }
    for _ in 0..more {
        let trace: Trace = query(random, shape, n, &library.traces);
        let added = if random.once_in(2) { check_add(&mut t, l, &trace) } else { check_add_labelled(&mut t, l, &trace, label(random)) };
        if let Ok(after) = added {
            let q: Trace = query(random, shape, n, &after.traces);
            let mut trail = vec![1; after.leaves().len()];
            check_nearest(&mut t, l, &mut trail, &q).expect("nothing is refused");
        }
    }
    checked == Err((13, 0))
}

#[test]
fn altered_trees() {
    let random = &mut Random::seeded(31);
    let mut loose = 0;
    for _ in 0..400 {
        let shape = *random.pick(&SHAPES);
        let count = 1 + random.below(18);
        let (n, spare, leaf_size) = (1 + random.below(20), random.below(6), 1 + random.below(4));
        let chain = random.once_in(4);
        let made = library(random, shape, n, count, count + spare, leaf_size, chain);
        loose += usize::from(follow(random, &made, shape, 4, 5));
    }
    assert!(loose > 300, "{loose} loose");
}

#[test]
fn altered_wide_trees() {
    let random = &mut Random::seeded(32);
    for shape in SHAPES {
        let made = library(random, shape, 256, 40, 44, 3, false);
        follow(random, &made, shape, 2, 3);
    }
}

/// Two libraries, each altered or as calls make it: by the steps, and where the check accepts both the nearest of all.
#[test]
fn altered_pairs() {
    let random = &mut Random::seeded(34);
    for _ in 0..300 {
        let shape = *random.pick(&SHAPES);
        let n = 1 + random.below(20);
        let both = [0, 1].map(|_: usize| {
            let (count, spare, leaf_size) = (1 + random.below(18), random.below(6), 1 + random.below(4));
            match random.below(4) {
                0 => Library::of(measures(n, count, leaf_size), &traces(random, shape, n, count)),
                1 => Library::open(measures(n, count, leaf_size)),
                kind => library(random, shape, n, count, count + spare, leaf_size, kind == 2),
            }
        });
        let mut memories = [with_junk(random, &both[0]), with_junk(random, &both[1])];
        let l = [memories[0].lengths(), memories[1].lengths()];
        let mut trails = both.each_ref().map(|library| vec![1; library.leaves().len()]);
        for _ in 0..4 {
            let near = &both[random.below(2)].traces;
            let q: Trace = query(random, shape, n, near);
            let [factory, bench] = &mut memories;
            let [trail, bench_trail] = &mut trails;
            let answer = check_both([factory, bench], l, [trail, bench_trail], &q);
            assert_eq!(answer.is_err(), both.iter().all(|library| library.traces.is_empty()));
            memories.iter_mut().for_each(|t| t.work.iter_mut().for_each(|x| *x = random.word()));
        }
    }
}

/// A chain as long as it can be: 4,095 inner nodes, a leaf at each.
#[test]
fn the_longest_chain() {
    let random = &mut Random::seeded(33);
    let made = library(random, Shape::Uniform, 1, 4096, 4096, 1, true);
    assert_eq!(made.nodes.len(), 8191);
    follow(random, &made, Shape::Uniform, 2, 0);
    let shorter = library(random, Shape::Small, 2, 1500, 1502, 1, true);
    follow(random, &shorter, Shape::Small, 1, 2);
}
