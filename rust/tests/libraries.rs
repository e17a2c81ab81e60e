//! Random and adversarial libraries: the calls against the model and the scan, on answer, distance, counts, trail and tree.

mod common;

use common::{
    check_add_labelled, check_bands, check_batch, check_clipped, check_k_nearest, check_label, check_limits, check_list, check_nearest, check_open,
    check_remote, check_scan,
};
use common::{junk, longer, measures, some_edges, some_ranges};
use silkendoz::{scan, LimitedMatch, Refusal, TraceLibrary};
use testing::model::tables::{needs, word_of, Tables};
use testing::model::{pair, possible_distances, KNearest, Library, Measures, Trace};
use testing::random::{labels, query, traces, Random, Shape, SHAPES};

/// Opens, adds and matches; every call is held to the model, every match to the scan.
fn run(random: &mut Random, shape: Shape, n: usize, capacity: usize, leaf_size: usize, count: usize, queries: usize) {
    let stored = traces(random, shape, n, count);
    run_on(random, shape, &stored, measures(n, capacity, leaf_size), queries);
}

fn run_on(random: &mut Random, shape: Shape, stored: &[Trace], m: Measures, queries: usize) {
    let n = m.n as usize;
    let l = longer(needs(m), random.below(3));
    let mut t = junk(longer(l, 2));
    assert_eq!(check_open(&mut t, l, m), Ok(()));
    let labels = labels(random, stored.len());
    for (k, trace) in stored.iter().enumerate() {
        let library = check_add_labelled(&mut t, l, trace, labels[k]).expect("there is room");
        if k < 3 || random.once_in(8) {
            let q = query(random, shape, n, stored);
            ask(random, &mut t, l, &library, &q);
        }
    }
    // every place of the needed parts, the unused ones too, is what opening and adding leave
    let library = Library::of(m, stored).labelled(&labels);
    let held = t.first(needs(m));
    let laid = Tables::of(&library);
    assert_eq!((&held.control, &held.samples, &held.links), (&laid.control, &laid.samples, &laid.links));
    assert_eq!((&held.nodes, &held.labels), (&laid.nodes, &laid.labels));
    for _ in 0..queries {
        let q = query(random, shape, n, stored);
        ask(random, &mut t, l, &library, &q);
    }
    for _ in 0..queries.div_ceil(4) {
        let together: Vec<Trace> = (0..1 + random.below(16)).map(|_| query(random, shape, n, stored)).collect();
        ask_together(&mut t, l, &library, &together);
    }
    for (number, &label) in labels.iter().enumerate() {
        assert_eq!(check_label(&t, l, number as u64), Ok(label));
    }
    if stored.len() as u64 == m.capacity {
        assert_eq!(check_add_labelled(&mut t, l, &stored[0], labels[0]).unwrap_err(), (5, 0));
    }
}

/// A match, and a list whose first is its answer and which begins with every shorter one; a report of bands; matches with a limit; and the query with
/// clipped samples, of which the match is listed.
fn ask(random: &mut Random, t: &mut Tables, l: testing::model::tables::Lengths, library: &Library, q: &[i32]) {
    let mut trail = vec![0xbeef; library.leaves().len() + 1];
    let found = check_nearest(t, l, &mut trail, q).expect("a trace is stored");
    check_scan(library, q, &found);
    assert_eq!(check_remote(t, l, &mut trail, q), Ok((found.clone(), library.labels[found.trace].code)));
    let k = 1 + random.below(16);
    let mut list = vec![0xbeef; 2 * k + random.below(4)];
    let longer = check_k_nearest(t, l, &mut trail, &mut list, q, k as u64).expect("a trace is stored");
    check_list(library, q, k, &longer);
    assert_eq!(longer.list[0], (found.trace, found.distance));
    let fewer = 1 + random.below(k);
    let shorter = check_k_nearest(t, l, &mut trail, &mut list, q, fewer as u64).expect("a trace is stored");
    assert!(longer.list.starts_with(&shorter.list) && longer.trail.starts_with(&shorter.trail));
    let edges = some_edges(random, library, q, 1 + k.max(1));
    let edges = &edges[..edges.len().min(16)];
    check_bands(t, l, &mut vec![0xbeef; 2 * edges.len() - random.below(3)], q, edges).expect("the list is long enough");
    // at, below and above the trail's length, where it becomes settled
    let full = found.leaves as u64;
    let mut limits = [1, 1 + random.below(found.leaves) as u64, full.max(2) - 1, full, full + 1, u64::MAX];
    limits.sort_unstable();
    assert_eq!(check_limits(t, l, q, &limits[..3]).unread.is_none(), limits[2] >= full);
    let settled = check_limits(t, l, q, &limits);
    assert_eq!((settled.best, settled.unread), (found.clone(), None));
    let (lows, highs) = some_ranges(random, q);
    let mut list = vec![0xbeef; library.traces.len() + random.below(3)];
    assert!(check_clipped(t, l, &mut list, &lows, &highs).expect("a trace is stored").contains(&found.trace));
    let known = check_clipped(t, l, &mut list, q, q).expect("a trace is stored");
    assert_eq!(known[0], found.trace, "the lowest number at the match's distance");
}

/// A batch of these queries, whose answers are the matches' and whose leaves are theirs together; and of one of them alone, which reads that match's.
fn ask_together(t: &mut Tables, l: testing::model::tables::Lengths, library: &Library, queries: &[Trace]) {
    let mut trail = vec![0xbeef; library.leaves().len() + 1];
    let many = queries.len();
    check_batch(t, l, &mut trail, &queries.concat(), many, many).expect("a trace is stored");
    let alone = library.nearest(&queries[0]).expect("a trace is stored");
    let one = check_batch(t, l, &mut trail, &queries[0], 1, 1).expect("a trace is stored");
    let mut leaves = alone.trail.clone();
    leaves.sort();
    assert_eq!((one.answers, one.trail), (vec![(alone.trace, alone.distance)], leaves));
}

#[test]
fn every_shape_small() {
    let random = &mut Random::seeded(1);
    for shape in SHAPES {
        for n in [1, 2, 3, 5, 8, 16, 33] {
            for leaf_size in [1, 2, 3, 64] {
                let (count, spare) = (1 + random.below(24), random.below(3));
                run(random, shape, n, count + spare, leaf_size, count, 6);
            }
        }
    }
}

#[test]
fn every_shape_wide() {
    let random = &mut Random::seeded(2);
    for shape in SHAPES {
        for leaf_size in [1, 8, 64] {
            run(random, shape, 256, 70, leaf_size, 70, 4);
        }
    }
}

#[test]
fn capacity_one() {
    let random = &mut Random::seeded(3);
    for shape in SHAPES {
        for n in [1, 256] {
            run(random, shape, n, 1, 1, 1, 4);
        }
    }
}

/// Larger libraries through the wrapper: the whole tree is compared once at the end, each match with model and scan.
#[test]
fn larger_libraries() {
    let random = &mut Random::seeded(4);
    for (shape, n, count, leaf_size) in [
        (Shape::Walk, 64, 700, 16),
        (Shape::Small, 6, 900, 4),
        (Shape::Clusters, 32, 500, 3),
        (Shape::Constants, 4, 300, 2),
        (Shape::Uniform, 20, 600, 64),
        (Shape::Wide, 16, 400, 8),
        (Shape::WideClusters, 64, 300, 4),
        (Shape::WideExtremes, 9, 300, 2),
        (Shape::Mixed, 33, 300, 3),
    ] {
        let stored: Vec<Trace> = traces(random, shape, n, count);
        let model = Library::of(measures(n, count, leaf_size), &stored);
        let mut library = TraceLibrary::open(n, count, leaf_size).unwrap();
        for (k, trace) in stored.iter().enumerate() {
            assert_eq!(library.add(trace), Ok(k));
        }
        for _ in 0..20 {
            let q = query(random, shape, n, &stored);
            let found = library.nearest(&q).unwrap();
            let expected = model.nearest(&q).unwrap();
            let trail: Vec<usize> = found.trail.iter().map(|&x| x.into()).collect();
            assert_eq!((found.trace, i128::from(found.distance)), (expected.trace, expected.distance));
            assert_eq!((found.leaves, found.traces, &trail), (expected.leaves, expected.traces, &expected.trail));
            check_scan(&model, &q, &expected);
            let five = library.k_nearest(&q, 5).unwrap();
            let list = five.list.iter().map(|near| (near.trace, near.distance.into())).collect();
            let trail = five.trail.iter().map(|&x| x.into()).collect();
            check_list(&model, &q, 5, &KNearest { list, leaves: five.leaves, traces: five.traces, trail });
        }
    }
}

/// The largest measures, full: the whole tables, and matches beside the scan.
#[test]
fn the_largest_library() {
    let random = &mut Random::seeded(5);
    let m = measures(256, 4096, 64);
    for (shape, queries) in [(Shape::Walk, 10), (Shape::WideClusters, 4)] {
        let stored = traces(random, shape, 256, 4096);
        let mut t = junk(needs(m));
        let l = t.lengths();
        assert_eq!(common::open(&mut t, l, m), Ok(()));
        for (k, trace) in stored.iter().enumerate() {
            assert_eq!(common::add(&mut t, l, trace), Ok(k as u64));
        }
        let library = Library::of(m, &stored);
        assert!(t == Tables::of(&library));
        for _ in 0..queries {
            let q = query(random, shape, 256, &stored);
            ask(random, &mut t, l, &library, &q);
        }
        assert_eq!(common::add(&mut t, l, &stored[0]), Err((5, 0)));
    }
}

/// "Samples in leaves off the trail don't bear on a search": with other samples there, the answer and the trail stay.
#[test]
fn samples_off_the_trail() {
    let random = &mut Random::seeded(6);
    let mut changed = 0;
    for shape in SHAPES {
        for _ in 0..20 {
            let (n, count, leaf_size) = (1 + random.below(12), 20, 1 + random.below(3));
            let m = measures(n, count, leaf_size);
            let stored = traces(random, shape, n, count);
            let library = Library::of(m, &stored);
            let mut t = Tables::of(&library);
            let l = t.lengths();
            let q = query(random, shape, n, &stored);
            let mut trail = vec![9; count];
            let found = check_nearest(&mut t, l, &mut trail, &q).expect("traces are stored");
            for (j, node) in library.nodes.iter().enumerate() {
                if let (testing::model::Kind::Leaf(numbers), false) = (&node.kind, found.trail.contains(&j)) {
                    for &number in numbers {
                        // the query itself, which would be at distance 0
                        let words: Vec<i32> = q.iter().map(|&x| word_of(x)).collect();
                        t.samples[number * n..(number + 1) * n].copy_from_slice(&words);
                        changed += 1;
                    }
                }
            }
            let mut again = vec![9; count];
            assert_eq!(check_nearest(&mut t, l, &mut again, &q), Ok(found));
            assert_eq!(trail, again);
        }
    }
    assert!(changed > 500);
}

/// A flat trace, then one spike each time, half as high as the one before: the flat trace's leaf is cut at each, up to 16 segments, and then no more.
#[test]
fn sixteen_segments() {
    let random = &mut Random::seeded(7);
    for (n, leaf_size) in [(256, 1), (64, 1), (40, 1), (256, 2)] {
        for _ in 0..4 {
            let mut stored = vec![vec![0; n]];
            for sign in [1, -1] {
                for k in 0..15 {
                    let mut trace = vec![0; n];
                    trace[random.below(n)] = sign << (14 - k);
                    stored.push(trace);
                }
            }
            let m = measures(n, stored.len(), leaf_size);
            run_on(random, Shape::Small, &stored, m, 6);
            let segments: Vec<usize> = Library::of(m, &stored).nodes.iter().map(|node| node.segments.len()).collect();
            let full = segments.iter().filter(|&&q| q == 16).count();
            assert!(n < 256 || leaf_size > 1 || full > 2, "{segments:?}");
        }
    }
}

/// The greatest distance, sums and scatters of 20 bits, at the largest n: traces and queries at either end.
#[test]
fn ends_of_the_range() {
    let (low, high) = (vec![-524_288; 256], vec![524_287; 256]);
    let turns = |first: i32, other: i32| -> Trace { (0..256).map(|at| if at % 2 == 0 { first } else { other }).collect() };
    let stored = vec![low.clone(), high.clone(), turns(-524_288, 524_287), turns(524_287, -524_288)];
    let random = &mut Random::seeded(8);
    for leaf_size in [1, 4] {
        run_on(random, Shape::WideExtremes, &stored, measures(256, 4, leaf_size), 4);
    }
    let mut library = TraceLibrary::open(256, 1, 1).unwrap();
    library.add(&low).unwrap();
    assert_eq!(library.nearest(&high).unwrap().distance, 281_474_439_840_000);
    let every_other = library.nearest(&stored[2]).unwrap();
    assert_eq!(every_other.distance, 140_737_219_920_000);
}

/// Two libraries of every shape, through the wrapper: the model's answer, the trace that it hands back, and the scan's.
#[test]
fn pairs_of_every_shape() {
    let random = &mut Random::seeded(8);
    for shape in SHAPES {
        for (n, leaf_sizes, counts) in
            [(1, [1, 2], [9, 20]), (5, [2, 1], [30, 3]), (33, [4, 64], [40, 70]), (256, [8, 8], [60, 1]), (16, [1, 1], [0, 25])]
        {
            let both = [0, 1].map(|at: usize| {
                let stored = traces(random, shape, n, counts[at]);
                let mut library = TraceLibrary::open(n, counts[at] + 1, leaf_sizes[at]).unwrap();
                stored.iter().for_each(|trace| assert!(library.add(trace).is_ok()));
                (library, Library::of(measures(n, counts[at] + 1, leaf_sizes[at]), &stored))
            });
            for _ in 0..12 {
                let near = &both[random.below(2)].1.traces;
                let q = query(random, shape, n, near);
                held_to_the_model([&both[0].0, &both[1].0], [&both[0].1, &both[1].1], &q);
                held_to_the_model([&both[1].0, &both[0].0], [&both[1].1, &both[0].1], &q);
            }
        }
    }
}

/// Of each pair the factory's comes first.
fn held_to_the_model(both: [&TraceLibrary; 2], models: [&Library; 2], q: &[i32]) {
    let found = TraceLibrary::match_both(both[0], both[1], q).unwrap();
    let expected = pair(models, q).unwrap();
    let library = if found.library == silkendoz::Library::Factory { 0 } else { 1 };
    assert_eq!((library, found.trace, i128::from(found.distance)), (expected.library, expected.trace, expected.distance));
    assert_eq!((found.leaves, found.traces), (expected.leaves, expected.traces));
    let trails = [&found.factory_trail, &found.bench_trail].map(|trail| trail.iter().map(|&leaf| leaf.into()).collect::<Vec<usize>>());
    assert_eq!(trails, expected.trails);
    // as it lies in its library: the same memory
    assert!(std::ptr::eq(found.samples, both[library].trace(found.trace).unwrap()));
    let scanned = both.iter().enumerate().filter_map(|(which, library)| {
        let stored = &library.tables().samples[..library.len() * library.n()];
        scan::nearest(stored, library.n(), q).map(|(trace, distance)| (distance, which, trace))
    });
    assert_eq!(scanned.min(), Some((found.distance, library, found.trace)));
}

/// Limits of every size, through the wrapper: the model's answer, and as a larger limit is given the distance falls to the nearest trace's.
#[test]
fn limits_of_every_shape() {
    let random = &mut Random::seeded(9);
    let (mut open, mut settled, mut nearer) = (0, 0, 0);
    for shape in SHAPES {
        for (n, leaf_size, count) in [(1, 1, 20), (5, 2, 40), (33, 4, 70), (256, 8, 90), (16, 1, 60)] {
            let stored = traces(random, shape, n, count);
            let mut library = TraceLibrary::open(n, count, leaf_size).unwrap();
            stored.iter().for_each(|trace| assert!(library.add(trace).is_ok()));
            let model = Library::of(measures(n, count, leaf_size), &stored);
            for _ in 0..8 {
                let q = query(random, shape, n, &stored);
                let nearest = library.nearest(&q).unwrap();
                let mut last = u64::MAX;
                for most in 1..=nearest.leaves as u64 + 1 {
                    let expected = model.match_within(&q, most).unwrap();
                    let (trace, distance, leaves, traces, trail, bound) = match library.match_within(&q, most).unwrap() {
                        LimitedMatch::Settled(found) => {
                            settled += 1;
                            assert_eq!(found, nearest);
                            (found.trace, found.distance, found.leaves, found.traces, found.trail, None)
                        }
                        LimitedMatch::Open(best) => {
                            open += 1;
                            assert!(best.bound <= nearest.distance && nearest.distance <= best.distance);
                            (best.trace, best.distance, best.leaves, best.traces, best.trail, Some(best.bound))
                        }
                    };
                    assert_eq!((trace, i128::from(distance), leaves, traces), {
                        let best = &expected.best;
                        (best.trace, best.distance, best.leaves, best.traces)
                    });
                    assert!(trail.iter().map(|&leaf| usize::from(leaf)).eq(expected.best.trail) && trail == nearest.trail[..leaves]);
                    assert_eq!((bound.map(i128::from), bound.is_none()), (expected.unread, most >= nearest.leaves as u64));
                    assert!(distance <= last);
                    nearer += usize::from(distance < last && last < u64::MAX);
                    last = distance;
                }
            }
        }
    }
    assert!(open > 1000 && settled > 500 && nearer > 100, "{open} {settled} {nearer}");
}

/// Clipped sweeps through the wrapper: the model's list, and as more is known fewer are listed. Samples are clipped where they pass a log's limit, above
/// and below.
#[test]
fn clipped_sweeps_of_every_shape() {
    let random = &mut Random::seeded(10);
    let (mut one, mut some, mut all) = (0, 0, 0);
    for shape in SHAPES {
        for (n, leaf_size, count) in [(1, 1, 20), (5, 2, 40), (33, 4, 70), (256, 8, 90), (16, 1, 60)] {
            let stored = traces(random, shape, n, count);
            let mut library = TraceLibrary::open(n, count, leaf_size).unwrap();
            stored.iter().for_each(|trace| assert!(library.add(trace).is_ok()));
            let model = Library::of(measures(n, count, leaf_size), &stored);
            for _ in 0..8 {
                let q = query(random, shape, n, &stored);
                let limit = q.iter().map(|x| x.abs()).max().unwrap().min(524_286) * random.within(3, 8) as i32 / 8;
                // no more is known of what reaches the limit
                let known = |reach: i32| -> (Trace, Trace) {
                    let figures = q.iter().map(|&x| match x {
                        _ if x > limit => (limit, limit.saturating_add(reach).clamp(x, 524_287)),
                        _ if x < -limit => ((-limit).saturating_sub(reach).clamp(-524_288, x), -limit),
                        _ => (x, x),
                    });
                    figures.unzip()
                };
                let mut last: Option<Vec<usize>> = None;
                for reach in [1_048_575, 100_000, 1000, 0] {
                    let (lows, highs) = known(reach);
                    let listed = library.match_clipped(&lows, &highs).unwrap();
                    assert_eq!(Some(&listed), model.match_clipped(&lows, &highs).as_ref());
                    assert!(listed.contains(&library.nearest(&q).unwrap().trace));
                    if let Some(last) = last {
                        assert!(listed.iter().all(|trace| last.contains(trace)), "narrower ranges list no other");
                    }
                    for (number, trace) in library.traces().enumerate() {
                        let (least, greatest) = scan::possible_distances(trace, &lows, &highs);
                        assert_eq!((i128::from(least), i128::from(greatest)), possible_distances(&stored[number], &lows, &highs));
                    }
                    one += usize::from(listed.len() == 1);
                    some += usize::from(listed.len() > 1 && listed.len() < count);
                    all += usize::from(listed.len() == count);
                    last = Some(listed);
                }
                let same = library.k_nearest(&q, 16).unwrap().list;
                let same = same.iter().filter(|near| near.distance == same[0].distance).map(|near| near.trace);
                assert!(library.match_clipped(&q, &q).unwrap().into_iter().take(16).eq(same), "all at the match's distance");
            }
            let nothing = library.match_clipped(&vec![-524_288; n], &vec![524_287; n]).unwrap();
            assert!(nothing.into_iter().eq(0..count), "nothing is known");
            assert_eq!(library.match_clipped(&vec![0; n], &vec![-1; n]), Err(Refusal::CrossedRange));
        }
    }
    assert!(one > 300 && some > 500 && all > 300, "{one} {some} {all}");
    // both lengths are told, of whichever is another than n
    let mut library = TraceLibrary::open(2, 1, 1).unwrap();
    assert_eq!(library.match_clipped(&[0, 0], &[0, 0]), Err(Refusal::Empty));
    library.add(&[1, 1]).unwrap();
    assert_eq!(library.match_clipped(&[0, 0], &[0]).unwrap_err().to_string(), "wrong trace: 1 samples, and n is 2");
    assert_eq!(library.match_clipped(&[0, 0, 0], &[0, 0]).unwrap_err().to_string(), "wrong trace: 3 samples, and n is 2");
    assert_eq!(library.match_clipped(&[524_288, 0], &[0, 0]), Err(Refusal::SampleRange));
}
