//! Tables damaged field by field: the verdict is the model's, a refusal leaves every place, and what is accepted follows what is recorded.

mod common;

use common::{
    check_add, check_add_labelled, check_bands, check_batch, check_both, check_checked, check_export, check_import, check_k_nearest, check_label,
    check_nearest,
};
use common::{check_clipped, check_remote, check_within, check_write, measures, narrowed};
use testing::model::recording;
use testing::model::tables::{Tables, RECORD_PLACES};
use testing::model::{Label, Library, Trace};
use testing::random::{query, traces, Random, Shape};

struct Case {
    tables: Tables,
    query: Trace,
    shape: Shape,
}

fn case(random: &mut Random, shape: Shape, n: usize, capacity: usize, leaf_size: usize, count: usize) -> Case {
    let stored = traces(random, shape, n, count);
    let library = Library::of(measures(n, capacity, leaf_size), &stored);
    let mut tables = Tables::of(&library);
    // search work and labels need not be zero, and a refusal leaves them
    tables.work.iter_mut().chain(&mut tables.labels).enumerate().for_each(|(i, w)| *w = i as u64);
    let query = query(random, shape, n, &stored);
    Case { tables, query, shape }
}

fn cases(random: &mut Random) -> Vec<Case> {
    vec![
        case(random, Shape::Small, 5, 6, 1, 5),
        case(random, Shape::Walk, 8, 7, 2, 6),
        case(random, Shape::Small, 1, 5, 1, 4),
        case(random, Shape::Ties, 6, 6, 1, 6),
        case(random, Shape::Extremes, 3, 4, 2, 4),
        case(random, Shape::Identical, 4, 3, 1, 2),
        case(random, Shape::Uniform, 2, 1, 1, 1),
        case(random, Shape::Uniform, 2, 3, 1, 0),
        case(random, Shape::WideExtremes, 3, 5, 1, 4),
        case(random, Shape::Mixed, 6, 6, 2, 5),
    ]
}

/// The calls that test tables, each on the same damaged ones: whether they are spoiled, on which all agree.
fn spoiled(damaged: &Tables, query: &[i32]) -> bool {
    let l = damaged.lengths();
    let mut t = damaged.clone();
    let added = check_add(&mut t, l, query).map(|_| ());
    t.clone_from(damaged);
    let mut trail = vec![7; 16];
    let found = check_nearest(&mut t, l, &mut trail, query).map(|_| ());
    t.clone_from(damaged);
    let listed = check_k_nearest(&mut t, l, &mut trail, &mut [7; 7], query, 3).map(|_| ());
    t.clone_from(damaged);
    let imported = check_import(&mut t, l, &recording::write(8000, &narrowed(query).repeat(2))).map(|_| ());
    let exported = check_export(damaged, l, &mut [7; 99], 0, 8000).map(|_| ());
    let checked = check_checked(damaged, l).map(|_| ());
    let batched = check_batch(&mut damaged.clone(), l, &mut trail, &query.repeat(2), 2, 2).map(|_| ());
    let labelled = check_add_labelled(&mut damaged.clone(), l, query, Label { code: 1, serial: 2 }).map(|_| ());
    let told = check_remote(&mut damaged.clone(), l, &mut trail, query).map(|_| ());
    let label = check_label(damaged, l, 0).map(|_| ());
    let counted = check_bands(&mut damaged.clone(), l, &mut [7; 7], query, &[0, 9, 1 << 20, 1 << 40]).map(|_| ());
    let limited = check_within(&mut damaged.clone(), l, &mut trail, query, 2).map(|_| ());
    let clipped = check_clipped(&mut damaged.clone(), l, &mut trail, query, query).map(|_| ());
    // beside a sound library of the same n, in each of the two places
    let mut sound = Tables::of(&Library::of(measures(query.len(), 2, 1), &[query.to_vec()]));
    let sound_l = sound.lengths();
    let first = check_both([&mut damaged.clone(), &mut sound], [l, sound_l], [&mut trail, &mut [7; 2]], query).map(|_| ());
    let second = check_both([&mut sound, &mut damaged.clone()], [sound_l, l], [&mut [7; 2], &mut trail], query).map(|_| ());
    let verdicts = [added, found, listed, imported, exported, checked, batched, labelled, told, label, counted, limited, clipped, first, second];
    let verdicts = verdicts.map(|answer| answer == Err((3, 0)));
    assert!(verdicts == [verdicts[0]; 15], "{verdicts:?}");
    verdicts[0]
}

/// Values that are next to a limit, a count or what stood there.
fn values(was: i64, t: &Tables) -> Vec<i64> {
    let fields = t.control.iter().map(|&x| i64::from(x));
    let mut list: Vec<i64> = fields.flat_map(|x| [x - 1, x, x + 1]).collect();
    list.extend([-1, 0, 1, 2, 3, 16, 17, was - 1, was + 1, -was, 2 * was + 1]);
    for w in 1..=i64::from(t.control[0]) {
        let most = w * 524_288;
        list.extend([most, -most, most + 1, -most - 1, (w * w) << 38, ((w * w) << 38) + 1]);
        list.extend([2 * most, 2 * most + 1, -2 * most, -2 * most - 1, (2 * w * w) << 38]);
        // the limits of 16 bits, of which no rule speaks
        list.extend([w * 32_768 + 1, ((w * w) << 30) + 1]);
    }
    list.extend([65_535, 65_536, 65_537, 1 << 32, i64::MAX, i64::MIN]);
    list.sort_unstable();
    list.dedup();
    list
}

#[test]
fn node_fields() {
    let random = &mut Random::seeded(21);
    for case in cases(random) {
        let used = usize::from(case.tables.control[4]) * RECORD_PLACES;
        let mut refused = 0;
        for place in 0..case.tables.nodes.len().min(used + RECORD_PLACES) {
            let was = case.tables.nodes[place];
            for value in values(was, &case.tables) {
                // far places of a record are free here: one value is enough
                if place % RECORD_PLACES >= 7 + 5 * 5 && value != i64::MIN {
                    continue;
                }
                let mut damaged = case.tables.clone();
                damaged.nodes[place] = value;
                refused += usize::from(spoiled(&damaged, &case.query));
            }
        }
        assert!(case.tables.control[3] == 0 || refused > 100, "{:?}: only {refused} were spoiled", case.shape);
    }
}

#[test]
fn control_links_samples_and_labels() {
    let random = &mut Random::seeded(22);
    for case in cases(random) {
        for place in 0..5 {
            for value in (0..300).chain([511, 512, 4095, 4096, 4097, 8191, 8192, 32_768, 65_535]) {
                let mut damaged = case.tables.clone();
                damaged.control[place] = value;
                spoiled(&damaged, &case.query);
            }
        }
        for place in 0..case.tables.links.len() {
            for value in (0..12).chain([63, 64, 4096, 65_535]) {
                let mut damaged = case.tables.clone();
                damaged.links[place] = value;
                spoiled(&damaged, &case.query);
            }
        }
        for place in 0..case.tables.samples.len() {
            for value in [0, 1, -1, 4095, 4096, -4096, 32_768 << 12, 0x0055_5555, i32::MIN, i32::MAX] {
                let mut damaged = case.tables.clone();
                damaged.samples[place] = value;
                assert!(!spoiled(&damaged, &case.query), "every word stands for a sample within the limits");
            }
        }
        for place in 0..case.tables.labels.len() {
            for value in [0, 1, 65_535, 65_536, (1 << 48) - 1, 1 << 48, u64::MAX] {
                let mut damaged = case.tables.clone();
                damaged.labels[place] = value;
                assert!(!spoiled(&damaged, &case.query), "no rule speaks of labels");
                check_write(&damaged, damaged.lengths(), &mut [0x77; 2048]).expect("a label is written as it is");
            }
        }
    }
}

#[test]
fn several_fields_at_once() {
    let random = &mut Random::seeded(23);
    for case in cases(random) {
        let used = (usize::from(case.tables.control[4]) * RECORD_PLACES).max(1);
        for _ in 0..3000 {
            let mut damaged = case.tables.clone();
            for _ in 0..2 + random.below(3) {
                let mut place = random.below(used);
                if random.once_in(2) {
                    place = place / RECORD_PLACES * RECORD_PLACES + random.below(12);
                }
                let options = values(damaged.nodes[place], &damaged);
                match random.below(8) {
                    0 => {
                        let at = random.below(damaged.links.len());
                        damaged.links[at] = random.below(8) as u16;
                    }
                    1 => damaged.control[3 + random.below(2)] = random.below(9) as u16,
                    _ => damaged.nodes[place] = *random.pick(&options),
                }
            }
            spoiled(&damaged, &case.query);
        }
    }
}

/// Every table one place too short, and the order of the refusals: 2 for the control record, 3 for its measures, 2, the rest of 3, 4, 15, then 5, 6, 7.
#[test]
fn short_tables_and_the_order() {
    let random = &mut Random::seeded(24);
    for case in cases(random) {
        let l = case.tables.lengths();
        for table in 0..6 {
            let mut short = l;
            *short.each()[table] -= 1;
            for spoil in 0..4 {
                let mut t = case.tables.clone();
                match spoil {
                    1 => t.control[2] = 65,
                    2 => t.control[4] = 9999,
                    3 => t.control[3] = 9999,
                    _ => {}
                }
                let wrong = vec![0; case.query.len() + 1];
                let expected = if table != 0 && spoil == 1 { (3, 0) } else { (2, 0) };
                assert_eq!(check_add(&mut t.clone(), short, &wrong).unwrap_err(), expected);
                assert_eq!(check_add_labelled(&mut t.clone(), short, &wrong, Label::default()).unwrap_err(), expected);
                assert_eq!(check_label(&t, short, 9999).unwrap_err(), expected);
                assert_eq!(check_remote(&mut t, short, &mut [], &wrong).unwrap_err(), expected);
                assert_eq!(check_nearest(&mut t, short, &mut [], &wrong).unwrap_err(), expected);
                assert_eq!(check_k_nearest(&mut t, short, &mut [], &mut [], &wrong, 0).unwrap_err(), expected);
                assert_eq!(check_batch(&mut t, short, &mut [], &wrong, 0, 1).unwrap_err(), expected);
                assert_eq!(check_bands(&mut t, short, &mut [], &wrong, &[]).unwrap_err(), expected);
                assert_eq!(check_within(&mut t, short, &mut [], &wrong, 0).unwrap_err(), expected);
                assert_eq!(check_clipped(&mut t, short, &mut [], &wrong, &[]).unwrap_err(), expected);
                assert_eq!(check_import(&mut t, short, &[]).unwrap_err(), expected);
                assert_eq!(check_export(&t, short, &mut [], 9999, 1 << 31).unwrap_err(), expected);
            }
        }
        // a wrong trace comes before full, empty and a short trail
        let wrong = vec![0; case.query.len() + 1];
        assert_eq!(check_add(&mut case.tables.clone(), l, &wrong).unwrap_err(), (4, 0));
        assert_eq!(check_nearest(&mut case.tables.clone(), l, &mut [], &wrong).unwrap_err(), (4, 0));
        // and then a sample outside the limits, in the first place or the last, by the least and by the most
        for (at, number) in [(0, 524_288), (case.query.len() - 1, -524_289), (0, i32::MIN), (case.query.len() - 1, i32::MAX)] {
            let mut beyond = case.query.clone();
            beyond[at] = number;
            assert_eq!(check_add(&mut case.tables.clone(), l, &beyond).unwrap_err(), (15, 0));
            assert_eq!(check_add_labelled(&mut case.tables.clone(), l, &beyond, Label::default()).unwrap_err(), (15, 0));
            assert_eq!(check_nearest(&mut case.tables.clone(), l, &mut [], &beyond).unwrap_err(), (15, 0));
            assert_eq!(check_remote(&mut case.tables.clone(), l, &mut [], &beyond).unwrap_err(), (15, 0));
            // a wrong length comes first, tables come first
            beyond.push(0);
            assert_eq!(check_add(&mut case.tables.clone(), l, &beyond).unwrap_err(), (4, 0));
            let mut spoiled = case.tables.clone();
            spoiled.control[4] = 9999;
            assert_eq!(check_add(&mut spoiled, l, &beyond[..case.query.len()]).unwrap_err(), (3, 0));
        }
        let beyond = vec![524_288; case.query.len()];
        let expected = if case.tables.control[3] == 0 { (6, 0) } else { (7, 0) };
        assert_eq!(check_nearest(&mut case.tables.clone(), l, &mut [], &case.query).unwrap_err(), expected);
        assert_eq!(check_remote(&mut case.tables.clone(), l, &mut [], &wrong).unwrap_err(), (4, 0));
        assert_eq!(check_remote(&mut case.tables.clone(), l, &mut [], &case.query).unwrap_err(), expected);
        // the label of no trace, of an empty library too
        for number in [case.tables.control[3].into(), 65_536, u64::MAX] {
            assert_eq!(check_label(&case.tables, l, number), Err((12, 0)));
        }
        // a bad k comes before a wrong trace, and that before empty, a short trail and a short list
        let order = |k: u64, query: &[i32], trail: usize, list: usize| {
            check_k_nearest(&mut case.tables.clone(), l, &mut vec![7; trail], &mut vec![7; list], query, k).map(|_| ())
        };
        for k in [0, 17, 65_537, u64::MAX] {
            assert_eq!(order(k, &wrong, 0, 0), Err((11, 0)));
        }
        assert_eq!(order(16, &wrong, 0, 0), Err((4, 0)));
        assert_eq!(order(16, &beyond, 0, 0), Err((15, 0)));
        assert_eq!(order(16, &case.query, 0, 32), Err(expected));
        assert_eq!(order(16, &case.query, 16, 31), Err(expected));
        assert_eq!(order(1, &case.query, 16, 1), Err(expected));
        assert_eq!(order(16, &case.query, 16, 32), if case.tables.control[3] == 0 { Err((6, 0)) } else { Ok(()) });
        // a limit of no leaf comes behind spoiled tables and before a wrong trace; a trail is too short by the leaves, whatever the limit
        let order = |most: u64, query: &[i32], trail: usize| check_within(&mut case.tables.clone(), l, &mut vec![7; trail], query, most).map(|_| ());
        let mut spoiled = case.tables.clone();
        spoiled.control[4] = 9999;
        assert_eq!(check_within(&mut spoiled, l, &mut [], &wrong, 0).unwrap_err(), (3, 0));
        assert_eq!(order(0, &wrong, 0), Err((18, 0)));
        assert_eq!(order(0, &beyond, 0), Err((18, 0)));
        assert_eq!(order(0, &case.query, 16), Err((18, 0)));
        let leaves = case.tables.library().expect("well-formed tables").leaves().len();
        for most in [1, 2, u64::MAX] {
            assert_eq!(order(most, &wrong, 0), Err((4, 0)));
            assert_eq!(order(most, &beyond, 0), Err((15, 0)));
            assert_eq!(order(most, &case.query, leaves.saturating_sub(1)), Err(expected));
            assert_eq!(order(most, &case.query, leaves), if leaves == 0 { Err((6, 0)) } else { Ok(()) });
        }
        // a low above its high comes behind a wrong length and a figure outside the limits, of lows or of highs, and before empty and a short list; a
        // list is too short by the stored traces, however few are listed
        let order =
            |lows: &[i32], highs: &[i32], list: usize| check_clipped(&mut case.tables.clone(), l, &mut vec![7; list], lows, highs).map(|_| ());
        let (q, stored) = (&case.query, usize::from(case.tables.control[3]));
        assert_eq!(check_clipped(&mut spoiled, l, &mut [], &wrong, &beyond).unwrap_err(), (3, 0));
        for lengths in [[&wrong[..], q], [q, &wrong], [&wrong, &wrong], [&wrong, &beyond], [&beyond, &wrong], [&beyond[1..], q], [q, &[]]] {
            assert_eq!(order(lengths[0], lengths[1], 0), Err((4, 0)));
        }
        let (bottom, top) = (vec![-524_288; q.len()], vec![524_287; q.len()]);
        let below = vec![-524_289; q.len()];
        for figures in [[q, &beyond], [&beyond, q], [&below, q], [q, &below], [&top, &below], [&beyond, &bottom], [&beyond, &beyond]] {
            assert_eq!(order(figures[0], figures[1], 0), Err((15, 0)));
        }
        for at in [0, q.len() - 1] {
            let (mut low, mut high) = (bottom.clone(), bottom.clone());
            (low[at], high[at]) = (8, 7);
            assert_eq!([order(&low, &high, 0), order(&low, &high, 16)], [Err((19, 0)); 2]);
            low[at] = 7;
            assert_eq!(order(&low, &high, stored.saturating_sub(1)), Err(expected));
            assert_eq!(order(&low, &high, stored), if stored == 0 { Err((6, 0)) } else { Ok(()) });
        }
        assert_eq!(order(&bottom, &top, stored), if stored == 0 { Err((6, 0)) } else { Ok(()) });
        // a bad batch comes before a wrong trace, and that before empty and a short trail
        let order = |many: usize, run: &[i32], trail: usize, list: usize| {
            check_batch(&mut case.tables.clone(), l, &mut vec![7; trail], run, many, list).map(|_| ())
        };
        for (many, list) in [(0, 0), (17, 17), (1, 0), (1, 2), (16, 17), (65_537, 1), (usize::MAX, 0)] {
            assert_eq!(order(many, &wrong, 0, list), Err((14, 0)));
        }
        assert_eq!(order(1, &wrong, 0, 1), Err((4, 0)));
        assert_eq!(order(2, &case.query, 0, 2), Err((4, 0)));
        assert_eq!(order(2, &beyond, 0, 2), Err((4, 0)));
        assert_eq!(order(2, &[&case.query[..], &beyond].concat(), 0, 2), Err((15, 0)));
        assert_eq!(order(1, &case.query, 0, 1), Err(expected));
        assert_eq!(order(16, &case.query.repeat(16), 16, 16), if case.tables.control[3] == 0 { Err((6, 0)) } else { Ok(()) });
        // bad edges come behind a wrong trace and a sample outside the limits, and before a short list; an empty library is not refused
        let order =
            |edges: &[u64], query: &[i32], list: usize| check_bands(&mut case.tables.clone(), l, &mut vec![7; list], query, edges).map(|_| ());
        let many: Vec<u64> = (0..17).collect();
        for edges in [&[][..], &[0], &many, &[0, 0], &[1, 0], &[0, 9, 9], &[0, 9, 8], &[0, u64::MAX, u64::MAX]] {
            assert_eq!(order(edges, &wrong, 0), Err((4, 0)));
            assert_eq!(order(edges, &beyond, 0), Err((15, 0)));
            assert_eq!(order(edges, &case.query, 0), Err((16, 0)));
            assert_eq!(order(edges, &case.query, 99), Err((16, 0)));
        }
        for (edges, list) in [(&many[..2], 1), (&many[..16], 29), (&[0, u64::MAX][..], 0)] {
            assert_eq!(order(edges, &case.query, list), Err((7, 0)));
            assert_eq!(order(edges, &case.query, 30), Ok(()));
        }
    }
}

/// Two libraries: the factory's 2 and 3 come before the bench's, and both before 17; then 4, 15, 6 where both are empty, 7 by either trail.
#[test]
fn the_order_of_two_libraries() {
    let random = &mut Random::seeded(25);
    let all = cases(random);
    for factory in &all {
        for bench in &all {
            let (l, bench_l) = (factory.tables.lengths(), bench.tables.lengths());
            let n = factory.query.len();
            let order = |spoil: [bool; 2], short: [usize; 2], query: &[i32], trails: [usize; 2]| {
                let (mut f, mut b) = (factory.tables.clone(), bench.tables.clone());
                let (mut fl, mut bl) = (l, bench_l);
                for (t, spoiled) in [&mut f, &mut b].into_iter().zip(spoil) {
                    t.control[4] = if spoiled { 9999 } else { t.control[4] };
                }
                for (lengths, table) in [&mut fl, &mut bl].into_iter().zip(short) {
                    if table < 6 {
                        *lengths.each()[table] -= 1;
                    }
                }
                check_both([&mut f, &mut b], [fl, bl], [&mut vec![7; trails[0]], &mut vec![7; trails[1]]], query).map(|_| ())
            };
            let (wrong, beyond) = (vec![0; n + 1], vec![524_288; n]);
            for table in 0..6 {
                assert_eq!(order([true, true], [table, table], &wrong, [0, 0]), Err((2, 0)));
                assert_eq!(order([true, true], [9, table], &wrong, [0, 0]), Err((3, 0)));
                assert_eq!(order([false, true], [9, table], &wrong, [0, 0]), Err((2, 0)));
            }
            assert_eq!(order([false, true], [9, 9], &wrong, [0, 0]), Err((3, 0)));
            if bench.query.len() != n {
                assert_eq!(order([false, false], [9, 9], &wrong, [0, 0]), Err((17, 0)));
                assert_eq!(order([false, false], [9, 9], &factory.query, [16, 16]), Err((17, 0)));
                continue;
            }
            assert_eq!(order([false, false], [9, 9], &wrong, [0, 0]), Err((4, 0)));
            assert_eq!(order([false, false], [9, 9], &beyond, [0, 0]), Err((15, 0)));
            let stored = [factory, bench].map(|case| case.tables.control[3] > 0);
            let refused = match stored {
                [false, false] => Err((6, 0)),
                _ => Err((7, 0)),
            };
            assert_eq!(order([false, false], [9, 9], &factory.query, [0, 0]), refused);
            // an empty library's trail needs no place
            let empty = if stored == [false, false] { Err((6, 0)) } else { Ok(()) };
            assert_eq!(order([false, false], [9, 9], &factory.query, stored.map(|some| if some { 16 } else { 0 })), empty);
            for at in 0..2 {
                let mut trails = [16; 2];
                trails[at] = 0;
                let expected = if stored[at] { Err((7, 0)) } else { empty };
                assert_eq!(order([false, false], [9, 9], &factory.query, trails), expected);
            }
        }
    }
}

/// Every node but 0 is a child once and every trace in one leaf, yet node 0 is its own child: "inner children numbered above their parent" refuses it.
#[test]
fn a_node_that_is_its_own_child() {
    let stored = vec![vec![0, 0, 0, 0], vec![4, 4, 4, 4]];
    for (left, right, kind) in [(0, 1, 1), (1, 0, 1), (0, 1, 2), (1, 0, 2)] {
        let mut t = Tables::of(&Library::of(measures(4, 8, 2), &stored));
        // leaf 0 becomes leaf 1
        let (first, second) = t.nodes.split_at_mut(RECORD_PLACES);
        second[..RECORD_PLACES].copy_from_slice(first);
        t.nodes[..7].copy_from_slice(&[kind, 1, left, right, 1, 4, 0]);
        t.control[4] = 2;
        assert!(spoiled(&t, &[1, 1, 1, 1]), "{left} {right}");
    }
}
