//! The check before tables are trusted (document 02, §6): every figure altered by one is a loose record, every other alteration is answered as
//! defined, and what is accepted, whatever made it, is searched exactly and stays accepted.

mod common;

use common::{check_add, check_checked, check_import, check_k_nearest, check_list, check_nearest, check_read_back, check_scan, measures, narrowed};
use silkendoz::{Refusal, StoredSample, Tables as Kept, TraceLibrary};
use testing::model::recording;
use testing::model::tables::{segment_place, word_of, Tables, RECORD_PLACES};
use testing::model::{segments_of, Kind, Library, Trace};
use testing::random::{query, traces, Random, Shape, SHAPES};

fn made(random: &mut Random, shape: Shape, n: usize, count: usize, leaf_size: usize) -> Library {
    let stored = traces(random, shape, n, count);
    Library::of(measures(n, count + 3, leaf_size), &stored)
}

/// Small libraries of every shape, with inner nodes and several segments among them.
fn small(random: &mut Random) -> Vec<Library> {
    let mut list = vec![made(random, Shape::Small, 1, 1, 1)];
    for shape in SHAPES {
        list.push(made(random, shape, 1, 5, 1));
        list.push(made(random, shape, 6, 7, 1));
        list.push(made(random, shape, 9, 8, 2));
    }
    list
}

#[test]
fn made_libraries_are_accepted() {
    let random = &mut Random::seeded(61);
    let empty = Tables::of(&Library::open(measures(3, 4, 2)));
    assert!(check_checked(&empty, empty.lengths()).is_ok(), "an empty library has no figure");
    for library in small(random) {
        let t = Tables::of(&library);
        assert_eq!(check_checked(&t, t.lengths()), Ok(library));
    }
    for shape in SHAPES {
        let library = made(random, shape, 64, 120, 4);
        let t = Tables::of(&library);
        assert_eq!(check_checked(&t, t.lengths()), Ok(library));
    }
}

/// Every figure of every record, one more and one less: 13, or 3 where the rules for well-formed tables no longer hold.
#[test]
fn every_figure_by_one() {
    let random = &mut Random::seeded(62);
    let (mut loose, mut inner) = (0, 0);
    for library in small(random) {
        let t = Tables::of(&library);
        let l = t.lengths();
        for (j, node) in library.nodes.iter().enumerate() {
            for segment in 0..node.segments.len() {
                for figure in 1..=4 {
                    for by in [-1, 1] {
                        let mut altered = t.clone();
                        altered.nodes[j * RECORD_PLACES + segment_place(segment) + figure] += by;
                        let answer = check_checked(&altered, l).map(|_| ());
                        let expected = if altered.library().is_some() { (13, 0) } else { (3, 0) };
                        assert_eq!(answer, Err(expected), "node {j} segment {segment} figure {figure} by {by}");
                        loose += usize::from(expected == (13, 0));
                        inner += usize::from(expected == (13, 0) && !node.is_leaf());
                    }
                }
            }
        }
    }
    assert!(loose > 1500 && inner > 300, "{loose} loose, {inner} of them at inner nodes");
}

/// Every other field that may be altered in well-formed tables: answered as defined. Tests and samples are no figures; a link or a child that
/// makes other traces lie below a node does bear.
#[test]
fn other_fields() {
    let random = &mut Random::seeded(63);
    let (mut accepted, mut loose) = (0, 0);
    for library in small(random) {
        let t = Tables::of(&library);
        let l = t.lengths();
        let mut tried = |altered: &Tables| {
            if altered.library().is_some() {
                match check_checked(altered, l) {
                    Ok(_) => accepted += 1,
                    Err(why) => {
                        assert_eq!(why, (13, 0));
                        loose += 1;
                    }
                }
            }
        };
        let n = library.measures.n as i64;
        for j in 0..library.nodes.len() {
            for place in 0..7 {
                for value in (-2..=n.max(library.nodes.len() as i64)).chain([2 * n * 524_288, -2 * n * 524_288]) {
                    let mut altered = t.clone();
                    altered.nodes[j * RECORD_PLACES + place] = value;
                    tried(&altered);
                }
            }
        }
        for place in 0..library.traces.len() {
            for value in 0..=library.traces.len() as u16 {
                let mut altered = t.clone();
                altered.links[place] = value;
                tried(&altered);
            }
        }
        for place in 0..t.samples.len() {
            // the next sample either way, and lower bits alone
            for by in [-4096, 4096, 4095] {
                let mut altered = t.clone();
                altered.samples[place] = altered.samples[place].saturating_add(by);
                tried(&altered);
            }
        }
        for leaf_size in 1..5 {
            let mut altered = t.clone();
            altered.control[2] = leaf_size;
            tried(&altered);
        }
    }
    assert!(accepted > 1000 && loose > 1000, "{accepted} accepted, {loose} loose");
}

/// A tree over all traces that no call made: any partition, tests that send traces anywhere, but the figures of the traces below.
fn any_exact_tree(random: &mut Random, shape: Shape, n: usize, count: usize) -> Library {
    let leaf_size = 1 + random.below(3);
    let mut library = made(random, shape, n, count, leaf_size);
    // numbers dealt out anew to the leaves, as many to each as it had
    let mut numbers: Vec<usize> = (0..count).collect();
    for i in (1..count).rev() {
        numbers.swap(i, random.below(i + 1));
    }
    for node in &mut library.nodes {
        match &mut node.kind {
            Kind::Leaf(list) => {
                let rest = numbers.split_off(list.len());
                *list = std::mem::replace(&mut numbers, rest);
                list.sort_unstable();
            }
            Kind::Inner { test, .. } => test.threshold = (test.threshold / 3).max(0),
        }
    }
    for j in (0..library.nodes.len()).rev() {
        let ends = library.nodes[j].ends();
        let below: Vec<&[i32]> = library.below(j).iter().map(|&t| library.traces[t].as_slice()).collect();
        library.nodes[j].segments = segments_of(&ends, &below);
    }
    library
}

/// "If it accepts, a match must be the nearest stored trace and read the fewest leaves, whatever made the tables", and so it stays after
/// addings and imports.
#[test]
fn accepted_tables_are_searched_exactly() {
    let random = &mut Random::seeded(64);
    for round in 0..150 {
        let shape = *random.pick(&SHAPES);
        let (n, count) = (1 + random.below(12), 1 + random.below(16));
        let library = any_exact_tree(random, shape, n, count);
        let mut t = Tables::of(&library);
        let l = t.lengths();
        assert_eq!(check_checked(&t, l), Ok(library), "round {round}");
        check_read_back(&t, l);
        for _ in 0..4 {
            let held = check_checked(&t, l).expect("it goes on accepting");
            let q: Trace = query(random, shape, n, &held.traces);
            let mut trail = vec![0; held.leaves().len()];
            check_scan(&held, &q, &check_nearest(&mut t, l, &mut trail, &q).expect("nothing is refused"));
            let k = 1 + random.below(16);
            let found = check_k_nearest(&mut t, l, &mut trail, &mut vec![0; 2 * k], &q, k as u64).expect("nothing is refused");
            check_list(&held, &q, k, &found);
            let trace: Trace = query(random, shape, n, &held.traces);
            if random.once_in(2) {
                let _ = check_add(&mut t, l, &trace);
            } else {
                let _ = check_import(&mut t, l, &recording::write(8000, &narrowed(&trace)));
            }
        }
    }
}

/// What it does not see: a sample that changed where the figures changed with it, or stayed.
#[test]
fn what_it_does_not_see() {
    let stored: Vec<Trace> = vec![vec![0, 9], vec![5, 5]];
    let library = Library::of(measures(2, 4, 4), &stored);
    let mut t = Tables::of(&library);
    let l = t.lengths();
    // sums 9 to 10, scatters 0 to 81: a trace whose samples change places has the same figures
    t.samples[..2].copy_from_slice(&[word_of(9), 0]);
    assert!(check_checked(&t, l).is_ok());
    let other = Library::of(measures(2, 4, 4), &[vec![9, 0], vec![5, 5]]);
    assert_eq!(t.library(), Some(other));
}

/// The wrapper takes the needed places of tables that are accepted, and of others none, however large their measures.
#[test]
fn tables_from_elsewhere() {
    let mut library = TraceLibrary::open(4, 8, 2).unwrap();
    for trace in [[0, 0, 0, 0], [4, 4, 4, 4], [0, 8, 0, 8]] {
        library.add(&trace).unwrap();
    }
    let t = library.tables();
    let longer = (
        [t.control, &[9; 3]].concat(),
        [t.samples, &[StoredSample::from_word(9); 3]].concat(),
        [t.nodes, &[9; 3]].concat(),
        [t.links, &[9; 3]].concat(),
    );
    let labels = [t.labels, &[9; 3]].concat();
    let kept = |control| Kept::new(control, &longer.1, &longer.2, &longer.3).with_labels(&labels);
    let mut taken = TraceLibrary::from_tables(kept(&longer.0)).unwrap();
    assert_eq!(taken, library);
    assert_eq!(taken.add(&[1, 1, 1, 1]), library.add(&[1, 1, 1, 1]));
    assert_eq!((taken.check(), &taken), (Ok(()), &library));
    assert_eq!(TraceLibrary::from_tables(kept(&[u16::MAX; 5])), Err(Refusal::Spoiled));
    assert_eq!(TraceLibrary::from_tables(kept(&[0; 5])), Err(Refusal::Spoiled));
    assert_eq!(TraceLibrary::from_tables(kept(&[256, 4096, 64, 4096, 8191])), Err(Refusal::ShortTable));
    assert_eq!(TraceLibrary::from_tables(kept(&[])), Err(Refusal::ShortTable));
}
