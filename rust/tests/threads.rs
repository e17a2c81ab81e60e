//! Several matches at once over one library: each has search work and a trail of its own, and the library is only read.

use silkendoz::{scan, Library, LimitedMatch, StoredSample, TraceLibrary};
use testing::random::{query, traces, Random, Shape};

const THREADS: usize = 8;

/// A limit on leaves.
const FEW: usize = 2;

/// A log's limit: what reaches it is clipped.
const LIMIT: i32 = 2000;

#[test]
fn searched_by_several_threads_at_once() {
    let random = &mut Random::seeded(71);
    let stored = traces(random, Shape::Walk, 64, 1000);
    let mut library = TraceLibrary::open(64, 1000, 8).unwrap();
    for trace in &stored {
        library.add(trace).unwrap();
    }
    let queries: Vec<Vec<i32>> = (0..400).map(|_| query(random, Shape::Walk, 64, &stored)).collect();
    let before = library.clone();
    let edges = [0, 1 << 16, 1 << 20, 1 << 24, 1 << 28, 1 << 32];
    let mut factory = TraceLibrary::open(64, 300, 4).unwrap();
    for trace in traces(random, Shape::Walk, 64, 300) {
        factory.add(&trace).unwrap();
    }
    let (library, factory, queries) = (&library, &factory, &queries);
    let ask = |q: &[i32]| {
        let both = TraceLibrary::match_both(factory, library, q).unwrap();
        let few = library.match_within(q, FEW as u64).unwrap();
        let lows: Vec<i32> = q.iter().map(|&x| x.min(LIMIT)).collect();
        let highs: Vec<i32> = q.iter().map(|&x| if x < LIMIT { x } else { x.max(2 * LIMIT) }).collect();
        let clipped = library.match_clipped(&lows, &highs).unwrap();
        (library.nearest(q).unwrap(), library.k_nearest(q, 5).unwrap(), library.count_bands(q, &edges).unwrap(), both, clipped, few)
    };
    let alone: Vec<_> = queries.iter().map(|q| ask(q)).collect();
    let (alone, ask) = (&alone, &ask);
    std::thread::scope(|threads| {
        for first in 0..THREADS {
            threads.spawn(move || {
                // each begins elsewhere, so that at any time they look for different things
                for at in (0..queries.len()).map(|i| (i + 50 * first) % queries.len()) {
                    assert!(ask(&queries[at]) == alone[at]);
                }
            });
        }
    });
    assert!(*library == before);
    let settled = alone.iter().filter(|(.., few)| matches!(few, LimitedMatch::Settled(_))).count();
    assert!(settled > 20 && settled + 20 < alone.len(), "{settled} are settled");
    let samples: Vec<StoredSample> = stored.concat().into_iter().filter_map(StoredSample::new).collect();
    let several = alone.iter().filter(|(.., clipped, _)| clipped.len() > 1).count();
    assert!(several > 20 && several + 20 < alone.len(), "of {several} several are listed");
    for (q, (found, _, _, both, clipped, few)) in queries.iter().zip(alone) {
        assert_eq!(scan::nearest(&samples, 64, q), Some((found.trace, found.distance)));
        assert!(clipped.contains(&found.trace));
        match few {
            LimitedMatch::Settled(few) => assert!(found.leaves <= FEW && few == found),
            LimitedMatch::Open(few) => assert!(found.leaves > FEW && few.bound <= found.distance && found.distance <= few.distance),
        }
        let other = factory.nearest(q).unwrap();
        let (which, nearest) = if other.distance <= found.distance { (Library::Factory, &other) } else { (Library::Bench, found) };
        assert_eq!((both.library, both.trace, both.distance), (which, nearest.trace, nearest.distance));
    }
}

/// Measures and counts, not some hundred thousand numbers.
#[test]
fn shown() {
    let mut library = TraceLibrary::open(2, 9, 3).unwrap();
    library.add(&[1, 2]).unwrap();
    assert_eq!(format!("{library:?}"), "TraceLibrary { n: 2, capacity: 9, leaf_size: 3, traces: 1, nodes: 1 }");
}
