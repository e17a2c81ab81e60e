//! The scans that the index is compared with find what the documents say.

use silkendoz::scan::{bands, distance, k_nearest, k_nearest_abandoning, nearest, nearest_abandoning, possible_distances};
use silkendoz::StoredSample;
use testing::model;
use testing::random::{query, traces, Random, SHAPES};

#[test]
fn every_scan_is_the_plain_one() {
    let random = &mut Random::seeded(61);
    for shape in SHAPES {
        for n in [1, 2, 15, 16, 17, 256] {
            let stored = traces(random, shape, n, 20);
            let q = query(random, shape, n, &stored);
            let samples: Vec<StoredSample> = stored.concat().into_iter().filter_map(StoredSample::new).collect();
            let ranked: Vec<(usize, u64)> = model::scan(&stored, &q).into_iter().map(|(t, d)| (t, d as u64)).collect();
            assert_eq!(nearest(&samples, n, &q), ranked.first().copied());
            assert_eq!(nearest_abandoning(&samples, n, &q), ranked.first().copied());
            for k in [1, 2, 5, 16, 21] {
                assert_eq!(k_nearest(&samples, n, &q, k), ranked[..k.min(20)]);
                assert_eq!(k_nearest_abandoning(&samples, n, &q, k), ranked[..k.min(20)]);
            }
            let mut edges: Vec<u64> = ranked.iter().step_by(3).flat_map(|&(_, d)| [d, d + 1]).collect();
            edges.sort_unstable();
            edges.dedup();
            let counted: Vec<u64> = model::in_bands(&stored, &q, &edges).into_iter().map(|count| count as u64).collect();
            assert_eq!(bands(&samples, n, &q, &edges), counted);
            // between two queries, sample by sample
            let other = query(random, shape, n, &stored);
            let (lows, highs): (Vec<i32>, Vec<i32>) = q.iter().zip(&other).map(|(&x, &y)| (x.min(y), x.max(y))).unzip();
            for (trace, stored) in samples.chunks_exact(n).zip(&stored) {
                let (least, greatest) = possible_distances(trace, &lows, &highs);
                assert_eq!((i128::from(least), i128::from(greatest)), model::possible_distances(stored, &lows, &highs));
                assert_eq!(possible_distances(trace, &q, &q), (distance(trace, &q), distance(trace, &q)));
            }
        }
    }
    let least = |sample| [StoredSample::new(sample).unwrap(); 256];
    assert_eq!(distance(&least(-32_768), &[32_767; 256]), 1_099_478_073_600);
    assert_eq!(distance(&least(-524_288), &[524_287; 256]), 281_474_439_840_000);
    assert_eq!(possible_distances(&least(-524_288), &[-524_288; 256], &[524_287; 256]), (0, 281_474_439_840_000));
    assert_eq!(nearest(&[], 4, &[0; 4]), None);
    assert_eq!(k_nearest(&[], 4, &[0; 4], 5), []);
    assert_eq!((bands(&[], 4, &[0; 4], &[0, 1]), bands(&[], 4, &[0; 4], &[])), (vec![0], vec![]));
}
