//! The nearest trace, the k nearest, and how many lie in bands, by reading the stored samples one trace after another: what the index is
//! compared with, and as good as it for few traces. Beside them stand the distance of one trace, and what it may be of a clipped sweep.
//! Nothing here is proved; tests hold it to the documents. The samples are stored ones, as the table of a library has them. The query's are
//! plain, and have to be within [`crate::SAMPLES`]: of others the distance may not fit its type.

use crate::StoredSample;

/// The lowest number at the least distance, and that distance. Samples are traces of n, one behind the other.
pub fn nearest(samples: &[StoredSample], n: usize, query: &[i32]) -> Option<(usize, u64)> {
    let mut best: Option<(usize, u64)> = None;
    for (number, trace) in samples.chunks_exact(n).enumerate() {
        let d = distance(trace, query);
        if best.is_none_or(|(_, least)| d < least) {
            best = Some((number, d));
        }
    }
    best
}

/// The same, leaving a trace as soon as it is no longer below the best; it looks every 16 samples.
pub fn nearest_abandoning(samples: &[StoredSample], n: usize, query: &[i32]) -> Option<(usize, u64)> {
    let mut best: Option<(usize, u64)> = None;
    for (number, trace) in samples.chunks_exact(n).enumerate() {
        let limit = best.map_or(u64::MAX, |(_, least)| least);
        if let Some(d) = distance_below(trace, query, limit) {
            best = Some((number, d));
        }
    }
    best
}

/// The k nearest, by distance, then number, with their distances; of fewer than k traces all. k is not 0.
pub fn k_nearest(samples: &[StoredSample], n: usize, query: &[i32], k: usize) -> Vec<(usize, u64)> {
    let mut list = Vec::with_capacity(k);
    for (number, trace) in samples.chunks_exact(n).enumerate() {
        keep(&mut list, k, number, distance(trace, query));
    }
    list
}

/// The same, leaving a trace as soon as it is no longer below the last of k.
pub fn k_nearest_abandoning(samples: &[StoredSample], n: usize, query: &[i32], k: usize) -> Vec<(usize, u64)> {
    let mut list: Vec<(usize, u64)> = Vec::with_capacity(k);
    for (number, trace) in samples.chunks_exact(n).enumerate() {
        let limit = list.get(k - 1).map_or(u64::MAX, |&(_, last)| last);
        if let Some(d) = distance_below(trace, query, limit) {
            keep(&mut list, k, number, d);
        }
    }
    list
}

/// How many traces lie in each band from one edge up to but not including the next, edges rising: the true numbers, where a report of bands
/// says between which they lie.
///
/// ```
/// use silkendoz::{scan, StoredSample};
///
/// let samples = [0, 4, 9].map(|sample| StoredSample::new(sample).unwrap());
/// assert_eq!(scan::bands(&samples, 1, &[1], &[0, 1, 9, 64]), [0, 1, 1]);
/// assert_eq!(scan::bands(&samples, 1, &[1], &[0, 65]), [3]);
/// ```
pub fn bands(samples: &[StoredSample], n: usize, query: &[i32], edges: &[u64]) -> Vec<u64> {
    let mut counts = vec![0; edges.len().saturating_sub(1)];
    for trace in samples.chunks_exact(n) {
        let d = distance(trace, query);
        let reached = edges.partition_point(|&edge| edge <= d);
        if let Some(count) = reached.checked_sub(1).and_then(|band| counts.get_mut(band)) {
            *count += 1;
        }
    }
    counts
}

/// Puts a trace behind those that are no farther, if it is one of the k nearest so far.
fn keep(list: &mut Vec<(usize, u64)>, k: usize, number: usize, d: u64) {
    let place = list.partition_point(|&(_, other)| other <= d);
    if place < k {
        list.truncate(k - 1);
        list.insert(place, (number, d));
    }
}

/// The sum of squared differences.
pub fn distance(trace: &[StoredSample], query: &[i32]) -> u64 {
    trace.iter().zip(query).map(|(&x, &y)| square(x.value(), y)).sum()
}

/// The least and the greatest distance that a trace may have from a sweep whose samples lie between these figures, no low above its high. A
/// sample inside its range adds nothing to the least, any other what lies to the range's nearer end; to the greatest it adds what lies to the
/// farther end.
///
/// ```
/// use silkendoz::{scan, StoredSample};
///
/// let trace = [5, 9].map(|sample| StoredSample::new(sample).unwrap());
/// assert_eq!(scan::possible_distances(&trace, &[4, 4], &[7, 7]), (4, 29));
/// // every sample known: the distance
/// assert_eq!(scan::possible_distances(&trace, &[4, 4], &[4, 4]), (26, 26));
/// assert_eq!(scan::distance(&trace, &[4, 4]), 26);
/// ```
pub fn possible_distances(trace: &[StoredSample], lows: &[i32], highs: &[i32]) -> (u64, u64) {
    let ranges = lows.iter().zip(highs);
    trace.iter().zip(ranges).fold((0, 0), |(least, greatest), (x, (&low, &high))| {
        let x = x.value();
        (least + square(x, x.max(low).min(high)), greatest + square(x, low).max(square(x, high)))
    })
}

fn square(x: i32, y: i32) -> u64 {
    let apart = u64::from(x.abs_diff(y));
    apart * apart
}

/// The distance, if it is below the limit; it looks every 16 samples.
fn distance_below(trace: &[StoredSample], query: &[i32], limit: u64) -> Option<u64> {
    let mut total = 0;
    for (x, y) in trace.chunks(16).zip(query.chunks(16)) {
        total += distance(x, y);
        if total >= limit {
            return None;
        }
    }
    Some(total)
}
