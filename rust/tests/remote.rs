//! The remote is told no serial (document 02, §8): "Two libraries alike but for serials must give the remote equal answers and equal
//! refusals". Pairs of memories of which one has other serials are asked the same, over any tables and of any lengths: answers, refusals,
//! trails and search work are the same.

mod common;

use common::{check_remote, label, measures};
use testing::model::tables::{Lengths, Tables};
use testing::model::{Library, Refused};
use testing::random::{labels, query, traces, uniform, Random, Shape, SHAPES};

/// Two memories alike but for serials; the bits above a serial may differ too.
struct Pair {
    these: Tables,
    other: Tables,
    shape: Shape,
    library: Library,
}

/// All of a label but its code is any other.
fn other_serial(random: &mut Random, place: u64) -> u64 {
    place % 65_536 + (random.word() << 16)
}

fn pair(random: &mut Random) -> Pair {
    let shape = *random.pick(&SHAPES);
    let (n, count, leaf_size) = (1 + random.below(8), random.below(12), 1 + random.below(3));
    let stored = traces(random, shape, n, count);
    let library = Library::of(measures(n, count + 1 + random.below(3), leaf_size), &stored).labelled(&labels(random, count));
    let mut these = Tables::of(&library);
    these.work.iter_mut().for_each(|x| *x = random.word());
    let mut other = these.clone();
    other.labels.iter_mut().for_each(|place| *place = other_serial(random, *place));
    if random.once_in(3) {
        spoil(random, &mut these, &mut other);
    }
    Pair { these, other, shape, library }
}

/// The same place of both gets the same number: a field of the control record, of a node's record or a link.
fn spoil(random: &mut Random, these: &mut Tables, other: &mut Tables) {
    let value = *random.pick(&[0, 1, 2, 3, 7, 65, 4097]);
    let (control, node, link) = (random.below(5), random.below(these.nodes.len().min(3 * 87)), random.below(these.links.len()));
    let table = random.below(3);
    for t in [these, other] {
        match table {
            0 => t.control[control] = value,
            1 => t.nodes[node] = value.into(),
            _ => t.links[link] = value,
        }
    }
}

/// Now and then less of one table.
fn lengths(random: &mut Random, t: &Tables) -> Lengths {
    let mut l = t.lengths();
    if random.once_in(8) {
        let length = &mut *l.each()[random.below(6)];
        *length = random.below(*length + 1);
    }
    l
}

/// The same but for serials.
fn alike(these: &Tables, other: &Tables) -> bool {
    let codes = |t: &Tables| t.labels.iter().map(|place| place % 65_536).collect::<Vec<u64>>();
    let without = |t: &Tables| Tables { labels: Vec::new(), ..t.clone() };
    without(these) == without(other) && codes(these) == codes(other)
}

/// One call to both: what both answer.
fn ask(random: &mut Random, pair: &mut Pair) -> Result<usize, Refused> {
    let n = pair.library.measures.n as usize;
    let q = if random.once_in(10) { uniform(random, n + 1, -9, 9) } else { query(random, pair.shape, n, &pair.library.traces) };
    let trail = vec![0xabcd; if random.once_in(6) { random.below(4) } else { 16 }];
    let l = lengths(random, &pair.these);
    let (mut first, mut second) = (trail.clone(), trail);
    let told = check_remote(&mut pair.these, l, &mut first, &q);
    assert_eq!(check_remote(&mut pair.other, l, &mut second, &q), told, "equal answers and equal refusals");
    assert_eq!(first, second, "equal trails");
    assert!(alike(&pair.these, &pair.other), "equal search work, and all else alike");
    told.map(|(found, _)| found.trace)
}

#[test]
fn the_remote_sees_no_serials() {
    let random = &mut Random::seeded(81);
    let (mut refused, mut told_apart) = ([0; 8], 0);
    for _ in 0..400 {
        let mut pair = pair(random);
        for _ in 0..12 {
            // search work of any contents, the same in both
            let mark = random.word();
            for t in [&mut pair.these, &mut pair.other] {
                t.work.iter_mut().for_each(|x| *x ^= mark);
            }
            match ask(random, &mut pair) {
                Err((number, place)) => {
                    assert_eq!(place, 0);
                    refused[number as usize] += 1;
                }
                // the bench is told the serial, by which the two differ
                Ok(trace) => {
                    let told = [&pair.these, &pair.other].map(|t| label(t, t.lengths(), trace as u64).expect("a stored trace"));
                    assert_eq!(told[0].code, told[1].code);
                    told_apart += usize::from(told[0].serial != told[1].serial);
                }
            }
        }
    }
    assert!([2, 3, 4, 6, 7].iter().all(|&number| refused[number] > 20), "{refused:?}");
    assert!(told_apart > 1000, "{told_apart}");
}
