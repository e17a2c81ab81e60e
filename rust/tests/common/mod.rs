//! What several tests use: the calls on a set of tables, held to the model.
#![allow(dead_code)]

use silkendoz::calls::Answer;
pub use testing::lending::{add, add_labelled, check_tables, export_recording, import_recording, k_nearest, label, match_batch, nearest, open};
pub use testing::lending::{count_bands, match_both, match_clipped, match_within, read_sheet, remote_match, write_sheet};
use testing::model::tables::{judge_opening, judge_pair, label_place, word_of, Lengths, Tables};
use testing::model::{distance, in_bands, pair, pair_by_steps, possible_distances, within, NARROW_LIMIT};
use testing::model::{Band, Batch, KNearest, Kind, Label, Library, Limited, Match, Measures, Pair, Refused, Trace};
use testing::program::repository;
use testing::random::{no_sample, Random, GREATEST, LEAST};
use testing::script::bytes;

pub fn measures(n: usize, capacity: usize, leaf_size: usize) -> Measures {
    Measures { n: n as u64, capacity: capacity as u64, leaf_size: leaf_size as u64 }
}

/// A file of `vectors/`.
pub fn vectors(name: &str) -> String {
    let path = repository().join("vectors").join(name);
    std::fs::read_to_string(&path).unwrap_or_else(|why| panic!("{}: {why}", path.display()))
}

/// `vectors/sheets.txt`: the name of each sheet, the line that the program prints of it, and its bytes.
pub fn sheet_vectors() -> Vec<(String, String, Vec<u8>)> {
    let row = |row: &str| {
        let fields: Vec<&str> = row.split('\t').collect();
        let sheet = bytes::parse(fields.get(2).unwrap_or(&"-")).expect("two digits a byte");
        (fields[0].to_string(), fields[1].to_string(), sheet)
    };
    vectors("sheets.txt").lines().filter(|line| !line.starts_with('#')).map(row).collect()
}

/// Tables of these lengths with junk in every place.
pub fn junk(l: Lengths) -> Tables {
    Tables {
        control: vec![0xa5a5; l.control],
        samples: vec![-0x5a5a_5a5b; l.samples],
        nodes: vec![0x5a5a_5a5a_5a5a; l.nodes],
        links: vec![0x5a5a; l.links],
        work: vec![0xa5a5_a5a5; l.work],
        labels: vec![0x5a5a_a5a5_5a5a_a5a5; l.labels],
    }
}

/// A trace brought to 16 bits, as recordings have them.
pub fn narrowed(trace: &[i32]) -> Trace {
    trace.iter().map(|&x| x.clamp(-32_768, 32_767)).collect()
}

/// Whether a trace fits 16 bits: one that does not is not exported.
pub fn is_narrow(trace: &[i32]) -> bool {
    within(NARROW_LIMIT, trace)
}

/// Edges of bands that a query's distances are told apart by: at and beside distances, bounds and upper figures, at the ends of what there is,
/// and any; so many of them, rising.
pub fn some_edges(random: &mut Random, library: &Library, query: &[i32], many: usize) -> Vec<u64> {
    let mut near: Vec<u64> = vec![0, 1, 281_474_439_840_000, u64::MAX];
    if query.len() as u64 == library.measures.n && !library.traces.is_empty() {
        let stored = library.traces.iter().map(|trace| distance(trace, query));
        let figures: Vec<i128> = stored.chain(library.bounds(query)).chain(library.uppers(query)).collect();
        near.extend((0..4).map(|_| *random.pick(&figures) as u64));
    }
    let mut edges = Vec::new();
    while edges.len() < many {
        let edge = match random.below(4) {
            0 => random.word() >> random.below(64),
            1 => random.pick(&near).saturating_sub(1),
            2 => random.pick(&near).saturating_add(1),
            _ => *random.pick(&near),
        };
        if !edges.contains(&edge) {
            edges.push(edge);
        }
    }
    edges.sort_unstable();
    edges
}

/// The samples with one number that is none of them.
pub fn with_no_sample(random: &mut Random, samples: &[i32]) -> Trace {
    let mut list = samples.to_vec();
    if !list.is_empty() {
        let at = random.below(list.len());
        list[at] = no_sample(random);
    }
    list
}

pub fn longer(mut l: Lengths, by: usize) -> Lengths {
    l.each().into_iter().for_each(|length| *length += by);
    l
}

// ---- each call held to the model: the answer, and every place

/// The memory with these needed parts: places behind them stay.
fn over(before: &Tables, needed: &Tables) -> Tables {
    fn put<T: Clone>(before: &[T], needed: &[T]) -> Vec<T> {
        [needed, &before[needed.len()..]].concat()
    }
    Tables {
        control: put(&before.control, &needed.control),
        samples: put(&before.samples, &needed.samples),
        nodes: put(&before.nodes, &needed.nodes),
        links: put(&before.links, &needed.links),
        work: put(&before.work, &needed.work),
        labels: put(&before.labels, &needed.labels),
    }
}

pub fn check_open(t: &mut Tables, l: Lengths, m: Measures) -> Result<(), Refused> {
    let before = t.clone();
    let answer = open(t, l, m);
    match judge_opening(l, m) {
        Err(refused) => {
            assert_eq!(answer, Err(refused));
            assert_eq!(*t, before, "a refused opening leaves everything");
        }
        Ok(empty) => {
            assert_eq!(answer, Ok(()));
            assert_eq!(*t, over(&before, &Tables::of(&empty)));
        }
    }
    answer
}

/// Adding with no label: whatever stood in the trace's place, it is zero then.
pub fn check_add(t: &mut Tables, l: Lengths, trace: &[i32]) -> Result<Library, Refused> {
    let before = t.clone();
    let answer = add(t, l, trace);
    added(&before, t, l, trace, Label::default(), answer)
}

pub fn check_add_labelled(t: &mut Tables, l: Lengths, trace: &[i32], label: Label) -> Result<Library, Refused> {
    let before = t.clone();
    let answer = add_labelled(t, l, trace, label);
    added(&before, t, l, trace, label, answer)
}

/// The answer, and what the tables stand for then; a refusal leaves every place. The library that the tables hold then is given back.
fn added(before: &Tables, t: &Tables, l: Lengths, trace: &[i32], label: Label, answer: Result<u64, Refused>) -> Result<Library, Refused> {
    match before.first(l).judge_adding(trace) {
        Err(refused) => {
            assert_eq!(answer, Err(refused));
            assert_eq!(t, before, "a refused adding leaves everything");
            Err(refused)
        }
        Ok(mut library) => {
            let number = library.add_labelled(trace, label);
            assert_eq!(answer, Ok(number as u64));
            let held = t.first(l).library().expect("adding keeps well-formed tables well formed");
            assert_eq!(held, library);
            assert_eq!(t.work, before.work, "adding leaves search work as it was");
            let (mut samples, first) = (before.samples.clone(), number * trace.len());
            samples[first..first + trace.len()].copy_from_slice(&trace.iter().map(|&x| word_of(x)).collect::<Vec<i32>>());
            assert_eq!(t.samples, samples, "adding writes the new trace's words and no other");
            let mut labels = before.labels.clone();
            labels[number] = label_place(label);
            assert_eq!(t.labels, labels, "adding writes the new trace's label and no other");
            unneeded_stay(before, t, library.measures);
            Ok(library)
        }
    }
}

/// The answer is the model's. (Tables are lent to it only to be read.)
pub fn check_label(t: &Tables, l: Lengths, number: u64) -> Result<Label, Refused> {
    let judged = t.first(l).judge_label(number).map(|library| library.labels[number as usize]);
    assert_eq!(label(t, l, number), judged);
    judged
}

/// The remote's match is a match with the code: the answer, the trail and every place are the match's.
pub fn check_remote(t: &mut Tables, l: Lengths, trail: &mut [u16], query: &[i32]) -> Result<(Match, u16), Refused> {
    let (mut matched, mut read) = (t.clone(), trail.to_vec());
    let found = check_nearest(&mut matched, l, &mut read, query);
    let answer = remote_match(t, l, trail, query);
    assert_eq!((&*t, &*trail), (&matched, &read[..]), "the remote's match leaves what a match leaves");
    let expected = found.map(|found| {
        let code = (t.labels[found.trace] % 65_536) as u16;
        (found, code)
    });
    let told = answer.map(|f| ([f.trace, f.distance, f.leaves, f.traces].map(i128::from), f.code));
    let figures = |found: &Match| [found.trace as i128, found.distance, found.leaves as i128, found.traces as i128];
    assert_eq!(told, expected.as_ref().map(|(found, code)| (figures(found), *code)).map_err(|&refused| refused));
    expected
}

pub fn check_nearest(t: &mut Tables, l: Lengths, trail: &mut [u16], query: &[i32]) -> Result<Match, Refused> {
    let (before, before_trail) = (t.clone(), trail.to_vec());
    let answer = nearest(t, l, trail, query);
    match before.first(l).judge_match(query, trail.len()) {
        Err(refused) => {
            assert_eq!(answer, Err(refused));
            assert_eq!(*t, before, "a refused match leaves everything");
            assert_eq!(trail, before_trail);
            Err(refused)
        }
        Ok(library) => {
            let expected = library.nearest(query).expect("a trace is stored");
            let found = answer.expect("nothing is refused");
            let figures = [expected.trace as i128, expected.distance, expected.leaves as i128, expected.traces as i128];
            assert_eq!([found.trace, found.distance, found.leaves, found.traces].map(i128::from), figures);
            searched(&before, t, library.measures);
            begins_with(trail, &before_trail, &expected.trail);
            Ok(expected)
        }
    }
}

pub fn check_k_nearest(t: &mut Tables, l: Lengths, trail: &mut [u16], list: &mut [u64], query: &[i32], k: u64) -> Result<KNearest, Refused> {
    let (before, before_trail, before_list) = (t.clone(), trail.to_vec(), list.to_vec());
    let answer = k_nearest(t, l, trail, list, query, k);
    match before.first(l).judge_k_nearest(query, k, trail.len(), list.len()) {
        Err(refused) => {
            assert_eq!(answer, Err(refused));
            assert_eq!(*t, before, "a refused search leaves everything");
            assert_eq!((&*trail, &*list), (&before_trail[..], &before_list[..]));
            Err(refused)
        }
        Ok(library) => {
            let expected = library.k_nearest(query, k as usize);
            let found = answer.expect("nothing is refused");
            let figures = [expected.leaves as u64, expected.traces as u64, expected.list.len() as u64];
            assert_eq!([found.leaves, found.traces, found.listed], figures);
            searched(&before, t, library.measures);
            begins_with(trail, &before_trail, &expected.trail);
            let records: Vec<i128> = expected.list.iter().flat_map(|&(trace, distance)| [trace as i128, distance]).collect();
            begins_with(list, &before_list, &records);
            Ok(expected)
        }
    }
}

/// A call that takes a query leaves the needed search work zero and all else as it was.
fn searched(before: &Tables, after: &Tables, m: Measures) {
    let mut expected = before.clone();
    expected.work[..testing::model::tables::needs(m).work].fill(0);
    assert_eq!(*after, expected, "a search leaves the needed search work zero and all else as it was");
}

/// What was lent begins with these; the places behind them stay.
fn begins_with<T, E>(lent: &[T], before: &[T], with: &[E])
where
    T: Copy + PartialEq + std::fmt::Debug + Into<u64>,
    E: Copy + TryInto<u64>,
{
    let filled: Vec<Option<u64>> = lent[..with.len()].iter().map(|&x| Some(x.into())).collect();
    assert_eq!(filled, with.iter().map(|&x| x.try_into().ok()).collect::<Vec<_>>());
    assert_eq!(lent[with.len()..], before[with.len()..]);
}

/// Places behind those that the measures need are as before.
fn unneeded_stay(before: &Tables, after: &Tables, m: Measures) {
    let need = testing::model::tables::needs(m);
    assert_eq!(before.control[need.control..], after.control[need.control..]);
    assert_eq!(before.samples[need.samples..], after.samples[need.samples..]);
    assert_eq!(before.nodes[need.nodes..], after.nodes[need.nodes..]);
    assert_eq!(before.links[need.links..], after.links[need.links..]);
}

/// A match in a library that calls made: the answer is the scan's, and the leaves read are those with a bound at most its distance.
pub fn check_scan(library: &Library, query: &[i32], found: &Match) {
    let Match { trace, distance, leaves, traces, ref trail } = *found;
    check_list(library, query, 1, &KNearest { list: vec![(trace, distance)], leaves, traces, trail: trail.clone() });
}

/// A list of k in a library that calls made: it is the beginning of the scan's, and the leaves read are "those with a bound at most the last listed
/// distance, or every leaf when fewer than k traces are stored".
pub fn check_list(library: &Library, query: &[i32], k: usize, found: &KNearest) {
    let mut nearest = testing::model::scan(&library.traces, query);
    nearest.truncate(k);
    assert_eq!(found.list, nearest);
    let (bounds, last) = (library.bounds(query), nearest[nearest.len() - 1].1);
    let mut read = library.reading_order(&bounds);
    read.retain(|&j| bounds[j] <= last || library.traces.len() < k);
    assert_eq!(found.trail, read, "the leaves read are those that no bound rules out");
    let held = |&j: &usize| match &library.nodes[j].kind {
        Kind::Leaf(numbers) => numbers.len(),
        Kind::Inner { .. } => panic!("node {j} is no leaf"),
    };
    assert_eq!((found.leaves, found.traces), (read.len(), read.iter().map(held).sum()));
}

// ---- sheets

/// The answer, and every byte of the lent sheet: those behind the needed blocks stay, and a refusal leaves all.
pub fn check_write(t: &Tables, l: Lengths, sheet: &mut [u8]) -> Result<u64, Refused> {
    let before = sheet.to_vec();
    let answer = write_sheet(t, l, sheet);
    match t.first(l).judge_writing(sheet.len()) {
        Err(refused) => {
            assert_eq!(answer, Err(refused));
            assert_eq!(sheet, before, "a refused writing leaves the sheet");
        }
        Ok(library) => {
            let written = testing::model::sheet::write_labelled(library.measures, &library.traces, &library.labels);
            assert_eq!(answer, Ok(written.len() as u64 / 512));
            assert_eq!(sheet, [&written[..], &before[written.len()..]].concat());
        }
    }
    answer
}

/// The answer, and every place: a reading that is not refused opens and adds.
pub fn check_read(t: &mut Tables, l: Lengths, sheet: &[u8]) -> Result<Library, Refused> {
    let before = t.clone();
    let answer = read_sheet(t, l, sheet);
    let judged = testing::model::tables::judge_reading(l, sheet);
    match &judged {
        Err(refused) => {
            assert_eq!(answer, Err(*refused));
            assert_eq!(*t, before, "a refused reading leaves everything");
        }
        Ok(library) => {
            assert_eq!(answer, Ok(()));
            assert_eq!(*t, over(&before, &Tables::of(library)));
        }
    }
    judged
}

// ---- recordings

/// The answer, and every place: an import that is not refused leaves what adding its traces one after another leaves. The library that the
/// tables hold then is given back.
pub fn check_import(t: &mut Tables, l: Lengths, file: &[u8]) -> Result<Library, Refused> {
    let before = t.clone();
    let answer = import_recording(t, l, file);
    match before.first(l).judge_import(file) {
        Err(refused) => {
            assert_eq!(answer, Err(refused));
            assert_eq!(*t, before, "a refused import leaves everything");
            Err(refused)
        }
        Ok((mut library, traces)) => {
            assert_eq!(answer, Ok(traces.len() as u64));
            let mut added = before;
            for trace in &traces {
                assert_eq!(add(&mut added, l, trace), Ok(library.add(trace) as u64));
            }
            assert_eq!(*t, added, "an import leaves what the addings leave");
            let held = t.first(l).library().expect("an import keeps well-formed tables well formed");
            assert_eq!(held, library);
            Ok(library)
        }
    }
}

/// The answer, and every byte of the lent buffer: those behind the file stay, and a refusal leaves all.
pub fn check_export(t: &Tables, l: Lengths, buffer: &mut [u8], number: u64, rate: u64) -> Result<u64, Refused> {
    let before = buffer.to_vec();
    let answer = export_recording(t, l, buffer, number, rate);
    match t.first(l).judge_export(number, rate, buffer.len()) {
        Err(refused) => {
            assert_eq!(answer, Err(refused));
            assert_eq!(buffer, before, "a refused export leaves the buffer");
        }
        Ok(library) => {
            let written = testing::model::recording::write(rate, &library.traces[number as usize]);
            assert_eq!(answer, Ok(written.len() as u64));
            assert_eq!(buffer, [&written[..], &before[written.len()..]].concat());
        }
    }
    answer
}

// ---- the check

/// The answer is the model's. (Tables are lent to it only to be read.) The library that the tables hold is given back.
pub fn check_checked(t: &Tables, l: Lengths) -> Result<Library, Refused> {
    let judged = t.first(l).judge_check();
    assert_eq!(check_tables(t, l), judged.as_ref().map(|_| ()).map_err(|&refused| refused));
    judged
}

/// Tables that a writing does not refuse, whatever made them: written as a sheet and read into other tables, they are the library that
/// adding makes of their traces, each with its label, and the check accepts it. Written again, the sheet is the same.
pub fn check_read_back(t: &Tables, l: Lengths) {
    let stored = t.first(l).library().expect("well-formed tables");
    let mut sheet = vec![1; testing::model::sheet::need(&stored)];
    check_write(t, l, &mut sheet).expect("nothing is refused");
    let mut back = junk(l);
    let read = check_read(&mut back, l, &sheet).expect("nothing is refused");
    assert_eq!((read.measures, &read.traces, &read.labels), (stored.measures, &stored.traces, &stored.labels));
    assert_eq!(check_checked(&back, l), Ok(read));
    let mut again = vec![1; sheet.len()];
    check_write(&back, l, &mut again).expect("nothing is refused");
    assert_eq!(again, sheet);
}

// ---- bands

/// The answer, the list and every place of the tables. On tables that the check accepts "the true number lies between". "reads no traces": with other
/// samples in the same tables the report is the same.
pub fn check_bands(t: &mut Tables, l: Lengths, list: &mut [u64], query: &[i32], edges: &[u64]) -> Result<Vec<Band>, Refused> {
    let (before, before_list) = (t.clone(), list.to_vec());
    let answer = count_bands(t, l, list, query, edges);
    let judged = before.first(l).judge_bands(query, edges, list.len());
    assert_eq!(answer, judged.as_ref().map(|_| ()).map_err(|&refused| refused));
    match judged {
        Err(refused) => {
            assert_eq!(*t, before, "a refused report leaves everything");
            assert_eq!(list, before_list);
            Err(refused)
        }
        Ok(library) => {
            let expected = library.bands(query, edges);
            searched(&before, t, library.measures);
            let records: Vec<usize> = expected.iter().flat_map(|&(sure, possible)| [sure, possible]).collect();
            begins_with(list, &before_list, &records);
            if library.is_exact() {
                bands_hold(&library, query, edges, &expected);
            }
            let (mut other, mut again) = (before.clone(), before_list);
            other.samples.iter_mut().for_each(|word| *word = word.wrapping_mul(3).wrapping_add(0x7ed_5000));
            assert_eq!(count_bands(&mut other, l, &mut again, query, edges), Ok(()));
            assert_eq!(list, again, "samples do not bear on a report");
            Ok(expected)
        }
    }
}

/// Of a library that the check accepts: each distance lies between its leaf's bound and upper figure, and so "The true number lies between."
fn bands_hold(library: &Library, query: &[i32], edges: &[u64], bands: &[Band]) {
    let (bounds, uppers) = (library.bounds(query), library.uppers(query));
    for leaf in library.leaves() {
        for trace in library.below(leaf) {
            let distance = distance(&library.traces[trace], query);
            assert!(bounds[leaf] <= distance && distance <= uppers[leaf], "trace {trace} of leaf {leaf}");
        }
    }
    for (&(sure, possible), number) in bands.iter().zip(in_bands(&library.traces, query, edges)) {
        assert!(sure <= number && number <= possible, "{sure} {number} {possible}");
    }
}

// ---- two libraries

/// The answer, both trails, the part that is handed back, and every place of both libraries' tables: by the program's steps, which on tables that the
/// check accepts give the nearest of all, and the leaves within its distance. Of each pair the factory's comes first.
pub fn check_both(t: [&mut Tables; 2], l: [Lengths; 2], trails: [&mut [u16]; 2], query: &[i32]) -> Result<Pair, Refused> {
    let [factory, bench] = t;
    let [trail, bench_trail] = trails;
    let before = [factory.clone(), bench.clone()];
    let before_trails = [trail.to_vec(), bench_trail.to_vec()];
    let answer = match_both([&mut *factory, &mut *bench], l, [&mut *trail, &mut *bench_trail], query);
    let lent = [before[0].first(l[0]), before[1].first(l[1])];
    match judge_pair([&lent[0], &lent[1]], query, [trail.len(), bench_trail.len()]) {
        Err(refused) => {
            assert_eq!(answer, Err(refused));
            assert_eq!([&*factory, &*bench], [&before[0], &before[1]], "a refused match leaves everything");
            assert_eq!([&*trail, &*bench_trail], [&before_trails[0][..], &before_trails[1][..]]);
            Err(refused)
        }
        Ok(libraries) => {
            let both = [&libraries[0], &libraries[1]];
            let expected = pair_by_steps(both, query).expect("a trace is stored");
            if libraries.iter().all(Library::is_exact) {
                assert_eq!(pair(both, query).as_ref(), Some(&expected), "the nearest of all, and the leaves within its distance");
            }
            let (figures, part) = answer.expect("nothing is refused");
            let counts = [expected.leaves, expected.traces, expected.trails[0].len()].map(|count| count as i128);
            assert_eq!(
                figures[..3].iter().map(|&x| i128::from(x)).collect::<Vec<_>>(),
                [expected.library as i128, expected.trace as i128, expected.distance]
            );
            assert_eq!(figures[3..].iter().map(|&x| i128::from(x)).collect::<Vec<_>>(), counts);
            let n = query.len();
            assert_eq!(part, expected.trace * n..(expected.trace + 1) * n, "the winning trace, as it lies in the lent table");
            searched(&before[0], factory, libraries[0].measures);
            searched(&before[1], bench, libraries[1].measures);
            begins_with(trail, &before_trails[0], &expected.trails[0]);
            begins_with(bench_trail, &before_trails[1], &expected.trails[1]);
            Ok(expected)
        }
    }
}

// ---- a limit on leaves

/// The answer, the trail and every place of the tables. With other samples in the leaves that were not read, the answer is the same.
pub fn check_within(t: &mut Tables, l: Lengths, trail: &mut [u16], query: &[i32], most: u64) -> Result<Limited, Refused> {
    let (before, before_trail) = (t.clone(), trail.to_vec());
    let answer = match_within(t, l, trail, query, most);
    match before.first(l).judge_within(query, most, trail.len()) {
        Err(refused) => {
            assert_eq!(answer, Err(refused));
            assert_eq!(*t, before, "a refused match leaves everything");
            assert_eq!(trail, before_trail);
            Err(refused)
        }
        Ok(library) => {
            let expected = library.match_within(query, most).expect("a trace is stored");
            let best = &expected.best;
            let (figures, unread) = answer.expect("nothing is refused");
            assert_eq!(figures.map(i128::from), [best.trace as i128, best.distance, best.leaves as i128, best.traces as i128]);
            assert_eq!(unread.map(i128::from), expected.unread);
            searched(&before, t, library.measures);
            begins_with(trail, &before_trail, &best.trail);
            if library.is_exact() {
                limit_holds(&library, query, most, &expected);
            }
            let (mut other, mut again, n) = (before.clone(), before_trail, library.measures.n as usize);
            for leaf in library.leaves().into_iter().filter(|leaf| !best.trail.contains(leaf)) {
                let words = library.below(leaf).into_iter().flat_map(|trace| trace * n..(trace + 1) * n);
                words.for_each(|place| other.samples[place] = other.samples[place].wrapping_mul(3).wrapping_add(0x7ed_5000));
            }
            assert_eq!(match_within(&mut other, l, &mut again, query, most), Ok((figures, unread)), "samples of other leaves do not bear on it");
            assert_eq!(trail, again);
            Ok(expected)
        }
    }
}

/// Of a library that the check accepts: the full trail is the leaves whose bound is at most the nearest trace's distance. "The leaves read are the
/// first L of the full trail, or all of it." If they are all, it is the nearest trace; else "the true distance is at least that bound and at most
/// the one given", and no unread leaf has a lesser bound.
fn limit_holds(library: &Library, query: &[i32], most: u64, found: &Limited) {
    let (bounds, nearest) = (library.bounds(query), testing::model::scan(&library.traces, query)[0]);
    let mut full = library.reading_order(&bounds);
    full.retain(|&leaf| bounds[leaf] <= nearest.1);
    let many = full.len().min(most as usize);
    assert_eq!((&found.best.trail[..], found.best.leaves), (&full[..many], many));
    assert_eq!(found.unread, full.get(many).map(|&leaf| bounds[leaf]));
    match found.unread {
        None => assert_eq!((found.best.trace, found.best.distance), nearest),
        Some(bound) => {
            assert!(bound <= nearest.1 && nearest.1 <= found.best.distance);
            assert!(library.leaves().iter().all(|leaf| full[..many].contains(leaf) || bound <= bounds[*leaf]));
        }
    }
}

/// Of any well-formed tables, with each of these limits, which rise: "A larger L never gives a greater distance." Each trail is the beginning of the
/// next. The last answer is given back.
pub fn check_limits(t: &mut Tables, l: Lengths, query: &[i32], limits: &[u64]) -> Limited {
    let library = t.first(l).library().expect("well-formed tables");
    let mut last: Option<Limited> = None;
    for &most in limits {
        let mut trail = vec![0xbeef; library.leaves().len() + 1];
        let found = check_within(t, l, &mut trail, query, most).expect("a trace is stored");
        if let Some(last) = &last {
            assert!(found.best.distance <= last.best.distance && found.best.trail.starts_with(&last.best.trail), "{limits:?}");
            assert!(last.unread.is_some() || found == *last, "a settled answer stays: {limits:?}");
        }
        last = Some(found);
    }
    last.expect("there is a limit")
}

// ---- clipped sweeps

/// Figures between which a sweep's samples lie: each known, but for some (now and then all) that are known as no less, no more, or within a number of it.
pub fn some_ranges(random: &mut Random, sweep: &[i32]) -> (Trace, Trace) {
    let (one_in, wide) = (*random.pick(&[1, 2, 5, 20]), *random.pick(&[1, 3, 300, 40_000, 1_048_575]));
    let range = |&x: &i32| {
        let mut reach = || random.within(0, wide) as i32;
        let (low, high) = (x.saturating_sub(reach()).max(LEAST), x.saturating_add(reach()).min(GREATEST));
        match random.below(4 * one_in) {
            0 => (low, high),
            1 => (x, high),
            2 => (low, x),
            3 => (x.min(LEAST + 1), x.max(GREATEST)),
            _ => (x, x),
        }
    };
    sweep.iter().map(range).unzip()
}

/// The answer, the list and every place of the tables, whatever the tree records. With other words where no trace is stored, the answer is the same.
pub fn check_clipped(t: &mut Tables, l: Lengths, list: &mut [u16], lows: &[i32], highs: &[i32]) -> Result<Vec<usize>, Refused> {
    let (before, before_list) = (t.clone(), list.to_vec());
    let answer = match_clipped(t, l, list, lows, highs);
    match before.first(l).judge_clipped(lows, highs, list.len()) {
        Err(refused) => {
            assert_eq!(answer, Err(refused));
            assert_eq!(*t, before, "a refused sweep leaves everything");
            assert_eq!(list, before_list);
            Err(refused)
        }
        Ok(library) => {
            let expected = library.match_clipped(lows, highs).expect("a trace is stored");
            assert_eq!(answer, Ok(expected.len() as u64));
            searched(&before, t, library.measures);
            begins_with(list, &before_list, &expected);
            clipped_holds(&library, lows, highs, &expected);
            let (mut other, mut again) = (before.clone(), before_list);
            // the sweep's own figures, which would be at distance 0
            let behind = other.samples[library.traces.len() * lows.len()..].iter_mut();
            behind.zip(lows.iter().cycle()).for_each(|(word, &low)| *word = word_of(low));
            assert_eq!(match_clipped(&mut other, l, &mut again, lows, highs), answer, "words of no trace do not bear on it");
            assert_eq!(list, again);
            Ok(expected)
        }
    }
}

/// Of any stored traces. Some sweep inside has a trace's least distance, some its greatest. "Any trace that could be the match for some sweep inside
/// the ranges is then listed": tried with these sweeps of a few traces. "With low equal to high everywhere, it lists all traces at the match's
/// distance."
fn clipped_holds(library: &Library, lows: &[i32], highs: &[i32], listed: &[usize]) {
    assert!(!listed.is_empty() && listed.windows(2).all(|pair| pair[0] < pair[1]));
    let ranges = || lows.iter().zip(highs);
    let nearest = |sweep: &[i32]| {
        let distances: Vec<i128> = library.traces.iter().map(|trace| distance(trace, sweep)).collect();
        let least = *distances.iter().min().expect("a trace is stored");
        (0..distances.len()).filter(|&t| distances[t] == least).collect::<Vec<usize>>()
    };
    for trace in library.traces.iter().step_by(1 + library.traces.len() / 8) {
        let near: Trace = trace.iter().zip(ranges()).map(|(&x, (&low, &high))| x.clamp(low, high)).collect();
        let far: Trace = trace.iter().zip(ranges()).map(|(&x, (&low, &high))| if x.abs_diff(low) < x.abs_diff(high) { high } else { low }).collect();
        assert_eq!((distance(trace, &near), distance(trace, &far)), possible_distances(trace, lows, highs));
        for sweep in [near, far] {
            assert!(nearest(&sweep).iter().all(|t| listed.contains(t)), "a match that is not listed");
        }
    }
    if lows == highs {
        assert_eq!(listed, nearest(lows));
    }
}

// ---- batches

/// The answer, trail and list, and every place of the tables: by the program's steps, which on tables that the check accepts are the matches, one by one.
/// The queries are the run's, n samples each; `lent` is how many records the list has.
pub fn check_batch(t: &mut Tables, l: Lengths, trail: &mut [u16], run: &[i32], many: usize, lent: usize) -> Result<Batch, Refused> {
    let mut answers: Vec<Answer> = (0..lent as u64).map(|i| Answer { trace: 0xbeef + i, distance: 0xfeed - i }).collect();
    let (before, before_trail, before_answers) = (t.clone(), trail.to_vec(), answers.clone());
    let answer = match_batch(t, l, trail, run, many, &mut answers);
    match before.first(l).judge_batch(run, many, trail.len(), lent) {
        Err(refused) => {
            assert_eq!(answer, Err(refused));
            assert_eq!(*t, before, "a refused batch leaves everything");
            assert_eq!((&*trail, &answers), (&before_trail[..], &before_answers));
            Err(refused)
        }
        Ok(library) => {
            let queries: Vec<&[i32]> = run.chunks(library.measures.n as usize).collect();
            let expected = library.batch_by_steps(&queries).expect("a trace is stored");
            if library.is_exact() {
                assert_eq!(library.batch(&queries).as_ref(), Some(&expected), "the matches, one by one");
            }
            assert_eq!(answer, Ok(expected.trail.len() as u64));
            searched(&before, t, library.measures);
            begins_with(trail, &before_trail, &expected.trail);
            let records: Vec<(usize, i128)> = answers.iter().map(|near| (near.trace as usize, near.distance.into())).collect();
            assert_eq!(records, expected.answers);
            Ok(expected)
        }
    }
}
