//! The calls of [`crate::lending`], made by the model: the same arguments, the answers' values in their order, and the places that the
//! documents say.

use crate::lending::{LimitedTold, PairTold};
use crate::model::tables::{judge_opening, judge_pair, judge_reading, needs, Lengths, Tables};
use crate::model::{pair, recording, sheet, Label, Library, Measures, Refused};
use silkendoz::calls::Answer;

/// Lays the needed parts of a library's tables over these, but for search work; so many of its traces were there before, and the words of
/// these stay, since their lower bits are nobody's.
fn lay(t: &mut Tables, library: &Library, stored: usize) {
    let (laid, kept) = (Tables::of(library), stored * library.measures.n as usize);
    t.control[..laid.control.len()].copy_from_slice(&laid.control);
    t.samples[kept..laid.samples.len()].copy_from_slice(&laid.samples[kept..]);
    t.nodes[..laid.nodes.len()].copy_from_slice(&laid.nodes);
    t.links[..laid.links.len()].copy_from_slice(&laid.links);
    t.labels[..laid.labels.len()].copy_from_slice(&laid.labels);
}

fn clear_work(t: &mut Tables, m: Measures) {
    t.work[..needs(m).work].fill(0);
}

/// "The trail begins with the leaves read".
fn fill_trail(trail: &mut [u16], leaves: &[usize]) {
    trail.iter_mut().zip(leaves).for_each(|(place, &leaf)| *place = leaf as u16);
}

pub fn open(t: &mut Tables, l: Lengths, m: Measures) -> Result<(), Refused> {
    let empty = judge_opening(l, m)?;
    lay(t, &empty, 0);
    clear_work(t, m);
    Ok(())
}

pub fn add(t: &mut Tables, l: Lengths, trace: &[i32]) -> Result<u64, Refused> {
    add_labelled(t, l, trace, Label::default())
}

pub fn add_labelled(t: &mut Tables, l: Lengths, trace: &[i32], label: Label) -> Result<u64, Refused> {
    let mut library = t.first(l).judge_adding(trace)?;
    let number = library.add_labelled(trace, label);
    lay(t, &library, number);
    Ok(number as u64)
}

pub fn label(t: &Tables, l: Lengths, number: u64) -> Result<Label, Refused> {
    t.first(l).judge_label(number).map(|library| library.labels[number as usize])
}

pub fn nearest(t: &mut Tables, l: Lengths, trail: &mut [u16], query: &[i32]) -> Result<[u64; 4], Refused> {
    remote_match(t, l, trail, query).map(|[trace, distance, leaves, traces, _]| [trace, distance, leaves, traces])
}

pub fn remote_match(t: &mut Tables, l: Lengths, trail: &mut [u16], query: &[i32]) -> Result<[u64; 5], Refused> {
    let library = t.first(l).judge_match(query, trail.len())?;
    let (found, code) = library.remote_match(query).expect("a trace is stored");
    clear_work(t, library.measures);
    fill_trail(trail, &found.trail);
    Ok([found.trace as u64, found.distance as u64, found.leaves as u64, found.traces as u64, code.into()])
}

pub fn k_nearest(t: &mut Tables, l: Lengths, trail: &mut [u16], list: &mut [u64], query: &[i32], k: u64) -> Result<[u64; 3], Refused> {
    let library = t.first(l).judge_k_nearest(query, k, trail.len(), list.len())?;
    let found = library.k_nearest(query, k as usize);
    clear_work(t, library.measures);
    fill_trail(trail, &found.trail);
    for (record, &(trace, distance)) in list.chunks_mut(2).zip(&found.list) {
        record.copy_from_slice(&[trace as u64, distance as u64]);
    }
    Ok([found.leaves as u64, found.traces as u64, found.list.len() as u64])
}

pub fn write_sheet(t: &Tables, l: Lengths, sheet: &mut [u8]) -> Result<u64, Refused> {
    let library = t.first(l).judge_writing(sheet.len())?;
    let written = sheet::write_labelled(library.measures, &library.traces, &library.labels);
    sheet[..written.len()].copy_from_slice(&written);
    Ok(written.len() as u64 / 512)
}

pub fn read_sheet(t: &mut Tables, l: Lengths, sheet: &[u8]) -> Result<(), Refused> {
    let library = judge_reading(l, sheet)?;
    lay(t, &library, 0);
    clear_work(t, library.measures);
    Ok(())
}

pub fn import_recording(t: &mut Tables, l: Lengths, bytes: &[u8]) -> Result<u64, Refused> {
    let (mut library, traces) = t.first(l).judge_import(bytes)?;
    let stored = library.traces.len();
    for trace in &traces {
        library.add(trace);
    }
    lay(t, &library, stored);
    Ok(traces.len() as u64)
}

pub fn export_recording(t: &Tables, l: Lengths, buffer: &mut [u8], number: u64, rate: u64) -> Result<u64, Refused> {
    let library = t.first(l).judge_export(number, rate, buffer.len())?;
    let written = recording::write(rate, &library.traces[number as usize]);
    buffer[..written.len()].copy_from_slice(&written);
    Ok(written.len() as u64)
}

pub fn check_tables(t: &Tables, l: Lengths) -> Result<(), Refused> {
    t.first(l).judge_check().map(|_| ())
}

pub fn count_bands(t: &mut Tables, l: Lengths, list: &mut [u64], query: &[i32], edges: &[u64]) -> Result<(), Refused> {
    let library = t.first(l).judge_bands(query, edges, list.len())?;
    clear_work(t, library.measures);
    for (record, (sure, possible)) in list.chunks_mut(2).zip(library.bands(query, edges)) {
        record.copy_from_slice(&[sure as u64, possible as u64]);
    }
    Ok(())
}

pub fn match_both(both: [&mut Tables; 2], l: [Lengths; 2], trails: [&mut [u16]; 2], query: &[i32]) -> Result<PairTold, Refused> {
    let lent = [both[0].first(l[0]), both[1].first(l[1])];
    let libraries = judge_pair([&lent[0], &lent[1]], query, [trails[0].len(), trails[1].len()])?;
    let found = pair([&libraries[0], &libraries[1]], query).expect("a trace is stored");
    for (which, (t, trail)) in both.into_iter().zip(trails).enumerate() {
        clear_work(t, libraries[which].measures);
        fill_trail(trail, &found.trails[which]);
    }
    let (trace, n) = (found.trace, query.len());
    let figures = [found.library, trace, found.distance as usize, found.leaves, found.traces, found.trails[0].len()];
    Ok((figures.map(|figure| figure as u64), trace * n..(trace + 1) * n))
}

pub fn match_within(t: &mut Tables, l: Lengths, trail: &mut [u16], query: &[i32], most: u64) -> Result<LimitedTold, Refused> {
    let library = t.first(l).judge_within(query, most, trail.len())?;
    let found = library.match_within(query, most).expect("a trace is stored");
    clear_work(t, library.measures);
    fill_trail(trail, &found.best.trail);
    let best = [found.best.trace, found.best.distance as usize, found.best.leaves, found.best.traces];
    Ok((best.map(|figure| figure as u64), found.unread.map(|bound| bound as u64)))
}

pub fn match_clipped(t: &mut Tables, l: Lengths, list: &mut [u16], lows: &[i32], highs: &[i32]) -> Result<u64, Refused> {
    let library = t.first(l).judge_clipped(lows, highs, list.len())?;
    let listed = library.match_clipped(lows, highs).expect("a trace is stored");
    clear_work(t, library.measures);
    list.iter_mut().zip(&listed).for_each(|(place, &trace)| *place = trace as u16);
    Ok(listed.len() as u64)
}

pub fn match_batch(t: &mut Tables, l: Lengths, trail: &mut [u16], queries: &[i32], many: usize, answers: &mut [Answer]) -> Result<u64, Refused> {
    let library = t.first(l).judge_batch(queries, many, trail.len(), answers.len())?;
    let queries: Vec<&[i32]> = queries.chunks(library.measures.n as usize).collect();
    let found = library.batch(&queries).expect("a trace is stored");
    clear_work(t, library.measures);
    fill_trail(trail, &found.trail);
    for (record, &(trace, distance)) in answers.iter_mut().zip(&found.answers) {
        *record = Answer { trace: trace as u64, distance: distance as u64 };
    }
    Ok(found.trail.len() as u64)
}
