//! What a refusal means and what to do about it, in words. Which refusal it is, the proved calls have said; here bytes are looked at only
//! to say it to people.

use super::blocks::{Width, BLOCK, LABELS, MOST, OF_LABELS};
use super::numbers;
use silkendoz::{Refusal, TraceLibrary, SAMPLES};

/// A refusal of a call, and what to do.
pub fn of_call(why: Refusal) -> String {
    let what = match why {
        Refusal::Measure => "samples a trace are 1 to 256, the capacity is 1 to 4096, the leaf size 1 to 64",
        Refusal::Full => "there is room for no more traces",
        Refusal::Empty => "the library holds no trace: add one first",
        Refusal::BadK => "a search lists 1 to 16 traces",
        Refusal::UnlikeLibraries => "traces of two libraries that are matched together have to have as many samples",
        Refusal::NoLeaves => "a match reads 1 leaf at least",
        Refusal::CrossedRange => "a sample's low figure is at most its high one",
        Refusal::BadEdges => "a report of bands takes 2 to 16 edges, each above the last",
        Refusal::SampleRange => "samples are -524288 to 524287: scale the recording first",
        _ => return format!("refused {}, {why}.", why.number()),
    };
    format!("refused {}, {}: {what}.", why.number(), why.word())
}

/// What is wrong with a sheet that was refused.
pub fn of_sheet(bytes: &[u8], why: Refusal) -> String {
    let what = match why {
        Refusal::SheetLength => length(bytes.len()),
        Refusal::TornBlock(block) => format!("block {block} first: {}.", torn(bytes, block as usize)),
        Refusal::BadSheet => bad(bytes),
        Refusal::SampleRange => outside(bytes),
        _ => return of_call(why),
    };
    format!("refused {}, {}: {what}", why.number(), why.word())
}

fn length(size: usize) -> String {
    if size == 0 {
        "the file is empty. Read the other copy.".to_string()
    } else if size / BLOCK >= MOST && size > BLOCK * MOST {
        format!("{size} bytes, and the largest sheet has {}. This is no sheet, or several in one file.", BLOCK * MOST)
    } else {
        format!("{size} bytes, no multiple of {BLOCK}: it ends within block {}. It was cut off: read the other copy.", size / BLOCK)
    }
}

fn field(bytes: &[u8], at: usize) -> usize {
    usize::from(u16::from_le_bytes([bytes[at], bytes[at + 1]]))
}

/// n, capacity, leaf size and count, as block 0 has them.
pub fn measures(bytes: &[u8]) -> [usize; 4] {
    [8, 10, 12, 14].map(|at| field(bytes, at))
}

/// The number that a block says it has.
pub fn said_number(bytes: &[u8], block: usize) -> usize {
    field(bytes, BLOCK * block)
}

/// Whether a block was erased, or never written.
pub fn is_erased(bytes: &[u8], block: usize) -> bool {
    all_alike(&bytes[BLOCK * block..][..BLOCK])
}

fn all_alike(block: &[u8]) -> bool {
    block.iter().all(|byte| *byte == block[0])
}

/// What is wrong with a torn block, as far as it shows.
pub fn torn(bytes: &[u8], block: usize) -> String {
    let width = Width::of(bytes);
    let before = block.checked_sub(1).map(|before| bytes[BLOCK * before + 2]);
    let bytes = &bytes[BLOCK * block..][..BLOCK];
    let kinds = if block == 0 { [Width::Narrow, Width::Wide].map(|width| width.kinds()[0]) } else { [width.kinds()[1], OF_LABELS] };
    if all_alike(bytes) {
        format!("every byte is {}: it was never written, or was erased", bytes[0])
    } else if field(bytes, 0) != block {
        format!("it says that it is block {}: it stands in the wrong place, or changed", field(bytes, 0))
    } else if block > 0 && Width::kinds_of_samples().contains(&bytes[2]) && !kinds.contains(&bytes[2]) {
        let [own, sheet] = if width == Width::Wide { ["two", "four"] } else { ["four", "two"] };
        format!("it holds samples of {own} bytes, and the sheet's have {sheet}: files were mixed, or its kind changed")
    } else if !kinds.contains(&bytes[2]) {
        format!("its kind is {}, and has to be {} or {}", bytes[2], kinds[0], kinds[1])
    } else if bytes[2] != OF_LABELS && before == Some(OF_LABELS) {
        "it holds samples behind labels, or its check does not fit".to_string()
    } else {
        "its check does not fit: something in it changed".to_string()
    }
}

/// What of which traces a block holds, if block 0 is to be believed: their samples or their labels.
#[derive(Clone, Copy, Debug, PartialEq, Eq)]
pub struct Held {
    pub what: &'static str,
    pub first: usize,
    pub last: usize,
}

pub fn held_in(bytes: &[u8], block: usize) -> Option<Held> {
    let (n, count, a_block) = (field(bytes, 8), field(bytes, 14), Width::of(bytes).samples());
    let first = block.checked_sub(1)? * a_block;
    let end = (block * a_block).min(n * count);
    if first < end {
        return Some(Held { what: "samples", first: first / n, last: (end - 1) / n });
    }
    let first = LABELS * block.checked_sub(1 + (n * count).div_ceil(a_block))?;
    let end = (first + LABELS).min(count);
    (first < end).then(|| Held { what: "labels", first, last: end - 1 })
}

/// What is wrong with a sheet whose blocks are all sound.
fn bad(bytes: &[u8]) -> String {
    let [n, capacity, leaf_size, count] = measures(bytes);
    let width = Width::of(bytes);
    let needed = 1 + (n * count).div_ceil(width.samples());
    let labels = bytes.chunks(BLOCK).filter(|block| block[2] == OF_LABELS).count();
    let blocks = bytes.len() / BLOCK - labels;
    let what = if &bytes[4..8] != b"TRCL" {
        "it does not begin with the letters TRCL".to_string()
    } else if TraceLibrary::open(n, capacity, leaf_size).is_err() {
        format!("{n} samples, capacity {capacity} and leaf size {leaf_size} are no measures of a library")
    } else if count > capacity {
        format!("it says that it holds {count} traces, and there is room for {capacity}")
    } else if blocks != needed {
        let which = match (blocks < needed, labels) {
            (true, 0) => "blocks are missing at the end",
            (false, 0) => "something stands behind its end",
            _ => "files were mixed",
        };
        let beside = if labels > 0 { format!(" besides {labels} of labels") } else { String::new() };
        format!("it has {blocks} blocks{beside}, and {count} traces of {n} samples take {needed}: {which}")
    } else if labels > 0 && labels != count.div_ceil(LABELS) {
        format!("the number of its blocks of labels is {labels}, and {count} traces take {}, or none", count.div_ceil(LABELS))
    } else if let Some(at) = stray(bytes, width, n * count, count) {
        format!("a byte that has to be 0 is not: byte {} of block {}", at % BLOCK, at / BLOCK)
    } else if width == Width::Wide && numbers::bits_of(&samples(bytes, width, n * count)) == 16 {
        "it is a wide sheet, of four bytes a sample, and all its samples fit two".to_string()
    } else {
        "all its labels are zero, and then it has no block of them".to_string()
    };
    format!("every block is sound, but {what}. {OTHER}")
}

const OTHER: &str = "Another program wrote it, or files were cut or joined: read the other copy.";

/// All samples of a sheet whose blocks are as many as they have to be.
fn samples(bytes: &[u8], width: Width, many: usize) -> Vec<i32> {
    (0..many).map(|sample| width.sample(&bytes[width.place(sample)..])).collect()
}

/// Which sample of a sheet is outside the limits, first.
fn outside(bytes: &[u8]) -> String {
    let ([n, _, _, count], width) = (measures(bytes), Width::of(bytes));
    let all = samples(bytes, width, n * count);
    let first = all.iter().position(|sample| !SAMPLES.contains(sample));
    let which = first.map_or(String::new(), |at| format!("sample {} of trace {} is {}, and ", at % n + 1, at / n, all[at]));
    format!("every block is sound, but {which}samples are {} to {}. {OTHER}", SAMPLES.start(), SAMPLES.end())
}

/// The first byte that has to be 0 and is not.
fn stray(bytes: &[u8], width: Width, samples: usize, count: usize) -> Option<usize> {
    let of_samples = samples.div_ceil(width.samples());
    let used = |block: usize| match block {
        0 => 16,
        _ if block <= of_samples => 4 + width.bytes() * (samples - width.samples() * (block - 1)).min(width.samples()),
        _ => 4 + 6 * (count - LABELS * (block - 1 - of_samples)).min(LABELS),
    };
    let must_be_zero = |at: usize| at % BLOCK == 3 || (at % BLOCK < 510 && at % BLOCK >= used(at / BLOCK));
    (0..bytes.len()).find(|&at| must_be_zero(at) && bytes[at] != 0)
}
