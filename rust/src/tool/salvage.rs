//! `salvage`: a library of the traces whose samples stand in sound blocks of a torn sheet, with their names, and their labels if these do.

use super::arguments::Arguments;
use super::blocks::{self, Width, BLOCK, LABELS, OF_LABELS};
use super::files::{Output, Place};
use super::names::{self, Lines, Names};
use super::shelf::{Held, Shelf};
use super::{build, files, numbers, plain, reading, refused, saved, words, written, wrong, Answer, Failure};
use silkendoz::{Label, TraceLibrary, SAMPLES};
use std::path::Path;

pub fn run(a: &Arguments) -> Answer {
    let [torn] = a.exactly(["TORN, a sheet"])?.map(Path::new);
    let out = a.needed_path("-o")?;
    let said = samples_said(a)?;
    let over = a.has("--force");
    let beside = names::beside(Place::of(torn)?.real());
    let inputs = [torn, beside.as_path()];
    let output = Output::of(&out, over, &inputs)?;
    let sheet = Torn::of(torn, said)?;
    let lines = Lines::read(&beside)?;
    let mut library = TraceLibrary::open(sheet.n, sheet.capacity, sheet.leaf_size).or_else(|why| refused(words::of_call(why)))?;
    let mut kept = Names::default();
    let (mut lost, mut unlabelled) = (Vec::new(), 0);
    for number in 0..sheet.count {
        match sheet.trace(number) {
            Some(samples) => {
                let label = sheet.label(number);
                unlabelled += usize::from(label.is_none());
                library.add_labelled(&samples, label.unwrap_or_default()).or_else(|why| refused(words::of_call(why)))?;
                kept.push(lines.name_of(number, Some(&samples)));
            }
            None => lost.push((number, lines.name_of(number, None))),
        }
    }
    if library.is_empty() {
        return refused(format!("{}: no trace stands in sound blocks alone. Nothing was written.", plain::path(torn)));
    }
    let shelf = Shelf::new(&out, library, kept);
    let text = told(&out, &shelf, &sheet, &lost) + &without_labels(unlabelled);
    if !matches!(output, Output::File(..)) {
        let bytes = shelf.library.write_sheet().or_else(|why| refused(words::of_call(why)))?;
        return written(text, output.write(&bytes)?);
    }
    let held = Held::of(&out, !a.has("--no-wait"))?;
    held.must_take(over, &inputs)?;
    let trouble = held.save(&shelf)?;
    saved(text, trouble)
}

/// `--samples`: as many as a trace may have.
fn samples_said(a: &Arguments) -> Result<Option<usize>, Failure> {
    let Some(n) = a.number("--samples")? else { return Ok(None) };
    match TraceLibrary::open(n, 1, 1) {
        Ok(_) => Ok(Some(n)),
        Err(why) => wrong(format!("{}: {}", numbers::count(n, "sample"), words::of_call(why))),
    }
}

/// A sheet of which some blocks are sound.
struct Torn {
    bytes: Vec<u8>,
    width: Width,
    sound: Vec<bool>,
    n: usize,
    capacity: usize,
    leaf_size: usize,
    count: usize,
    /// The first block of labels, if there are such.
    labels: Option<usize>,
}

impl Torn {
    fn of(path: &Path, said: Option<usize>) -> Result<Torn, Failure> {
        let bytes = files::read(path)?;
        let shown = plain::path(path);
        let width = Width::of(&bytes);
        let mut sound = vec![true; blocks::whole(&bytes)];
        for block in blocks::torn(&bytes) {
            sound[block] = false;
        }
        if sound.is_empty() {
            return refused(format!("{shown}: has no whole block of {BLOCK} bytes. It is no sheet, or was cut off."));
        }
        // measures that are no library's are refused as opening refuses them
        match (sound[0] && reading::is_sheet(&bytes), said) {
            (true, said) => {
                let [n, capacity, leaf_size, count] = words::measures(&bytes);
                if said.is_some_and(|said| said != n) {
                    return refused(format!("{shown}: block 0 is sound, and says {n} samples a trace. Leave out `--samples`."));
                }
                let first = 1 + (n * count).div_ceil(width.samples());
                let labels = Some(first).filter(|first| *first < sound.len());
                Ok(Torn { bytes, width, sound, n, capacity, leaf_size, count: count.min(capacity), labels })
            }
            (false, Some(n)) => {
                // labels stand behind all samples
                let labels = (1..sound.len()).find(|&block| sound[block] && bytes[BLOCK * block + 2] == OF_LABELS);
                let count = ((labels.unwrap_or(sound.len()) - 1) * width.samples() / n).min(reading::MOST_TRACES);
                Ok(Torn { bytes, width, sound, n, capacity: build::room_for(count), leaf_size: build::LEAF_SIZE, count, labels })
            }
            (false, None) => refused(format!(
                "{shown}: block 0, which says how long a trace is, is torn. If you know it, say `--samples N`; traces of zeros may come at the end."
            )),
        }
    }

    /// The samples of a trace, if all of its blocks are sound. One that is none was never written by these calls: the trace is lost.
    fn trace(&self, number: usize) -> Option<Vec<i32>> {
        let sample = |at: usize| {
            let place = self.width.place(at);
            let sound = self.sound.get(place / BLOCK).copied().unwrap_or(false);
            sound.then(|| self.width.sample(&self.bytes[place..])).filter(|sample| SAMPLES.contains(sample))
        };
        (number * self.n..(number + 1) * self.n).map(sample).collect()
    }

    /// The label of a trace, zero if the sheet has none; nothing if it stands in a torn block.
    fn label(&self, number: usize) -> Option<Label> {
        let Some(first) = self.labels else { return Some(Label::default()) };
        let block = first + number / LABELS;
        if !self.sound.get(block).copied().unwrap_or(false) {
            return None;
        }
        let at = BLOCK * block + 4 + 6 * (number % LABELS);
        let [code_low, code_high, serial @ ..]: [u8; 6] = self.bytes[at..at + 6].try_into().ok()?;
        Some(Label { code: u16::from_le_bytes([code_low, code_high]), serial: u32::from_le_bytes(serial) })
    }
}

/// Traces that are kept, and whose labels are lost.
fn without_labels(many: usize) -> String {
    match many {
        0 => String::new(),
        many => format!("Without a label, since that stood in a torn block: {}.\n", numbers::count(many, "trace")),
    }
}

/// So many are named when some are lost.
const MOST_NAMED: usize = 20;

fn told(out: &Path, shelf: &Shelf, sheet: &Torn, lost: &[(usize, Option<names::Name>)]) -> String {
    let mut text = format!("{}: {} of {}", files::shown(out), shelf.library.len(), numbers::count(sheet.count, "trace"));
    if lost.is_empty() {
        return text + ", all there were.\n";
    }
    text.push_str(&format!(". Lost, by their old numbers: {}\n", numbers::count(lost.len(), "trace")));
    for (number, name) in lost.iter().take(MOST_NAMED) {
        text.push_str(&format!("  {number}  {}\n", name.as_ref().map_or("(no name)", |name| &name.name)));
    }
    if lost.len() > MOST_NAMED {
        text.push_str(&format!("  .. and {} more\n", lost.len() - MOST_NAMED));
    }
    text
}
