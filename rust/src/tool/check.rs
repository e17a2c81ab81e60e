//! `check`: whether sheets are sound, and all that is wrong with one that is not.

use super::arguments::Arguments;
use super::files::Place;
use super::names::Names;
use super::words::Held;
use super::{blocks, done, files, json, labels, numbers, plain, recordings, words, Answer, Failure};
use silkendoz::{Refusal, TraceLibrary};
use std::path::Path;

pub fn run(a: &Arguments) -> Answer {
    let found = a.some("a FILE with a sheet")?.into_iter().map(Checked::of).collect::<Result<Vec<_>, _>>()?;
    let text = match a.has("--json") {
        true => format!("{}\n", json::array(&found.iter().map(Checked::in_json).collect::<Vec<_>>())),
        false => found.iter().map(|one| one.text.as_str()).collect(),
    };
    let mut told = done(text)?;
    told.fine = found.iter().all(|one| one.sound && one.named);
    Ok(told)
}

/// What is found of a file.
struct Checked {
    file: String,
    text: String,
    sound: bool,
    /// Its names can be read, and no trace is without one because a line does not fit.
    named: bool,
    refusal: Option<u64>,
    torn: Vec<usize>,
    library: Option<TraceLibrary>,
}

impl Checked {
    fn of(path: &Path) -> Result<Checked, Failure> {
        let file = plain::path(path);
        let mut found = Checked { file, text: String::new(), sound: false, named: true, refusal: None, torn: Vec::new(), library: None };
        let bytes = match files::read(path) {
            Ok(bytes) => bytes,
            Err(Failure::Refused(why)) => {
                found.text = format!("{why}\n");
                return Ok(found);
            }
            Err(other) => return Err(other),
        };
        match TraceLibrary::read_sheet(&bytes) {
            Ok(library) => found.is_sound(path, &bytes, library),
            Err(why) => found.is_refused(&bytes, why),
        }
        Ok(found)
    }

    fn is_sound(&mut self, path: &Path, bytes: &[u8], library: TraceLibrary) {
        let (names, named) = names_of(path, &library);
        let traces = numbers::count(library.len(), "trace");
        let block = numbers::count(bytes.len() / blocks::BLOCK, "block");
        let (samples, labelled) = (numbers::count(library.n(), "sample"), labels::counted(library.labels()));
        self.text = format!("{}: sound. {block}, {traces} of {samples}{labelled}.\n{names}", self.file);
        (self.sound, self.named, self.library) = (true, named, Some(library));
    }

    fn is_refused(&mut self, bytes: &[u8], why: Refusal) {
        self.refusal = Some(why.number());
        if recordings::is_meant(bytes) {
            self.text = format!("{}: is a WAV recording, and no sheet. `silkendoz build` makes a library of recordings.\n", self.file);
            return;
        }
        if matches!(why, Refusal::TornBlock(_) | Refusal::SheetLength) {
            self.torn = blocks::torn(bytes);
        }
        self.text = match why {
            Refusal::TornBlock(_) => format!("{}: refused 9, torn block.\n{}", self.file, all_torn(bytes, &self.torn)),
            Refusal::SheetLength => format!("{}: {}\n{}", self.file, words::of_sheet(bytes, why), all_torn(bytes, &self.torn)),
            _ => format!("{}: {}\n", self.file, words::of_sheet(bytes, why)),
        };
    }

    fn in_json(&self) -> String {
        let known = |value: Option<String>| value.unwrap_or("null".to_string());
        let lines: Vec<String> = self.text.lines().map(json::text).collect();
        json::object(&[
            ("file", json::text(&self.file)),
            ("sound", self.sound.to_string()),
            ("names_fit", self.named.to_string()),
            ("refusal", known(self.refusal.map(|number| number.to_string()))),
            ("torn_blocks", json::array(&self.torn.iter().map(usize::to_string).collect::<Vec<_>>())),
            ("samples", known(self.library.as_ref().map(|library| library.n().to_string()))),
            ("traces", known(self.library.as_ref().map(|library| library.len().to_string()))),
            ("lines", json::array(&lines)),
        ])
    }
}

/// Names that cannot be read are a fault, and so are traces whose lines do not fit them. Lines that an interrupted writing left are none.
fn names_of(path: &Path, library: &TraceLibrary) -> (String, bool) {
    let names = Place::of(path).and_then(|place| Names::beside(place.real(), library));
    match names {
        Err(Failure::Refused(why) | Failure::Usage(why)) => (format!("  names: {why}\n"), false),
        Ok(names) if names.left() == 0 => (String::new(), true),
        Ok(names) => {
            let nameless = library.len() - names.known();
            let left = match names.left() {
                1 => "1 line that fits no trace, and is not shown; the next adding drops it".to_string(),
                left => format!("{left} lines that fit no trace, and are not shown; the next adding drops them"),
            };
            match nameless {
                0 => (format!("  names: {left}.\n"), true),
                _ => (format!("  names: {left}. {} without a name.\n", numbers::count(nameless, "trace")), false),
            }
        }
    }
}

/// Torn blocks that belong together: the first and the last, what is wrong with them, and how much too far back they stand, if they say so.
struct Run {
    first: usize,
    last: usize,
    what: String,
    shift: Option<usize>,
}

/// Each torn block in words, those that are alike together.
fn all_torn(bytes: &[u8], torn: &[usize]) -> String {
    let mut runs: Vec<Run> = Vec::new();
    for &block in torn {
        let what = words::torn(bytes, block);
        // one that was erased says nothing
        let shift = block.checked_sub(words::said_number(bytes, block)).filter(|shift| *shift > 0 && !words::is_erased(bytes, block));
        match runs.last_mut() {
            Some(run) if run.last + 1 == block && run.shift == shift && (run.what == what || shift.is_some()) => run.last = block,
            _ => runs.push(Run { first: block, last: block, what, shift }),
        }
    }
    let believed = !torn.is_empty() && torn[0] != 0;
    let mut text: String = runs.iter().map(|run| line(bytes, run, believed)).collect();
    let whole = numbers::count(blocks::whole(bytes), "whole block");
    text.push_str(&match torn.len() {
        0 => format!("  None of {whole} is torn.\n"),
        many => {
            let other = "With another copy of the same writing: `silkendoz repair A B -o OUT`; without one: `silkendoz salvage FILE -o OUT`";
            format!("  {many} of {whole} torn. {other}.\n")
        }
    });
    text
}

/// What torn blocks hold, from the first to the last.
fn in_brackets(from: Held, to: Held) -> String {
    match (from.first, to.last) {
        _ if from.what != to.what => format!(" ({} of traces {} on, {} of traces up to {})", from.what, from.first, to.what, to.last),
        (one, other) if one == other => format!(" ({} of trace {one})", from.what),
        (one, other) => format!(" ({} of traces {one} to {other})", from.what),
    }
}

fn line(bytes: &[u8], run: &Run, believed: bool) -> String {
    let Run { first, last, what, shift } = run;
    let which = if first == last { format!("block {first}") } else { format!("blocks {first} to {last}") };
    if let (Some(shift), true) = (shift, first < last) {
        let own = format!("they say that they are blocks {} to {}", first - shift, last - shift);
        let joined = if first == shift { ": another sheet begins here, files were joined" } else { ": they stand in the wrong place" };
        return format!("  {which}: {own}{joined}.\n");
    }
    let held = match (words::held_in(bytes, *first), words::held_in(bytes, *last)) {
        (Some(from), Some(to)) if believed => in_brackets(from, to),
        _ => String::new(),
    };
    format!("  {which}{held}: {what}.\n")
}
