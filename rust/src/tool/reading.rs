//! Files with traces, of whatever kind: a recording, text, or another library's sheet. What a file holds says which it is, not its name.

use super::arguments::Arguments;
use super::names::{named, Name};
use super::plain::{self, clean};
use super::shelf::Shelf;
use super::{csv, disk, files, numbers, recordings, refused, wrong, Failure};
use silkendoz::{Label, TraceLibrary};
use std::path::{Path, PathBuf};

/// As many traces as a library holds at most: no more are read.
pub const MOST_TRACES: usize = 4096;

/// A trace from a file.
#[derive(Clone, Debug)]
pub struct Sweep {
    pub name: String,
    pub file: String,
    /// Samples a second, if the file says it.
    pub rate: Option<u32>,
    pub samples: Vec<i32>,
    /// The least and the greatest sample that its recording can hold, if it is one.
    form: Option<[i32; 2]>,
    /// What its library says of it, or what was given.
    pub label: Label,
}

impl Sweep {
    /// The limits of its converter, by the form of the recording. Text and sheets do not say it: theirs are those of 16 bits, or of 20, if any
    /// sample is beyond 16.
    pub fn limits(&self) -> [i32; 2] {
        self.form.unwrap_or_else(|| numbers::limits_of(numbers::bits_of(&self.samples)))
    }

    /// The samples at these limits, counted from 0: there the current may have been larger.
    pub fn clipped(&self) -> Vec<usize> {
        let limits = self.limits();
        (0..self.samples.len()).filter(|&at| limits.contains(&self.samples[at])).collect()
    }

    pub fn named(&self) -> Name {
        Name { name: self.name.clone(), file: self.file.clone(), rate: self.rate }
    }

    /// The file, and the name if the file's does not say it already.
    pub fn shown(&self) -> String {
        match Path::new(&self.file).file_stem().is_some_and(|stem| stem == self.name.as_str()) {
            true => self.file.clone(),
            false => format!("{}: {}", self.file, self.name),
        }
    }
}

/// What traces have to be like, and what may be done to make them so.
#[derive(Clone, Copy, Debug)]
pub struct Wanted {
    pub n: usize,
    /// A recording may end in the midst of a trace: what is left over is left out.
    pub cut: bool,
    /// A recording may be of another form: it is brought to one that can be taken.
    pub convert: bool,
    /// One of more than 16 bits is brought to so many, 16 or 20.
    pub bits: u32,
    /// The traces are for a library of which all samples fit 16 bits.
    pub narrow: bool,
    /// So many more than a library holds may be read, since they are left out again.
    pub spare: usize,
}

impl Wanted {
    /// By the options `--cut`, `--convert` and `--bits`.
    pub fn of(a: &Arguments, n: usize) -> Result<Wanted, Failure> {
        let bits = match (a.number("--bits")?, a.has("--convert")) {
            (Some(_), false) => return wrong("--bits: says to how many bits `--convert` brings a recording. Say both.".to_string()),
            (None, _) => 20,
            (Some(bits), _) if [16, 20].contains(&bits) => bits as u32,
            (Some(bits), _) => return wrong(format!("--bits: samples get 16 bits or 20, and not {bits}.")),
        };
        Ok(Wanted { n, cut: a.has("--cut"), convert: a.has("--convert"), bits, narrow: false, spare: 0 })
    }

    /// For a library that holds traces.
    pub fn by(a: &Arguments, library: &TraceLibrary) -> Result<Wanted, Failure> {
        Ok(Wanted { narrow: !library.is_empty() && !library.is_wide(), ..Wanted::of(a, library.n())? })
    }
}

/// The traces of some files, and what was done to get them, a line a file.
#[derive(Clone, Debug, Default)]
pub struct Found {
    pub sweeps: Vec<Sweep>,
    pub notes: Vec<String>,
    /// Files that hold more than one trace, a line each.
    pub several: Vec<String>,
    /// The files that were read.
    pub files: Vec<PathBuf>,
}

/// A sheet has these letters from byte 4 on.
pub fn is_sheet(bytes: &[u8]) -> bool {
    bytes.get(4..8) == Some(b"TRCL")
}

/// `-` stands for standard input.
pub fn is_standard(path: &Path) -> bool {
    path == Path::new("-")
}

/// The traces of a file. `-` is standard input.
pub fn one(path: &Path, wanted: &Wanted) -> Result<Found, Failure> {
    // a pipe can be read once
    let plain_file = !is_standard(path) && files::is_plain(path)?;
    let (path, bytes) = match is_standard(path) {
        true => (Path::new("standard input"), files::read_standard()?),
        false => (path, files::read(path)?),
    };
    let mut found = if recordings::is_meant(&bytes) {
        recorded(path, &bytes, wanted)?
    } else if is_sheet(&bytes) {
        let shelf = if plain_file { Shelf::load(path)? } else { Shelf::unnamed(path, &bytes)? };
        Found { sweeps: shelved(path, &shelf, wanted.n)?, ..Found::default() }
    } else {
        Found { sweeps: written(path, bytes, wanted.n)?, ..Found::default() }
    };
    match found.sweeps.len() {
        0 => return refused(format!("{}: holds no trace. Record a sweep, or leave the file out.", plain::path(path))),
        1 => (),
        many => found.several.push(format!("{}: holds {many} traces of {}", plain::path(path), numbers::count(wanted.n, "sample"))),
    }
    Ok(found)
}

/// The traces of some files, one file after another; of a folder, those of the recordings and texts in it, by name. All files that cannot
/// be taken are named together.
pub fn all(paths: &[&Path], wanted: &Wanted) -> Result<Found, Failure> {
    let mut found = Found::default();
    let mut faults = Vec::new();
    let mut files = 0;
    for path in paths {
        let inside = if is_standard(path) { None } else { in_folder(path) };
        let inside = match inside {
            None => vec![path.to_path_buf()],
            Some(Ok(inside)) => inside,
            Some(Err(why)) => {
                faults.push(why);
                continue;
            }
        };
        files += inside.len();
        for path in inside {
            match one(&path, wanted) {
                Ok(mut more) => {
                    found.sweeps.append(&mut more.sweeps);
                    found.notes.append(&mut more.notes);
                    found.several.append(&mut more.several);
                    found.files.push(path.clone());
                }
                Err(Failure::Refused(why)) => faults.push(why),
                Err(other) => return Err(other),
            }
            if found.sweeps.len() > MOST_TRACES + wanted.spare {
                let many = format!("these files hold more than {MOST_TRACES} traces, and no library holds more");
                return refused(format!("{many}. Leave some out: {} was the first too many.", plain::path(&path)));
            }
        }
    }
    match faults.as_slice() {
        [] => Ok(found),
        [one] => refused(one.clone()),
        many => refused(format!("{} of {} cannot be taken:\n{}", many.len(), numbers::count(files, "file"), many.join("\n"))),
    }
}

/// The recordings and texts in a folder, by name; nothing if it is no folder. Hidden files and files of other endings are passed over.
fn in_folder(path: &Path) -> Option<Result<Vec<PathBuf>, String>> {
    const ENDINGS: [&str; 4] = ["wav", "csv", "tsv", "txt"];
    // what cannot be looked at is refused when it is read
    if !disk::follow(path).is_ok_and(|found| found.is_some_and(|it| it.is_dir())) {
        return None;
    }
    let names = match disk::names_in(path) {
        Ok(names) => names,
        Err(why) => return Some(Err(format!("{}: cannot be read: {}.", plain::path(path), plain::why(&why)))),
    };
    let is_meant = |name: &Path| {
        let ending = name.extension().map(|ending| ending.to_string_lossy().to_lowercase());
        let hidden = name.to_string_lossy().starts_with('.');
        !hidden && ending.is_some_and(|ending| ENDINGS.contains(&ending.as_str()))
    };
    let mut inside: Vec<PathBuf> = names.into_iter().map(PathBuf::from).filter(|name| is_meant(name)).map(|name| path.join(name)).collect();
    inside.sort();
    match inside.is_empty() {
        true => Some(Err(format!("{}: this folder has no file that ends in .wav, .csv, .tsv or .txt.", plain::path(path)))),
        false => Some(Ok(inside)),
    }
}

/// What is to be known where a sweep of 20 bits meets traces that all fit 16: brought to other bits, they are 16 times as large or as small.
const DOUBT: &str = "has 20 bits now, and every stored trace fits 16. If those were brought to 16 bits, say `--bits 16`: else they do not compare.";

fn recorded(path: &Path, bytes: &[u8], wanted: &Wanted) -> Result<Found, Failure> {
    match recordings::take(bytes, wanted) {
        Ok(taken) => {
            let placed = |(place, samples)| Placed { form: Some(taken.limits), ..Placed::unlabelled(place, None, Some(taken.rate), samples) };
            let traces = (1..).zip(taken.traces).map(placed);
            let doubt = (taken.wide && wanted.narrow).then_some(DOUBT.to_string());
            let notes = taken.notes.iter().chain(&doubt).map(|note| format!("{}: {note}", plain::path(path)));
            Ok(Found { sweeps: named_by_file(path, "trace", traces.collect())?, notes: notes.collect(), ..Found::default() })
        }
        Err(why) => refused(format!("{}: {why}", plain::path(path))),
    }
}

fn shelved(path: &Path, shelf: &Shelf, n: usize) -> Result<Vec<Sweep>, Failure> {
    if shelf.library.n() != n {
        return refused(format!(
            "{}: a library of traces of {}, and {n} are wanted. Take traces of one length.",
            plain::path(path),
            numbers::count(shelf.library.n(), "sample")
        ));
    }
    let named = (0..shelf.library.len()).map(|place| {
        let name = shelf.names.of(place);
        let (name, label) = (name.map(|name| name.name.clone()), shelf.label(place));
        Placed { place, name, rate: shelf.names.rate_of(place), samples: shelf.trace(place), form: None, label }
    });
    let mut sweeps = named_by_file(path, "trace", named.collect())?;
    // where a trace was recorded is known here, if it is known at all
    for (place, sweep) in sweeps.iter_mut().enumerate() {
        if let Some(known) = shelf.names.of(place).filter(|name| !name.file.is_empty()) {
            sweep.file.clone_from(&known.file);
        }
    }
    Ok(sweeps)
}

fn written(path: &Path, bytes: Vec<u8>, n: usize) -> Result<Vec<Sweep>, Failure> {
    let shown = plain::path(path);
    let text = plain::text_of(bytes).or_else(|why| refused(format!("{shown}: is no WAV recording, and {why}")))?;
    let lines = match csv::lines(&text, n, MOST_TRACES) {
        Ok(lines) => lines,
        Err(wrong) => return refused(format!("{shown}, line {}: {}", wrong.line, wrong.what)),
    };
    let placed = lines.into_iter().map(|line| Placed::unlabelled(line.number, line.name, None, line.samples));
    named_by_file(path, "line", placed.collect())
}

/// A trace, and its place in a file.
struct Placed {
    place: usize,
    name: Option<String>,
    rate: Option<u32>,
    samples: Vec<i32>,
    form: Option<[i32; 2]>,
    label: Label,
}

impl Placed {
    fn unlabelled(place: usize, name: Option<String>, rate: Option<u32>, samples: Vec<i32>) -> Placed {
        Placed { place, name, rate, samples, form: None, label: Label::default() }
    }
}

/// A trace without a name gets the file's, and if there are several, its place.
fn named_by_file(path: &Path, what: &str, traces: Vec<Placed>) -> Result<Vec<Sweep>, Failure> {
    let file = plain::path(path);
    let stem = clean(&path.file_stem().unwrap_or_default().to_string_lossy());
    let several = traces.len() > 1;
    let fallback = |place: usize| if several { format!("{stem}, {what} {place}") } else { stem.clone() };
    let made = traces.into_iter().map(|Placed { place, name, rate, samples, form, label }| {
        let name = name.unwrap_or_else(|| fallback(place));
        let name = named(&name).or_else(|why| refused(format!("{file}, {what} {place}: {why}")))?;
        Ok(Sweep { name, file: file.clone(), rate, samples, form, label })
    });
    made.collect()
}

/// A line for traces whose rate is none of those that a library has.
pub fn other_rates(sweeps: &[Sweep], known: &[u32]) -> String {
    let other = |sweep: &&Sweep| sweep.rate.is_some_and(|rate| !known.contains(&rate));
    let mut others = sweeps.iter().filter(other);
    match (known, others.next()) {
        ([], _) | (_, None) => String::new(),
        (known, Some(first)) => {
            let known: Vec<String> = known.iter().map(u32::to_string).collect();
            let rate = first.rate.unwrap_or_default();
            let more = match others.count() {
                0 => String::new(),
                more => format!(" (and {more} more)"),
            };
            let what = format!("{}: recorded at {rate} samples a second{more}", first.shown());
            format!("{what}; the library's are of {}. Traces of different rates do not compare.\n", known.join(", "))
        }
    }
}

#[cfg(test)]
mod tests {
    use super::*;

    fn clipped(samples: &[i32], form: Option<[i32; 2]>) -> Vec<usize> {
        let (name, file) = (String::new(), String::new());
        Sweep { name, file, rate: None, samples: samples.to_vec(), form, label: Label::default() }.clipped()
    }

    #[test]
    fn limits_of_the_converter() {
        assert_eq!(clipped(&[0, 32_767, -32_768, 32_766, -32_767], None), [1, 2]);
        assert_eq!(clipped(&[0, 32_767, 524_287, 524_286, -524_288, -524_287], None), [2, 4]);
        assert_eq!(clipped(&[32_768, 32_767, -32_768], None), [0; 0]);
        // a recording's form is known: 8 bits end below 16, and 20 go on
        assert_eq!(clipped(&[32_512, -32_768, 32_256], Some([-32_768, 32_512])), [0, 1]);
        assert_eq!(clipped(&[32_767, -32_768], Some([-524_288, 524_287])), [0; 0]);
    }
}
