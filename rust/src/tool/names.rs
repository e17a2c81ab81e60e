//! The names of a library's traces: a text file beside the sheet, a line a trace, with tabs between its columns: number, name, file, rate,
//! and a hash of the trace's samples. A name is shown only where the hash fits: two files cannot change at one moment, and may be mixed up.

use super::plain::{clean, short, LONGEST};
use super::reading::is_sheet;
use super::{disk, files, hash, plain, refused, Failure};
use silkendoz::{StoredSample, TraceLibrary};
use std::collections::HashSet;
use std::path::{Path, PathBuf};

#[derive(Clone, Debug, PartialEq, Eq)]
pub struct Name {
    pub name: String,
    pub file: String,
    /// Samples a second that the recording says, if it does.
    pub rate: Option<u32>,
}

/// By number, as they fit a library. A trace may have none.
#[derive(Clone, Debug, Default, PartialEq, Eq)]
pub struct Names {
    fitting: Vec<Option<Name>>,
    /// Lines that fit no trace: what an interrupted writing leaves, or another library's.
    left: usize,
}

/// `faults.sheet` has its names in `faults.names`, a sheet of another ending in a file with `.names` behind it.
pub fn beside(sheet: &Path) -> PathBuf {
    with_ending(sheet, "names")
}

/// The file of another ending beside a sheet.
pub fn with_ending(sheet: &Path, ending: &str) -> PathBuf {
    if sheet.extension().is_some_and(|own| own == "sheet") {
        sheet.with_extension(ending)
    } else {
        let mut path = sheet.as_os_str().to_os_string();
        path.push(format!(".{ending}"));
        path.into()
    }
}

/// The other sheet whose names stand in the same file, if there is one: `faults` and `faults.sheet` both have `faults.names`.
pub fn twin(sheet: &Path) -> Option<PathBuf> {
    let other = match sheet.extension().is_some_and(|own| own == "sheet") {
        true => sheet.with_extension(""),
        false => with_ending(sheet, "sheet"),
    };
    let is_file = disk::follow(&other).ok().flatten().is_some_and(|it| it.is_file());
    (is_file && files::read(&other).is_ok_and(|bytes| is_sheet(&bytes))).then_some(other)
}

/// A line of the file. One without a hash is from an older version, or somebody's: it is taken as it is.
#[derive(Clone, Debug, PartialEq, Eq)]
pub struct Line {
    /// Counted from 1.
    at: usize,
    number: usize,
    name: Name,
    hash: Option<String>,
}

/// All lines of a file, whatever they fit.
#[derive(Clone, Debug, Default)]
pub struct Lines {
    path: PathBuf,
    all: Vec<Line>,
}

impl Lines {
    /// The file of this path; no line if there is no such file.
    pub fn read(path: &Path) -> Result<Lines, Failure> {
        match files::read_if_there(path)? {
            Some(bytes) => Lines::of(path, bytes),
            None => Ok(Lines::default()),
        }
    }

    /// What the file of this path holds.
    pub fn of(path: &Path, bytes: Vec<u8>) -> Result<Lines, Failure> {
        let text = plain::text_of(bytes).or_else(|why| refused(format!("{}: {why} {GO_ON}", plain::path(path))))?;
        let numbered = (1..).zip(text.lines()).filter(|(_, line)| !line.trim().is_empty());
        let all = numbered.map(|(at, line)| taken(at, line).or_else(|why| wrong_line(path, at, &why))).collect::<Result<_, _>>()?;
        Ok(Lines { path: path.to_path_buf(), all })
    }

    /// Whether every line has a hash.
    pub fn all_hashed(&self) -> bool {
        self.all.iter().all(|line| line.hash.is_some())
    }

    /// Those that fit the library's traces. Of several lines of one trace the first that fits counts. A line without a hash has to name
    /// a trace that is there, and be the only one.
    pub fn fit(&self, library: &TraceLibrary) -> Result<Names, Failure> {
        let count = library.len();
        let mut names = Names::none(count);
        let mut unproved = vec![false; count];
        for line in &self.all {
            let trace = library.trace(line.number).map(StoredSample::values);
            let place = names.fitting.get_mut(line.number);
            let why = match (place, &line.hash) {
                (Some(place), Some(hash)) if place.is_none() && trace.is_some_and(|trace| hash::of_trace(&trace) == *hash) => {
                    *place = Some(line.name.clone());
                    continue;
                }
                (_, Some(_)) => {
                    names.left += 1;
                    continue;
                }
                (Some(place), None) if place.is_none() => {
                    unproved[line.number] = true;
                    *place = Some(line.name.clone());
                    continue;
                }
                (Some(_), None) if !unproved[line.number] => {
                    names.left += 1;
                    continue;
                }
                (Some(_), None) => format!("names trace {} a second time.", line.number),
                (None, None) => format!("names trace {}, and the sheet has {count}, from 0: it belongs to another sheet.", line.number),
            };
            return wrong_line(&self.path, line.at, &why);
        }
        Ok(names)
    }

    /// What names a trace of these samples; of a trace whose samples are lost, what names its number.
    pub fn name_of(&self, number: usize, samples: Option<&[i32]>) -> Option<Name> {
        let fits = |line: &&Line| match (&line.hash, samples) {
            (Some(hash), Some(samples)) => *hash == hash::of_trace(samples),
            _ => true,
        };
        self.all.iter().filter(|line| line.number == number).find(fits).map(|line| line.name.clone())
    }

    /// The lines that have a hash, as they stand in the file.
    pub fn hashed(&self) -> String {
        self.all.iter().filter_map(|line| Some(written(line.number, &line.name, line.hash.as_ref()?))).collect()
    }
}

fn wrong_line<T>(path: &Path, at: usize, why: &str) -> Result<T, Failure> {
    refused(format!("{}, line {at}: {why} {GO_ON}", plain::path(path)))
}

const GO_ON: &str = "Correct it, or move it away to go on without names.";

fn taken(at: usize, line: &str) -> Result<Line, String> {
    let columns: Vec<&str> = line.splitn(6, '\t').collect();
    let (number, name, file, rate, hash) = match columns.as_slice() {
        [number, name] => (*number, *name, "", NO_RATE, None),
        [number, name, file] => (*number, *name, *file, NO_RATE, None),
        [number, name, file, rate, hash] => (*number, *name, *file, rate.trim(), Some(hash.trim())),
        _ => return Err("has to be number, name, file, rate and hash, with a tab between them.".to_string()),
    };
    let Ok(number) = number.trim().parse::<usize>() else {
        return Err(format!("`{}` is no trace's number.", short(number, 40)));
    };
    let rate = match rate {
        NO_RATE => None,
        rate => Some(rate.parse::<u32>().map_err(|_| format!("`{}` is no rate; `{NO_RATE}` stands for none.", short(rate, 40)))?),
    };
    if hash.is_some_and(|hash| hash.len() != 16 || !hash.bytes().all(|byte| byte.is_ascii_hexdigit())) {
        return Err("the last column has to be 16 digits, 0 to 9 and a to f, as they were written there.".to_string());
    }
    let name = Name { name: named(name)?, file: short(file, LONGEST), rate };
    Ok(Line { at, number, name, hash: hash.map(str::to_lowercase) })
}

/// A name as it may be shown.
pub fn named(text: &str) -> Result<String, String> {
    let letters = text.chars().count();
    match letters > LONGEST {
        true => Err(format!("the name `{}` has {letters} letters, and may have {LONGEST}. Shorten it.", short(text, 40))),
        false => Ok(clean(text)),
    }
}

const NO_RATE: &str = "-";

fn written(number: usize, name: &Name, hash: &str) -> String {
    let rate = name.rate.map_or(NO_RATE.to_string(), |rate| rate.to_string());
    format!("{number}\t{}\t{}\t{rate}\t{hash}\n", clean(&name.name), clean(&name.file))
}

impl Names {
    /// The names beside a sheet that fit its library; none if there is no such file.
    pub fn beside(sheet: &Path, library: &TraceLibrary) -> Result<Names, Failure> {
        Lines::read(&beside(sheet))?.fit(library)
    }

    /// How many traces have a name.
    pub fn known(&self) -> usize {
        self.fitting.iter().flatten().count()
    }

    /// How many lines of the file fit no trace.
    pub fn left(&self) -> usize {
        self.left
    }

    pub fn of(&self, number: usize) -> Option<&Name> {
        self.fitting.get(number)?.as_ref()
    }

    /// The name to show.
    pub fn shown(&self, number: usize) -> &str {
        self.of(number).map_or("(no name)", |name| &name.name)
    }

    /// Samples a second of a trace's recording, if it is known.
    pub fn rate_of(&self, number: usize) -> Option<u32> {
        self.of(number)?.rate
    }

    /// All rates that are known of the library's traces, rising, each once.
    pub fn rates(&self) -> Vec<u32> {
        let mut rates: Vec<u32> = self.fitting.iter().flatten().filter_map(|name| name.rate).collect();
        rates.sort_unstable();
        rates.dedup();
        rates
    }

    /// The next trace's name.
    pub fn push(&mut self, name: Option<Name>) {
        self.fitting.push(name);
    }

    /// Gives a trace that is there another name.
    pub fn set(&mut self, number: usize, name: Name) {
        self.fitting[number] = Some(name);
    }

    /// For so many traces, none of which has a name.
    pub fn none(count: usize) -> Names {
        Names { fitting: vec![None; count], left: 0 }
    }

    /// Takes the names of others where there are none yet; how many there were.
    pub fn fill_from(&mut self, others: &Names) -> usize {
        let mut taken = 0;
        for (own, other) in self.fitting.iter_mut().zip(&others.fitting) {
            if own.is_none() && other.is_some() {
                own.clone_from(other);
                taken += 1;
            }
        }
        taken
    }

    /// The file, for this library; nothing if no trace has a name.
    pub fn text(&self, library: &TraceLibrary) -> String {
        let known = self.fitting.iter().enumerate().filter_map(|(number, name)| Some((number, name.as_ref()?, library.trace(number)?)));
        known.map(|(number, name, trace)| written(number, name, &hash::of_trace(&StoredSample::values(trace)))).collect()
    }
}

/// The lines of a library, and behind them those of one that it replaces: so each has its names, whichever of them the sheet is.
pub fn with_old(new: &str, old: &str) -> String {
    let known: HashSet<&str> = new.lines().collect();
    let others = old.lines().filter(|line| !known.contains(line)).map(|line| format!("{line}\n"));
    new.to_string() + &others.collect::<String>()
}
