//! A library as it stands on the disk: the sheet, the names beside it, and words for its codes.

use super::files::{self, Place, Put, Staged};
use super::labels::{self, Codes};
use super::lock::Lock;
use super::names::{self, Lines, Names};
use super::plain;
use super::progress::Progress;
use super::reading::{is_sheet, Sweep};
use super::{disk, hash, recordings, refused, words, Failure};
use silkendoz::{Label, Refusal, StoredSample, TraceLibrary};
use std::os::unix::fs::MetadataExt;
use std::path::{Path, PathBuf};

pub struct Shelf {
    pub path: PathBuf,
    pub library: TraceLibrary,
    pub names: Names,
    pub codes: Codes,
}

/// How often a library is read again that is replaced meanwhile.
const TRIES: usize = 5;

impl Shelf {
    /// Sheet and names of one writing: if the sheet was replaced while they were read, both are read again.
    pub fn load(path: &Path) -> Result<Shelf, Failure> {
        let which = || disk::follow(path).ok().flatten().map(|it| (it.dev(), it.ino(), it.mtime(), it.mtime_nsec()));
        for _ in 1..TRIES {
            let before = which();
            let shelf = Shelf::once(path)?;
            if which() == before {
                return Ok(shelf);
            }
        }
        Shelf::once(path)
    }

    fn once(path: &Path) -> Result<Shelf, Failure> {
        let library = library_of(path, &files::read(path)?)?;
        let real = Place::of(path)?;
        let (names, codes) = (Names::beside(real.real(), &library)?, Codes::beside(real.real())?);
        Ok(Shelf { path: path.to_path_buf(), library, names, codes })
    }

    /// A library that is being made: there are no words for its codes yet.
    pub fn new(path: &Path, library: TraceLibrary, names: Names) -> Shelf {
        Shelf { path: path.to_path_buf(), library, names, codes: Codes::default() }
    }

    /// A library that came by a pipe: no names stand beside it.
    pub fn unnamed(path: &Path, bytes: &[u8]) -> Result<Shelf, Failure> {
        let library = library_of(path, bytes)?;
        let names = Names::none(library.len());
        Ok(Shelf::new(path, library, names))
    }

    /// Its three files, none of which an output may overwrite.
    pub fn files(&self) -> Result<[PathBuf; 3], Failure> {
        let real = Place::of(&self.path)?;
        Ok([self.path.clone(), names::beside(real.real()), labels::codes_beside(real.real())])
    }

    /// The samples of a stored trace; there is one for each number below the library's length.
    pub fn trace(&self, number: usize) -> Vec<i32> {
        StoredSample::values(self.library.trace(number).unwrap_or_default())
    }

    /// The label of a stored trace; there is one for each number below the library's length.
    pub fn label(&self, number: usize) -> Label {
        self.library.labels().nth(number).unwrap_or_default()
    }

    /// Whether any trace has a label. A library without is shown as if there were none.
    pub fn is_labelled(&self) -> bool {
        self.library.labels().any(|label| label != Label::default())
    }

    /// The SHA-256 of the sheet, as `sha256sum` says it.
    pub fn hash(&self) -> String {
        self.library.write_sheet().map_or_else(|_| String::new(), |sheet| hash::of_bytes(&sheet))
    }

    /// Adds traces with their names and labels. If one is refused, the shelf is not to be saved.
    pub fn put(&mut self, sweeps: &[Sweep]) -> Result<(), Failure> {
        let mut progress = Progress::new("adding traces", sweeps.len());
        let before = self.library.len();
        for (done, sweep) in sweeps.iter().enumerate() {
            progress.show(done);
            match self.library.add_labelled(&sweep.samples, sweep.label) {
                Ok(_) => self.names.push(Some(sweep.named())),
                Err(Refusal::Full) => {
                    let room = self.library.capacity();
                    let all = before + sweeps.len();
                    return refused(format!("refused 5, full: there is room for {room} traces, and there would be {all}."));
                }
                Err(why) => return refused(format!("{}, {}: {}", sweep.file, sweep.name, words::of_call(why))),
            }
        }
        Ok(())
    }

    fn sheet(&self) -> Result<Vec<u8>, Failure> {
        self.library.write_sheet().or_else(|why| refused(format!("{}: {}", plain::path(&self.path), words::of_call(why))))
    }
}

/// The library of a sheet; what else the bytes are, in words.
fn library_of(path: &Path, bytes: &[u8]) -> Result<TraceLibrary, Failure> {
    let shown = plain::path(path);
    match TraceLibrary::read_sheet(bytes) {
        Ok(library) => Ok(library),
        Err(_) if recordings::is_meant(bytes) => refused(format!("{shown}: is a recording, and a library's sheet has to stand here.")),
        Err(_) if !bytes.is_empty() && !is_sheet(bytes) && std::str::from_utf8(bytes).is_ok() => {
            refused(format!("{shown}: is text, and a library's sheet has to stand here."))
        }
        Err(why) => {
            let found = words::of_sheet(bytes, why);
            refused(format!("{shown}: {found} `silkendoz check {}` shows all that is wrong.", plain::word(path)))
        }
    }
}

/// A library's two places, locked: nobody else writes there.
#[derive(Debug)]
pub struct Held {
    sheet: Place,
    names: Place,
    _lock: Lock,
}

impl Held {
    /// Waits for another run that writes there, or refuses at once.
    pub fn of(path: &Path, wait: bool) -> Result<Held, Failure> {
        let sheet = Place::of(path)?;
        let lock = Lock::of(&sheet, wait)?;
        // what is there may have changed meanwhile
        let sheet = Place::of(path)?;
        let names = Place::of(&names::beside(sheet.real()))?;
        if let Some(other) = names::twin(sheet.real()) {
            let [shown, other, names] = [path, &other, &names::beside(path)].map(plain::path);
            return refused(format!("{shown}: {other} has its names in {names} too. Take another name for one of them."));
        }
        files::remove_strays(&[&sheet, &names]);
        Ok(Held { sheet, names, _lock: lock })
    }

    /// Refuses what must not be written: what is there unless that is meant, what is protected, and what is also an input.
    pub fn must_take(&self, over: bool, inputs: &[&Path]) -> Result<(), Failure> {
        for place in [&self.sheet, &self.names] {
            place.must_not_be(inputs)?;
            place.must_take(over)?;
        }
        Ok(())
    }

    /// Writes names, then sheet. While the sheet is still the old one, the names have the old lines too: whenever the power fails, every
    /// name that is shown is right. If something fails before the sheet has its place, both files are as they were; behind that, both are
    /// new, and what went wrong comes back in words.
    pub fn save(self, shelf: &Shelf) -> Result<Put, Failure> {
        let old = if self.names.is_free() { None } else { Some(files::read(&self.names.path)?) };
        let new = shelf.names.text(&shelf.library);
        let both = match &old {
            Some(bytes) => names::with_old(&new, &self.old_lines(bytes)?),
            None => new.clone(),
        };
        let stage = |bytes: &[u8]| Staged::write(&self.names, bytes, Some(&self.sheet));
        let sheet = Staged::write(&self.sheet, &shelf.sheet()?, None)?;
        let first = (old.is_some() || !both.is_empty()).then(|| stage(both.as_bytes())).transpose()?;
        let last = (new != both && !new.is_empty()).then(|| stage(new.as_bytes())).transpose()?;
        let back = old.map(|bytes| stage(&bytes)).transpose()?;

        let put = match first.map_or(Ok(None), |first| first.put(!self.names.is_free()))? {
            None => sheet.put(!self.sheet.is_free()),
            // names that may not stay do not precede a sheet
            Some(why) => refused(why),
        };
        match put {
            Ok(unsure) => Ok(unsure.or(self.finish(last, new.is_empty()))),
            Err(Failure::Refused(why)) => refused(format!("{why}{}", self.go_back(back))),
            Err(other) => Err(other),
        }
    }

    /// Writes the names alone, of a library whose sheet is there.
    pub fn save_names(self, shelf: &Shelf) -> Result<Put, Failure> {
        let text = shelf.names.text(&shelf.library);
        Staged::write(&self.names, text.as_bytes(), Some(&self.sheet))?.put(!self.names.is_free())
    }

    /// The lines of the names that are there, each with a hash. What cannot be read as names has none; a line without a hash gets one by
    /// the sheet that is there.
    fn old_lines(&self, bytes: &[u8]) -> Result<String, Failure> {
        let Ok(lines) = Lines::of(&self.names.path, bytes.to_vec()) else {
            return Ok(String::new());
        };
        let stored = match self.sheet.is_free() || lines.all_hashed() {
            true => None,
            false => TraceLibrary::read_sheet(&files::read(&self.sheet.path)?).ok(),
        };
        let known = stored.and_then(|library| Some(lines.fit(&library).ok()?.text(&library)));
        Ok(names::with_old(&known.unwrap_or_default(), &lines.hashed()))
    }

    /// The new names alone. If that fails, lines of the old library stay that nobody is shown.
    fn finish(&self, last: Option<Staged>, none: bool) -> Put {
        let done = match last {
            Some(last) => last.put(true),
            None if none => files::remove(&self.names),
            None => return None,
        };
        match done {
            Ok(unsure) => unsure,
            Err(Failure::Refused(why) | Failure::Usage(why)) => {
                Some(format!("{why} The library is written; lines of the one before it stay among the names, and are not shown."))
            }
        }
    }

    /// The names as they were.
    fn go_back(&self, back: Option<Staged>) -> String {
        let done = match back {
            Some(back) => back.put(true),
            None => files::remove(&self.names),
        };
        match done {
            Ok(_) => String::new(),
            Err(_) => {
                format!(" {} has lines of traces that were not stored; they are not shown.", plain::path(&self.names.said))
            }
        }
    }
}
