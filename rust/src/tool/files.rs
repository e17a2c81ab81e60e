//! Files: read up to a size; written beside their place, synced, and given their name there.

use super::disk;
use super::{plain, refused, standard, Failure};
use std::ffi::{OsStr, OsString};
use std::fs::{File, Metadata};
use std::io::{self, Read};
use std::os::unix::ffi::OsStrExt;
use std::os::unix::fs::{fchown, FileTypeExt, MetadataExt, PermissionsExt};
use std::path::{Path, PathBuf};
use std::sync::OnceLock;

/// More than any sheet or recording of a library takes: a larger file was not meant.
const LIMIT: u64 = 64 << 20;

pub fn read(path: &Path) -> Result<Vec<u8>, Failure> {
    match read_if_there(path)? {
        Some(bytes) => Ok(bytes),
        None => refused(format!("{}: there is no such file. Look at its name and folder.", plain::path(path))),
    }
}

/// What a file holds; nothing only if there is no such file.
pub fn read_if_there(path: &Path) -> Result<Option<Vec<u8>>, Failure> {
    let Some(found) = or_refused(path, "cannot be read", disk::follow(path))? else {
        return Ok(None);
    };
    must_end(path, &found)?;
    let bytes = disk::open(path).and_then(|file| disk::read(file, LIMIT));
    within_limit(path, or_refused(path, "cannot be read", bytes)?).map(Some)
}

/// Whether there is a plain file, which can be read again.
pub fn is_plain(path: &Path) -> Result<bool, Failure> {
    Ok(or_refused(path, "cannot be read", disk::follow(path))?.is_some_and(|it| it.is_file()))
}

/// All of standard input. It is read once, and is the same however often it is asked for.
pub fn read_standard() -> Result<Vec<u8>, Failure> {
    static READ: OnceLock<Result<Vec<u8>, String>> = OnceLock::new();
    let read = || {
        let mut bytes = Vec::new();
        let all = io::stdin().lock().take(LIMIT + 1).read_to_end(&mut bytes);
        all.map(|_| bytes).map_err(|why| plain::why(&why))
    };
    let shown = Path::new("standard input");
    match READ.get_or_init(read) {
        Ok(bytes) => within_limit(shown, bytes.clone()),
        Err(why) => refused(format!("{}: cannot be read: {why}.", shown.display())),
    }
}

fn within_limit(path: &Path, bytes: Vec<u8>) -> Result<Vec<u8>, Failure> {
    match bytes.len() as u64 > LIMIT {
        true => refused(format!("{}: larger than 64 MiB, as no sheet or recording is. Take another file.", plain::path(path))),
        false => Ok(bytes),
    }
}

/// Refuses what may never come to an end. A pipe that is open already, as `<(command)` is one, has no place in a folder, and has an end.
fn must_end(path: &Path, found: &Metadata) -> Result<(), Failure> {
    let kind = found.file_type();
    let what = if kind.is_dir() {
        return refused(format!("{}: is a folder, and has to be a file.", plain::path(path)));
    } else if kind.is_char_device() || kind.is_block_device() {
        "a device"
    } else if kind.is_socket() {
        "a socket"
    } else if kind.is_fifo() && disk::canonical(path).is_ok() {
        "a FIFO"
    } else {
        return Ok(());
    };
    refused(format!("{}: is {what}, and has to be a file. Write it to one first, or read it by `-`.", plain::path(path)))
}

fn or_refused<T>(path: &Path, what: &str, result: io::Result<T>) -> Result<T, Failure> {
    result.or_else(|why| refused(format!("{}: {what}: {}.", plain::path(path), plain::why(&why))))
}

/// A place for a file, where there is one or nothing.
#[derive(Clone, Debug)]
pub struct Place {
    /// As it was said.
    pub said: PathBuf,
    /// Without links: what a link leads to is replaced, not the link.
    pub path: PathBuf,
    there: Option<Metadata>,
    is_link: bool,
}

impl Place {
    pub fn of(said: &Path) -> Result<Place, Failure> {
        let look = |result| or_refused(said, "cannot be looked at", result);
        let there = look(disk::follow(said))?;
        let is_link = look(disk::look(said))?.is_some_and(|it| it.is_symlink());
        let path = match &there {
            Some(_) => or_refused(said, "cannot be looked at", disk::canonical(said))?,
            None if is_link => return refused(format!("{}: is a link that leads nowhere. Remove it, or take another name.", plain::path(said))),
            None => said.to_path_buf(),
        };
        let place = Place { said: said.to_path_buf(), path, there, is_link };
        match &place.there {
            Some(found) if found.is_dir() => refused(format!("{}: is a folder, and has to be a file.", plain::path(said))),
            _ if place.path.file_name().is_none() || said.as_os_str().as_bytes().ends_with(b"/") => {
                refused(format!("`{}` is no file's name.", plain::path(said)))
            }
            Some(found) if !found.is_file() => refused(format!("{}: is no plain file, and is not replaced.", plain::path(said))),
            _ => Ok(place),
        }
    }

    /// As it was said; of a link, what it leads to. What stands beside the file is found from here.
    pub fn real(&self) -> &Path {
        match self.is_link {
            true => &self.path,
            false => &self.said,
        }
    }

    pub fn is_free(&self) -> bool {
        self.there.is_none()
    }

    /// Refuses a place that must not be written: where something is unless that is meant, and what is protected.
    pub fn must_take(&self, over: bool) -> Result<(), Failure> {
        match &self.there {
            Some(_) if !over => taken(&self.said),
            Some(found) => self.must_be_writable(found),
            None => Ok(()),
        }
    }

    fn must_be_writable(&self, found: &Metadata) -> Result<(), Failure> {
        let open = disk::open_stream(&self.path).map(drop);
        let denied = open.as_ref().is_err_and(|why| why.kind() == io::ErrorKind::PermissionDenied);
        if denied || found.permissions().readonly() {
            let hint = "Take another name, or give yourself the right to write it (`chmod u+w`).";
            return refused(format!("{}: is write-protected. {hint}", plain::path(&self.said)));
        }
        or_refused(&self.said, "cannot be written", open)
    }

    /// Refuses a place that is also one of these files.
    pub fn must_not_be(&self, inputs: &[&Path]) -> Result<(), Failure> {
        let Some(here) = &self.there else { return Ok(()) };
        for input in inputs.iter().filter(|input| **input != Path::new("-")) {
            let found = or_refused(input, "cannot be looked at", disk::follow(input))?;
            if found.is_some_and(|it| (it.dev(), it.ino()) == (here.dev(), here.ino())) {
                let both = format!("{}: is read here too, and is not overwritten", plain::path(&self.said));
                return refused(format!("{both}, `--force` or not. Take another name."));
            }
        }
        Ok(())
    }

    pub fn folder(&self) -> &Path {
        self.path.parent().filter(|folder| !folder.as_os_str().is_empty()).unwrap_or(Path::new("."))
    }

    /// The name in its folder.
    pub fn name(&self) -> &OsStr {
        self.path.file_name().unwrap_or_default()
    }

    /// A hidden name beside it.
    pub fn hidden(&self, ending: &str) -> PathBuf {
        let mut name = OsString::from(".");
        name.push(self.name());
        name.push(ending);
        self.path.with_file_name(name)
    }
}

fn taken<T>(path: &Path) -> Result<T, Failure> {
    refused(format!("{}: is there already. Take another name, or say `--force` to overwrite it.", plain::path(path)))
}

/// A file that is written and synced beside its place, and not yet there. If it never gets there, it is removed.
#[derive(Debug)]
pub struct Staged {
    beside: PathBuf,
    place: Place,
    /// Locked as long as it is open: so others see that it is no stray.
    file: File,
}

/// A file has its place. If it is not sure to stay there when the power fails, there are words for it.
pub type Put = Option<String>;

impl Staged {
    /// With the rights of what is at its place; a new one with those of another file, if one is named.
    pub fn write(place: &Place, bytes: &[u8], like: Option<&Place>) -> Result<Staged, Failure> {
        let model = place.there.as_ref().or(like.and_then(|place| place.there.as_ref()));
        let staged = or_refused(&place.said, "cannot be written", Staged::create(place, model));
        staged.and_then(|mut staged| {
            let filled = staged.fill(bytes, model);
            or_refused(&place.said, "cannot be written", filled).map(|()| staged)
        })
    }

    /// A name that is taken is another's: the next one is tried.
    fn create(place: &Place, model: Option<&Metadata>) -> io::Result<Staged> {
        let mut tries = 0;
        loop {
            let beside = place.hidden(&format!(".{}-{tries}{PART}", std::process::id()));
            match disk::create_new(&beside, if model.is_some() { 0o600 } else { 0o666 }) {
                Ok(file) => return Ok(Staged { beside, place: place.clone(), file }),
                Err(why) if why.kind() == io::ErrorKind::AlreadyExists && tries < 1000 => tries += 1,
                Err(why) => return Err(why),
            }
        }
    }

    fn fill(&mut self, bytes: &[u8], model: Option<&Metadata>) -> io::Result<()> {
        disk::try_lock(&self.file)?;
        if let Some(model) = model {
            // the same owner, if that may be given away
            let _ = fchown(&self.file, Some(model.uid()), Some(model.gid()));
            disk::set_mode(&self.file, model.permissions().mode() & 0o777)?;
        }
        disk::write(&mut self.file, bytes)?;
        disk::sync(&self.file)
    }

    /// Puts it there, over what is there only if that is meant, and syncs the folder.
    pub fn put(self, over: bool) -> Result<Put, Failure> {
        let moved = if over { disk::rename(&self.beside, &self.place.path) } else { self.put_new() };
        match moved {
            Err(why) if why.kind() == io::ErrorKind::AlreadyExists => taken(&self.place.said),
            other => or_refused(&self.place.said, "cannot be written", other).map(|()| unsure(&self.place)),
        }
    }

    /// A second name, which never replaces a file; where the disk knows none (FAT), a look and then a rename.
    fn put_new(&self) -> io::Result<()> {
        match disk::link(&self.beside, &self.place.path) {
            Ok(()) => Ok(()),
            Err(why) if why.kind() == io::ErrorKind::AlreadyExists => Err(why),
            Err(_) if disk::look(&self.place.path)?.is_some() => Err(io::ErrorKind::AlreadyExists.into()),
            Err(_) => disk::rename(&self.beside, &self.place.path),
        }
    }
}

impl Drop for Staged {
    fn drop(&mut self) {
        // renamed away, there is nothing left to remove
        let _ = disk::remove(&self.beside);
    }
}

/// Syncs the folder of a file that was just put there or removed.
fn unsure(place: &Place) -> Put {
    let synced = disk::open(place.folder()).and_then(|folder| disk::sync(&folder));
    let what = "is in its place, but the disk does not confirm it: it may be gone if the power fails now";
    synced.err().map(|why| format!("{}: {what} ({}).", plain::path(&place.said), plain::why(&why)))
}

/// Removes a file that may be there.
pub fn remove(place: &Place) -> Result<Put, Failure> {
    match disk::remove(&place.path) {
        Err(why) if why.kind() == io::ErrorKind::NotFound => Ok(None),
        other => or_refused(&place.said, "cannot be removed", other).map(|()| unsure(place)),
    }
}

const PART: &str = ".part";

/// Removes what dead runs left beside these places: staged files that nobody has open, of processes that are gone.
pub fn remove_strays(places: &[&Place]) {
    let Some(first) = places.first() else { return };
    // what cannot be removed does no harm
    for name in disk::names_in(first.folder()).unwrap_or_default() {
        if places.iter().any(|place| is_stray_of(place, &name)) {
            let path = first.path.with_file_name(&name);
            let free = disk::open(&path).is_ok_and(|file| disk::try_lock(&file).unwrap_or(false));
            let _ = free.then(|| disk::remove(&path));
        }
    }
}

/// `.NAME.PROCESS.part` or `.NAME.PROCESS-TRY.part`, of a process that is not there.
fn is_stray_of(place: &Place, name: &OsStr) -> bool {
    let (Some(name), Some(own)) = (name.to_str(), place.name().to_str()) else { return false };
    let inner = name.strip_prefix('.').and_then(|rest| rest.strip_prefix(own)?.strip_prefix('.')?.strip_suffix(PART));
    let Some((process, tries)) = inner.map(|inner| inner.split_once('-').unwrap_or((inner, "0"))) else { return false };
    let is_number = |word: &str| !word.is_empty() && word.bytes().all(|byte| byte.is_ascii_digit());
    is_number(process) && is_number(tries) && !is_alive(process)
}

/// In a test, whose runs are of one process, that a file is locked has to do.
fn is_alive(process: &str) -> bool {
    cfg!(not(test)) && Path::new("/proc").join(process).exists()
}

/// Where a command writes something that is no library.
#[derive(Debug)]
pub enum Output {
    /// `-`
    Standard,
    /// A device or a FIFO: written to as it is.
    Stream(PathBuf),
    /// Somebody listens there.
    Socket(PathBuf),
    File(Box<Place>, bool),
}

/// An output for a message.
pub fn shown(out: &Path) -> String {
    match out == Path::new("-") {
        true => "standard output".to_string(),
        false => plain::path(out),
    }
}

/// What was written, and where: whether it went to standard output, and what may be wrong behind it.
#[derive(Debug, Default)]
pub struct Written {
    pub standard: bool,
    pub trouble: Put,
}

impl Output {
    /// Judged before the work: what is there is overwritten only if that is meant, and never if it is one of the command's inputs.
    pub fn of(said: &Path, over: bool, inputs: &[&Path]) -> Result<Output, Failure> {
        if said == Path::new("-") {
            return or_refused(Path::new("standard output"), "cannot be written", standard::must_be_open()).map(|()| Output::Standard);
        }
        if let Some(found) = or_refused(said, "cannot be looked at", disk::follow(said))? {
            if found.file_type().is_block_device() && !over {
                return refused(format!("{}: is a disk. Say `--force` to write over what it holds.", plain::path(said)));
            }
            if found.file_type().is_socket() {
                return Ok(Output::Socket(said.to_path_buf()));
            }
            if !found.is_file() && !found.is_dir() {
                return Ok(Output::Stream(said.to_path_buf()));
            }
        }
        let place = Place::of(said)?;
        place.must_not_be(inputs)?;
        place.must_take(over)?;
        Ok(Output::File(Box::new(place), over))
    }

    pub fn write(self, bytes: &[u8]) -> Result<Written, Failure> {
        let streamed = |path: &Path, result| or_refused(path, "cannot be written", result);
        match self {
            Output::Standard => {
                streamed(Path::new("standard output"), standard::write(bytes))?;
                Ok(Written { standard: true, trouble: None })
            }
            Output::Stream(path) => {
                streamed(&path, disk::open_stream(&path).and_then(|mut stream| disk::write(&mut stream, bytes)))?;
                Ok(Written::default())
            }
            Output::Socket(path) => {
                streamed(&path, disk::send(&path, bytes))?;
                Ok(Written::default())
            }
            Output::File(place, over) => {
                remove_strays(&[&place]);
                let trouble = Staged::write(&place, bytes, None)?.put(over && !place.is_free())?;
                Ok(Written { standard: false, trouble })
            }
        }
    }
}

#[cfg(test)]
mod tests {
    use super::*;
    use std::fs;

    fn folder(name: &str) -> PathBuf {
        let folder = std::env::temp_dir().join(format!("silkendoz-{}-{name}", std::process::id()));
        fs::create_dir_all(&folder).unwrap();
        folder
    }

    /// A name that is taken is another's: it stays, and another is found.
    #[test]
    fn a_staging_name_that_is_taken() {
        let folder = folder("staged");
        let path = folder.join("x.wav");
        let taken = folder.join(format!(".x.wav.{}-0.part", std::process::id()));
        fs::write(&taken, "mine").unwrap();
        let held = File::open(&taken).unwrap();
        held.lock().unwrap();
        Output::of(&path, false, &[]).unwrap().write(b"new").unwrap();
        assert_eq!((fs::read(&path).unwrap(), fs::read(&taken).unwrap()), (b"new".to_vec(), b"mine".to_vec()));
        assert_eq!(fs::read_dir(&folder).unwrap().count(), 2);
        fs::remove_dir_all(folder).unwrap();
    }

    /// What nobody else may read is not to be read while it is staged either.
    #[test]
    fn staged_with_the_rights_of_its_place() {
        let folder = folder("rights");
        let path = folder.join("l.sheet");
        fs::write(&path, "old").unwrap();
        fs::set_permissions(&path, fs::Permissions::from_mode(0o600)).unwrap();
        let place = Place::of(&path).unwrap();
        let staged = Staged::create(&place, place.there.as_ref()).unwrap();
        let mode = |path: &Path| fs::metadata(path).unwrap().permissions().mode() & 0o777;
        assert_eq!(mode(&staged.beside), 0o600, "from its beginning");
        drop(staged);
        let staged = Staged::write(&place, b"new", None).unwrap();
        assert_eq!(mode(&staged.beside), 0o600);
        assert_eq!(staged.put(true).unwrap(), None);
        assert_eq!((mode(&path), fs::read(&path).unwrap()), (0o600, b"new".to_vec()));
        fs::remove_dir_all(folder).unwrap();
    }
}
