//! The file system's calls, one function each. Every one begins with a step, at which a test lets it fail: nothing else of the program
//! touches files that are written.

use std::ffi::OsString;
use std::fs::{self, File, Metadata, OpenOptions, Permissions, TryLockError};
use std::io::{self, Read, Write};
use std::os::unix::fs::{OpenOptionsExt, PermissionsExt};
use std::os::unix::net::UnixStream;
use std::path::{Path, PathBuf};

/// What a link is, if something is there. Only "not found" means that nothing is.
pub fn look(path: &Path) -> io::Result<Option<Metadata>> {
    found(fault::step().and_then(|()| path.symlink_metadata()))
}

/// What a link leads to.
pub fn follow(path: &Path) -> io::Result<Option<Metadata>> {
    found(fault::step().and_then(|()| path.metadata()))
}

fn found(metadata: io::Result<Metadata>) -> io::Result<Option<Metadata>> {
    match metadata {
        Err(why) if why.kind() == io::ErrorKind::NotFound => Ok(None),
        other => other.map(Some),
    }
}

/// The path without links.
pub fn canonical(path: &Path) -> io::Result<PathBuf> {
    fault::step()?;
    fs::canonicalize(path)
}

pub fn metadata(file: &File) -> io::Result<Metadata> {
    fault::step()?;
    file.metadata()
}

pub fn open(path: &Path) -> io::Result<File> {
    fault::step()?;
    File::open(path)
}

/// To be written to as it is: a device, a FIFO.
pub fn open_stream(path: &Path) -> io::Result<File> {
    fault::step()?;
    OpenOptions::new().write(true).open(path)
}

/// To whoever listens at a socket.
pub fn send(path: &Path, bytes: &[u8]) -> io::Result<()> {
    fault::step()?;
    UnixStream::connect(path)?.write_all(bytes)
}

/// A file to be locked, made if it is not there.
pub fn open_lock(path: &Path) -> io::Result<File> {
    fault::step()?;
    match OpenOptions::new().write(true).create(true).truncate(false).open(path) {
        // another's lock can be waited for all the same
        Err(why) if why.kind() == io::ErrorKind::PermissionDenied => File::open(path).map_err(|_| why),
        opened => opened,
    }
}

/// Whether the lock was had at once.
pub fn try_lock(file: &File) -> io::Result<bool> {
    fault::step()?;
    match file.try_lock() {
        Ok(()) => Ok(true),
        Err(TryLockError::WouldBlock) => Ok(false),
        Err(TryLockError::Error(why)) => Err(why),
    }
}

/// All that a file holds, up to a size and one byte more.
pub fn read(file: File, most: u64) -> io::Result<Vec<u8>> {
    fault::step()?;
    let mut bytes = Vec::new();
    file.take(most + 1).read_to_end(&mut bytes)?;
    Ok(bytes)
}

/// A new file, which nobody has more rights to than these.
pub fn create_new(path: &Path, mode: u32) -> io::Result<File> {
    fault::step()?;
    OpenOptions::new().read(true).write(true).create_new(true).mode(mode).open(path)
}

pub fn set_mode(file: &File, mode: u32) -> io::Result<()> {
    fault::step()?;
    file.set_permissions(Permissions::from_mode(mode))
}

pub fn write(file: &mut File, bytes: &[u8]) -> io::Result<()> {
    if let Err(why) = fault::step() {
        // as a full disk does it
        let _ = file.write_all(&bytes[..bytes.len() / 2]);
        return Err(why);
    }
    file.write_all(bytes)
}

pub fn sync(file: &File) -> io::Result<()> {
    fault::step()?;
    file.sync_all()
}

pub fn rename(from: &Path, to: &Path) -> io::Result<()> {
    fault::step()?;
    fs::rename(from, to)
}

/// A second name, which never replaces a file.
pub fn link(from: &Path, to: &Path) -> io::Result<()> {
    fault::step()?;
    fs::hard_link(from, to)
}

pub fn remove(path: &Path) -> io::Result<()> {
    fault::step()?;
    fs::remove_file(path)
}

/// The names in a folder.
pub fn names_in(folder: &Path) -> io::Result<Vec<OsString>> {
    fault::step()?;
    fs::read_dir(folder)?.map(|entry| Ok(entry?.file_name())).collect()
}

/// Outside tests no step fails.
#[cfg(not(test))]
mod fault {
    #[inline]
    pub fn step() -> std::io::Result<()> {
        Ok(())
    }
}

/// Lets one step fail, or that and all behind it, as when the program is killed.
#[cfg(test)]
pub mod fault {
    use std::cell::Cell;
    use std::io;

    #[derive(Clone, Copy, Debug, PartialEq, Eq)]
    pub enum Plan {
        /// Every step is done.
        Count,
        /// The step of this number fails with this error of the system.
        Fail(usize, i32),
        /// That step and all behind it are never done.
        Dead(usize),
    }

    thread_local! {
        static PLAN: Cell<Plan> = const { Cell::new(Plan::Count) };
        static STEPS: Cell<usize> = const { Cell::new(0) };
    }

    /// Begins anew, by this plan, on this thread.
    pub fn plan(plan: Plan) {
        PLAN.set(plan);
        STEPS.set(0);
    }

    /// How many steps there were.
    pub fn steps() -> usize {
        STEPS.get()
    }

    pub fn step() -> io::Result<()> {
        let now = STEPS.get();
        STEPS.set(now + 1);
        match PLAN.get() {
            Plan::Fail(at, error) if at == now => Err(io::Error::from_raw_os_error(error)),
            Plan::Dead(at) if at <= now => Err(io::Error::other("dead")),
            _ => Ok(()),
        }
    }
}
