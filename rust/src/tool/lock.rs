//! One run at a time writes a library: from loading it until its files have their places. The lock is a file beside the sheet, locked and
//! removed by the run that has it.

use super::files::Place;
use super::{complain, disk, plain, refused, Failure};
use std::fs::File;
use std::io;
use std::os::unix::fs::MetadataExt;
use std::path::{Path, PathBuf};
use std::time::{Duration, Instant};

#[derive(Debug)]
pub struct Lock {
    path: PathBuf,
    _file: File,
}

/// After so long the one who waits is told.
const QUIET: Duration = Duration::from_secs(1);
const PAUSE: Duration = Duration::from_millis(5);

impl Lock {
    /// Waits for a run that has it, or refuses at once.
    pub fn of(place: &Place, wait: bool) -> Result<Lock, Failure> {
        let path = place.hidden(".lock");
        let mut tell = Some(Instant::now() + QUIET);
        loop {
            match Lock::once(&path, wait, &mut tell, place) {
                Ok(Taken::Held(file)) => return Ok(Lock { path, _file: file }),
                Ok(Taken::Gone) => continue,
                Ok(Taken::Busy) => {
                    let hint = "Try again, or leave out `--no-wait` to wait for it.";
                    return refused(format!("{}: another run is writing this library. {hint}", plain::path(&place.said)));
                }
                Err(why) => return refused(format!("{}: cannot be written: {}.", plain::path(&place.said), plain::why(&why))),
            }
        }
    }

    fn once(path: &Path, wait: bool, tell: &mut Option<Instant>, place: &Place) -> io::Result<Taken> {
        if disk::look(path)?.is_some_and(|it| !it.is_file()) {
            let name = path.file_name().map_or(path, Path::new);
            return Err(io::Error::other(format!("its lock {} is no plain file; remove it", plain::path(name))));
        }
        let file = disk::open_lock(path)?;
        while !disk::try_lock(&file)? {
            if !wait {
                return Ok(Taken::Busy);
            }
            if tell.take_if(|at| Instant::now() >= *at).is_some() {
                complain(&format!("{}: another run is writing this library; waiting for it.", plain::path(&place.said)));
            }
            std::thread::sleep(PAUSE);
        }
        // the run that had it may have removed the file: then it is no lock any more
        let own = disk::metadata(&file)?;
        let there = disk::look(path)?;
        let same = there.is_some_and(|it| (it.dev(), it.ino()) == (own.dev(), own.ino()));
        Ok(if same { Taken::Held(file) } else { Taken::Gone })
    }
}

enum Taken {
    Held(File),
    Gone,
    Busy,
}

impl Drop for Lock {
    fn drop(&mut self) {
        // removed while it is held, so that nobody else's is
        let _ = disk::remove(&self.path);
    }
}
