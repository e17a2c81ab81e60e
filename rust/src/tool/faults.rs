//! Every call to the file system of each command that writes a library fails once, or is the last one before the program is killed. Sheet
//! and names are then both old or both new, and the answer says which.

use super::disk::fault::{plan, steps, Plan};
use super::shelf::Shelf;
use super::{answer, Failure, Told};
use std::collections::BTreeMap;
use std::ffi::OsString;
use std::fs;
use std::path::PathBuf;

const EIO: i32 = 5;
const EACCES: i32 = 13;
const ENOSPC: i32 = 28;

/// What a library shows: its traces with their names. Nothing if there is no sheet.
type Seen = Option<Vec<(Vec<i32>, String)>>;

/// Files by name.
type Files = BTreeMap<OsString, Vec<u8>>;

struct Bench(PathBuf);

impl Bench {
    fn new(name: &str) -> Bench {
        // in memory, where there is such a place: what is synced need not be on a disk here
        let memory = PathBuf::from("/dev/shm");
        let base = if memory.is_dir() { memory } else { std::env::temp_dir() };
        let folder = base.join(format!("silkendoz-{}-{name}", std::process::id()));
        fs::create_dir_all(&folder).unwrap();
        Bench(folder)
    }

    /// Runs a line of words by a plan; a word with a point in it is a file of this folder.
    fn run(&self, line: &str, by: Plan) -> Result<Told, Failure> {
        let word = |word: &str| if word.contains('.') { self.0.join(word).into_os_string() } else { word.into() };
        plan(by);
        let told = answer(line.split(' ').map(word).collect()).map_err(|(why, _)| why);
        // what is counted is what the command took
        let taken = steps();
        plan(Plan::Count);
        STEPS.set(taken);
        told
    }

    fn files(&self) -> Files {
        let entries = fs::read_dir(&self.0).unwrap().map(|entry| entry.unwrap());
        entries.map(|entry| (entry.file_name(), fs::read(entry.path()).unwrap())).collect()
    }

    fn lay(&self, files: &Files) {
        for name in self.files().keys() {
            fs::remove_file(self.0.join(name)).unwrap();
        }
        for (name, bytes) in files {
            fs::write(self.0.join(name), bytes).unwrap();
        }
    }

    fn seen(&self, sheet: &str) -> Seen {
        let path = self.0.join(sheet);
        path.exists().then(|| {
            let shelf = Shelf::load(&path).unwrap();
            (0..shelf.library.len()).map(|at| (shelf.trace(at), shelf.names.shown(at).to_string())).collect()
        })
    }
}

impl Drop for Bench {
    fn drop(&mut self) {
        let _ = fs::remove_dir_all(&self.0);
    }
}

thread_local! {
    static STEPS: std::cell::Cell<usize> = const { std::cell::Cell::new(0) };
}

/// Some files: texts, two libraries, and two torn copies of the first.
fn laid(bench: &Bench) {
    let text = |name: &str, text: &str| fs::write(bench.0.join(name), text).unwrap();
    text("a.csv", "dry,1,2,3\nloose,4,5,6\n");
    text("b.csv", "worn,7,8,9\n");
    text("c.csv", "bent,10,11,12\nseized,1,2,3\n");
    for line in ["build l.sheet --samples 3 a.csv", "build copy.sheet --samples 3 c.csv"] {
        assert!(bench.run(line, Plan::Count).is_ok());
    }
    let copy = fs::read(bench.0.join("copy.sheet")).unwrap();
    let torn = |name: &str, at: usize| {
        let mut bytes = copy.clone();
        bytes[at] ^= 1;
        fs::write(bench.0.join(name), bytes).unwrap();
        fs::copy(bench.0.join("copy.names"), bench.0.join(name.replace("sheet", "names"))).unwrap();
    };
    torn("one.sheet", 30);
    torn("two.sheet", 600);
}

/// Plays a line with a fault at each of its steps, over the files as they are laid.
fn every_fault(bench: &Bench, line: &str) {
    let before = bench.files();
    let old = bench.seen("l.sheet");
    assert!(bench.run(line, Plan::Count).is_ok_and(|told| told.trouble.is_none()), "{line}");
    let (count, after, new) = (STEPS.get(), bench.files(), bench.seen("l.sheet"));
    assert!(count > 20 && old != new && !after.keys().any(|name| name.to_string_lossy().starts_with('.')), "{line}: {count} steps");
    for at in 0..count {
        for error in [EIO, if at % 2 == 0 { EACCES } else { ENOSPC }] {
            bench.lay(&before);
            let told = bench.run(line, Plan::Fail(at, error));
            let mut files = bench.files();
            // a file that could not be removed is a stray, and no more
            files.retain(|name, _| !name.to_string_lossy().starts_with('.'));
            match told {
                Err(_) => assert!(files == before, "{line}: step {at} fails by {error}, and not all is as it was"),
                Ok(Told { trouble: None, .. }) => assert!(files == after, "{line}: step {at} fails by {error}, and not all is done"),
                Ok(_) => assert!(bench.seen("l.sheet") == new, "{line}: step {at} fails by {error}, and the library is not the new one"),
            }
        }
        bench.lay(&before);
        let _ = bench.run(line, Plan::Dead(at));
        let seen = bench.seen("l.sheet");
        assert!(seen == old || seen == new, "{line}: killed at step {at}: {seen:?}");
        // the next run goes on from there, and clears up
        let next = if seen.is_some() { "add l.sheet b.csv --again" } else { "build l.sheet --samples 3 b.csv --force" };
        assert!(bench.run(next, Plan::Count).is_ok(), "{line}: killed at step {at}, and {next} fails");
        let mut expected = seen.unwrap_or_default();
        expected.push((vec![7, 8, 9], "worn".to_string()));
        assert_eq!(bench.seen("l.sheet"), Some(expected), "{line}: killed at step {at}");
        let left: Vec<OsString> = bench.files().into_keys().filter(|name| name.to_string_lossy().starts_with('.')).collect();
        assert!(left.is_empty(), "{line}: killed at step {at}: {left:?}");
    }
}

#[test]
fn faults_of_add() {
    let bench = Bench::new("add");
    laid(&bench);
    every_fault(&bench, "add l.sheet c.csv b.csv --again");
}

/// Names without hashes, as an older version wrote them.
#[test]
fn faults_of_add_to_old_names() {
    let bench = Bench::new("old-names");
    laid(&bench);
    fs::write(bench.0.join("l.names"), "0\tdry\ta.csv\n1\tloose\ta.csv\n").unwrap();
    every_fault(&bench, "add l.sheet c.csv --again");
}

#[test]
fn faults_of_build() {
    let bench = Bench::new("build");
    laid(&bench);
    for name in ["l.sheet", "l.names"] {
        fs::remove_file(bench.0.join(name)).unwrap();
    }
    every_fault(&bench, "build l.sheet --samples 3 c.csv b.csv");
}

#[test]
fn faults_of_build_over_a_library() {
    let bench = Bench::new("build-over");
    laid(&bench);
    every_fault(&bench, "build l.sheet --samples 3 c.csv b.csv --force");
    // from another one, whose names come along
    laid_again(&bench, "0\tdry\ta.csv\n");
    every_fault(&bench, "build l.sheet --samples 3 copy.sheet b.csv --force");
    // whose names have no hashes
    laid_again(&bench, "0\tdry\ta.csv\n1\tloose\ta.csv\n");
    every_fault(&bench, "build l.sheet --samples 3 c.csv b.csv --force");
}

#[test]
fn faults_of_repair() {
    let bench = Bench::new("repair");
    laid(&bench);
    every_fault(&bench, "repair one.sheet two.sheet -o l.sheet --force");
    // without names beside the copies
    laid_again(&bench, "0\tdry\ta.csv\n1\tloose\ta.csv\n");
    for name in ["one.names", "two.names"] {
        fs::remove_file(bench.0.join(name)).unwrap();
    }
    every_fault(&bench, "repair one.sheet two.sheet -o l.sheet --force");
}

#[test]
fn faults_of_rename_and_salvage() {
    let bench = Bench::new("rename");
    laid(&bench);
    every_fault(&bench, "rename l.sheet 0 bent");
    bench.lay(&Files::new());
    laid(&bench);
    every_fault(&bench, "salvage one.sheet --samples 3 -o l.sheet --force");
}

/// The same files, with these names beside the first library.
fn laid_again(bench: &Bench, names: &str) {
    bench.lay(&Files::new());
    laid(bench);
    fs::write(bench.0.join("l.names"), names).unwrap();
}
