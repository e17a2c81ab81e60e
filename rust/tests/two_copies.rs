//! The guide's two copies, through every cut of two savings and of the starts between them. A cut leaves a file in any state that the
//! guide's assumption on the disk allows: what was synced stays, what was being written is old, new or half.

#[allow(dead_code)]
#[path = "../examples/faults.rs"]
mod guide;

use silkendoz::TraceLibrary;
use std::collections::HashSet;
use std::fs;
use std::path::{Path, PathBuf};
use testing::random::Random;

const BLOCK: usize = 512;

/// A library of so many traces; each has some blocks of its own.
fn version(traces: i32) -> Vec<u8> {
    let mut library = TraceLibrary::open(8, 128, 4).unwrap();
    for level in 0..traces {
        library.add(&[level; 8]).unwrap();
    }
    library.write_sheet().unwrap()
}

/// A block that is half written: the first part new, or the last one.
fn half(old: &[u8], new: &[u8], first: bool) -> Vec<u8> {
    let (mut old, mut new) = (old.to_vec(), new.to_vec());
    old.resize(BLOCK, 0);
    new.resize(BLOCK, 0);
    let parts = if first { [&new[..200], &old[200..]] } else { [&old[..300], &new[300..]] };
    parts.concat()
}

/// What a file may hold if a saving over it is cut off: `old` is what it held, `new` what is saved. Blocks between the syncs get to the disk
/// in any order.
fn cuts(old: &[u8], new: &[u8], random: &mut Random) -> Vec<Vec<u8>> {
    let blank = [0; BLOCK];
    let block = |bytes: &[u8], at: usize| bytes.get(BLOCK * at..bytes.len().min(BLOCK * (at + 1))).unwrap_or_default().to_vec();
    let with_first = |first: &[u8], rest: &[u8]| [first, rest.get(BLOCK..).unwrap_or_default()].concat();
    let (old_first, new_first) = (block(old, 0), block(new, 0));
    // block 0 is blanked
    let mut states = vec![old.to_vec(), with_first(&half(&old_first, &blank, true), old), with_first(&half(&old_first, &blank, false), old)];
    // the others are written, and the length is set
    let most = old.len().max(new.len()).div_ceil(BLOCK);
    let mut mixed = |choose: &mut dyn FnMut(usize) -> i64, length: usize| {
        let mut bytes = blank.to_vec();
        for at in 1..most {
            let [old, new] = [old, new].map(|bytes| block(bytes, at));
            let chosen = match choose(at) {
                0 => old,
                1 => new,
                2 => half(&old, &new, true),
                _ => half(&old, &new, false),
            };
            bytes.extend(chosen);
            bytes.resize(BLOCK * (at + 1), 0);
        }
        bytes.truncate(length);
        states.push(bytes);
    };
    for length in [old.len().max(BLOCK), new.len(), BLOCK * most] {
        for written in 0..=most {
            mixed(&mut |at| i64::from(at < written), length);
            mixed(&mut |at| if at < written { 1 } else { 2 * i64::from(at == written) }, length);
        }
        for _ in 0..6 {
            mixed(&mut |_| random.within(0, 3), length);
        }
    }
    // block 0 is written
    states.extend([half(&blank, &new_first, true), half(&blank, &new_first, false)].map(|first| with_first(&first, new)));
    states.push(new.to_vec());
    states
}

struct Disk([PathBuf; 2]);

impl Disk {
    fn lay(&self, contents: [&[u8]; 2]) {
        for (path, bytes) in self.0.iter().zip(contents) {
            fs::write(path, bytes).unwrap();
        }
    }

    fn held(&self) -> [Vec<u8>; 2] {
        self.0.each_ref().map(|path| fs::read(path).unwrap())
    }

    /// The guide's start; what it takes for the library.
    fn start(&self) -> Vec<u8> {
        let sheet = guide::restore(&self.0).expect("one of the copies is whole").write_sheet().unwrap();
        assert!(self.held().iter().all(|copy| *copy == sheet), "both copies are whole behind a start");
        sheet
    }

    /// A start from these copies, and every cut of it: the library is the same.
    fn start_and_cuts(&self, contents: [&[u8]; 2], random: &mut Random) -> Vec<u8> {
        self.lay(contents);
        let taken = self.start();
        for copy in [0, 1] {
            if contents[copy] == taken {
                continue;
            }
            // the first copy is written before the second is touched
            let other = if copy == 1 { &taken[..] } else { contents[1] };
            for cut in cuts(contents[copy], &taken, random).iter().step_by(5) {
                self.lay(if copy == 0 { [cut, other] } else { [other, cut] });
                assert!(self.start() == taken, "a start that was cut off takes the same library again");
            }
        }
        taken
    }

    /// A saving, cut off wherever it can be, and what is taken then. Behind the first copy's end it is the new one.
    fn save_and_cuts(&self, old: &[u8], new: &[u8], random: &mut Random) -> HashSet<Vec<u8>> {
        let mut taken = HashSet::new();
        for cut in cuts(old, new, random) {
            taken.insert(self.start_and_cuts([&cut, old], random));
        }
        assert!(taken.iter().all(|sheet| sheet == old || sheet == new));
        for cut in cuts(old, new, random) {
            assert!(self.start_and_cuts([new, &cut], random) == new);
        }
        taken.insert(new.to_vec());
        taken
    }
}

#[test]
fn every_cut_of_two_savings() {
    // in memory, where there is such a place: cuts are played here, not waited for
    let memory = Path::new("/dev/shm");
    let base = if memory.is_dir() { memory } else { Path::new(env!("CARGO_TARGET_TMPDIR")) };
    let folder = base.join(format!("two-copies-{}", std::process::id()));
    fs::create_dir_all(&folder).unwrap();
    let disk = Disk([folder.join("a.sheet"), folder.join("b.sheet")]);
    let random = &mut Random::seeded(2026);
    let versions = [version(20), version(70), version(71)];
    let taken = disk.save_and_cuts(&versions[0], &versions[1], random);
    assert_eq!(taken.len(), 2);
    for first in taken {
        let taken = disk.save_and_cuts(&first, &versions[2], random);
        assert_eq!(taken.len(), 2);
    }
    // the very first saving, over nothing
    let taken = cuts(&[], &versions[0], random);
    assert!(taken.iter().all(|cut| *cut == versions[0] || TraceLibrary::read_sheet(cut).is_err()));
    fs::remove_dir_all(&folder).unwrap();
}

/// A saving leaves just the sheet, over whatever was there.
#[test]
fn saved() {
    let folder = Path::new(env!("CARGO_TARGET_TMPDIR")).join("saved-copy");
    fs::create_dir_all(&folder).unwrap();
    let copy = folder.join("copy.sheet");
    let _ = fs::remove_file(&copy);
    for sheet in [version(71), version(2), version(100)] {
        guide::save(&sheet, &copy).unwrap();
        assert!(fs::read(&copy).unwrap() == sheet);
    }
}
