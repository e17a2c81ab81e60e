//! `repair`: a sheet from the sound blocks of two copies of one writing.

use super::arguments::Arguments;
use super::blocks::{self, BLOCK};
use super::files::{Output, Place};
use super::names::{self, Lines, Names};
use super::shelf::{Held, Shelf};
use super::{files, numbers, plain, refused, saved, words, written, Answer, Failure};
use silkendoz::TraceLibrary;
use std::path::{Path, PathBuf};

pub fn run(a: &Arguments) -> Answer {
    let [first, second] = a.exactly(["the first copy A", "the second copy B"])?.map(Path::new);
    let out = a.needed_path("-o")?;
    let over = a.has("--force");
    let inputs = [first.to_path_buf(), second.to_path_buf(), names_beside(first)?, names_beside(second)?];
    let inputs = inputs.each_ref().map(PathBuf::as_path);
    let stream = match Output::of(&out, over, &inputs)? {
        Output::File(..) => None,
        stream => Some(stream),
    };
    let copies = [Copy::of(first)?, Copy::of(second)?];
    let (sheet, taken) = joined(&copies)?;
    let library = match TraceLibrary::read_sheet(&sheet) {
        Ok(library) => library,
        Err(why) => return refused(format!("the sound blocks of both together: {} Nothing was written.", words::of_sheet(&sheet, why))),
    };
    let all = numbers::count(sheet.len() / BLOCK, "block");
    let Taken { same, first: from_first, second: from_second } = taken;
    let from = format!("{same} sound in both copies and the same, {from_first} from the first alone, {from_second} from the second alone");
    let text = format!("{}: sound. {all}: {from}.\n", files::shown(&out));
    if let Some(stream) = stream {
        return written(text, stream.write(&sheet)?);
    }
    let (names, kept) = kept_names([first, second], &library, &out)?;
    let held = Held::of(&out, !a.has("--no-wait"))?;
    held.must_take(over, &inputs)?;
    let trouble = held.save(&Shelf::new(&out, library, names))?;
    saved(text + &kept, trouble)
}

/// Where the names of a sheet stand, even if a link leads to it.
fn names_beside(sheet: &Path) -> Result<PathBuf, Failure> {
    Ok(names::beside(Place::of(sheet)?.real()))
}

/// The names of the first copy, and where it has none, those of the second.
fn kept_names(copies: [&Path; 2], library: &TraceLibrary, out: &Path) -> Result<(Names, String), Failure> {
    let mut names = Names::none(library.len());
    let mut from = Vec::new();
    for copy in copies {
        let path = names_beside(copy)?;
        let others = Lines::read(&path)?.fit(library)?;
        if names.fill_from(&others) > 0 {
            from.push(plain::path(&path));
        }
    }
    let told = match from.is_empty() {
        true => String::new(),
        false => format!("{}: from {}.\n", plain::path(&names::beside(out)), from.join(" and ")),
    };
    Ok((names, told))
}

/// A copy, and which of its whole blocks are torn.
struct Copy {
    name: String,
    bytes: Vec<u8>,
    sound: Vec<bool>,
}

impl Copy {
    fn of(path: &Path) -> Result<Copy, Failure> {
        let bytes = files::read(path)?;
        let mut sound = vec![true; blocks::whole(&bytes)];
        for block in blocks::torn(&bytes) {
            sound[block] = false;
        }
        Ok(Copy { name: plain::path(path), bytes, sound })
    }

    /// A sound block. One that is cut off or missing is none.
    fn block(&self, number: usize) -> Option<&[u8]> {
        let sound = self.sound.get(number).copied().unwrap_or(false);
        sound.then(|| &self.bytes[BLOCK * number..][..BLOCK])
    }
}

/// How many blocks came from where.
#[derive(Default)]
struct Taken {
    same: usize,
    first: usize,
    second: usize,
}

fn joined([a, b]: &[Copy; 2]) -> Result<(Vec<u8>, Taken), Failure> {
    let mut sheet = Vec::new();
    let mut taken = Taken::default();
    let lengths = [a, b].map(|copy| copy.bytes.len().div_ceil(BLOCK).min(blocks::MOST));
    for number in 0..lengths[0].max(lengths[1]) {
        let (block, counted) = match (a.block(number), b.block(number)) {
            (Some(one), Some(other)) if one == other => (one, &mut taken.same),
            (Some(_), Some(_)) => {
                let names = format!("{} and {}", a.name, b.name);
                return refused(format!("{names}: block {number} is sound in both, and differs. These are no copies of one writing."));
            }
            (Some(one), None) => (one, &mut taken.first),
            (None, Some(other)) => (other, &mut taken.second),
            (None, None) => {
                let names = format!("{} and {}", a.name, b.name);
                return refused(format!("{names}: block {number} is sound in neither. A third copy is needed; nothing was written."));
            }
        };
        *counted += 1;
        sheet.extend_from_slice(block);
    }
    Ok((sheet, taken))
}
