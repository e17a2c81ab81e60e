//! The program of `docs/GUIDE.md`: faults with names, a match, and two copies of the library on the disk.

use silkendoz::{Refusal, TraceLibrary};
use std::error::Error;
use std::fs::{self, File, OpenOptions};
use std::io::{self, Seek, Write};
use std::path::{Path, PathBuf};

/// The library keeps no names. Trace 0 is the first one added, and so on.
const FAULTS: [(&str, [i32; 8]); 3] = [
    ("healthy", [0, 5200, 1600, 1600, 1600, 1600, 1600, -3400]),
    ("belt tensioner seized", [1400, 6600, 3050, 3100, 3150, 3200, 3250, -1700]),
    ("dry rail, right", [0, 5200, 1600, 1600, 1700, 2000, 2300, -2900]),
];

fn name_of(trace: usize) -> &'static str {
    FAULTS.get(trace).map_or("no name", |(name, _)| name)
}

/// When this is back, the copy is on the disk, not only on its way there; the folder that names it too. Block 0 is blanked before all
/// others and written behind them: a copy whose writing is cut off is refused, whatever it holds.
pub fn save(sheet: &[u8], copy: &Path) -> io::Result<()> {
    let mut file = OpenOptions::new().write(true).create(true).truncate(false).open(copy)?;
    file.write_all(&[0; 512])?;
    file.sync_all()?;
    file.write_all(&sheet[512..])?;
    file.set_len(sheet.len() as u64)?;
    file.sync_all()?;
    file.rewind()?;
    file.write_all(&sheet[..512])?;
    file.sync_all()?;
    let folder = copy.parent().filter(|folder| !folder.as_os_str().is_empty());
    File::open(folder.unwrap_or(Path::new(".")))?.sync_all()
}

/// A file that is not there is a sheet of 0 bytes, which is refused.
fn load(copy: &Path) -> Option<TraceLibrary> {
    let read = TraceLibrary::read_sheet(&fs::read(copy).unwrap_or_default());
    read.inspect_err(|why| println!("{}: refused {}, {why}", copy.display(), why.number())).ok()
}

/// At the start, before any saving: both copies are judged, and each that is not the library is written again. The first is saved before
/// the second, and so is never the older one.
pub fn restore(copies: &[PathBuf; 2]) -> Result<TraceLibrary, Box<dyn Error>> {
    let [first, second] = copies.each_ref().map(|copy| load(copy));
    let library = first.or(second).ok_or("no copy can be read")?;
    let sheet = library.write_sheet()?;
    for copy in copies {
        if fs::read(copy).unwrap_or_default() != sheet {
            save(&sheet, copy)?;
        }
    }
    Ok(library)
}

fn main() -> Result<(), Box<dyn Error>> {
    // traces of 8 samples, room for 16, leaves of up to 4
    let mut library = TraceLibrary::open(8, 16, 4)?;
    for (name, trace) in &FAULTS {
        println!("added trace {}: {name}", library.add(trace)?);
    }

    let today = [10, 5150, 1620, 1590, 1690, 2050, 2260, -2950];
    let found = library.nearest(&today)?;
    println!("nearest: {}, distance {}", name_of(found.trace), found.distance);
    assert_eq!((found.trace, found.distance), (2, 9800));

    // the nearest and the runner-up: is the first far ahead?
    let two = library.k_nearest(&today, 2)?.list;
    assert_eq!(two.iter().map(|near| (near.trace, near.distance)).collect::<Vec<_>>(), [(2, 9800), (0, 851800)]);

    // one sample is missing: refused, and nothing has changed
    let why = library.nearest(&today[..7]).unwrap_err();
    assert_eq!((why.number(), why.to_string().as_str()), (4, "wrong trace: 7 samples, and n is 8"));

    // two copies are kept, the first saved before the second; one is damaged, so the other is read, and the first is written again
    let folder = std::env::temp_dir().join(format!("faults-{}", std::process::id()));
    fs::create_dir_all(&folder)?;
    let copies = [folder.join("a.sheet"), folder.join("b.sheet")];
    let mut sheet = library.write_sheet()?;
    for copy in &copies {
        save(&sheet, copy)?;
    }
    sheet[600] ^= 1;
    save(&sheet, &copies[0])?;
    assert_eq!(TraceLibrary::read_sheet(&sheet), Err(Refusal::TornBlock(1)));
    assert_eq!(restore(&copies)?, library);
    assert_eq!(load(&copies[0]).as_ref(), Some(&library));
    fs::remove_dir_all(&folder)?;
    Ok(())
}
