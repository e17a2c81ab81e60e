//! Recordings imported and exported, damaged at every byte, of every other form: the calls against the model. A file that Python's module
//! `wave` wrote, and what that module and sox say of files that were exported.

mod common;

use common::{check_add, check_export, check_import, junk, longer, measures};
use silkendoz::{Refusal, StoredSample, TraceLibrary};
use std::fs;
use std::io::Write;
use std::path::{Path, PathBuf};
use std::process::Command;
use testing::model::recording::{read, size, write};
use testing::model::tables::{needs, Tables};
use testing::model::{Library, Trace};
use testing::program::repository;
use testing::random::{traces, Random, Shape, NARROW_SHAPES};

const BAD: Result<Library, (u64, u64)> = Err((12, 0));
const FULL: Result<Library, (u64, u64)> = Err((5, 0));

/// Tables of a library with so many traces, a few places longer than needed, and marks in all places that no rule speaks of.
fn holding(random: &mut Random, n: usize, capacity: usize, leaf_size: usize, count: usize) -> Tables {
    let m = measures(n, capacity, leaf_size);
    let mut t = junk(longer(needs(m), 3));
    let l = t.lengths();
    common::check_open(&mut t, l, m).expect("measures are in range");
    for trace in traces(random, Shape::Walk, n, count) {
        check_add(&mut t, l, &trace).expect("there is room");
    }
    t.work.iter_mut().for_each(|x| *x = random.word());
    t
}

/// The verdict on a file, as the model has it too; the tables stay as they were.
fn verdict(t: &Tables, file: &[u8]) -> Result<Library, (u64, u64)> {
    check_import(&mut t.clone(), t.lengths(), file)
}

/// A file whose header says a rate and its own size, with any bytes as data.
fn of_bytes(rate: u64, data: &[u8]) -> Vec<u8> {
    let mut file = write(rate, &vec![0; data.len() / 2]);
    file.truncate(44);
    file.extend_from_slice(data);
    said(&mut file, 4, 36 + data.len() as u32);
    said(&mut file, 40, data.len() as u32);
    file
}

/// Four bytes of a header.
fn said(file: &mut [u8], at: usize, value: u32) {
    file[at..at + 4].copy_from_slice(&value.to_le_bytes());
}

// ---- damage

/// No single byte of a header may be another one: sizes and rates are said twice. Each byte of the data may, and is then another sample.
#[test]
fn every_byte() {
    let random = &mut Random::seeded(61);
    for (n, capacity, leaf_size, count, more) in [(1, 9, 1, 2, 1), (4, 8, 2, 3, 2), (3, 5, 1, 0, 0), (2, 4, 4, 4, 1)] {
        let t = holding(random, n, capacity, leaf_size, count);
        let samples = traces(random, Shape::Uniform, n, more).concat();
        let file = write(*random.pick(&[0, 1, 8000, (1 << 31) - 1]), &samples);
        let whole = verdict(&t, &file);
        for at in 0..file.len() {
            for value in (0..=255).filter(|&value| value != file[at]) {
                let mut damaged = file.clone();
                damaged[at] = value;
                let judged = verdict(&t, &damaged);
                match at {
                    0..44 => assert_eq!(judged, BAD, "byte {at} is {value}"),
                    _ => assert_eq!(judged.is_ok(), whole.is_ok()),
                }
            }
        }
    }
}

/// Every length but that which the header says; with both sizes put right, whole traces alone.
#[test]
fn lengths_of_files() {
    let random = &mut Random::seeded(62);
    let t = holding(random, 3, 9, 2, 2);
    let samples = traces(random, Shape::Uniform, 3, 4).concat();
    let file = write(8000, &samples);
    for length in 0..file.len() {
        assert_eq!(verdict(&t, &file[..length]), BAD, "{length} bytes");
    }
    for more in 1..8 {
        assert_eq!(verdict(&t, &[&file[..], &vec![0; more]].concat()), BAD, "{more} bytes behind");
    }
    let data = &file[44..];
    for length in 0..=data.len() {
        let fits = verdict(&t, &of_bytes(8000, &data[..length]));
        assert_eq!(fits.is_ok(), length % 6 == 0, "{length} bytes of data");
        assert!(fits.is_ok() || fits == BAD);
    }
}

/// Sizes and rates are numbers, none of them modulo 2^32: 2^31 and 0 are no rates, 0 and 2^32 − 36 no sizes.
#[test]
fn numbers_of_the_header() {
    let random = &mut Random::seeded(63);
    let t = holding(random, 1, 9, 1, 1);
    let edges = [0, 1, 2, 4, 36, 38, 40, 1 << 16, (1 << 31) - 1, 1 << 31, u32::MAX - 36, u32::MAX - 35, u32::MAX - 1, u32::MAX];
    for file in [write(8000, &[]), write(8000, &[7]), write(8000, &[7, 8])] {
        for first in edges {
            for second in edges {
                let mut rates = file.clone();
                said(&mut rates, 24, first);
                said(&mut rates, 28, second);
                let consistent = first < 1 << 31 && u64::from(second) == 2 * u64::from(first);
                assert_eq!(verdict(&t, &rates).is_ok(), consistent, "rates {first} and {second}");
                let mut sizes = file.clone();
                said(&mut sizes, 4, first);
                said(&mut sizes, 40, second);
                let consistent = second as usize == file.len() - 44 && first == second + 36;
                assert_eq!(verdict(&t, &sizes).is_ok(), consistent, "sizes {first} and {second}");
            }
        }
    }
}

/// "fmt " of some bytes, and what else stands in front of the data and behind it.
fn of_chunks(format: &[u8], before: &[&[u8]], data: &[u8], behind: &[&[u8]]) -> Vec<u8> {
    fn chunk(name: &[u8; 4], data: &[u8]) -> Vec<u8> {
        [name, &(data.len() as u32).to_le_bytes()[..], data].concat()
    }
    let inside = [b"WAVE".to_vec(), chunk(b"fmt ", format), before.concat(), chunk(b"data", data), behind.concat()].concat();
    chunk(b"RIFF", &inside)
}

/// The form of WAV's header for a format, channels, a rate and bits.
fn format(tag: u16, channels: u16, rate: u32, bits: u16) -> Vec<u8> {
    let align = channels * bits / 8;
    let words = [tag.to_le_bytes(), channels.to_le_bytes()].concat();
    [words, rate.to_le_bytes().to_vec(), (rate * u32::from(align)).to_le_bytes().to_vec(), align.to_le_bytes().to_vec(), bits.to_le_bytes().to_vec()]
        .concat()
}

/// Other forms of WAV, each sound by itself: the guide's table of what is refused.
#[test]
fn other_forms() {
    let random = &mut Random::seeded(64);
    let t = holding(random, 2, 30, 1, 1);
    let plain = format(1, 1, 8000, 16);
    let list: &[u8] = b"LIST\x1a\0\0\0INFOISFT\x0e\0\0\0Lavf58.29.100\0";
    let fact: &[u8] = b"fact\x04\0\0\0\x0c\0\0\0";
    let data = [1; 24];
    assert_eq!(of_chunks(&plain, &[], &data, &[]), write(8000, &[0x101; 12]));
    assert!(verdict(&t, &of_chunks(&plain, &[], &data, &[])).is_ok());
    let extensible =
        [&format(0xfffe, 1, 8000, 16)[..], &[22, 0, 16, 0, 4, 0, 0, 0, 1, 0, 0, 0, 0, 0, 16, 0, 128, 0, 0, 170, 0, 56, 155, 113]].concat();
    let others = [
        ("two channels", of_chunks(&format(1, 2, 8000, 16), &[], &data, &[])),
        ("8 bits", of_chunks(&format(1, 1, 8000, 8), &[], &data, &[])),
        ("24 bits", of_chunks(&format(1, 1, 8000, 24), &[], &data, &[])),
        ("32 bits", of_chunks(&format(1, 1, 8000, 32), &[], &data, &[])),
        ("float", of_chunks(&format(3, 1, 8000, 32), &[fact], &data, &[])),
        ("float without fact", of_chunks(&format(3, 1, 8000, 32), &[], &data, &[])),
        ("A-law", of_chunks(&format(6, 1, 8000, 8), &[], &data, &[])),
        ("extensible", of_chunks(&extensible, &[], &data, &[])),
        ("fmt of 18 bytes", of_chunks(&[&plain[..], &[0, 0]].concat(), &[], &data, &[])),
        ("LIST in front", of_chunks(&plain, &[list], &data, &[])),
        ("LIST behind", of_chunks(&plain, &[], &data, &[list])),
        ("fact in front", of_chunks(&plain, &[fact], &data, &[])),
        ("no data", of_chunks(&plain, &[list], &[], &[])),
    ];
    for (name, file) in others {
        assert_eq!(verdict(&t, &file), BAD, "{name}");
        assert_eq!(read(2, &file), None, "{name}");
    }
    for letters in [b"RIFX", b"RF64", b"riff", b"FORM"] {
        let mut file = write(8000, &[1, 2]);
        file[..4].copy_from_slice(letters);
        assert_eq!(verdict(&t, &file), BAD);
    }
}

// ---- what is added

/// All or none: as many as fit, one more, a full library, no sample at all.
#[test]
fn all_or_none() {
    let random = &mut Random::seeded(65);
    for shape in NARROW_SHAPES {
        for (n, capacity, leaf_size, count) in [(1, 9, 1, 0), (5, 12, 3, 4), (64, 6, 2, 5), (256, 4, 64, 4), (8, 1, 1, 0)] {
            let t = holding(random, n, capacity, leaf_size, count);
            let room = capacity - count;
            let stored = traces(random, shape, n, room + 2);
            for many in 0..stored.len() {
                let file = write(44_100, &stored[..many].concat());
                let answer = verdict(&t, &file);
                match answer {
                    Ok(library) => assert_eq!((many <= room, library.traces.len()), (true, count + many)),
                    full => assert_eq!((many > room, full), (true, FULL)),
                }
                // 12 comes before 5
                let mut bad = file;
                bad[4] ^= 1;
                assert_eq!(verdict(&t, &bad), BAD);
            }
        }
    }
}

/// As many traces as a library holds, in one file: the library is that of addings, and each trace is exported as it came.
#[test]
fn the_largest_file() {
    let random = &mut Random::seeded(66);
    let stored = traces(random, Shape::Walk, 256, 4096);
    let mut imported = TraceLibrary::open(256, 4096, 64).unwrap();
    let file = write(8000, &stored.concat());
    assert_eq!(imported.import_recording(&file), Ok(4096));
    let mut added = TraceLibrary::open(256, 4096, 64).unwrap();
    for trace in &stored {
        added.add(trace).unwrap();
    }
    assert!(imported == added);
    for (number, trace) in stored.iter().enumerate() {
        assert!(imported.export_recording(number, 8000) == Ok(write(8000, trace)));
    }
    assert_eq!(imported.import_recording(&file), Err(Refusal::Full));
    assert_eq!(imported.import_recording(&write(8000, &[])), Ok(0));
}

// ---- export

#[test]
fn exports() {
    let random = &mut Random::seeded(67);
    for (n, capacity, leaf_size, count) in [(1, 9, 1, 0), (1, 3, 1, 3), (5, 12, 3, 4), (256, 3, 2, 2)] {
        let t = holding(random, n, capacity, leaf_size, count);
        let need = size(n as u64);
        let numbers = [0, 1, count as u64, count as u64 + 1, 65_535, 65_536, 1 << 32, u64::MAX];
        for number in numbers.into_iter().chain(0..count as u64) {
            for rate in [0, 1, 8000, (1 << 31) - 1, 1 << 31, u64::from(u32::MAX), 1 << 32, u64::MAX] {
                for length in [0, 1, 43, 44, need - 1, need, need + 1, need + 50] {
                    let mut buffer: Vec<u8> = (0..length).map(|_| random.word() as u8).collect();
                    let answer = check_export(&t, t.lengths(), &mut buffer, number, rate);
                    let named = number < count as u64 && rate < 1 << 31;
                    // 12 comes before 8
                    let expected = if !named {
                        Err((12, 0))
                    } else if length < need {
                        Err((8, 0))
                    } else {
                        Ok(need as u64)
                    };
                    assert_eq!(answer, expected);
                }
            }
        }
    }
}

/// A sample beyond 16 bits, wherever it stands, is 12, before 8; the library's other traces are exported.
#[test]
fn exports_of_wide_traces() {
    for n in [1, 2, 64, 256] {
        for (place, sample) in [(0, 32_768), (n - 1, -32_769), (n / 2, 524_287), (n / 2, -524_288)] {
            let mut wide = vec![-32_768; n];
            wide[place] = sample;
            let stored = [vec![32_767; n], wide, vec![-32_768; n]];
            let t = Tables::of(&Library::of(measures(n, 3, 1), &stored));
            let need = size(n as u64);
            for length in [0, need - 1, need, need + 9] {
                let exported = |number| check_export(&t, t.lengths(), &mut vec![7; length], number, 8000);
                let fits = if length < need { Err((8, 0)) } else { Ok(need as u64) };
                assert_eq!([exported(0), exported(1), exported(2)], [fits, Err((12, 0)), fits]);
            }
        }
    }
}

// ---- programs that nobody here wrote

fn example(name: &str) -> PathBuf {
    repository().join("examples").join(name)
}

/// A folder that is gone afterwards.
struct Folder(PathBuf);

impl Folder {
    fn of(name: &str) -> Folder {
        let folder = std::env::temp_dir().join(format!("silkendoz-{name}-{}", std::process::id()));
        fs::create_dir_all(&folder).unwrap();
        Folder(folder)
    }

    fn path(&self, name: &str) -> PathBuf {
        self.0.join(name)
    }
}

impl Drop for Folder {
    fn drop(&mut self) {
        let _ = fs::remove_dir_all(&self.0);
    }
}

/// Whether a program is installed. If it is not, that is said, on the test's own standard error, which is always shown.
fn has(program: &str) -> bool {
    let there = Command::new(program).arg("--version").output().is_ok_and(|said| said.status.success());
    if !there {
        let line = format!("{program} is not installed: what it says of recordings is not tested\n");
        std::io::stderr().write_all(line.as_bytes()).unwrap();
    }
    there
}

fn run(command: &mut Command) -> Vec<u8> {
    let said = command.output().unwrap();
    assert!(said.status.success(), "{command:?}: {}", String::from_utf8_lossy(&said.stderr));
    said.stdout
}

/// The four sweeps of `examples/sweeps.wav`, each nearest to the fault that it was recorded of.
#[test]
fn the_example_file() {
    let file = fs::read(example("sweeps.wav")).unwrap();
    let mut sweeps = TraceLibrary::open(64, 4, 1).unwrap();
    assert_eq!(sweeps.import_recording(&file), Ok(4));
    let (rate, held) = read(64, &file).unwrap();
    assert_eq!((rate, held.len()), (2000, 4));
    let faults = TraceLibrary::read_sheet(&fs::read(example("faults.sheet")).unwrap()).unwrap();
    for (number, stored) in [7, 19, 25, 1].into_iter().enumerate() {
        let sweep = StoredSample::values(sweeps.trace(number).unwrap());
        assert_eq!(sweep, held[number]);
        assert_eq!(faults.nearest(&sweep).unwrap().trace, stored);
    }
    // what the calls write is what `wave` wrote, but for the number of sweeps
    let first = sweeps.export_recording(0, 2000).unwrap();
    assert_eq!(first[44..], file[44..44 + 128]);
    assert_eq!((&first[..4], &first[8..40]), (&file[..4], &file[8..40]));
}

#[test]
fn the_example_file_is_as_made() {
    if has("python3") {
        let folder = Folder::of("made");
        run(Command::new("python3").arg(example("sweeps.py")).arg(folder.path("sweeps.wav")));
        assert_eq!(fs::read(folder.path("sweeps.wav")).unwrap(), fs::read(example("sweeps.wav")).unwrap());
    }
}

/// Some exported files: a library's name, its file, the rate and the trace.
fn exported(folder: &Folder) -> Vec<(PathBuf, u32, Trace)> {
    let random = &mut Random::seeded(68);
    let mut list = Vec::new();
    for n in [1, 2, 64, 255, 256] {
        let mut library = TraceLibrary::open(n, 2, 1).unwrap();
        library.add(&traces(random, Shape::Uniform, n, 1)[0]).unwrap();
        for rate in [1, 8000, 44_100, 192_000] {
            let path = folder.path(&format!("{n}-{rate}.wav"));
            fs::write(&path, library.export_recording(0, rate).unwrap()).unwrap();
            list.push((path, rate, StoredSample::values(library.trace(0).unwrap())));
        }
    }
    list
}

fn samples(bytes: &[u8]) -> Trace {
    bytes.chunks(2).map(|sample| i16::from_le_bytes([sample[0], sample[1]]).into()).collect()
}

/// Python's `wave` reads what was exported, as one channel of 16 bits at that rate.
#[test]
fn python_reads_it() {
    let program = "import sys, wave\nf = wave.open(sys.argv[1])\nsys.stderr.write('%d %d %d %d' % f.getparams()[:4])\nsys.stdout.buffer.write(f.readframes(f.getnframes()))";
    let folder = Folder::of("python");
    if has("python3") {
        for (path, rate, trace) in exported(&folder) {
            let said = Command::new("python3").args(["-c", program]).arg(&path).output().unwrap();
            assert_eq!(samples(&said.stdout), trace);
            assert_eq!(String::from_utf8(said.stderr).unwrap(), format!("1 2 {rate} {}", trace.len()));
        }
    }
}

/// sox reads what was exported, and what sox writes is imported.
#[test]
fn sox_reads_it() {
    let folder = Folder::of("sox");
    if has("sox") {
        for (path, _, trace) in exported(&folder) {
            let raw = run(Command::new("sox").arg(&path).args(["-t", "raw", "-e", "signed-integer", "-b", "16", "-L", "-"]));
            assert_eq!(samples(&raw), trace);
            let again = folder.path("again.wav");
            run(Command::new("sox").arg(&path).args(["-e", "signed-integer", "-b", "16"]).arg(&again));
            let mut library = TraceLibrary::open(trace.len(), 1, 1).unwrap();
            assert_eq!(library.import_recording(&fs::read(&again).unwrap()), Ok(1));
            assert_eq!(library.trace(0).unwrap(), trace);
        }
    }
}

/// The Python program of the guide, which brings a WAV file of other bits, channels or chunks to the form that is taken.
#[test]
fn the_guides_program_converts() {
    let page = fs::read_to_string(repository().join("docs/GUIDE.md")).unwrap();
    let program = page.split("```python\n").nth(1).and_then(|rest| rest.split("```").next()).expect("a program in Python");
    if !has("python3") {
        return;
    }
    let folder = Folder::of("guide");
    fs::write(folder.path("plain_wav.py"), program).unwrap();
    let convert = |file: &[u8], count: Option<&str>| {
        let (old, new) = (folder.path("old.wav"), folder.path("new.wav"));
        fs::write(&old, file).unwrap();
        run(Command::new("python3").arg(folder.path("plain_wav.py")).args([&old, &new] as [&Path; 2]).args(count));
        read(1, &fs::read(&new).unwrap()).expect("it is of the form that is taken")
    };
    let list: &[u8] = b"LIST\x1a\0\0\0INFOISFT\x0e\0\0\0Lavf58.29.100\0";
    let is = |(rate, traces): (u64, Vec<Trace>), expected: &[i32]| assert_eq!((rate, &traces.concat()[..]), (8000, expected));
    let coded = |samples: &[i16]| -> Vec<u8> { samples.iter().flat_map(|x| x.to_le_bytes()).collect() };
    let some = coded(&[1, -2, 32_767, -32_768]);
    is(convert(&of_chunks(&format(1, 1, 8000, 16), &[list], &some, &[list]), None), &[1, -2, 32_767, -32_768]);
    is(convert(&of_chunks(&format(1, 1, 8000, 16), &[], &some, &[]), Some("3")), &[1, -2, 32_767]);
    is(convert(&of_chunks(&format(1, 2, 8000, 16), &[], &some, &[]), None), &[1, 32_767]);
    // 8 bits are without a sign; of 24 and 32 bits the upper 16 are kept
    is(convert(&of_chunks(&format(1, 1, 8000, 8), &[], &[0, 127, 128, 255], &[]), None), &[-32_768, -256, 0, 32_512]);
    is(convert(&of_chunks(&format(1, 1, 8000, 24), &[], &[9, 1, 0, 255, 0xfe, 0xff], &[]), None), &[1, -2]);
    is(convert(&of_chunks(&format(1, 2, 8000, 32), &[], &[0, 0, 1, 0, 7, 7, 7, 7, 0, 9, 0xfe, 0xff, 7, 7, 7, 7], &[]), None), &[1, -2]);
}
