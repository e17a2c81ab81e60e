//! What the tests of the bench program share: a folder of its own for each, the program run there, and its recordings.

#![allow(dead_code)]

use silkendoz::TraceLibrary;
use std::ffi::OsStr;
use std::fs;
use std::path::{Path, PathBuf};
use std::process::Command;
use testing::example;

pub const N: usize = 64;

/// A folder of its own for a test, empty at the beginning.
pub struct Folder(pub PathBuf);

/// What the program printed, and its exit status.
pub struct Ran {
    pub status: i32,
    pub out: String,
    pub err: String,
}

impl Folder {
    pub fn new(name: &str) -> Folder {
        let path = Path::new(env!("CARGO_TARGET_TMPDIR")).join("silkendoz").join(name);
        let _ = fs::remove_dir_all(&path);
        fs::create_dir_all(&path).unwrap();
        Folder(path)
    }

    pub fn run<S: AsRef<OsStr>>(&self, words: &[S]) -> Ran {
        let ran = Command::new(env!("CARGO_BIN_EXE_silkendoz")).current_dir(&self.0).args(words).output().unwrap();
        let text = |bytes| String::from_utf8(bytes).unwrap();
        Ran { status: ran.status.code().unwrap(), out: text(ran.stdout), err: text(ran.stderr) }
    }

    /// Runs a line of words; it has to be done.
    pub fn done(&self, line: &str) -> String {
        let ran = self.line(line);
        assert_eq!((ran.status, ran.err.as_str()), (0, ""), "{line}");
        ran.out
    }

    /// It has to be refused, with something said and nothing printed.
    pub fn refused(&self, line: &str) -> String {
        let ran = self.line(line);
        assert_eq!((ran.status, ran.out.as_str()), (1, ""), "{line}: {}", ran.err);
        assert!(ran.err.starts_with("silkendoz: "), "{line}");
        ran.err
    }

    pub fn line(&self, line: &str) -> Ran {
        self.run(&line.split(' ').collect::<Vec<_>>())
    }

    pub fn write(&self, name: &str, bytes: impl AsRef<[u8]>) {
        fs::write(self.0.join(name), bytes).unwrap();
    }

    pub fn read(&self, name: &str) -> Vec<u8> {
        fs::read(self.0.join(name)).unwrap()
    }

    pub fn text(&self, name: &str) -> String {
        String::from_utf8(self.read(name)).unwrap()
    }

    /// Every file that is there, sorted.
    pub fn files(&self) -> Vec<String> {
        let name = |entry: std::io::Result<fs::DirEntry>| entry.unwrap().file_name().to_string_lossy().into_owned();
        let mut names: Vec<String> = fs::read_dir(&self.0).unwrap().map(name).collect();
        names.sort();
        names
    }

    pub fn library(&self, name: &str) -> TraceLibrary {
        TraceLibrary::read_sheet(&self.read(name)).unwrap()
    }
}

/// The example's faults with their names, and the sweep of today.
pub fn faults() -> (Vec<(String, Vec<i32>)>, Vec<i32>) {
    let mut all = example::traces();
    let (_, today) = all.pop().unwrap();
    (all, today)
}

pub fn joined(trace: &[i32], separator: &str) -> String {
    trace.iter().map(i32::to_string).collect::<Vec<_>>().join(separator)
}

/// A folder with the faults as CSV, with names, and today's sweep.
pub fn bench(name: &str) -> Folder {
    let folder = Folder::new(name);
    let (faults, today) = faults();
    let lines: Vec<String> = faults.iter().map(|(name, trace)| format!("\"{name}\",{}\n", joined(trace, ","))).collect();
    folder.write("faults.csv", lines.concat());
    folder.write("today.csv", joined(&today, " "));
    folder
}

/// The same with the library built.
pub fn shelf(name: &str) -> Folder {
    let folder = bench(name);
    folder.done("build faults.sheet --samples 64 --capacity 64 --leaf-size 4 faults.csv");
    folder
}

/// Number, name, file and rate of each line of a names file; the last column is 16 digits.
pub fn named(text: &str) -> Vec<String> {
    let line = |line: &str| {
        let (before, hash) = line.rsplit_once('\t').unwrap();
        assert!(hash.len() == 16 && hash.bytes().all(|byte| byte.is_ascii_hexdigit()), "{line}");
        before.to_string()
    };
    text.lines().map(line).collect()
}

/// Changes a byte in each of these blocks.
pub fn damage(sheet: &[u8], blocks: &[usize]) -> Vec<u8> {
    let mut damaged = sheet.to_vec();
    for block in blocks {
        damaged[512 * block + 77] ^= 0x10;
    }
    damaged
}

/// Enough of JSON to see that it is well formed and to take values from it.
#[derive(Debug, PartialEq)]
pub enum Json {
    Null,
    Number(f64),
    Text(String),
    List(Vec<Json>),
    Object(Vec<(String, Json)>),
}

impl Json {
    pub fn of(text: &str) -> Json {
        let mut rest = text;
        let value = Json::take(&mut rest);
        assert_eq!(rest.trim(), "");
        value
    }

    pub fn take(rest: &mut &str) -> Json {
        *rest = rest.trim_start();
        match rest.chars().next().unwrap() {
            '[' => Json::List(Json::items(rest, ']', Json::take)),
            '{' => Json::Object(Json::items(rest, '}', |rest| {
                let Json::Text(name) = Json::take(rest) else { panic!("a field has a name") };
                *rest = rest.trim_start().strip_prefix(':').unwrap();
                (name, Json::take(rest))
            })),
            '"' => {
                let end = (1..rest.len()).find(|&at| rest.as_bytes()[at] == b'"' && rest.as_bytes()[at - 1] != b'\\').unwrap();
                let text = rest[1..end].replace("\\\"", "\"").replace("\\\\", "\\");
                *rest = &rest[end + 1..];
                Json::Text(text)
            }
            _ => {
                let end = rest.find([',', ']', '}', '\n']).unwrap();
                let word = &rest[..end];
                *rest = &rest[end..];
                match word {
                    "null" => Json::Null,
                    "true" => Json::Number(1.0),
                    "false" => Json::Number(0.0),
                    number => Json::Number(number.parse().unwrap()),
                }
            }
        }
    }

    pub fn items<T>(rest: &mut &str, end: char, one: impl Fn(&mut &str) -> T) -> Vec<T> {
        *rest = rest[1..].trim_start();
        let mut items = Vec::new();
        while !rest.starts_with(end) {
            items.push(one(rest));
            *rest = rest.trim_start();
            *rest = rest.strip_prefix(',').unwrap_or(rest).trim_start();
        }
        *rest = &rest[1..];
        items
    }

    pub fn at(&self, name: &str) -> &Json {
        let Json::Object(fields) = self else { panic!("no object: {self:?}") };
        &fields.iter().find(|(field, _)| field == name).unwrap_or_else(|| panic!("no field {name}")).1
    }

    pub fn list(&self) -> &[Json] {
        let Json::List(items) = self else { panic!("no list: {self:?}") };
        items
    }

    pub fn number(&self) -> u64 {
        let Json::Number(number) = self else { panic!("no number: {self:?}") };
        *number as u64
    }
}
