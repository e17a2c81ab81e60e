//! Labels at the bench: codes and serials as they are given with recordings, and words for codes in a file beside the sheet.

use super::arguments::Arguments;
use super::names::{self, named};
use super::plain::{self, short};
use super::reading::Sweep;
use super::{files, refused, wrong, Failure};
use silkendoz::Label;
use std::collections::BTreeMap;
use std::path::{Path, PathBuf};

/// A code as it is shown; there is none where it is 0.
pub fn shown(code: u16) -> String {
    match code {
        0 => "-".to_string(),
        code => format!("{code:#06x}"),
    }
}

/// A serial as it is shown; there is none where it is 0.
pub fn shown_serial(serial: u32) -> String {
    match serial {
        0 => "-".to_string(),
        serial => serial.to_string(),
    }
}

/// A whole number of so many bits, in decimal or behind `0x`.
fn number(word: &str, bits: u32) -> Result<u64, String> {
    let digits = word.trim();
    let hex = digits.strip_prefix("0x").or(digits.strip_prefix("0X"));
    let plain = |digits: &str| digits.bytes().all(|byte| byte.is_ascii_hexdigit());
    let value = match hex {
        Some(hex) if plain(hex) => u64::from_str_radix(hex, 16).ok(),
        None if plain(digits) => digits.parse().ok(),
        _ => None,
    };
    let most = (1u64 << bits) - 1;
    value.filter(|value| *value <= most).ok_or_else(|| format!("`{}` is no number from 0 to {most}, nor 0x and its digits", short(digits, 40)))
}

fn code(word: &str) -> Result<u16, String> {
    number(word, 16).map(|value| value as u16)
}

fn serial(word: &str) -> Result<u32, String> {
    number(word, 32).map(|value| value as u32)
}

// ---- labels that are given

/// What a command line says of the labels of what it reads.
#[derive(Debug)]
pub enum Given {
    /// Nothing: traces of another library keep their own.
    Nothing,
    /// `--code` and `--serial`, for all of them.
    One(Label),
    /// `--labels`, a line for each.
    Lines(PathBuf, Vec<Line>),
}

/// A line of a file of labels.
#[derive(Clone, Debug, PartialEq, Eq)]
pub struct Line {
    /// Counted from 1.
    at: usize,
    /// A trace's name, or its file.
    key: String,
    label: Label,
}

impl Given {
    pub fn of(a: &Arguments) -> Result<Given, Failure> {
        let said = |option: &str| a.path(option).map(|word| word.to_string_lossy().into_owned());
        let code = said("--code").map(|word| code(&word).or_else(|why| wrong(format!("--code: {why}.")))).transpose()?;
        let serial = said("--serial").map(|word| serial(&word).or_else(|why| wrong(format!("--serial: {why}.")))).transpose()?;
        match (code, serial, a.path("--labels")) {
            (None, None, None) => Ok(Given::Nothing),
            (code, serial, None) => Ok(Given::One(Label { code: code.unwrap_or_default(), serial: serial.unwrap_or_default() })),
            (None, None, Some(path)) => {
                let lines = lines(&path, files::read(&path)?)?;
                Ok(Given::Lines(path, lines))
            }
            _ => wrong("`--labels` does not go together with `--code` and `--serial`.".to_string()),
        }
    }

    /// The file that is read for it.
    pub fn file(&self) -> Option<&Path> {
        match self {
            Given::Lines(path, _) => Some(path),
            _ => None,
        }
    }

    /// Puts the labels on sweeps. Each line has to fit one at least, and each sweep at most one line.
    pub fn put(&self, sweeps: &mut [Sweep]) -> Result<(), Failure> {
        match self {
            Given::Nothing => Ok(()),
            Given::One(label) => {
                sweeps.iter_mut().for_each(|sweep| sweep.label = *label);
                Ok(())
            }
            Given::Lines(path, lines) => put_lines(path, lines, sweeps),
        }
    }
}

fn put_lines(path: &Path, lines: &[Line], sweeps: &mut [Sweep]) -> Result<(), Failure> {
    let mut used = vec![false; lines.len()];
    for sweep in sweeps {
        let fitting: Vec<usize> = (0..lines.len()).filter(|&at| fits(&lines[at].key, sweep)).collect();
        if let [first, second, ..] = fitting.as_slice() {
            let (first, second) = (lines[*first].at, lines[*second].at);
            return refused(format!("{}, line {second}: {} has a label by line {first} already.", plain::path(path), sweep.shown()));
        }
        for at in fitting {
            sweep.label = lines[at].label;
            used[at] = true;
        }
    }
    match used.iter().position(|used| !used) {
        None => Ok(()),
        Some(at) => {
            let Line { at, key, .. } = &lines[at];
            let what = "is neither a name nor a file of what is read here";
            refused(format!("{}, line {at}: `{}` {what}. Correct it, or take the line out.", plain::path(path), short(key, 60)))
        }
    }
}

/// Whether a line speaks of a sweep: by its name, or by its file with or without folder and ending.
fn fits(key: &str, sweep: &Sweep) -> bool {
    let file = Path::new(&sweep.file);
    let parts = [file.file_name(), file.file_stem()];
    key == sweep.name || key == sweep.file || parts.into_iter().flatten().any(|part| part == key)
}

/// The lines of a file of labels: a name or a file, a code, a serial.
pub fn lines(path: &Path, bytes: Vec<u8>) -> Result<Vec<Line>, Failure> {
    let text = plain::text_of(bytes).or_else(|why| refused(format!("{}: {why}", plain::path(path))))?;
    let meant = (1..).zip(text.lines()).filter(|(at, line)| is_meant(line) && !is_heading(*at, line));
    let taken = |(at, line)| line_of(at, line).or_else(|why| refused(format!("{}, line {at}: {why}.", plain::path(path))));
    meant.map(taken).collect()
}

/// Neither empty nor a remark.
fn is_meant(line: &str) -> bool {
    !line.trim().is_empty() && !line.starts_with('#')
}

/// The columns of a line: tabs part them where there is one, else semicolons, else commas. The last two are numbers, so that a name may
/// have commas.
fn columns(line: &str) -> Option<[&str; 3]> {
    let separator = ['\t', ';', ','].into_iter().find(|separator| line.contains(*separator))?;
    let mut parts = line.rsplitn(3, separator);
    let (serial, code, key) = (parts.next()?, parts.next()?, parts.next()?);
    Some([key, code, serial].map(str::trim))
}

/// A first line that names the columns.
fn is_heading(at: usize, line: &str) -> bool {
    at == 1 && columns(line).is_some_and(|[_, code, serial]| code.eq_ignore_ascii_case("code") && serial.eq_ignore_ascii_case("serial"))
}

fn line_of(at: usize, line: &str) -> Result<Line, String> {
    let [key, said, machine] = columns(line).ok_or("has to be a name or a file, a code and a serial")?;
    let key = key.strip_prefix('"').and_then(|key| key.strip_suffix('"')).unwrap_or(key);
    Ok(Line { at, key: plain::clean(key), label: Label { code: code(said)?, serial: serial(machine)? } })
}

/// How many of some labels are not zero, in words; nothing if none is.
pub fn counted(labels: impl Iterator<Item = Label>) -> String {
    match labels.filter(|label| *label != Label::default()).count() {
        0 => String::new(),
        some => format!("; {some} with a label"),
    }
}

// ---- words for codes

/// Words for fault codes, as somebody wrote them into a file beside the sheet: a code and its word a line.
#[derive(Clone, Debug, Default, PartialEq, Eq)]
pub struct Codes(BTreeMap<u16, String>);

/// `faults.sheet` has the words for its codes in `faults.codes`.
pub fn codes_beside(sheet: &Path) -> PathBuf {
    names::with_ending(sheet, "codes")
}

impl Codes {
    /// The words beside a sheet; none if there is no such file.
    pub fn beside(sheet: &Path) -> Result<Codes, Failure> {
        let path = codes_beside(sheet);
        match files::read_if_there(&path)? {
            Some(bytes) => Codes::of(&path, bytes),
            None => Ok(Codes::default()),
        }
    }

    pub fn of(path: &Path, bytes: Vec<u8>) -> Result<Codes, Failure> {
        const GO_ON: &str = "Correct it, or move it away to go on without words for codes.";
        let text = plain::text_of(bytes).or_else(|why| refused(format!("{}: {why} {GO_ON}", plain::path(path))))?;
        let mut words = BTreeMap::new();
        for (at, line) in (1..).zip(text.lines()).filter(|(_, line)| is_meant(line)) {
            let put = word_of(line).and_then(|(code, word)| match words.insert(code, word) {
                None => Ok(()),
                Some(_) => Err(format!("has code {} a second time", shown(code))),
            });
            put.or_else(|why| refused(format!("{}, line {at}: {why}. {GO_ON}", plain::path(path))))?;
        }
        Ok(Codes(words))
    }

    pub fn word(&self, code: u16) -> Option<&str> {
        self.0.get(&code).map(String::as_str)
    }

    /// A code as a fault: with its word, if there is one.
    pub fn fault(&self, code: u16) -> String {
        match self.word(code) {
            Some(word) => format!("{} {word}", shown(code)),
            None => format!("code {}", shown(code)),
        }
    }
}

/// A code, and its word behind a tab, a blank, a comma or a semicolon.
fn word_of(line: &str) -> Result<(u16, String), String> {
    let (said, word) = line.trim().split_once(['\t', ' ', ',', ';']).ok_or("has to be a code and its word")?;
    match (code(said)?, named(word.trim())?) {
        (0, _) => Err("code 0 says that there is none".to_string()),
        (_, word) if word.is_empty() => Err("has no word behind its code".to_string()),
        told => Ok(told),
    }
}

#[cfg(test)]
mod tests {
    use super::*;

    #[test]
    fn numbers_of_both_forms() {
        assert_eq!((code("0x0412"), code("1042"), code(" 0 ")), (Ok(0x412), Ok(1042), Ok(0)));
        assert_eq!((serial("4294967295"), serial("0XffffFFFF")), (Ok(u32::MAX), Ok(u32::MAX)));
        for word in ["", "0x", "65536", "0x10000", "-1", "+1", "1.0", "ff", "4119a"] {
            assert!(code(word).is_err(), "{word}");
        }
        assert_eq!((shown(0x412), shown(0), shown(1)), ("0x0412".to_string(), "-".to_string(), "0x0001".to_string()));
    }

    #[test]
    fn lines_of_labels() {
        let of = |text: &str| lines(Path::new("l.csv"), text.as_bytes().to_vec()).ok();
        let line = |at, key: &str, code, serial| Line { at, key: key.to_string(), label: Label { code, serial } };
        let both = "file,code,serial\n# a remark\ndry rail, right, machine 4119,0x11,4119\n\"healthy\",1,4129\n";
        assert_eq!(of(both), Some(vec![line(3, "dry rail, right, machine 4119", 17, 4119), line(4, "healthy", 1, 4129)]));
        assert_eq!(of("a;b\t1\t2\n"), Some(vec![line(1, "a;b", 1, 2)]));
        for text in ["a,1\n", "a\n", "a,b,1\n", "a,1,code\n", "a,65536,1\n"] {
            assert_eq!(of(text), None, "{text}");
        }
    }

    #[test]
    fn words_for_codes() {
        let of = |text: &str| Codes::of(Path::new("l.codes"), text.as_bytes().to_vec()).ok();
        let codes = of("# faults\n0x0011 dry rail, right\n1\thealthy\n\n7,loose\n").unwrap();
        assert_eq!([17, 1, 7, 8].map(|code| codes.word(code)), [Some("dry rail, right"), Some("healthy"), Some("loose"), None]);
        assert_eq!((codes.fault(17), codes.fault(8)), ("0x0011 dry rail, right".to_string(), "code 0x0008".to_string()));
        for text in ["0 none", "17", "17 ", "x y", "1 a\n0x1 b"] {
            assert_eq!(of(text), None, "{text}");
        }
    }
}
