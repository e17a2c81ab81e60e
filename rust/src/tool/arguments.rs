//! The words behind a command: options by name, everything else in order.

use super::plain::{self, short};
use super::{wrong, Failure};
use std::ffi::{OsStr, OsString};
use std::path::{Path, PathBuf};

type Taken = Result<(), Failure>;

/// The options that a command knows.
pub type Options = &'static [&'static str];

#[derive(Debug, Default)]
pub struct Arguments {
    values: Vec<(&'static str, OsString)>,
    flags: Vec<&'static str>,
    rest: Vec<OsString>,
}

impl Arguments {
    /// `values` are the options that take the next word, `flags` those that stand alone. Behind `--` every word is taken as it is.
    pub fn of(mut words: impl Iterator<Item = OsString>, values: Options, flags: Options) -> Result<Arguments, Failure> {
        let mut taken = Arguments::default();
        let mut plain = false;
        while let Some(word) = words.next() {
            let option = word.to_str().filter(|w| !plain && w.len() > 1 && w.starts_with('-')).map(str::to_string);
            match option {
                None => taken.rest.push(word),
                Some(option) if option == "--" => plain = true,
                Some(option) => taken.take_option(&option, &mut words, values, flags)?,
            }
        }
        Ok(taken)
    }

    fn take_option(&mut self, option: &str, words: &mut dyn Iterator<Item = OsString>, values: Options, flags: Options) -> Taken {
        let (name, joined) = parted(option);
        if self.values.iter().any(|(known, _)| *known == name) || self.flags.contains(&name) {
            return wrong(format!("`{}` stands there twice.", short(name, 40)));
        }
        if let Some(known) = values.iter().find(|known| **known == name) {
            let Some(value) = joined.map(OsString::from).or_else(|| words.next()) else {
                return wrong(format!("`{name}` has no value behind it."));
            };
            self.values.push((known, value));
        } else if let (Some(known), None) = (flags.iter().find(|known| **known == name), &joined) {
            self.flags.push(known);
        } else {
            let option = short(option, 40);
            return wrong(format!("`{option}` is no option of this command. (A file of that name is written `./{option}`.)"));
        }
        Ok(())
    }

    pub fn has(&self, flag: &str) -> bool {
        self.flags.contains(&flag)
    }

    fn value(&self, option: &str) -> Option<&OsStr> {
        self.values.iter().find(|(name, _)| *name == option).map(|(_, value)| value.as_os_str())
    }

    pub fn path(&self, option: &str) -> Option<PathBuf> {
        self.value(option).map(PathBuf::from)
    }

    /// A path that has to be there.
    pub fn needed_path(&self, option: &str) -> Result<PathBuf, Failure> {
        self.path(option).map_or_else(|| wrong(format!("`{option}` is missing.")), Ok)
    }

    pub fn number(&self, option: &str) -> Result<Option<usize>, Failure> {
        self.value(option).map(|value| number(option, value)).transpose()
    }

    /// A number that has to be there.
    pub fn needed_number(&self, option: &str) -> Result<usize, Failure> {
        self.number(option)?.map_or_else(|| wrong(format!("`{option}` is missing.")), Ok)
    }

    /// A whole number, 1 or more. One that 64 bits do not hold is as good as the largest that they do.
    pub fn one_or_more(&self, option: &str) -> Result<Option<u64>, Failure> {
        let Some(value) = self.value(option) else { return Ok(None) };
        let word = value.to_string_lossy();
        let is_number = !word.is_empty() && word.bytes().all(|byte| byte.is_ascii_digit());
        match is_number.then(|| word.parse().unwrap_or(u64::MAX)) {
            Some(0) => wrong(format!("{option}: 0 is too few. Take 1 or more.")),
            None => wrong(format!("{option}: `{}` is no whole number. Take 1 or more.", short(&word, 40))),
            number => Ok(number),
        }
    }

    /// Whole numbers with commas between them; none if the option is not there.
    pub fn numbers(&self, option: &str) -> Result<Vec<usize>, Failure> {
        let Some(list) = self.value(option) else { return Ok(Vec::new()) };
        list.to_string_lossy().split(',').map(|word| number(option, OsStr::new(word.trim()))).collect()
    }

    /// Words with commas between them.
    pub fn list(&self, option: &str) -> Option<Vec<String>> {
        self.value(option).map(|list| list.to_string_lossy().split(',').map(|word| word.trim().to_string()).collect())
    }

    /// Everything that is no option: a first file, then at least one more.
    pub fn one_and_more(&self, first: &str, more: &str) -> Result<(&Path, Vec<&Path>), Failure> {
        match self.rest.as_slice() {
            [] => wrong(format!("{first} is missing.")),
            [_] => wrong(format!("{more} is missing.")),
            [first, more @ ..] => Ok((Path::new(first), more.iter().map(Path::new).collect())),
        }
    }

    /// At least one file.
    pub fn some(&self, what: &str) -> Result<Vec<&Path>, Failure> {
        match self.rest.as_slice() {
            [] => wrong(format!("{what} is missing.")),
            files => Ok(files.iter().map(Path::new).collect()),
        }
    }

    /// Exactly as many words as there are names for them.
    pub fn exactly<const K: usize>(&self, names: [&str; K]) -> Result<[&OsStr; K], Failure> {
        if let Some(extra) = self.rest.get(K) {
            return wrong(format!("`{}` is one word too many.", plain::path(Path::new(extra))));
        }
        if let Some(missing) = names.get(self.rest.len()) {
            return wrong(format!("{missing} is missing."));
        }
        Ok(std::array::from_fn(|i| self.rest[i].as_os_str()))
    }

    /// At most one word.
    pub fn at_most_one(&self) -> Result<Option<&OsStr>, Failure> {
        match self.rest.as_slice() {
            [] => Ok(None),
            [one] => Ok(Some(one)),
            [_, extra, ..] => wrong(format!("`{}` is one word too many.", plain::path(Path::new(extra)))),
        }
    }
}

/// An option and the value that is joined to it: `--name=value`, and `-k3` for `-k 3`.
fn parted(option: &str) -> (&str, Option<&str>) {
    let letter = option.char_indices().nth(2).map(|(end, _)| option.split_at(end)).filter(|(name, _)| !name.starts_with("--"));
    match (option.split_once('='), letter) {
        (Some((name, value)), _) if name.starts_with("--") => (name, Some(value)),
        (_, Some((name, value))) => (name, Some(value.strip_prefix('=').unwrap_or(value))),
        _ => (option, None),
    }
}

/// A whole number. Whether it is in range is the calls' to say.
pub fn number(what: &str, word: &OsStr) -> Result<usize, Failure> {
    let parsed = word.to_str().and_then(|w| w.parse().ok());
    parsed.map_or_else(|| wrong(format!("{what}: `{}` is no whole number.", short(&word.to_string_lossy(), 40))), Ok)
}

#[cfg(test)]
mod tests {
    use super::*;

    fn taken(line: &str) -> Result<Arguments, Failure> {
        Arguments::of(line.split(' ').map(OsString::from), &["-k", "-o", "--rate"], &["--json"])
    }

    #[test]
    fn values_joined_and_apart() {
        for line in ["a -k3 b", "-k 3 a b", "a b -k=3"] {
            let a = taken(line).unwrap();
            assert_eq!((a.number("-k").unwrap(), a.some("files").unwrap().len()), (Some(3), 2), "{line}");
        }
        assert_eq!(taken("--rate=7 -o-").unwrap().number("--rate").unwrap(), Some(7));
        assert_eq!(taken("-o-").unwrap().path("-o"), Some(PathBuf::from("-")));
        assert_eq!(taken("-o a=b").unwrap().path("-o"), Some(PathBuf::from("a=b")));
        assert_eq!(taken("- -- -k").unwrap().some("files").unwrap(), [Path::new("-"), Path::new("-k")]);
        for line in ["-k", "-k 3 -k4", "--js", "--json=1", "-x3", "-é"] {
            assert!(taken(line).is_err(), "{line}");
        }
    }

    #[test]
    fn one_or_more() {
        let many = |word: &str| taken(&format!("--rate={word}")).unwrap().one_or_more("--rate").ok();
        assert_eq!([many("1"), many("007"), many("18446744073709551615")], [Some(Some(1)), Some(Some(7)), Some(Some(u64::MAX))]);
        assert_eq!(many("99999999999999999999999"), Some(Some(u64::MAX)));
        assert_eq!(taken("a").unwrap().one_or_more("--rate").ok(), Some(None));
        for word in ["0", "000", "-1", "+1", "1.5", "", "x", "1e3"] {
            assert_eq!(many(word), None, "{word}");
        }
    }
}
