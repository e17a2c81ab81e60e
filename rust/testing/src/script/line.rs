//! A line of a script: which library it speaks to, the call's name, its words, and what its suffix says of the places lent.

use super::{bytes, malformed, Unanswered};
use crate::model::tables::TABLES;
use std::str::FromStr;

/// More places than any call is lent: what a suffix may say at most.
const MOST: usize = 1 << 24;

/// A line that is not empty and no comment. Words are taken from it one after another.
pub struct Line<'a> {
    /// The call's name.
    pub name: &'a str,
    /// 0 for library 1, 1 for library 2, whose lines have the prefix `2 `.
    pub library: usize,
    words: std::vec::IntoIter<&'a str>,
    suffix: Vec<(&'a str, &'a str)>,
}

/// A decimal number that the type can hold.
pub fn number<T: FromStr>(word: &str) -> Result<T, Unanswered> {
    let value = if word.starts_with('+') { None } else { word.parse().ok() };
    value.ok_or_else(|| malformed(format!("{word:?} is no number that fits here")))
}

impl<'a> Line<'a> {
    pub fn parse(text: &'a str) -> Result<Line<'a>, Unanswered> {
        let (library, text) = text.strip_prefix("2 ").map_or((0, text), |rest| (1, rest));
        let (call, suffix) = text.split_once(" | ").map_or((text, None), |(call, suffix)| (call, Some(suffix)));
        let mut words = call.split(' ').collect::<Vec<_>>().into_iter();
        if words.as_slice().contains(&"") {
            return Err(malformed("words are separated by single spaces"));
        }
        let name = words.next().expect("a text has at least one part");
        let pair = |part: &'a str| part.split_once('=').ok_or_else(|| malformed(format!("{part:?} is no key=value")));
        let suffix = suffix.map_or(Ok(Vec::new()), |suffix| suffix.split(' ').map(pair).collect())?;
        Ok(Line { name, library, words, suffix })
    }

    // ---- words

    pub fn word(&mut self) -> Result<&'a str, Unanswered> {
        self.words.next().ok_or_else(|| malformed("a word is missing"))
    }

    /// The next word as a number.
    pub fn next<T: FromStr>(&mut self) -> Result<T, Unanswered> {
        number(self.word()?)
    }

    /// All other words as numbers.
    pub fn rest<T: FromStr>(&mut self) -> Result<Vec<T>, Unanswered> {
        self.words.by_ref().map(number).collect()
    }

    /// The next word as bytes.
    pub fn bytes(&mut self) -> Result<Vec<u8>, Unanswered> {
        bytes::parse(self.word()?).ok_or_else(|| malformed("these are no bytes"))
    }

    /// No word is left.
    pub fn end(&self) -> Result<(), Unanswered> {
        match self.words.as_slice() {
            [] => Ok(()),
            [word, ..] => Err(malformed(format!("{word:?} is one word too many"))),
        }
    }

    // ---- the suffix

    /// The suffix has these keys, and no other.
    pub fn only(&self, keys: &[&str]) -> Result<(), Unanswered> {
        match self.suffix.iter().find(|(key, _)| !keys.contains(key)) {
            None => Ok(()),
            Some((key, _)) => Err(malformed(format!("{} has no {key:?}", self.name))),
        }
    }

    fn value(&self, key: &str) -> Option<&'a str> {
        self.suffix.iter().find(|(named, _)| *named == key).map(|(_, value)| *value)
    }

    /// How many places the suffix says under a key; without it, `usual`.
    pub fn places(&self, key: &str, usual: usize) -> Result<usize, Unanswered> {
        match self.value(key).map_or(Ok(usual), number)? {
            places if places <= MOST => Ok(places),
            _ => Err(malformed(format!("{key} is longer than what is lent here"))),
        }
    }

    /// The tables that the suffix names under a key, by their places among [`TABLES`].
    pub fn tables(&self, key: &str) -> Result<Vec<usize>, Unanswered> {
        let named = |table: &str| TABLES.iter().position(|t| *t == table).ok_or_else(|| malformed(format!("{table:?} is no table")));
        self.value(key).map_or(Ok(Vec::new()), |tables| tables.split(',').map(named).collect())
    }
}

#[cfg(test)]
mod tests {
    use super::*;

    #[test]
    fn words_and_suffix() {
        let mut line = Line::parse("2 match 3 -4 | trail=7 short=nodes,labels").ok().expect("a line");
        assert_eq!((line.name, line.library), ("match", 1));
        assert_eq!(line.rest::<i32>().ok(), Some(vec![3, -4]));
        assert_eq!(line.places("trail", 1).ok(), Some(7));
        assert_eq!(line.places("list", 1).ok(), Some(1));
        assert_eq!(line.tables("short").ok(), Some(vec![2, 5]));
        assert!(line.only(&["short", "trail"]).is_ok() && line.only(&["short"]).is_err());
    }

    #[test]
    fn no_line_of_the_protocol() {
        for text in ["match  3", "match 3 ", " match", "match 3 | trail", "match 3 | "] {
            assert!(Line::parse(text).is_err(), "{text:?}");
        }
        for word in ["+3", "2147483648", "x", "3.0", "-"] {
            assert!(number::<i32>(word).is_err(), "{word:?}");
        }
        assert!(Line::parse("match | short=sheet").is_ok_and(|line| line.tables("short").is_err()));
        assert!(Line::parse("match | trail=99999999").is_ok_and(|line| line.places("trail", 0).is_err()));
    }
}
