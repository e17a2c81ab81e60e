//! Text from outside as it may be shown: on one line, without what a terminal would act on, and not too long.

use std::io;
use std::path::Path;

/// As many letters as a name has at most.
pub const LONGEST: usize = 200;

/// What would break the line or the column, act on a terminal or turn the direction of writing becomes a space.
pub fn clean(text: &str) -> String {
    let spaced: String = text.chars().map(|c| if c.is_control() || turns(c) { ' ' } else { c }).collect();
    spaced.trim().to_string()
}

/// Marks of direction: the letters behind one are shown in another order than they stand.
fn turns(c: char) -> bool {
    matches!(c, '\u{200e}' | '\u{200f}' | '\u{202a}'..='\u{202e}' | '\u{2028}' | '\u{2029}' | '\u{2066}'..='\u{2069}' | '\u{feff}')
}

/// Clean, and not longer than so many letters.
pub fn short(text: &str, most: usize) -> String {
    // a cell may be as long as a file: no more of it is looked at than can be shown
    let begin: String = text.chars().take(4 * most).collect();
    let text = if begin.len() < text.len() { begin + "…" } else { begin };
    let text = clean(&text);
    match text.chars().count() > most {
        true => text.chars().take(most - 1).chain(['…']).collect(),
        false => text,
    }
}

/// A path for a message. Of a long one the end tells most.
pub fn path(path: &Path) -> String {
    let text = clean(&path.to_string_lossy());
    match text.chars().count().checked_sub(LONGEST) {
        None | Some(0) => text,
        Some(over) => ['…'].into_iter().chain(text.chars().skip(over + 1)).collect(),
    }
}

/// A path as a word of a command that can be typed: in quotes, if the shell would take it apart.
pub fn word(path: &Path) -> String {
    let text = self::path(path);
    let whole = |c: char| c.is_alphanumeric() || "._-+/,:@%…".contains(c);
    match text.starts_with(|c: char| whole(c) && c != '-') && text.chars().all(whole) {
        true => text,
        false => format!("'{}'", text.replace('\'', "'\\''")),
    }
}

/// What the system says of an error, without its number.
pub fn why(error: &io::Error) -> String {
    let text = error.to_string();
    let end = text.find(" (os error").unwrap_or(text.len());
    text[..end].to_string()
}

/// A whole text for a terminal: its lines stay, nothing else of what acts on one.
pub fn for_terminal(text: &str) -> String {
    text.chars().map(|c| if c.is_control() && c != '\n' && c != '\t' { '\u{fffd}' } else { c }).collect()
}

/// The text that a file holds, without a mark at its beginning; or what it is instead, and where.
pub fn text_of(bytes: Vec<u8>) -> Result<String, String> {
    const SAVE: &str = "Save it as text in UTF-8.";
    if bytes.starts_with(&[0xff, 0xfe]) || bytes.starts_with(&[0xfe, 0xff]) {
        return Err(format!("is text in UTF-16. {SAVE}"));
    }
    if bytes.contains(&0) {
        return Err(format!("is no text: it has bytes of 0. {SAVE}"));
    }
    match String::from_utf8(bytes) {
        Ok(text) => Ok(text.strip_prefix('\u{feff}').map_or(text.clone(), str::to_string)),
        Err(why) => {
            let good = why.utf8_error().valid_up_to();
            let bytes = why.as_bytes();
            let line = 1 + bytes[..good].iter().filter(|byte| **byte == b'\n').count();
            Err(format!("is no text in UTF-8: line {line} has the byte {} (Latin-1, perhaps). {SAVE}", bytes[good]))
        }
    }
}

#[cfg(test)]
mod tests {
    use super::*;

    #[test]
    fn nothing_acts_on_a_terminal() {
        assert_eq!(clean(" a\x1b[2Jb\tc\n\u{9b}d\u{202e}e "), "a [2Jb c  d e");
        assert_eq!(for_terminal("a\x1b]0;x\x07\n\tb"), "a\u{fffd}]0;x\u{fffd}\n\tb");
        assert_eq!(short("abcdef", 4), "abc…");
        assert_eq!(short(&"x".repeat(1 << 20), 10).chars().count(), 10);
        assert_eq!(short(&format!("{}{}", " ".repeat(100), "x".repeat(100)), 10), "…");
        assert_eq!(path(Path::new(&"d/".repeat(300))).chars().count(), LONGEST);
        assert_eq!(path(Path::new("a\nb")), "a b");
        let words = ["a/b-1.sheet", "dry rail.sheet", "it's", "$(x)", "-o", ""].map(|text| word(Path::new(text)));
        assert_eq!(words, ["a/b-1.sheet", "'dry rail.sheet'", r"'it'\''s'", "'$(x)'", "'-o'", "''"]);
        assert_eq!(why(&io::Error::from_raw_os_error(21)), "Is a directory");
    }

    #[test]
    fn encodings() {
        assert_eq!(text_of(b"\xef\xbb\xbfa\n".to_vec()), Ok("a\n".to_string()));
        assert!(text_of(b"\xff\xfea\0".to_vec()).unwrap_err().contains("UTF-16"));
        assert!(text_of(b"a\0b\0".to_vec()).unwrap_err().contains("bytes of 0"));
        assert!(text_of(b"a\nb\nrail \xe9l\n".to_vec()).unwrap_err().contains("line 3 has the byte 233"));
    }
}
