//! Traces as text: a trace a line, commas (semicolons, tabs) or spaces between the samples, with or without a name in the first column.

use super::numbers;
use super::plain::short;
use silkendoz::SAMPLES;

/// A line that holds a trace.
#[derive(Debug, PartialEq, Eq)]
pub struct Line {
    /// Its number in the file, from 1.
    pub number: usize,
    pub name: Option<String>,
    pub samples: Vec<i32>,
}

/// What is wrong, in which line.
#[derive(Debug, PartialEq, Eq)]
pub struct Wrong {
    pub line: usize,
    pub what: String,
}

/// All lines that hold a trace: not those that are empty or begin with `#`. Each has n samples, and there are no more than so many.
pub fn lines(text: &str, n: usize, most: usize) -> Result<Vec<Line>, Wrong> {
    let text = text.strip_prefix('\u{feff}').unwrap_or(text);
    let numbered = (1..).zip(text.lines());
    let mut kept = numbered.filter(|(_, line)| !line.trim().is_empty() && !line.trim_start().starts_with('#'));
    let mut lines = Vec::new();
    let wrong = |line, what| Err(Wrong { line, what });
    while let Some((number, line)) = kept.next() {
        if lines.len() == most {
            return wrong(number, format!("more than {most} traces, and no library holds more. Leave some out."));
        }
        let alone = |line: &str| sample(line.trim()).is_some();
        match trace(line, n) {
            Ok((name, samples)) => lines.push(Line { number, name, samples }),
            Err(_) if n > 1 && lines.is_empty() && alone(line) && kept.all(|(_, line)| alone(line)) => return wrong(number, one_a_line(n)),
            Err(what) => return wrong(number, what),
        }
    }
    Ok(lines)
}

fn one_a_line(n: usize) -> String {
    let hint = "A trace is one line, with its samples one behind another: `paste -sd, FILE` turns a column into such a line";
    format!("1 sample, and {n} are wanted, and so in all lines. {hint}.")
}

type Trace = (Option<String>, Vec<i32>);

fn trace(line: &str, n: usize) -> Result<Trace, String> {
    let columns = columns(line, n + 2)?;
    let named = columns.first().is_some_and(|first| first.quoted || sample(&first.text).is_none() && !looks_like_a_number(&first.text));
    let count = (separators(line) + 1).max(columns.len()) - usize::from(named);
    if columns.len() > n + 1 {
        return Err(wrong_count(count, n, named));
    }
    let samples: Vec<i32> = columns.iter().enumerate().skip(usize::from(named)).map(|(at, column)| read(at + 1, column)).collect::<Result<_, _>>()?;
    match samples.len() == n {
        true => Ok((named.then(|| columns[0].text.clone()), samples)),
        false => Err(wrong_count(samples.len(), n, named)),
    }
}

fn wrong_count(count: usize, n: usize, named: bool) -> String {
    let hint = match !named && count == n + 1 {
        true => "If the first column is a name, put it in double quotes.",
        false => "Record all sweeps alike, or bring this one to the length of the others.",
    };
    format!("{}, and {n} are wanted. {hint}", numbers::count(count, "sample"))
}

fn read(column: usize, found: &Column) -> Result<i32, String> {
    let text = &found.text;
    let hint = if text.is_empty() {
        return Err(format!("column {column} is empty. Remove the separator, or put a sample there."));
    } else if looks_like_a_number(text) && text.contains(',') {
        "It looks like a number with a decimal comma: scale the recording to whole numbers of 20 bits first."
    } else if looks_like_a_number(text) {
        "Scale the recording to whole numbers of 20 bits first."
    } else if column == 2 {
        "A name of several words is put in double quotes; a line of headings begins with `#`."
    } else {
        "Only the first column may be a name; a line of headings begins with `#`."
    };
    sample(text)
        .ok_or_else(|| format!("`{}` in column {column} is no whole number from {} to {}. {hint}", short(text, 40), SAMPLES.start(), SAMPLES.end()))
}

/// A whole number within the limits, with nothing but zeros behind a point or comma.
fn sample(text: &str) -> Option<i32> {
    let whole = text.split_once(['.', ',']).filter(|(_, behind)| behind.bytes().all(|digit| digit == b'0')).map_or(text, |(whole, _)| whole);
    whole.parse().ok().filter(|sample| SAMPLES.contains(sample))
}

/// A line that holds this trace, as [`lines`] reads it.
pub fn line(name: Option<&str>, samples: &[i32]) -> String {
    let name = name.map(|name| format!("\"{}\"", name.replace('"', "\"\"")));
    let columns: Vec<String> = name.into_iter().chain(samples.iter().map(i32::to_string)).collect();
    columns.join(",") + "\n"
}

/// With a decimal point or comma.
fn looks_like_a_number(text: &str) -> bool {
    text.is_empty() || text.replacen(',', ".", 1).parse::<f64>().is_ok_and(f64::is_finite)
}

#[derive(Debug)]
struct Column {
    text: String,
    quoted: bool,
}

/// What stands between columns. Where there are semicolons or tabs, a comma is a decimal one.
fn separator(line: &str) -> Option<char> {
    let found = |wanted: char| outside_quotes(line).any(|(_, c)| c == wanted).then_some(wanted);
    found(';').or(found('\t')).or(found(','))
}

/// How many separators a line has, at least; several spaces are one.
fn separators(line: &str) -> usize {
    match separator(line) {
        Some(separator) => outside_quotes(line).filter(|(_, c)| *c == separator).count(),
        None => line.split_whitespace().count().saturating_sub(1),
    }
}

/// The first columns, no more than so many.
fn columns(line: &str, most: usize) -> Result<Vec<Column>, String> {
    let separator = separator(line);
    let mut columns = Vec::new();
    let mut start = 0;
    let is_end = |c: char| separator.map_or(c == ' ', |s| s == c);
    let ends = outside_quotes(line).filter(|(_, c)| is_end(*c)).chain([(line.len(), ' ')]);
    for (at, c) in ends {
        let text = &line[start..at];
        start = at + c.len_utf8();
        // several spaces are one
        if separator.is_some() || !text.is_empty() {
            columns.push(column(text.trim())?);
        }
        if columns.len() == most {
            break;
        }
    }
    Ok(columns)
}

fn outside_quotes(line: &str) -> impl Iterator<Item = (usize, char)> + '_ {
    let mut inside = false;
    line.char_indices().filter(move |&(_, c)| {
        inside ^= c == '"';
        !inside && c != '"'
    })
}

fn column(text: &str) -> Result<Column, String> {
    let Some(behind) = text.strip_prefix('"') else {
        return Ok(Column { text: text.to_string(), quoted: false });
    };
    match behind.strip_suffix('"') {
        Some(inner) => Ok(Column { text: inner.replace("\"\"", "\""), quoted: true }),
        None => Err(format!("the quotation marks of `{}` do not fit.", short(text, 40))),
    }
}

#[cfg(test)]
mod tests {
    use super::*;

    fn only(text: &str, n: usize) -> Trace {
        let mut all = lines(text, n, 9).unwrap();
        assert_eq!(all.len(), 1);
        let line = all.remove(0);
        (line.name, line.samples)
    }

    fn what(text: &str) -> String {
        lines(text, 2, 9).unwrap_err().what
    }

    #[test]
    fn columns_of_every_kind() {
        for text in ["1,-2,3", "1 -2 3", " 1   -2 3 ", "1;-2;3", "1\t-2\t3", "1, -2 ,3\r\n", "\u{feff}1,-2,+3\n\n# none\n"] {
            assert_eq!(only(text, 3), (None, vec![1, -2, 3]), "{text:?}");
        }
        for text in ["1.0,-2.,3.00", "1,0;-2;3,00", "1,0\t-2\t3", "1.0 -2 3"] {
            assert_eq!(only(text, 3), (None, vec![1, -2, 3]), "{text:?}");
        }
        for text in ["dry,1,2", "dry 1 2", "\"dry\" 1 2", "\"dry\",1,2", "dry;1;2"] {
            assert_eq!(only(text, 2), (Some("dry".to_string()), vec![1, 2]), "{text:?}");
        }
        assert_eq!(only("\"dry rail, right\",1,2", 2).0.unwrap(), "dry rail, right");
        assert_eq!(only("dry rail right,1,2", 2).0.unwrap(), "dry rail right");
        assert_eq!(only("\"17\" 1 2", 2).0.unwrap(), "17");
        assert_eq!(only("\"the \"\"wheel\"\"\" 1 2", 2).0.unwrap(), "the \"wheel\"");
        assert_eq!(only("524287,-524288", 2), (None, vec![524_287, -524_288]));
        assert_eq!(only("7", 1), (None, vec![7]));
    }

    #[test]
    fn written_and_read() {
        for name in [None, Some("dry rail, right"), Some("the \"wheel\""), Some("17"), Some("# 3;4"), Some("a")] {
            let samples = vec![0, -524_288, 524_287, 32_768];
            assert_eq!(only(&line(name, &samples), 4), (name.map(str::to_string), samples), "{name:?}");
        }
        assert_eq!(line(Some("a"), &[1, -2]), "\"a\",1,-2\n");
    }

    #[test]
    fn numbers_of_lines() {
        let all = lines("# a heading\n1 2\n\n   \nname 3 4\n", 2, 9).unwrap();
        assert_eq!(all.iter().map(|line| line.number).collect::<Vec<_>>(), [2, 5]);
    }

    /// Two samples of which the second is 0 also look like one with a decimal comma: each is a trace all the same, and none is lost.
    #[test]
    fn lines_that_look_like_one_sample() {
        let all = |text: &str| lines(text, 2, 9).unwrap().into_iter().map(|line| line.samples).collect::<Vec<_>>();
        assert_eq!(all("5,0\n400,0\n0,400\n7,0\n"), [[5, 0], [400, 0], [0, 400], [7, 0]]);
        assert_eq!(all("5,0\n6,00\n"), [[5, 0], [6, 0]]);
        assert!(lines("5,0\n6,0\n", 3, 9).unwrap_err().what.contains("paste -sd,"));
    }

    #[test]
    fn what_is_wrong() {
        assert_eq!(lines("1 2\n1 x", 2, 9).unwrap_err().line, 2);
        assert!(what("dry,1,").starts_with("column 3 is empty"));
        assert!(what("1,524288").contains("`524288` in column 2 is no whole number from -524288 to 524287. Scale"));
        assert!(what("-524289,1").contains("`-524289` in column 1"));
        assert!(what("1,2147483648").contains("`2147483648` in column 2"));
        assert!(what("1.5,1").contains("Scale"));
        assert!(what("1,5;2,5").contains("decimal comma"));
        assert!(what("dry rail 1").contains("double quotes"));
        assert!(what("name,s0,s1").contains("begins with `#`"));
        assert!(what("dry,2,x").contains("Only the first column"));
        assert!(what("\"dry,1,2").contains("quotation marks"));
        assert!(what("1\n2\n3\n").contains("paste -sd,"));
        assert!(what("1,2,3").starts_with("3 samples, and 2 are wanted. If the first column is a name"));
        assert!(what("dry,1").starts_with("1 sample, and 2 are wanted. Record"));
    }

    #[test]
    fn no_more_is_read_than_can_be_stored() {
        assert!(what(&"1 2\n".repeat(10)).contains("more than 9 traces"));
        assert_eq!(lines(&"1 2\n".repeat(9), 2, 9).unwrap().len(), 9);
        assert!(what(&"1,".repeat(100_000)).starts_with("100001 samples"));
        assert!(what(&format!("x,{}", "1 ".repeat(100_000))).contains("` in column 2"));
    }
}
