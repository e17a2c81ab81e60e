//! `tables`: a library as constant tables for a program in C, to lie in memory that is never written.

use super::arguments::Arguments;
use super::files::{shown, Output};
use super::shelf::Shelf;
use super::{numbers, plain, refused, words, written, wrong, Answer};
use silkendoz::calls::LAYOUT;
use silkendoz::{Label, Refusal, StoredSample, TraceLibrary};
use std::fmt::Display;
use std::path::Path;

/// What the library is called there unless it is said.
const NAME: &str = "factory";

/// Letters that a line has at most.
const LINE: usize = 120;

pub fn run(a: &Arguments) -> Answer {
    let [library] = a.exactly(["LIBRARY"])?.map(Path::new);
    let out = a.needed_path("-o")?;
    let name = a.list("--name").map_or(NAME.to_string(), |words| words.join(","));
    if !is_name(&name) {
        return wrong(format!("--name: `{}` is no name in C. Take letters, digits and _, no digit first.", plain::short(&name, 40)));
    }
    let shelf = Shelf::load(library)?;
    let [sheet, names, codes] = shelf.files()?;
    let output = Output::of(&out, a.has("--force"), &[&sheet, &names, &codes])?;
    let full = without_room(&shelf.library).or_else(|why| refused(format!("{}: {}", plain::path(library), words::of_call(why))))?;
    let done = output.write(source(&shelf, &full, &name).as_bytes())?;
    let (traces, bytes) = (numbers::count(full.len(), "trace"), numbers::grouped(size(&full)));
    written(format!("{}: {traces} of {} as constant tables, {bytes} bytes.\n", shown(&out), numbers::count(full.n(), "sample")), done)
}

/// Whether a word may be a name in C.
fn is_name(word: &str) -> bool {
    let letter = |c: char| c.is_ascii_alphabetic() || c == '_';
    word.chars().next().is_some_and(letter) && word.chars().all(|c| letter(c) || c.is_ascii_digit())
}

/// The same library with room for the traces that it has, and no more: nothing is added to constant tables.
fn without_room(library: &TraceLibrary) -> Result<TraceLibrary, Refusal> {
    let mut full = TraceLibrary::open(library.n(), library.len().max(1), library.leaf_size())?;
    for (trace, label) in library.traces().zip(library.labels()) {
        let trace = StoredSample::values(trace);
        match label == Label::default() {
            true => full.add(&trace)?,
            false => full.add_labelled(&trace, label)?,
        };
    }
    Ok(full)
}

/// Bytes of the constant tables.
fn size(library: &TraceLibrary) -> usize {
    let t = library.tables();
    2 * t.control.len() + 4 * t.samples.len() + 8 * t.nodes.len() + 2 * t.links.len() + 8 * t.labels.len()
}

fn source(shelf: &Shelf, full: &TraceLibrary, name: &str) -> String {
    let (t, n, capacity) = (full.tables(), full.n(), full.capacity());
    let traces = numbers::count(full.len(), "trace");
    [
        format!("/* {}: {traces} of {}, leaf size {}.\n", comment(&shelf.path), numbers::count(n, "sample"), full.leaf_size()),
        format!(" * SHA-256 of its sheet: {}. Written by silkendoz {}. */\n", shelf.hash(), env!("CARGO_PKG_VERSION")),
        "#include \"silkendoz.h\"\n\n".to_string(),
        format!("#if SILKENDOZ_LAYOUT != {LAYOUT}\n#error \"these tables are of layout {LAYOUT}: write them again\"\n#endif\n\n"),
        format!("enum {{ {name}_n = {n}, {name}_capacity = {capacity} }};\n\n"),
        table("uint16_t", name, "control", t.control),
        table("int32_t", name, "samples", StoredSample::words(t.samples)),
        table("int64_t", name, "nodes", t.nodes),
        table("uint16_t", name, "links", t.links),
        table("uint64_t", name, "labels", t.labels),
        format!("SILKENDOZ_FACTORY({name}, {n}, {capacity});\n"),
    ]
    .concat()
}

/// A path within a comment, which it does not end.
fn comment(path: &Path) -> String {
    plain::path(path).replace("*/", "* /")
}

/// A constant table. All places are written, so that a compiler that counts them finds as many as it has.
fn table<T: Display>(element: &str, name: &str, table: &str, places: &[T]) -> String {
    let mut text = format!("static const {element} {name}_{table}[{}] = {{", places.len());
    let mut width = LINE;
    for place in places {
        let place = format!("{place},");
        if width + place.len() > LINE {
            text.push_str("\n   ");
            width = 3;
        }
        width += 1 + place.len();
        text.push(' ');
        text.push_str(&place);
    }
    text.push_str("\n};\n\n");
    text
}

#[cfg(test)]
mod tests {
    use super::*;

    #[test]
    fn names_in_c() {
        assert!(["factory", "_f", "f2", "F_2"].into_iter().all(is_name));
        assert!(!["", "2f", "a b", "a-b", "é", "a,b", "f;"].into_iter().any(is_name));
        assert_eq!(comment(Path::new("a*/b.sheet")), "a* /b.sheet");
    }

    #[test]
    fn lines_of_a_table() {
        assert_eq!(table("uint16_t", "f", "links", &[1, 2]), "static const uint16_t f_links[2] = {\n    1, 2,\n};\n\n");
        let long = table("int64_t", "f", "nodes", &[i64::MAX; 20]);
        assert!(long.lines().all(|line| line.len() <= LINE) && long.lines().count() > 4);
    }
}
