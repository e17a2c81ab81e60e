//! `rename`: another name for a trace. The sheet stays as it is.

use super::arguments::{number, Arguments};
use super::names::{named, Name};
use super::shelf::{Held, Shelf};
use super::{plain, refused, saved, wrong, Answer};
use std::path::Path;

pub fn run(a: &Arguments) -> Answer {
    let [library, trace, name] = a.exactly(["LIBRARY", "the trace's NUMBER", "its NAME"])?;
    let trace = number("NUMBER", trace)?;
    let name = named(&name.to_string_lossy()).or_else(|why| wrong(format!("NAME: {why}")))?;
    if name.is_empty() {
        return wrong("NAME: it is empty.".to_string());
    }
    let path = Path::new(library);
    let held = Held::of(path, !a.has("--no-wait"))?;
    let mut shelf = Shelf::load(path)?;
    held.must_take(true, &[])?;
    let shown = plain::path(path);
    if trace >= shelf.library.len() {
        return refused(format!("{shown}: there is no trace {trace}; it holds {}, counted from 0.", shelf.library.len()));
    }
    let before = shelf.names.shown(trace).to_string();
    let known = shelf.names.of(trace).cloned().unwrap_or(Name { name: String::new(), file: String::new(), rate: None });
    shelf.names.set(trace, Name { name: name.clone(), ..known });
    let trouble = held.save_names(&shelf)?;
    saved(format!("{shown}: trace {trace}, {before}, is called {name} now.\n"), trouble)
}
