//! The vectors of another implementation: `vectors/libraries.txt` against model and calls, `vectors/sheets.txt` against the model.

mod common;

use common::{check_add, check_nearest, check_open, junk, measures, sheet_vectors, vectors};
use testing::model::sheet::program_line;
use testing::model::tables::needs;
use testing::model::{gaps, runs, scatter, sum, width, Figure, Kind, Library, Trace};

/// Every number of a line, in order; a number's sign stands right before it.
fn numbers(line: &str) -> Vec<i128> {
    line.split(|c: char| !(c.is_ascii_digit() || c == '-')).filter_map(|word| word.parse().ok()).collect()
}

/// What stands in the line's brackets.
fn list(line: &str) -> Vec<i128> {
    let inside = line.split_once('[').expect("a list").1;
    numbers(inside)
}

struct Vector {
    name: String,
    lines: Vec<String>,
}

fn all() -> Vec<Vector> {
    let mut list: Vec<Vector> = Vec::new();
    for line in vectors("libraries.txt").lines().filter(|l| !l.is_empty() && !l.starts_with('#')) {
        match line.strip_prefix("== ") {
            Some(name) => list.push(Vector { name: name.to_string(), lines: Vec::new() }),
            None => list.last_mut().expect("a name first").lines.push(line.to_string()),
        }
    }
    list
}

impl Vector {
    /// The library, and its query; those from the scripts' `tree` lines have none, and nothing that rests on one.
    fn library(&self) -> (Library, Option<Trace>) {
        let [n, capacity, leaf_size, ..] = numbers(&self.lines[0])[..] else { panic!("{}", self.name) };
        let samples = |line: &String| -> Trace { list(line).into_iter().map(|x| x as i32).collect() };
        let traces: Vec<Trace> = self.lines.iter().filter(|l| l.starts_with("trace ")).map(samples).collect();
        let query = self.lines.iter().find(|l| l.starts_with("query:")).map(samples);
        (Library::of(measures(n as usize, capacity as usize, leaf_size as usize), &traces), query)
    }

    /// Every figure of the vector, line by line, against a library.
    fn compare(&self, library: &Library, asked: Option<&[i32]>) {
        let nothing = vec![0; library.measures.n as usize];
        let query = asked.unwrap_or(&nothing);
        let bounds = library.bounds(query);
        let mut node = 0;
        let mut segment = 0;
        for line in &self.lines {
            let says = |figures: &[i128]| assert_eq!(numbers(line), figures, "{}: {line}", self.name);
            let m = library.measures;
            if line.starts_with("n ") {
                let counts = [m.n, m.capacity, m.leaf_size, library.traces.len() as u64, library.nodes.len() as u64, library.leaves().len() as u64];
                says(&counts.map(i128::from));
            } else if line.starts_with("trace ") {
                if asked.is_some() {
                    let [t, d, ..] = numbers(line)[..] else { panic!() };
                    assert_eq!(testing::model::distance(&library.traces[t as usize], query), d, "{}: {line}", self.name);
                }
            } else if line.starts_with("node ") {
                node = numbers(line)[0] as usize;
                segment = 0;
                self.compare_node(line, library, node);
            } else if line.trim_start().starts_with("segment ") {
                let s = &library.nodes[node].segments[segment];
                let run = runs(&library.nodes[node].ends())[segment];
                let part = &query[run.0 - 1..run.1];
                let (g, h) = gaps(s, sum(part), scatter(part));
                let w = width(run);
                let term = (g * g + h * h + w - 1) / w;
                let ranges = [s.least_sum, s.greatest_sum, s.least_scatter, s.greatest_scatter];
                let mut figures = vec![run.0 as i128, run.1 as i128];
                figures.extend(ranges);
                if asked.is_some() {
                    figures.extend([sum(part), scatter(part), g, h, term]);
                }
                says(&figures);
                segment += 1;
            } else if line.trim_start().starts_with("own bound ") {
                assert_eq!(segment, library.nodes[node].segments.len(), "{}: segments of node {node}", self.name);
                says(&[library.own_bound(node, query), bounds[node]]);
            } else if line.starts_with("match: ") {
                let found = library.nearest(query).expect("a trace");
                let trail: Vec<i128> = found.trail.iter().map(|&x| x as i128).collect();
                says(&[&[found.trace as i128, found.distance, found.leaves as i128, found.traces as i128], &trail[..]].concat());
            } else {
                assert!(line.starts_with("query:"), "{}: {line}", self.name);
            }
        }
    }

    fn compare_node(&self, line: &str, library: &Library, node: usize) {
        match &library.nodes[node].kind {
            Kind::Leaf(held) => {
                assert!(line.contains(" leaf"), "{}: {line}", self.name);
                let over = held.len() as u64 > library.measures.leaf_size;
                assert_eq!(line.contains("over size"), over, "{}: {line}", self.name);
                assert_eq!(list(line), held.iter().map(|&t| t as i128).collect::<Vec<_>>(), "{}: {line}", self.name);
            }
            Kind::Inner { test, left, right } => {
                let figure = if line.contains("Sum of") { Figure::Sum } else { Figure::Scatter };
                assert!(line.contains("Sum of") || line.contains("Scatter of"), "{}: {line}", self.name);
                assert_eq!(figure, test.figure, "{}: {line}", self.name);
                let says = numbers(line.split_once(": ").expect("a test").1);
                let has = [test.first as i128, test.last as i128, test.threshold, *left as i128, *right as i128];
                assert_eq!(says, has, "{}: {line}", self.name);
            }
        }
    }
}

#[test]
fn libraries_and_the_model() {
    let list = all();
    assert!(list.len() >= 76);
    for vector in &list {
        let (library, query) = vector.library();
        vector.compare(&library, query.as_deref());
    }
}

#[test]
fn libraries_and_the_calls() {
    for vector in &all() {
        let (library, query) = vector.library();
        let l = needs(library.measures);
        let mut t = junk(l);
        check_open(&mut t, l, library.measures).unwrap();
        for trace in &library.traces {
            check_add(&mut t, l, trace).unwrap();
        }
        let held = t.library().expect("well formed");
        vector.compare(&held, query.as_deref());
        if let Some(query) = query {
            let mut trail = vec![0; held.leaves().len()];
            check_nearest(&mut t, l, &mut trail, &query).unwrap();
        }
    }
}

#[test]
fn sheets_and_the_model() {
    let list = sheet_vectors();
    assert!(list.len() >= 181);
    for (name, printed, sheet) in list {
        assert_eq!(program_line(&sheet), printed, "{name}");
    }
}
