//! Lines that are no calls: the tree, a query's bounds, a leaf's walks and a distance with a limit as the model works them out from what the tables record,
//! tables altered between two calls, and the program's line.

use super::line::number;
use super::{list, malformed, Line, Reply, Session, Unanswered};
use crate::model::tables::{segment_place, word_of, Tables, RECORD_PLACES, RUN, THRESHOLD};
use crate::model::{candidates, distance_within, within, Figure, Kind, Node, Segment, Within, SAMPLE_LIMIT};

/// Every node's record.
pub fn tree(session: &mut Session, line: Line<'_>) -> Reply {
    line.end()?;
    let library = session.library(&line).recorded()?;
    let nodes = library.nodes.iter().enumerate().map(|(j, node)| record(j, node));
    Ok(list(&format!("tree {}", nodes.len()), nodes.map(|record| format!("; {record}"))))
}

fn record(j: usize, node: &Node) -> String {
    let ranges = |word: &str, range: fn(&Segment) -> (i128, i128)| {
        list(word, node.segments.iter().map(range).map(|(least, greatest)| format!("{least}:{greatest}")))
    };
    let ends = list("ends", node.ends());
    let sums = ranges("sums", |s| (s.least_sum, s.greatest_sum));
    let scatters = ranges("scatters", |s| (s.least_scatter, s.greatest_scatter));
    match &node.kind {
        Kind::Leaf(numbers) => format!("{j} leaf {ends} {sums} {scatters} {}", list("traces", numbers)),
        Kind::Inner { test, left, right } => {
            let figure = match test.figure {
                Figure::Sum => "sum",
                Figure::Scatter => "scatter",
            };
            let test = format!("run {} {} figure {figure} T {}", test.first, test.last, test.threshold);
            format!("{j} inner {ends} {sums} {scatters} {test} children {left} {right}")
        }
    }
}

/// Every leaf in reading order, with its bound and its upper figure.
pub fn below(session: &mut Session, mut line: Line<'_>) -> Reply {
    let query: Vec<i32> = line.rest()?;
    let Some(library) = session.library(&line).tables().library() else { return Err(malformed("these tables are not well formed")) };
    if query.len() as u64 != library.measures.n {
        return Err(malformed("a query of another length than n"));
    }
    let (bounds, uppers) = (library.bounds(&query), library.uppers(&query));
    Ok(list("below", library.reading_order(&bounds).into_iter().map(|j| format!("{j}:{}:{}", bounds[j], uppers[j]))))
}

/// Each candidate of a leaf: whether its walk sees both sides, and how many traces it takes.
pub fn walks(session: &mut Session, mut line: Line<'_>) -> Reply {
    let leaf: usize = line.next()?;
    line.end()?;
    let library = session.library(&line).recorded()?;
    if !library.leaves().contains(&leaf) {
        return Err(malformed("no such leaf"));
    }
    let walks = candidates(&library.nodes[leaf].ends()).into_iter().map(|candidate| library.walk(leaf, &candidate));
    Ok(list("walks", walks.map(|(both, taken)| format!("{}:{taken}", if both { "yes" } else { "no" }))))
}

/// The distance of a query to a stored trace, with a limit.
pub fn distance(session: &mut Session, mut line: Line<'_>) -> Reply {
    let (limit, trace): (u64, usize) = (line.next()?, line.next()?);
    let query: Vec<i32> = line.rest()?;
    let library = session.library(&line).recorded()?;
    let Some(stored) = library.traces.get(trace) else { return Err(malformed("no stored trace")) };
    if query.len() != stored.len() {
        return Err(malformed("a query of another length than n"));
    }
    Ok(match distance_within(stored, &query, limit.into()) {
        Within::Exact(distance) => format!("exact {distance}"),
        Within::Beyond(samples) => format!("beyond {samples}"),
    })
}

/// Somebody writes the tables: a sample, as its word, or fields of a node's record.
pub fn alter(session: &mut Session, mut line: Line<'_>) -> Reply {
    let tables = session.library(&line).tables();
    match line.word()? {
        "trace" => alter_trace(tables, line)?,
        node => alter_node(tables, number(node)?, line)?,
    }
    Ok("altered".into())
}

fn alter_trace(tables: &mut Tables, mut line: Line<'_>) -> Result<(), Unanswered> {
    let (trace, sample, value): (usize, usize, i32) = (line.next()?, line.next()?, line.next()?);
    line.end()?;
    let (n, count) = (usize::from(tables.control[0]), usize::from(tables.control[3]));
    if trace >= count || !(1..=n).contains(&sample) {
        return Err(malformed("no sample of a stored trace"));
    }
    if !within(SAMPLE_LIMIT, &[value]) {
        return Err(malformed("no word of the table stands for this sample"));
    }
    tables.samples[trace * n + sample - 1] = word_of(value);
    Ok(())
}

/// A segment's figures, in the order in which they stand behind its end.
const FIGURES: [&str; 4] = ["least_sum", "greatest_sum", "least_scatter", "greatest_scatter"];

fn alter_node(tables: &mut Tables, node: usize, mut line: Line<'_>) -> Result<(), Unanswered> {
    if node >= usize::from(tables.control[4]) {
        return Err(malformed("no such node"));
    }
    let record = &mut tables.nodes[node * RECORD_PLACES..(node + 1) * RECORD_PLACES];
    let places = match line.word()? {
        "threshold" | "run" if record[0] == 0 => return Err(malformed("a leaf has no test")),
        "threshold" => vec![THRESHOLD],
        "run" => RUN.to_vec(),
        segment => {
            let (segment, figure): (usize, &str) = (number(segment)?, line.word()?);
            match FIGURES.iter().position(|name| *name == figure) {
                Some(behind) if (segment as i64) < record[1] => vec![segment_place(segment) + 1 + behind],
                _ => return Err(malformed("no figure of a segment")),
            }
        }
    };
    let values: Vec<i64> = line.rest()?;
    if values.len() != places.len() {
        return Err(malformed("a value for each field"));
    }
    for (place, value) in places.into_iter().zip(values) {
        record[place] = value;
    }
    Ok(())
}

/// The line that the program prints of a sheet.
pub fn program(session: &mut Session, mut line: Line<'_>) -> Reply {
    let sheet = line.bytes()?;
    line.end()?;
    let printed = (session.calls.program)(&sheet).map_err(malformed)?;
    Ok(printed.strip_suffix('\n').expect("the program prints a line").into())
}
