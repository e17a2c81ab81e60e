//! Plays scripts of calls, a line a call, by the protocol of `vectors/PROTOCOL.md`.
//!
//! Calls are made over lent tables, and what no reply shows is held on the way: a [`Session`] panics if a call writes a place that it may not write
//! (`memory.rs`). What is looked at between the calls is worked out by the model from what the tables record (`looking.rs`).
//!
//! ```
//! use testing::script::Session;
//!
//! let mut session = Session::new();
//! assert_eq!(session.play("open 1 8 2").as_deref(), Some("done"));
//! assert_eq!(session.play("add -1").as_deref(), Some("added 0"));
//! assert_eq!(session.play("match 4 | trail=0").as_deref(), Some("refused 7 0"));
//! assert_eq!(session.play("match 4").as_deref(), Some("matched 0 25 1 1 trail 0"));
//! assert_eq!(session.play("2 match 4").as_deref(), Some("refused 3 0"));
//! assert_eq!(session.play("# a comment"), None);
//! ```
//!
//! [`Session::of_the_model`] plays them by the model instead, which so is held to the same replies.
//!
//! A new call gets its form over a memory in [`crate::lending`] and [`crate::by_model`], a function here and a row of `LINES`. The function
//! takes its words from the line, lends an `Area` for each thing that the call fills, and says by an `Effect` what the call may do to the
//! tables.

pub mod bytes;
mod calls;
mod line;
mod looking;
mod memory;

use crate::model::{recording, sheet, Label, Measures, Refused};
use calls::{Calls, LIBRARY, MODEL};
use line::Line;
use memory::{Area, Effect, Memory};
use std::fmt::Display;

/// How many of document 02's requests have landed.
pub const STAGE: usize = 13;

/// Two libraries, of which nothing was opened at first: the factory's is the first, the bench's the second.
pub struct Session {
    libraries: [Memory; 2],
    calls: &'static Calls,
}

/// Why a line has not the reply of an accepted call.
enum Unanswered {
    /// The call refuses.
    Refused(Refused),
    /// The line is no call.
    Malformed(String),
}

/// The line is no call, and why.
fn malformed(why: impl Into<String>) -> Unanswered {
    Unanswered::Malformed(why.into())
}

type Reply = Result<String, Unanswered>;

/// A line's name, the keys that its suffix may have, and how it is played.
struct Played {
    name: &'static str,
    keys: &'static [&'static str],
    play: fn(&mut Session, Line<'_>) -> Reply,
}

const LINES: [Played; 23] = [
    Played { name: "open", keys: &["short"], play: open },
    Played { name: "add", keys: &["short"], play: add },
    Played { name: "match", keys: &["short", "trail"], play: nearest },
    Played { name: "write", keys: &["short", "sheet"], play: write },
    Played { name: "read", keys: &["short"], play: read },
    Played { name: "near", keys: &["short", "trail", "list"], play: k_nearest },
    Played { name: "import", keys: &["short"], play: import },
    Played { name: "export", keys: &["short", "buffer"], play: export },
    Played { name: "check", keys: &["short"], play: check },
    Played { name: "batch", keys: &["short", "trail"], play: batch },
    Played { name: "addl", keys: &["short"], play: add_labelled },
    Played { name: "label", keys: &["short"], play: label },
    Played { name: "remote", keys: &["short", "trail"], play: remote_match },
    Played { name: "bands", keys: &["short", "list"], play: bands },
    Played { name: "pair", keys: &["short", "short2", "trail", "trail2"], play: pair },
    Played { name: "limit", keys: &["short", "trail"], play: limit },
    Played { name: "ranges", keys: &["short", "list", "lows"], play: ranges },
    Played { name: "tree", keys: &[], play: looking::tree },
    Played { name: "below", keys: &[], play: looking::below },
    Played { name: "walks", keys: &[], play: looking::walks },
    Played { name: "distance", keys: &[], play: looking::distance },
    Played { name: "alter", keys: &[], play: looking::alter },
    Played { name: "program", keys: &[], play: looking::program },
];

impl Session {
    pub fn new() -> Session {
        Session { libraries: [Memory::unopened(), Memory::unopened()], calls: &LIBRARY }
    }

    /// The same, played by the model.
    pub fn of_the_model() -> Session {
        Session { calls: &MODEL, ..Session::new() }
    }

    /// The reply to a line; an empty line and a comment have none.
    pub fn play(&mut self, line: &str) -> Option<String> {
        if line.is_empty() || line.starts_with('#') {
            return None;
        }
        Some(match self.reply(line) {
            Ok(reply) => reply,
            Err(Unanswered::Refused((number, place))) => format!("refused {number} {place}"),
            Err(Unanswered::Malformed(why)) => format!("error {why}"),
        })
    }

    fn reply(&mut self, line: &str) -> Reply {
        let line = Line::parse(line)?;
        let unknown = || malformed(format!("{:?} is no call of stage {STAGE}", line.name));
        let played = LINES.iter().find(|played| played.name == line.name).ok_or_else(unknown)?;
        line.only(played.keys)?;
        (played.play)(self, line)
    }

    /// The library that a line speaks to.
    fn library(&mut self, line: &Line) -> &mut Memory {
        &mut self.libraries[line.library]
    }
}

impl Default for Session {
    fn default() -> Session {
        Session::new()
    }
}

/// A word, and behind it what it lists.
fn list(word: &str, items: impl IntoIterator<Item = impl Display>) -> String {
    items.into_iter().fold(word.to_string(), |text, item| format!("{text} {item}"))
}

// ---- the calls

fn open(session: &mut Session, mut line: Line<'_>) -> Reply {
    let measures = Measures { n: line.next()?, capacity: line.next()?, leaf_size: line.next()? };
    line.end()?;
    let open = session.calls.open;
    session.library(&line).call(&line, Effect::Puts(measures), |t, l| open(t, l, measures))?;
    Ok("done".into())
}

fn add(session: &mut Session, mut line: Line<'_>) -> Reply {
    let (trace, add): (Vec<i32>, _) = (line.rest()?, session.calls.add);
    let number = session.library(&line).call(&line, Effect::Changes, |t, l| add(t, l, &trace))?;
    Ok(format!("added {number}"))
}

fn add_labelled(session: &mut Session, mut line: Line<'_>) -> Reply {
    let label = Label { code: line.next()?, serial: line.next()? };
    let (trace, add): (Vec<i32>, _) = (line.rest()?, session.calls.add_labelled);
    let number = session.library(&line).call(&line, Effect::Changes, |t, l| add(t, l, &trace, label))?;
    Ok(format!("added {number}"))
}

fn label(session: &mut Session, mut line: Line<'_>) -> Reply {
    let (number, label): (u64, _) = (line.next()?, session.calls.label);
    line.end()?;
    let Label { code, serial } = session.library(&line).call(&line, Effect::Looks, |t, l| label(t, l, number))?;
    Ok(format!("label {code} {serial}"))
}

fn nearest(session: &mut Session, mut line: Line<'_>) -> Reply {
    let (query, nearest): (Vec<i32>, _) = (line.rest()?, session.calls.nearest);
    let library = session.library(&line);
    let mut trail = Area::of("trail", line.places("trail", library.leaves())?);
    let answer = library.call(&line, Effect::Searches, |t, l| nearest(t, l, trail.lent(), &query));
    let [trace, distance, leaves, traces] = trail.kept_if_refused(answer)?;
    Ok(format!("matched {trace} {distance} {leaves} {traces} {}", list("trail", trail.filled(leaves))))
}

fn remote_match(session: &mut Session, mut line: Line<'_>) -> Reply {
    let (query, remote_match): (Vec<i32>, _) = (line.rest()?, session.calls.remote_match);
    let library = session.library(&line);
    let mut trail = Area::of("trail", line.places("trail", library.leaves())?);
    let answer = library.call(&line, Effect::Searches, |t, l| remote_match(t, l, trail.lent(), &query));
    let [trace, distance, leaves, traces, code] = trail.kept_if_refused(answer)?;
    Ok(format!("remote {trace} {distance} {leaves} {traces} {code} {}", list("trail", trail.filled(leaves))))
}

fn k_nearest(session: &mut Session, mut line: Line<'_>) -> Reply {
    let (k, query, k_nearest): (u64, Vec<i32>, _) = (line.next()?, line.rest()?, session.calls.k_nearest);
    let library = session.library(&line);
    let mut trail = Area::of("trail", line.places("trail", library.leaves())?);
    // a k above 16 is refused whatever the list
    let mut records = Area::of("list", 2 * line.places("list", k.min(17) as usize)?);
    let answer = library.call(&line, Effect::Searches, |t, l| k_nearest(t, l, trail.lent(), records.lent(), &query, k));
    let [leaves, traces, listed] = records.kept_if_refused(trail.kept_if_refused(answer))?;
    let read = list("trail", trail.filled(leaves));
    let listed = records.filled(2 * listed).chunks(2).map(|record| format!("{}:{}", record[0], record[1]));
    Ok(format!("near {leaves} {traces} {read} {}", list("list", listed)))
}

fn bands(session: &mut Session, mut line: Line<'_>) -> Reply {
    let (many, bands): (usize, _) = (line.next()?, session.calls.count_bands);
    let edges = (0..many).map(|_| line.next()).collect::<Result<Vec<u64>, Unanswered>>()?;
    let query: Vec<i32> = line.rest()?;
    let mut records = Area::of("list", 2 * line.places("list", many.saturating_sub(1))?);
    let answer = session.library(&line).call(&line, Effect::Searches, |t, l| bands(t, l, records.lent(), &query, &edges));
    records.kept_if_refused(answer)?;
    let counts = records.filled(2 * (many as u64 - 1)).chunks(2).map(|record| format!("{}:{}", record[0], record[1]));
    Ok(list("bands", counts))
}

fn pair(session: &mut Session, mut line: Line<'_>) -> Reply {
    if line.library != 0 {
        return Err(malformed("a pair speaks to both libraries"));
    }
    let (query, match_both): (Vec<i32>, _) = (line.rest()?, session.calls.match_both);
    let leaves = session.libraries.each_ref().map(Memory::leaves);
    let mut first = Area::of("trail", line.places("trail", leaves[0])?);
    let mut second = Area::of("second trail", line.places("trail2", leaves[1])?);
    let answer = Memory::call_both(&mut session.libraries, &line, |t, l| match_both(t, l, [first.lent(), second.lent()], &query));
    let ([library, trace, distance, leaves, traces, factory_leaves], part) = second.kept_if_refused(first.kept_if_refused(answer))?;
    let n = query.len();
    assert_eq!(part, trace as usize * n..(trace as usize + 1) * n, "pair hands back another part than the winner's samples");
    let trails = [list("trail1", first.filled(factory_leaves)), list("trail2", second.filled(leaves - factory_leaves))];
    Ok(format!("pair {} {trace} {distance} {leaves} {traces} {}", library + 1, trails.join(" ")))
}

fn limit(session: &mut Session, mut line: Line<'_>) -> Reply {
    let (most, query, match_within): (u64, Vec<i32>, _) = (line.next()?, line.rest()?, session.calls.match_within);
    let library = session.library(&line);
    let mut trail = Area::of("trail", line.places("trail", library.leaves())?);
    let answer = library.call(&line, Effect::Searches, |t, l| match_within(t, l, trail.lent(), &query, most));
    let ([trace, distance, leaves, traces], unread) = trail.kept_if_refused(answer)?;
    let read = list("trail", trail.filled(leaves));
    Ok(match unread {
        None => format!("limit settled {trace} {distance} {leaves} {traces} {read}"),
        Some(bound) => format!("limit open {trace} {distance} {leaves} {traces} {bound} {read}"),
    })
}

fn ranges(session: &mut Session, mut line: Line<'_>) -> Reply {
    let (figures, match_clipped): (Vec<i32>, _) = (line.rest()?, session.calls.match_clipped);
    let half = line.places("lows", figures.len().div_ceil(2))?;
    let (lows, highs) = figures.split_at_checked(half).ok_or_else(|| malformed("there are fewer figures than lows"))?;
    let library = session.library(&line);
    let mut numbers = Area::of("list", line.places("list", library.stored())?);
    let answer = library.call(&line, Effect::Searches, |t, l| match_clipped(t, l, numbers.lent(), lows, highs));
    let listed = numbers.kept_if_refused(answer)?;
    Ok(format!("ranges {listed} {}", list("list", numbers.filled(listed))))
}

fn write(session: &mut Session, line: Line<'_>) -> Reply {
    line.end()?;
    let write = session.calls.write_sheet;
    let library = session.library(&line);
    // tables that hold no library are refused whatever the sheet
    let need = library.recorded().map_or(512, |library| sheet::need(&library));
    let mut bytes = Area::of("sheet", line.places("sheet", need)?);
    let answer = library.call(&line, Effect::Looks, |t, l| write(t, l, bytes.lent()));
    let blocks = bytes.kept_if_refused(answer)?;
    Ok(format!("written {blocks} {}", bytes::told(bytes.filled(512 * blocks))))
}

fn read(session: &mut Session, mut line: Line<'_>) -> Reply {
    let (bytes, read) = (line.bytes()?, session.calls.read_sheet);
    line.end()?;
    let measures = sheet::measures(&bytes).unwrap_or(Measures { n: 0, capacity: 0, leaf_size: 0 });
    session.library(&line).call(&line, Effect::Puts(measures), |t, l| read(t, l, &bytes))?;
    Ok("done".into())
}

fn import(session: &mut Session, mut line: Line<'_>) -> Reply {
    let (bytes, import) = (line.bytes()?, session.calls.import_recording);
    line.end()?;
    let count = session.library(&line).call(&line, Effect::Changes, |t, l| import(t, l, &bytes))?;
    Ok(format!("imported {count}"))
}

fn export(session: &mut Session, mut line: Line<'_>) -> Reply {
    let (rate, number, export): (u32, u64, _) = (line.next()?, line.next()?, session.calls.export_recording);
    line.end()?;
    let library = session.library(&line);
    let mut buffer = Area::of("buffer", line.places("buffer", recording::size(library.tables().measures().n))?);
    let answer = library.call(&line, Effect::Looks, |t, l| export(t, l, buffer.lent(), number, rate.into()));
    let size = buffer.kept_if_refused(answer)?;
    Ok(format!("exported {size} {}", bytes::told(buffer.filled(size))))
}

fn check(session: &mut Session, line: Line<'_>) -> Reply {
    line.end()?;
    let check = session.calls.check_tables;
    session.library(&line).call(&line, Effect::Looks, |t, l| check(t, l))?;
    Ok("trusted".into())
}

fn batch(session: &mut Session, mut line: Line<'_>) -> Reply {
    let (many, places, queries): (usize, usize, Vec<i32>) = (line.next()?, line.next()?, line.rest()?);
    let batch = session.calls.match_batch;
    let library = session.library(&line);
    let mut trail = Area::of("trail", line.places("trail", library.leaves())?);
    let mut records = Area::of("list", places);
    let answer = library.call(&line, Effect::Searches, |t, l| batch(t, l, trail.lent(), &queries, many, records.lent()));
    let leaves = records.kept_if_refused(trail.kept_if_refused(answer))?;
    let read = list("trail", trail.filled(leaves));
    let answers = records.filled(many as u64).iter().map(|record| format!("{}:{}", record.trace, record.distance));
    Ok(format!("batch {leaves} {read} {}", list("answers", answers)))
}
