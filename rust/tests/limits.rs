//! A limit on leaves at the bench: `match --leaves` and `limits`, in text, for programs and as a picture. What is settled is the match; an open
//! answer is never called the nearest, and the true distance lies where it says. And the guide's program for a controller.

mod bench;

use bench::*;
use silkendoz::{scan, LimitedMatch, TraceLibrary};
use std::fs;
use std::path::Path;
use std::process::Command;
use testing::random::{uniform, Random};

fn text(json: &Json) -> &str {
    let Json::Text(text) = json else { panic!("no text: {json:?}") };
    text
}

fn fields(json: &Json) -> Vec<&str> {
    let Json::Object(fields) = json else { panic!("no object: {json:?}") };
    fields.iter().map(|(name, _)| name.as_str()).collect()
}

/// The least distance of all, and the lowest number that has it.
fn scanned(library: &TraceLibrary, sweep: &[i32]) -> (u64, u64) {
    let samples: Vec<_> = library.traces().flatten().copied().collect();
    let (trace, distance) = scan::nearest(&samples, library.n(), sweep).unwrap();
    (trace as u64, distance)
}

/// How many leaves the match reads.
fn trail(library: &TraceLibrary, sweep: &[i32]) -> u64 {
    library.nearest(sweep).unwrap().leaves as u64
}

/// A folder with the example's library, its sweep of today, one that no fault is like, and one that is stored; and their samples.
fn watched(name: &str) -> (Folder, Vec<(&'static str, Vec<i32>)>) {
    let folder = bench(name);
    folder.done("build faults.sheet --samples 64 --capacity 64 --leaf-size 1 faults.csv");
    let (faults, today) = faults();
    // half way between two faults that have nothing to do with each other
    let between: Vec<i32> = faults[0].1.iter().zip(&faults[30].1).map(|(a, b)| (a + b) / 2).collect();
    let far: Vec<i32> = faults[9].1.iter().map(|x| x + 900).collect();
    let sweeps = vec![("today", today), ("between", between), ("far", far), ("stored", faults[9].1.clone())];
    for (name, sweep) in &sweeps {
        folder.write(&format!("{name}.csv"), joined(sweep, " "));
    }
    (folder, sweeps)
}

/// A library of noise in small leaves, of which a match reads many, and a sweep of noise.
fn noisy(name: &str) -> (Folder, Vec<i32>) {
    let folder = Folder::new(name);
    let mut random = Random::seeded(2026);
    let mut trace = || uniform(&mut random, 64, -2000, 2000);
    let lines: Vec<String> = (0..400).map(|_| format!("{}\n", joined(&trace(), ","))).collect();
    let sweep = trace();
    folder.write("noise.csv", lines.concat());
    folder.write("sweep.csv", joined(&sweep, ","));
    folder.done("build noise.sheet --samples 64 --leaf-size 1 noise.csv");
    (folder, sweep)
}

/// The one sweep's object.
fn only(folder: &Folder, line: &str) -> Json {
    let Json::Object(all) = Json::of(&folder.done(line)) else { panic!("no object") };
    let Json::List(mut sweeps) = all.into_iter().find(|(name, _)| name == "sweeps").unwrap().1 else { panic!("no list") };
    assert_eq!(sweeps.len(), 1);
    sweeps.remove(0)
}

fn has_nearest(text: &str) -> bool {
    text.to_lowercase().contains("nearest")
}

/// From the leaf on that the match reads last, the answer is the match: its text, its table, its object.
#[test]
fn what_is_settled_is_the_match() {
    let (folder, sweeps) = watched("limits-settled");
    let library = folder.library("faults.sheet");
    for (name, sweep) in &sweeps {
        let needed = trail(&library, sweep);
        let matched = folder.done(&format!("match faults.sheet {name}.csv -k 1"));
        let object = only(&folder, &format!("match faults.sheet {name}.csv -k 1 --json"));
        for limit in [needed, needed + 1, 4096, u64::MAX] {
            let said = folder.done(&format!("match faults.sheet {name}.csv --leaves {limit}"));
            let leaves = if limit == 1 { "1 leaf".to_string() } else { format!("{limit} leaves") };
            let end = format!(": settled within the limit of {leaves}.\n");
            assert_eq!(said.replace("(--leaves)", "(-k 1)").replace(&end, ".\n"), matched, "{name} {limit}");
            let settled = only(&folder, &format!("match faults.sheet {name}.csv --leaves {limit} --json"));
            assert_eq!((settled.at("settled").number(), settled.at("leaves_limit")), (1, &Json::Number(limit as f64)));
            assert_eq!(fields(&settled).len(), fields(&object).len() + 2);
            for field in fields(&object).into_iter().filter(|field| *field != "verdict") {
                assert_eq!(settled.at(field), object.at(field), "{name} {limit} {field}");
            }
            assert_eq!(settled.at("verdict").at("word"), object.at("verdict").at("word"));
        }
        if needed > 1 {
            assert!(!folder.done(&format!("match faults.sheet {name}.csv --leaves {}", needed - 1)).contains("settled"), "{name}");
        }
    }
    // a limit that 64 bits do not hold is no limit either
    assert!(folder.done("match faults.sheet today.csv --leaves 99999999999999999999").contains("settled within"));
    assert!(folder.done("match faults.sheet today.csv --leaves 4096 -k 1").contains("settled within"));
}

/// In text, as a line and for programs: no open answer has the word, and each has what is known instead.
#[test]
fn what_is_open_is_the_best_so_far() {
    let (folder, sweeps) = watched("limits-open");
    let library = folder.library("faults.sheet");
    let mut seen = 0;
    for (name, sweep) in &sweeps {
        let truly = scanned(&library, sweep).1;
        for limit in 1..trail(&library, sweep) {
            let LimitedMatch::Open(found) = library.match_within(sweep, limit).unwrap() else { panic!("{name} {limit}") };
            let line = format!("match faults.sheet {name}.csv --leaves {limit}");
            let [said, tsv, json] = ["", " --tsv", " --json"].map(|form| folder.done(&format!("{line}{form}")));
            assert!(![&said, &tsv, &json].iter().any(|text| has_nearest(text)), "{name} {limit}: {said}{tsv}{json}");

            assert!(said.to_lowercase().contains("best so far"), "{said}");
            assert!(said.lines().nth(2).unwrap().contains(&format!("  {}  ", found.distance)), "{said}");
            let lies = match found.bound == found.distance {
                true => format!("The true distance is {truly}; a trace with a lower number may have it too."),
                false => format!("The true distance lies between {} and {}: off by ", found.bound, found.distance),
            };
            assert!(said.contains(&lies), "{said}");
            let leaves = if limit == 1 { "1 leaf".to_string() } else { format!("{limit} leaves") };
            let read = format!("Read: {limit} of 36 leaves, {} of 36 traces: the limit of {leaves} came before the end.\n", found.traces);
            assert!(said.ends_with(&read), "{said}");

            let open = only(&folder, &format!("{line} --json"));
            assert_eq!((open.at("settled").number(), open.at("leaves_limit").number(), open.at("leaves_read").number()), (0, limit, limit));
            assert_eq!(open.at("best_so_far").at("number").number(), found.trace as u64);
            let (bound, distance) = (open.at("bound").number(), open.at("best_so_far").at("distance").number());
            assert_eq!((bound, distance), (found.bound, found.distance));
            assert!(bound <= truly && truly <= distance, "{name} {limit}");
            assert!(said.replace('\n', " ").contains(text(open.at("verdict").at("text"))), "{said}");

            let rows: Vec<Vec<&str>> = tsv.lines().map(|line| line.split('\t').collect()).collect();
            let cell = |head: &str| rows[1][rows[0].iter().position(|own| *own == head).unwrap()];
            assert_eq!((rows.len(), rows[0].len(), cell("answer"), cell("limit")), (2, rows[1].len(), "best so far", limit.to_string().as_str()));
            assert_eq!((cell("at least"), cell("distance")), (found.bound.to_string().as_str(), found.distance.to_string().as_str()));
            assert_eq!((cell("leaves read"), cell("verdict")), (limit.to_string().as_str(), text(open.at("verdict").at("word"))));
            seen += 1;
        }
    }
    assert!(seen > 10, "{seen}");
}

/// What is sure of an open answer: that some fault is near enough, that none is, or neither. It never fits.
#[test]
fn verdicts_of_open_answers() {
    let folder = Folder::new("limits-verdicts");
    // two faults, traces of one lie 2 apart; a leaf a trace
    folder.write("faults.csv", "\"dry, 1\",0,0,0,0\n\"dry, 2\",2,2,2,2\n\"loose, 1\",60,0,60,0\n\"loose, 2\",62,2,62,2\n");
    folder.done("build f.sheet --samples 4 --leaf-size 1 faults.csv");
    let library = folder.library("f.sheet");
    let near = (0..4).flat_map(|x| [[1 + x, 1 - x, 1, 1], [61 + x, 1, 61 - x, 1], [61, 1 + x, 61, 1 - x]]);
    let far = (0..70).step_by(6).flat_map(|a| (-20..30).step_by(7).map(move |b| [a, b, a + 1, b]));
    let mut words = Vec::new();
    for sweep in near.chain(far) {
        folder.write("q.csv", joined(&sweep, ","));
        let truly = scanned(&library, &sweep).1;
        let LimitedMatch::Open(found) = library.match_within(&sweep, 1).unwrap() else { continue };
        let open = only(&folder, "match f.sheet q.csv --leaves 1 --json");
        let (word, said) = (text(open.at("verdict").at("word")).to_string(), text(open.at("verdict").at("text")));
        match word.as_str() {
            "like nothing stored" => assert!(truly > 16 && said.starts_with("Like nothing stored: the best so far, "), "{said}"),
            "not judged" => assert!(found.distance <= 16 && said.contains("It is near enough for this fault; another may be "), "{said}"),
            "open" => assert!(said.contains("Whether any stored trace is near enough is open."), "{said}"),
            other => panic!("{other}"),
        }
        // what is near enough or not in the end is never said to be otherwise
        let settled = only(&folder, "match f.sheet q.csv --leaves 9 --json");
        let last = text(settled.at("verdict").at("word"));
        assert!(word == "open" || word == last, "{sweep:?}: {word}, {last}");
        words.push(word);
    }
    for word in ["like nothing stored", "not judged", "open"] {
        assert!(words.iter().any(|own| own == word), "{word} is never said");
    }
    // no fault is stored twice
    folder.write("once.csv", "\"dry, 1\",0,0,0,0\n\"loose, 1\",60,0,60,0\n\"bent, 1\",0,60,0,60\n");
    folder.done("build once.sheet --samples 4 --leaf-size 1 once.csv");
    folder.write("q.csv", "30,1,30,2\n");
    let said = folder.done("match once.sheet q.csv --leaves 1");
    assert!(said.contains("Best so far: ") && said.contains("Whether it fits is not judged: no fault is stored twice."), "{said}");
}

/// A bound that is as large as the distance: the distance is known, and it is open all the same.
#[test]
fn a_distance_that_is_known() {
    let folder = Folder::new("limits-known");
    folder.write("t.csv", "\"a, 1\",4\n\"b, 1\",0\n\"c, 1\",9\n\"c, 2\",5\n\"d, 1\",40\n");
    folder.done("build t.sheet --samples 1 --leaf-size 1 t.csv");
    folder.write("q.csv", "2\n");
    let said = folder.done("match t.sheet q.csv --leaves 1");
    assert!(said.contains("The true distance is 4; a trace with a lower number may have it too."), "{said}");
    assert!(said.contains("another may be as near.") && !said.contains("nearer") && !has_nearest(&said), "{said}");
    let said = folder.done("limits t.sheet q.csv");
    let last: Vec<Vec<&str>> = said.lines().skip(2).take(2).map(|line| line.split_whitespace().rev().take(3).collect()).collect();
    assert_eq!(last, [["open", "2.0", "4"], ["settled", "2.0", "4"]], "{said}");
    // one leaf holds all that a stored sweep needs
    folder.write("q.csv", "40\n");
    assert_eq!(folder.done("limits t.sheet q.csv").lines().last(), Some("Of 5 leaves: trace 4 is found and settled with 1 leaf."));
}

/// That the rate is another than that of the best so far is said without the word, too.
#[test]
fn remarks_of_open_answers() {
    let folder = Folder::new("limits-remarks");
    folder.write("t.csv", "0,0\n400,0\n0,400\n");
    folder.done("build t.sheet --samples 2 t.csv");
    for (number, rate) in [(0, 2000), (1, 2000), (2, 8000)] {
        folder.done(&format!("export t.sheet {number} -o {number}.wav --rate {rate}"));
    }
    folder.done("build r.sheet --samples 2 --leaf-size 1 0.wav 1.wav 2.wav");
    folder.write("q.csv", "200,150\n");
    folder.done("build q.sheet --samples 2 q.csv");
    folder.done("export q.sheet 0 -o q.wav --rate 8000");
    let said = folder.done("match r.sheet q.wav --leaves 1");
    assert!(said.contains("It has 8000 samples a second, the best trace so far 2000: they do not compare.\n"), "{said}");
    assert!(!has_nearest(&said), "{said}");
    assert!(folder.done("match r.sheet q.wav --leaves 9").contains("It has 8000 samples a second, its nearest trace 2000: they do not compare."));
}

/// A line a sweep, settled ones and open ones in one table.
#[test]
fn several_sweeps() {
    let (folder, sweeps) = watched("limits-several");
    let library = folder.library("faults.sheet");
    let files = sweeps.iter().map(|(name, _)| format!("{name}.csv")).collect::<Vec<_>>().join(" ");
    let said = folder.done(&format!("match faults.sheet {files} --leaves 2"));
    let settled = sweeps.iter().filter(|(_, sweep)| trail(&library, sweep) <= 2).count();
    assert!(0 < settled && settled < sweeps.len());
    assert!(said.contains(&format!("Settled within the limit of 2 leaves: {settled} of 4 sweeps.\n")), "{said}");
    assert!(said.contains("Verdicts are by this: traces of one fault lie 65.9 to 111.7 apart.\n"), "{said}");
    let tsv = folder.done(&format!("match faults.sheet {files} --leaves 2 --tsv"));
    let rows: Vec<Vec<&str>> = tsv.lines().map(|line| line.split('\t').collect()).collect();
    let cell = |row: usize, head: &str| rows[row][rows[0].iter().position(|own| *own == head).unwrap()];
    for (at, (name, sweep)) in sweeps.iter().enumerate() {
        let (number, distance) = scanned(&library, sweep);
        let is_settled = trail(&library, sweep) <= 2;
        assert_eq!(cell(at + 1, "answer"), if is_settled { "settled" } else { "best so far" }, "{name}");
        let [least, most]: [u64; 2] = ["at least", "distance"].map(|head| cell(at + 1, head).parse().unwrap());
        assert!(least <= distance && distance <= most, "{name}");
        if is_settled {
            assert_eq!((least, cell(at + 1, "no.")), (most, number.to_string().as_str()), "{name}");
        }
        // the text has the same cells
        let line = said.lines().find(|line| line.trim_start().starts_with(&format!("{name} "))).unwrap();
        assert!(["answer", "verdict", "name", "distance", "at least"].iter().all(|head| line.contains(cell(at + 1, head))), "{line}");
    }
}

/// Each row is what the call answers; the true distance lies between, the best never gets worse nor the bound less; the last is the scan's.
#[test]
fn a_row_a_limit() {
    let (folder, sweeps) = watched("limits-rows");
    let library = folder.library("faults.sheet");
    for (name, sweep) in &sweeps {
        let (number, truly) = scanned(&library, sweep);
        let json = Json::of(&folder.done(&format!("limits faults.sheet {name}.csv --json")));
        let rows = json.at("limits").list();
        let needed = trail(&library, sweep);
        assert_eq!((rows.len() as u64, json.at("settled_with").number(), json.at("leaves").number()), (needed, needed, 36));
        let best = |row: &Json| (row.at("best_so_far").at("number").number(), row.at("best_so_far").at("distance").number());
        let mut before = (u64::MAX, 0);
        for (limit, row) in (1..).zip(rows) {
            let (trace, distance) = best(row);
            let (bound, traces) = match library.match_within(sweep, limit).unwrap() {
                LimitedMatch::Open(found) => {
                    assert_eq!((trace, distance), (found.trace as u64, found.distance));
                    assert_eq!((row.at("settled").number(), row.at("bound").number()), (0, found.bound));
                    (found.bound, found.traces)
                }
                LimitedMatch::Settled(found) => {
                    assert_eq!((trace, distance), (found.trace as u64, found.distance));
                    assert_eq!((row.at("settled").number(), row.at("bound"), limit), (1, &Json::Null, needed));
                    (found.distance, found.traces)
                }
            };
            assert_eq!([row.at("limit").number(), row.at("leaves_read").number(), row.at("traces_read").number()], [limit, limit, traces as u64]);
            assert!(bound <= truly && truly <= distance, "{name} {limit}");
            assert!(distance <= before.0 && bound >= before.1, "{name} {limit}");
            before = (distance, bound);
        }
        assert_eq!(best(&rows[rows.len() - 1]), (number, truly), "{name}");
        let found_with = json.at("found_with").number() as usize;
        assert!(rows[found_with - 1..].iter().all(|row| best(row) == (number, truly)), "{name}");
        assert!(found_with == 1 || best(&rows[found_with - 2]) != (number, truly), "{name}");

        let said = folder.done(&format!("limits faults.sheet {name}.csv"));
        assert!(!has_nearest(&said) && !has_nearest(&folder.done(&format!("limits faults.sheet {name}.csv --json"))), "{said}");
        let lines: Vec<&str> = said.lines().collect();
        assert_eq!(lines.len() as u64, 2 + needed + 1, "{said}");
        for (row, line) in rows.iter().zip(&lines[2..]) {
            let (trace, distance) = best(row);
            let bound = if row.at("bound") == &Json::Null { distance } else { row.at("bound").number() };
            let cells: Vec<&str> = line.split_whitespace().collect();
            let [leaves, traces] = [row.at("leaves_read"), row.at("traces_read")].map(|json| json.number().to_string());
            assert_eq!(cells[..3], [leaves, traces, trace.to_string()], "{line}");
            let word = if row.at("settled").number() == 1 { "settled" } else { "open" };
            let behind: Vec<&str> = cells.iter().rev().take(5).rev().copied().collect();
            assert_eq!((behind[0], behind[2], behind[4]), (distance.to_string().as_str(), bound.to_string().as_str(), word), "{line}");
        }
        let end = lines[lines.len() - 1];
        assert!(end.starts_with(&format!("Of 36 leaves: trace {number} is found ")) && end.contains(&format!("settled with {needed} lea")), "{end}");
    }
}

/// Of many rows those of powers of two, those at which the best changes, and the last are shown; with `--all` every one.
#[test]
fn rows_of_a_long_trail() {
    let (folder, sweep) = noisy("limits-long");
    let library = folder.library("noise.sheet");
    let needed = trail(&library, &sweep);
    assert!(needed > 24, "{needed}");
    let json = Json::of(&folder.done("limits noise.sheet sweep.csv --json"));
    let rows = json.at("limits").list();
    assert_eq!(rows.len() as u64, needed);
    let distance = |limit: u64| rows[limit as usize - 1].at("best_so_far").at("distance").number();
    let is_shown = |limit: &u64| limit.is_power_of_two() || *limit == needed || distance(*limit) != distance(limit - 1);
    let expected: Vec<u64> = (1..=needed).filter(is_shown).collect();
    assert!(expected.iter().any(|limit| !limit.is_power_of_two() && *limit < needed), "a change that is no power of two");
    let said = folder.done("limits noise.sheet sweep.csv");
    let listed = |text: &str| -> Vec<u64> {
        let first = |line: &str| line.split_whitespace().next().and_then(|word| word.parse().ok());
        text.lines().filter(|line| line.starts_with("  ")).filter_map(first).collect()
    };
    assert_eq!(listed(&said), expected);
    let left_out = needed as usize - expected.len();
    assert!(said.contains(&format!("{left_out} rows left out: in each the best is that of the row above it. `--all` shows them.\n")), "{said}");
    let all = folder.done("limits noise.sheet sweep.csv --all");
    assert_eq!(listed(&all), (1..=needed).collect::<Vec<_>>());
    assert!(!all.contains("left out") && all.lines().last() == said.lines().last());
}

/// The points of a line or a shape of a picture, in the order in which they are drawn.
fn points(picture: &str, tag: &str, class: &str) -> Vec<(f64, f64)> {
    let (_, behind) = picture.split_once(&format!("<{tag} class=\"{class}\" points=\"")).unwrap();
    let pair = |pair: &str| pair.split_once(',').map(|(x, y)| (x.parse().unwrap(), y.parse().unwrap())).unwrap();
    behind.split('"').next().unwrap().split(' ').map(pair).collect()
}

/// The distance falls as steps, the bound rises as steps up to where it is settled, and what lies between is shaded.
#[test]
fn a_picture() {
    let (folder, sweeps) = watched("limits-picture");
    let library = folder.library("faults.sheet");
    for (name, sweep) in &sweeps {
        let needed = trail(&library, sweep);
        let leaves = if needed == 1 { "1 leaf".to_string() } else { format!("{needed} leaves") };
        let said = folder.done(&format!("limits faults.sheet {name}.csv -o {name}.svg"));
        assert_eq!(said, format!("{name}.svg: {name}, settled with {leaves}. A browser shows it.\n"));
        let picture = folder.text(&format!("{name}.svg"));
        assert!(!has_nearest(&picture));
        for said in
            ["the distance of the best so far", "the true distance lies in here", "no stored trace is nearer", "off by, a sample", "the limit"]
        {
            assert!(picture.contains(said), "{said}");
        }
        assert!(picture.contains(&format!(">settled with {needed} of 36 leaves, off by ")) && picture.contains("prefers-color-scheme: dark"));
        // in the legend, and where the lines meet
        assert_eq!(picture.matches("<circle class=\"settled\"").count(), 2);

        let (distance, bound) = (points(&picture, "polyline", "trace t0"), points(&picture, "polyline", "trace t1"));
        let falls = |line: &[(f64, f64)]| line.windows(2).all(|pair| pair[0].0 <= pair[1].0 && pair[0].1 <= pair[1].1);
        let rises = |line: &[(f64, f64)]| line.windows(2).all(|pair| pair[0].0 <= pair[1].0 && pair[0].1 >= pair[1].1);
        assert!(falls(&distance) && rises(&bound), "{distance:?} {bound:?}");
        let steps = |line: &[(f64, f64)]| line.windows(2).filter(|pair| pair[0].0 == pair[1].0 && pair[0].1 != pair[1].1).count();
        let answers: Vec<(u64, u64)> = (1..=needed)
            .map(|limit| match library.match_within(sweep, limit).unwrap() {
                LimitedMatch::Open(found) => (found.distance, found.bound),
                LimitedMatch::Settled(found) => (found.distance, found.distance),
            })
            .collect();
        let changes = |of: fn(&(u64, u64)) -> u64| answers.windows(2).filter(|pair| of(&pair[0]) != of(&pair[1])).count();
        assert_eq!((steps(&distance), steps(&bound)), (changes(|pair| pair.0), changes(|pair| pair.1)), "{name}");
        // they meet at the height of the mark
        let end = distance[distance.len() - 1].1;
        assert_eq!(bound[bound.len() - 1].1, end);
        assert!(picture.rsplit_once("<circle class=\"settled\"").unwrap().1.contains(&format!("cy=\"{end:.1}\"")));
        let shaded = points(&picture, "polygon", "bracket");
        assert!(distance[..distance.len() - 1].iter().chain(&bound).all(|point| shaded.contains(point)));
    }
    assert!(folder.refused("limits faults.sheet today.csv -o today.svg").contains("today.svg: is there already"));
    for own in ["faults.sheet", "faults.names", "today.csv"] {
        assert!(folder.refused(&format!("limits faults.sheet today.csv --force -o {own}")).contains(own));
    }
    let ran = folder.line("limits faults.sheet today.csv -o -");
    assert_eq!((ran.status, ran.out), (0, folder.text("today.svg")));
    assert!(ran.err.starts_with("standard output: today, settled with "));
}

/// Of a long trail no more columns are drawn than can be told apart. Each step of the distance is at its place, and the bound that is drawn is
/// never above the true one.
#[test]
fn a_picture_of_a_long_trail() {
    let (folder, sweep) = noisy("limits-long-picture");
    folder.done("limits noise.sheet sweep.csv -o noise.svg");
    let picture = folder.text("noise.svg");
    let (above, below) = (points(&picture, "polyline", "trace t0"), points(&picture, "polyline", "trace t1"));
    let library = folder.library("noise.sheet");
    let answers: Vec<(u64, u64)> = (1..=trail(&library, &sweep))
        .map(|limit| match library.match_within(&sweep, limit).unwrap() {
            LimitedMatch::Open(found) => (found.distance, found.bound),
            LimitedMatch::Settled(found) => (found.distance, found.distance),
        })
        .collect();
    let many = answers.len();
    let falls: Vec<usize> = (1..many).filter(|&at| answers[at].0 != answers[at - 1].0).collect();
    assert!(many > 256 && below.len() <= 2 * (256 + falls.len()), "{many} {}", below.len());
    let (left, right) = (above[0].0, above[above.len() - 1].0);
    let edge = |at: usize| left + (right - left) * at as f64 / many as f64;
    let drawn: Vec<f64> = above.windows(2).filter(|pair| pair[0].1 != pair[1].1).map(|pair| pair[0].0).collect();
    assert_eq!(drawn.len(), falls.len());
    assert!(drawn.iter().zip(&falls).all(|(x, at)| (x - edge(*at)).abs() < 0.1), "{drawn:?} {falls:?}");
    // heights go by two that are known
    let off = |distance: u64| (distance as f64 / 64.0).sqrt();
    let [(low, low_y), (high, high_y)] = [(off(answers[0].1), below[0].1), (off(answers[many - 1].0), above[above.len() - 1].1)];
    let y = |off: f64| low_y + (high_y - low_y) * (off - low) / (high - low);
    let mut behind = 0.0f64;
    for (at, answer) in answers.iter().enumerate().take(many - 1) {
        let middle = (edge(at) + edge(at + 1)) / 2.0;
        let height = below.iter().rev().find(|point| point.0 <= middle).unwrap().1;
        assert!(height >= y(off(answer.1)) - 0.2, "{at}");
        behind = behind.max(height - y(off(answer.1)));
    }
    assert!(behind < 30.0, "{behind}");
}

#[test]
fn what_is_refused() {
    let (folder, _) = watched("limits-refused");
    folder.write("other.sheet", folder.read("faults.sheet"));
    folder.write("short.csv", "1,2,3\n");
    for (line, why) in [
        ("match faults.sheet today.csv --leaves 0", "--leaves: 0 is too few. Take 1 or more."),
        ("match faults.sheet today.csv --leaves few", "--leaves: `few` is no whole number. Take 1 or more."),
        ("match faults.sheet today.csv --leaves -1", "--leaves: `-1` is no whole number. Take 1 or more."),
        ("match faults.sheet today.csv --leaves 1.5", "--leaves: `1.5` is no whole number. Take 1 or more."),
        ("match faults.sheet today.csv --leaves", "`--leaves` has no value behind it."),
        ("match faults.sheet today.csv --leaves 2 -k 2", "within a limit one trace is found. Leave out one of the two."),
        (
            "match faults.sheet today.csv --leaves 2 --factory other.sheet",
            "a limit is on the leaves of one library. Match in each of them by itself.",
        ),
        ("match faults.sheet today.csv --leaves 2 --json --tsv", "`--json` and `--tsv` do not go together."),
        ("limits faults.sheet", "a FILE with a sweep is missing."),
        ("limits faults.sheet today.csv far.csv", "`far.csv` is one word too many."),
        ("limits faults.sheet today.csv --json -o x.svg", "`--json` and `-o` do not go together."),
        ("limits faults.sheet today.csv --all -o x.svg", "`--all` and `-o` do not go together."),
        ("limits faults.sheet today.csv --leaves 2", "`--leaves` is no option of this command."),
    ] {
        let ran = folder.line(line);
        assert_eq!((ran.status, ran.out.as_str()), (2, ""), "{line}: {}", ran.err);
        assert!(ran.err.contains(why), "{line}: {}", ran.err);
    }
    folder.write("empty.sheet", TraceLibrary::open(64, 8, 2).unwrap().write_sheet().unwrap());
    for line in ["match empty.sheet today.csv --leaves 2", "limits empty.sheet today.csv"] {
        assert!(folder.refused(line).contains("empty.sheet: refused 6, empty: the library holds no trace"), "{line}");
    }
    for line in ["match faults.sheet short.csv --leaves 2", "limits faults.sheet short.csv"] {
        assert!(folder.refused(line).contains("3 samples, and 64 are wanted"), "{line}");
    }
    assert!(folder.refused("limits faults.sheet today.csv --sweep 2").contains("there is no sweep 2"));
    assert!(!folder.files().contains(&"x.svg".to_string()));
}

/// Labels of the best so far are shown as a match shows them.
#[test]
fn with_labels() {
    let folder = bench("limits-labels");
    folder.done("build coded.sheet --samples 64 --leaf-size 1 --code 17 --serial 4119 faults.csv");
    let said = folder.done("match coded.sheet today.csv --leaves 1");
    assert!(said.contains("code    name") && said.contains("  0x0011  ") && said.contains("Best so far: code 0x0011, off by "), "{said}");
    assert!(folder.done("limits coded.sheet today.csv").lines().nth(1).unwrap().contains("no.  code    name"));
    let open = only(&folder, "match coded.sheet today.csv --leaves 1 --json");
    assert_eq!((open.at("best_so_far").at("code").number(), open.at("best_so_far").at("serial").number()), (17, 4119));
}

/// The guide's loop of a controller, where there is a compiler: its library and its sweeps made by the page's commands, compiled with every
/// warning an error, run, and what it prints held to the page. With GUIDE_WRITE set the page becomes what it prints. What it measures has no
/// value of its own here: that it measures is seen.
#[test]
fn the_guides_program() {
    let repository = Path::new(env!("CARGO_MANIFEST_DIR")).join("..");
    let path = repository.join("docs/GUIDE.md");
    let page = fs::read_to_string(&path).unwrap();
    let (_, section) = page.split_once("\n## A limit on leaves\n").unwrap();
    let (section, _) = section.split_once("\n## ").unwrap();
    let blocks = |kind: &str| -> Vec<&str> {
        let begin = format!("\n```{kind}\n");
        section.split(begin.as_str()).skip(1).map(|block| block.split("```").next().unwrap()).collect()
    };
    let (programs, printed) = (blocks("c"), blocks("text"));
    assert_eq!((programs.len(), printed.len()), (1, 1));
    let folder = Folder::new("limits-guide");
    let cc = std::env::var("CC").unwrap_or("cc".to_string());
    if !Command::new(&cc).arg("--version").output().is_ok_and(|ran| ran.status.success()) {
        return;
    }
    let bin = Path::new(env!("CARGO_BIN_EXE_silkendoz")).parent().unwrap();
    let others = std::env::var_os("PATH").unwrap_or_default();
    let paths = std::env::join_paths([bin.to_path_buf()].into_iter().chain(std::env::split_paths(&others))).unwrap();
    let shell = |line: &str| {
        let ran = Command::new("sh").arg("-c").arg(line).current_dir(&folder.0).env("PATH", &paths).output().unwrap();
        assert!(ran.status.success(), "{line}: {}", String::from_utf8_lossy(&ran.stderr));
        String::from_utf8(ran.stdout).unwrap()
    };
    shell(&format!("cp -r '{0}/faults' '{0}/today.wav' .", repository.join("examples").display()));
    for line in blocks("console").iter().flat_map(|block| block.lines()).filter_map(|line| line.strip_prefix("$ ")) {
        shell(line);
    }
    folder.write("watch.c", programs[0]);
    let lib = std::env::var_os("SILKENDOZ_LIB").map_or_else(|| repository.join("target/staticlib"), Into::into);
    let archive = ["libsilkendoz.a", "liblibrary_c.a"].map(|name| lib.join(name)).into_iter().find(|path| path.is_file()).unwrap();
    let warned = "-std=c99 -Wall -Wextra -Wpedantic -Werror";
    shell(&format!("{cc} {warned} -I'{}' watch.c '{}' -o watch", repository.join("include").display(), archive.display()));
    let told = shell("./watch");
    if std::env::var_os("GUIDE_WRITE").is_some() {
        let behind = section.split_once("\n```text\n").unwrap().1;
        fs::write(&path, page.replacen(&format!("\n```text\n{behind}"), &format!("\n```text\n{told}{}", &behind[printed[0].len()..]), 1)).unwrap();
    } else {
        assert_eq!(told, printed[0]);
    }
    let measured = shell("./watch times");
    let words: Vec<&str> = measured.split_whitespace().collect();
    assert_eq!([words[..4].join(" "), words[5..8].join(" ")], ["before the first leaf", "ns, a leaf"], "{measured}");
    assert!([words[4], words[8]].iter().all(|time| time.parse::<f64>().is_ok_and(|time| (1.0..1e8).contains(&time))), "{measured}");
}
