//! What `match` says of a sweep: which fault fits, between which two it lies, or that it is like nothing stored, with the figures, as a reader
//! of the library would work them out by reading every trace.

mod bench;

use bench::*;

/// What stands before the last comma of a name.
fn fault(name: &str) -> &str {
    name.rsplit_once(", ").map_or(name, |(fault, _)| fault)
}

fn distance(a: &[i32], b: &[i32]) -> u64 {
    testing::model::distance(a, b) as u64
}

fn a_sample(distance: u64) -> String {
    format!("{:.1}", (distance as f64 / N as f64).sqrt())
}

/// Least and greatest distance of a stored trace to the nearest other one of its fault.
fn apart(stored: &[(String, Vec<i32>)]) -> (u64, u64) {
    let to_own = |(at, (name, trace)): (usize, &(String, Vec<i32>))| {
        let own = stored.iter().enumerate().filter(|(other, (named, _))| *other != at && fault(named) == fault(name));
        own.map(|(_, (_, other))| distance(trace, other)).min().unwrap()
    };
    let all: Vec<u64> = stored.iter().enumerate().map(to_own).collect();
    (*all.iter().min().unwrap(), *all.iter().max().unwrap())
}

fn blend(a: &[i32], b: &[i32]) -> Vec<i32> {
    a.iter().zip(b).map(|(x, y)| (x + y) / 2).collect()
}

#[test]
fn fits_between_and_like_nothing_stored() {
    let folder = shelf("verdicts");
    let (stored, today) = faults();
    let (least, greatest) = apart(&stored);
    let measure = format!("traces of one fault lie {} to {} apart", a_sample(least), a_sample(greatest));

    let out = folder.done("match faults.sheet today.csv");
    let off = a_sample(distance(&today, &stored[19].1));
    let other = stored.iter().filter(|(name, _)| fault(name) != "dry rail, right").map(|(_, trace)| distance(&today, trace)).min().unwrap();
    let times = (other as f64 / distance(&today, &stored[19].1) as f64).sqrt();
    let line = format!("Fits: dry rail, right, off by {off} a sample; {measure}. Next fault: healthy, {times:.1} times as far ");
    assert!(out.contains(&format!("{line}({}).\n", a_sample(other))), "{out}");

    // half of one fault and half of another
    folder.write("between.csv", joined(&blend(&stored[19].1, &stored[28].1), " "));
    let out = folder.done("match faults.sheet between.csv");
    assert!(out.contains("Between two faults: ") && out.contains(" dry rail, right, ") && out.contains(" healthy, "), "{out}");
    assert!(out.contains(" % of the way from one to the other is off by ") && out.contains(&measure), "{out}");

    let saw: Vec<i32> = (0..64).map(|i| if i % 4 < 2 { 9000 } else { -9000 }).collect();
    folder.write("nothing.csv", joined(&saw, " "));
    let out = folder.done("match faults.sheet nothing.csv");
    assert!(out.contains("Like nothing stored: the nearest, ") && out.contains(&measure), "{out}");
    assert!(out.contains(", nearly as near ("), "{out}");

    // all three, a line each
    let lines = folder.done("match faults.sheet today.csv between.csv nothing.csv");
    let verdict = |name: &str| lines.lines().find(|line| line.trim_start().starts_with(name)).unwrap().to_string();
    assert!(verdict("today").contains("  fits  ") && verdict("between").contains("  between  "));
    assert!(verdict("nothing").contains("  like nothing stored  ") && lines.contains(&measure));
    let rows = folder.done("match faults.sheet today.csv between.csv nothing.csv --tsv");
    let words: Vec<Vec<&str>> = rows.lines().map(|line| line.split('\t').collect()).collect();
    assert_eq!(words.iter().map(Vec::len).collect::<Vec<_>>(), [13; 4]);
    assert_eq!(words.iter().map(|cells| cells[1]).collect::<Vec<_>>(), ["verdict", "fits", "between", "like nothing stored"]);
    assert_eq!(words[3][9], "nothing.csv");
    assert!(words[1..].iter().all(|cells| cells[11..] == [a_sample(least), a_sample(greatest)]), "{rows}");
}

#[test]
fn the_same_for_programs() {
    let folder = shelf("verdict-json");
    let (stored, today) = faults();
    folder.write("sweeps.csv", format!("{}\n{}\n", joined(&today, " "), joined(&blend(&stored[19].1, &stored[28].1), " ")));
    let told = Json::of(&folder.done("match faults.sheet sweeps.csv --json"));
    let verdicts: Vec<&Json> = told.at("sweeps").list().iter().map(|sweep| sweep.at("verdict")).collect();
    assert_eq!(told.at("notes").list(), [Json::Text("sweeps.csv: holds 2 traces of 64 samples".to_string())]);
    // one trace, however often the file is given
    assert_eq!(Json::of(&folder.done("match faults.sheet today.csv today.csv --json")).at("notes").list(), []);
    assert!(!folder.done("match faults.sheet today.csv today.csv").contains("holds"));
    assert_eq!(verdicts[0].at("word"), &Json::Text("fits".to_string()));
    assert_eq!(verdicts[0].at("other_fault"), &Json::Text("healthy".to_string()));
    let Json::Number(times) = verdicts[0].at("other_fault_times_as_far") else { panic!() };
    assert!((times - 6.414).abs() < 0.001, "{times}");
    let (least, greatest) = apart(&stored);
    for (field, distance) in [("stored_apart_least", least), ("stored_apart_greatest", greatest), ("a_sample", distance(&today, &stored[19].1))] {
        let Json::Number(figure) = verdicts[0].at(field) else { panic!("{field}") };
        assert!((figure - (distance as f64 / 64.0).sqrt()).abs() < 0.001, "{field}");
    }
    assert_eq!(verdicts[1].at("word"), &Json::Text("between".to_string()));
    let Json::Number(share) = verdicts[1].at("between_share") else { panic!() };
    assert!((0.4..0.6).contains(share), "{share}");
}

/// Of another fault nothing is said that was not looked for, and no more is read than was asked for.
#[test]
fn no_more_than_was_asked_for() {
    let folder = shelf("asked");
    let (_, today) = faults();
    let library = folder.library("faults.sheet");
    let one = folder.done("match faults.sheet today.csv -k 1");
    let bare = library.nearest(&today).unwrap();
    assert!(one.contains(&format!("Read: {} of {} leaves, {} of 36 traces.\n", bare.leaves, library.leaf_count(), bare.traces)), "{one}");
    assert!(one.contains("No other fault was looked for (-k 1).") && !one.contains("healthy"), "{one}");

    // twenty of one fault: the sixteen nearest are all of it
    let lines: Vec<String> = (0..20).map(|i| format!("\"worn, {i}\",{},0\n", i)).collect();
    folder.write("worn.csv", format!("{}\"sound, 1\",900,0\n\"sound, 2\",905,0\n", lines.concat()));
    folder.done("build worn.sheet --samples 2 worn.csv");
    folder.write("new.csv", "3 1");
    let out = folder.done("match worn.sheet new.csv");
    assert!(out.contains("Fits: worn, off by ") && out.contains("All 16 nearest are of this fault."), "{out}");
    assert!(out.contains("(for the 16 nearest)"), "{out}");
    let told = Json::of(&folder.done("match worn.sheet new.csv --json"));
    let sweep = &told.at("sweeps").list()[0];
    assert_eq!((sweep.at("verdict").at("all_of_one_fault").number(), sweep.at("nearest_looked_at").number()), (1, 16));
    assert_eq!(sweep.at("verdict").at("other_fault"), &Json::Null);

    folder.write("alike.csv", "\"worn, 1\",0,0\n\"worn, 2\",4,0\n");
    folder.done("build alike.sheet --samples 2 alike.csv");
    assert!(folder.done("match alike.sheet new.csv").contains("No other fault is stored."));
}

/// Without a fault that is stored twice nothing is judged.
#[test]
fn not_judged() {
    let folder = Folder::new("not-judged");
    folder.write("one.csv", "1,2\n");
    folder.write("two.csv", "a,1,2\nb,9,9\n");
    folder.done("build one.sheet --samples 2 one.csv");
    folder.done("build two.sheet --samples 2 two.csv");
    let out = folder.done("match one.sheet one.csv");
    assert!(out.contains("No other fault is stored. Whether it fits is not judged: no fault is stored twice."), "{out}");
    assert!(out.contains("It is stored already: trace 0 is the same, sample by sample."), "{out}");
    let out = folder.done("match two.sheet one.csv");
    assert!(out.contains("Nearest: a, off by 0.0 a sample. Next fault: b, farther (7.5)."), "{out}");
    folder.write("middle.csv", "5 5");
    folder.write("same.csv", "a,0,5\nb,10,5\n");
    folder.done("build same.sheet --samples 2 same.csv");
    assert!(folder.done("match same.sheet middle.csv").contains("Next fault: b, just as near (3.5)."));
}

/// What else is to be known: the converter's limit, another rate, a file of several traces.
#[test]
fn remarks() {
    let folder = shelf("remarks");
    let (_, mut today) = faults();
    today[4] = i16::MAX.into();
    today[63] = i16::MIN.into();
    folder.write("clipped.csv", joined(&today, " "));
    let out = folder.done("match faults.sheet clipped.csv");
    assert!(out.contains("2 samples are at the converter's limit, from sample 5 on: there the current may have been larger.\n"), "{out}");
    let told = Json::of(&folder.done("match faults.sheet clipped.csv --json"));
    assert_eq!(told.at("sweeps").list()[0].at("clipped_samples").number(), 2);

    folder.done("export faults.sheet 0 -o slow.wav --rate 500");
    folder.done("export faults.sheet 1 -o fast.wav --rate 2000");
    folder.done("build rated.sheet --samples 64 fast.wav");
    let out = folder.done("match rated.sheet slow.wav");
    assert!(out.contains("It has 500 samples a second, the library's recordings 2000: they do not compare.\n"), "{out}");
    assert!(!folder.done("match rated.sheet fast.wav").contains("compare"));
    assert!(!folder.done("match faults.sheet fast.wav").contains("compare"));
    // of a library of several rates the nearest trace's counts
    folder.done("build mixed.sheet --samples 64 fast.wav slow.wav");
    folder.done("export faults.sheet 1 -o slowed.wav --rate 500");
    let out = folder.done("match mixed.sheet slowed.wav");
    assert!(out.contains("It has 500 samples a second, its nearest trace 2000: they do not compare.\n"), "{out}");
    assert!(!folder.done("match mixed.sheet fast.wav").contains("compare"));
}
