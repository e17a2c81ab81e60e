//! Sweeps with clipped samples at the bench: `match --clipped`, in text, as lines and for programs, and the shaded range in `plot` and
//! `report`. What is listed is what a plain scan over least and greatest distances lists, and whatever the samples were, the match is in it.
//! Nothing that is only possible is called the nearest. And the guide's program in C.

mod bench;

use bench::*;
use silkendoz::{scan, TraceLibrary};
use std::fs;
use std::path::Path;
use std::process::Command;
use testing::random::{uniform, Random};

/// Samples of 16 bits end here.
const HIGH: i32 = 32_767;
const LOW: i32 = -32_768;

fn text(json: &Json) -> &str {
    let Json::Text(text) = json else { panic!("no text: {json:?}") };
    text
}

fn fields(json: &Json) -> Vec<&str> {
    let Json::Object(fields) = json else { panic!("no object: {json:?}") };
    fields.iter().map(|(name, _)| name.as_str()).collect()
}

/// The one sweep's object.
fn only(folder: &Folder, line: &str) -> Json {
    let Json::Object(all) = Json::of(&folder.done(line)) else { panic!("no object") };
    let Json::List(mut sweeps) = all.into_iter().find(|(name, _)| name == "sweeps").unwrap().1 else { panic!("no list") };
    assert_eq!(sweeps.len(), 1, "{line}");
    sweeps.remove(0)
}

/// Between which figures samples lie that clip at these limits.
fn ranges(sweep: &[i32], [low, high]: [i32; 2], beyond: i32) -> [Vec<i32>; 2] {
    let least = |x: i32| if x <= low { low - beyond } else { x.min(high) };
    let greatest = |x: i32| if x >= high { high + beyond } else { x.max(low) };
    [sweep.iter().map(|&x| least(x)).collect(), sweep.iter().map(|&x| greatest(x)).collect()]
}

/// A stored trace with its name.
type Fault = (String, Vec<i32>);

/// A listed trace: its number, its least and its greatest distance.
type Listed = (u64, u64, u64);

/// A plain scan: least and greatest of each trace, sample by sample, and those whose least is no more than the smallest greatest.
fn scanned(traces: &[Vec<i32>], [lows, highs]: &[Vec<i32>; 2]) -> Vec<Listed> {
    let mut all = Vec::new();
    for (number, trace) in traces.iter().enumerate() {
        let (mut least, mut greatest) = (0, 0);
        for ((&x, &low), &high) in trace.iter().zip(lows).zip(highs) {
            let [below, above] = [i64::from(low) - i64::from(x), i64::from(x) - i64::from(high)];
            let to_nearer = below.max(above).max(0);
            let to_farther = below.abs().max(above.abs());
            least += (to_nearer * to_nearer) as u64;
            greatest += (to_farther * to_farther) as u64;
        }
        all.push((number as u64, least, greatest));
    }
    let smallest = all.iter().map(|one| one.2).min().unwrap();
    all.into_iter().filter(|one| one.1 <= smallest).collect()
}

fn listed(object: &Json) -> Vec<Listed> {
    let each = |one: &Json| (one.at("number").number(), one.at("least").number(), one.at("greatest").number());
    object.at("could_be_the_match").list().iter().map(each).collect()
}

/// A folder with a library of the example's faults, eight times as large, so that they go beyond 16 bits; today's sweep as a log of 16 bits has
/// it, clipped; and all of it as numbers.
fn clipping(name: &str) -> (Folder, Vec<Fault>, Vec<i32>) {
    let folder = Folder::new(name);
    let (faults, today) = faults();
    let larger = |trace: &[i32]| trace.iter().map(|x| 8 * x).collect::<Vec<i32>>();
    let faults: Vec<Fault> = faults.into_iter().map(|(name, trace)| (name, larger(&trace))).collect();
    let lines: Vec<String> = faults.iter().map(|(name, trace)| format!("\"{name}\",{}\n", joined(trace, ","))).collect();
    folder.write("faults.csv", lines.concat());
    folder.done("build faults.sheet --samples 64 --leaf-size 4 faults.csv");
    let today: Vec<i32> = larger(&today).iter().map(|x| (*x).clamp(LOW, HIGH)).collect();
    folder.write("today.csv", joined(&today, " "));
    (folder, faults, today)
}

fn has_nearest(text: &str) -> bool {
    text.to_lowercase().contains("nearest")
}

/// Whatever the traces, the sweep, the limits and how far beyond: the list is the scan's, with its figures. Small samples make ties.
#[test]
fn what_is_listed_is_what_a_scan_lists() {
    let folder = Folder::new("clipped-scan");
    let mut random = Random::seeded(1313);
    let mut seen = [0; 3];
    for round in 0..40 {
        let (n, count) = (1 + round % 5, 1 + 3 * (round % 9));
        let reach = [3i32, 40, 400_000][round % 3];
        let traces: Vec<Vec<i32>> = (0..count).map(|_| uniform(&mut random, n, (-reach).into(), reach.into())).collect();
        let limits = [-reach / 2 - 1, reach / 2];
        let sweep: Vec<i32> = uniform(&mut random, n, (-reach).into(), reach.into()).iter().map(|x| (*x).clamp(limits[0], limits[1])).collect();
        folder.write("traces.csv", traces.iter().map(|trace| format!("\"t\",{}\n", joined(trace, ","))).collect::<String>());
        folder.write("sweep.csv", format!("\"s\",{}\n", joined(&sweep, ",")));
        folder.done(&format!("build l.sheet --samples {n} --leaf-size 2 --force traces.csv"));
        for beyond in [1, reach / 3 + 1, reach / 2] {
            let line = format!("match l.sheet sweep.csv --clipped --at {},{} --beyond {beyond} --json", limits[0], limits[1]);
            let object = only(&folder, &line);
            let between = ranges(&sweep, limits, beyond);
            let expected = scanned(&traces, &between);
            assert_eq!(listed(&object), expected, "round {round}: {line}");
            let smallest = expected.iter().map(|one| one.2).min().unwrap();
            let least = expected.iter().map(|one| one.1).min().unwrap();
            assert_eq!((object.at("smallest_greatest").number(), object.at("least").number()), (smallest, least));
            let clipped = sweep.iter().filter(|x| limits.contains(x)).count();
            assert_eq!(object.at("clipped_samples").number(), clipped as u64);
            seen[0] += usize::from(expected.len() < count);
            seen[1] += usize::from(expected.len() > 1);
            seen[2] += usize::from(clipped > 0);

            // whatever the samples were, the match is listed, and where its distance is said to lie
            let library = folder.library("l.sheet");
            let samples: Vec<_> = library.traces().flatten().copied().collect();
            for _ in 0..20 {
                let truly: Vec<i32> =
                    between[0].iter().zip(&between[1]).map(|(&low, &high)| uniform(&mut random, 1, low.into(), high.into())[0]).collect();
                let (trace, distance) = scan::nearest(&samples, n, &truly).unwrap();
                assert!(expected.iter().any(|one| one.0 == trace as u64), "round {round}: {truly:?}");
                assert!(least <= distance && distance <= smallest, "round {round}: {truly:?}");
            }
        }
    }
    assert!(seen.iter().all(|many| *many > 20), "{seen:?}");
}

/// A log of 16 bits beside traces of 20: all that could be the match are of one fault, and that is said; with a wider range they are not.
#[test]
fn certain_and_open() {
    let (folder, faults, today) = clipping("clipped-certain");
    let traces: Vec<Vec<i32>> = faults.iter().map(|(_, trace)| trace.clone()).collect();
    assert!(today.contains(&HIGH));
    let clipped = today.iter().filter(|x| **x == HIGH).count();

    let said = folder.done("match faults.sheet today.csv --clipped --beyond 12000");
    let expected = scanned(&traces, &ranges(&today, [LOW, HIGH], 12_000));
    assert!(said.contains(&format!("Clipped: {clipped} of 64 samples: 9 to 12 at 32767, each taken to have been 32767 to 44767.\n")), "{said}");
    assert!(said.contains(&format!("Could be the match: {} of 36 traces, of 1 fault.\n", expected.len())), "{said}");
    assert!(said.contains("The fault is certain within these ranges: dry rail, right."), "{said}");
    for (number, least, greatest) in &expected {
        let off = [least, greatest].map(|&distance| format!("{:.1}", (distance as f64 / 64.0).sqrt()));
        let row = said.lines().find(|line| line.contains(&format!("  {number}  machine "))).unwrap();
        let cells: Vec<&str> = row.split_whitespace().collect();
        let at = cells.iter().position(|cell| *cell == off[0]).unwrap();
        assert_eq!(cells[at + 1], off[1], "{row}");
        assert!(row.contains('|'), "{row}");
    }
    let object = only(&folder, "match faults.sheet today.csv --clipped --beyond 12000 --json");
    assert_eq!(listed(&object), expected);
    assert_eq!((object.at("verdict").at("fault_is_certain").number(), text(object.at("verdict").at("fault"))), (1, "dry rail, right"));

    let wide = folder.done("match faults.sheet today.csv --clipped --beyond 60000");
    let expected = scanned(&traces, &ranges(&today, [LOW, HIGH], 60_000));
    assert!(expected.len() > 3 && wide.contains(&format!("Could be the match: {} of 36 traces, of ", expected.len())), "{wide}");
    assert!(wide.contains("The fault is open within these ranges: dry rail, right; healthy"), "{wide}");
    assert!(wide.contains("A listed trace need not be the match of any sweep within them.\n"), "{wide}");
    let object = only(&folder, "match faults.sheet today.csv --clipped --beyond 60000 --json");
    assert_eq!((object.at("verdict").at("fault_is_certain").number(), object.at("verdict").at("fault")), (0, &Json::Null));
    assert_eq!(listed(&object), expected);
    let of_faults: u64 = object.at("faults").list().iter().map(|fault| fault.at("traces").number()).sum();
    assert_eq!(of_faults, expected.len() as u64);

    // no word says more than that
    for form in ["", " --tsv", " --json"] {
        for beyond in [12_000, 60_000] {
            let line = format!("match faults.sheet today.csv --clipped --beyond {beyond}{form}");
            assert!(!has_nearest(&folder.done(&line)), "{line}");
        }
    }
    for line in ["plot faults.sheet today.csv --clipped --beyond 60000 -o -", "report faults.sheet today.csv --clipped --beyond 60000 -o -"] {
        assert!(!has_nearest(&folder.line(line).out), "{line}");
    }
}

/// What is sure of the distance is true of every sweep in the ranges.
#[test]
fn near_and_far() {
    let folder = Folder::new("clipped-near");
    // traces of one fault lie 10 apart: distance 100
    folder.write("l.csv", "\"a, 1\",0,1000\n\"a, 2\",10,1000\n\"b, 1\",500,1000\n\"b, 2\",510,1000\n");
    folder.done("build l.sheet --samples 2 l.csv");
    for (sweep, beyond, sure) in [
        ("0,990", 10, "It is near enough for a fault, whatever was clipped."),
        ("0,990", 11, "It is near enough for a fault, whatever was clipped."),
        ("0,980", 10, "Whether it is near enough for a fault is open."),
        ("250,990", 50, "Like nothing stored, whatever was clipped. The fault is certain within these ranges: a."),
    ] {
        folder.write("s.csv", sweep);
        let limit = sweep.split(',').nth(1).unwrap();
        let said = folder.done(&format!("match l.sheet s.csv --clipped --at ,{limit} --beyond {beyond}"));
        assert!(said.contains(sure), "{sweep}: {said}");
    }
    assert!(folder.done("match l.sheet s.csv --clipped --at ,990 --beyond 50").contains("Every stored trace is farther than that.\n"));
    assert!(folder.done("match l.sheet s.csv --clipped --beyond 50").contains("\nLike nothing stored. The match is of this fault: a.\n"));
    let far = only(&folder, "match l.sheet s.csv --clipped --at ,990 --beyond 50 --json");
    assert_eq!(text(far.at("verdict").at("word")), "like nothing stored");
    // no fault is stored twice
    folder.write("m.csv", "a,0,1000\nb,500,1000\n");
    folder.done("build m.sheet --samples 2 m.csv");
    assert!(folder.done("match m.sheet s.csv --clipped --at ,990 --beyond 50").contains("Whether it fits is not judged: no fault is stored twice."));
}

/// Without a clipped sample the list is every trace at the match's distance, and it is said that nothing was clipped.
#[test]
fn nothing_clipped() {
    let folder = Folder::new("clipped-none");
    folder.write("l.csv", "\"a, 1\",0,6\n\"b, 1\",6,0\n\"a, 2\",9,9\n\"b, 2\",-6,0\n");
    folder.write("s.csv", "0,0");
    folder.done("build l.sheet --samples 2 l.csv");
    let said = folder.done("match l.sheet s.csv --clipped --beyond 500");
    assert!(said.contains("No sample is clipped: none of 2 is at the limit, -32768 or 32767. So every sample is known.\n"), "{said}");
    assert!(said.contains("Could be the match: 3 of 4 traces, of 2 faults.\n") && said.contains("Faults at the match's distance: a; b.\n"), "{said}");
    assert!(said.contains("The match's distance is 36: off by 4.2 a sample") && !said.contains('|') && !said.contains("ranges"), "{said}");
    let object = only(&folder, "match l.sheet s.csv --clipped --beyond 500 --json");
    assert_eq!(listed(&object), [(0, 36, 36), (1, 36, 36), (3, 36, 36)]);
    assert_eq!(folder.library("l.sheet").nearest(&[0, 0]).unwrap().distance, 36);
}

/// A recording under the usual header, of so many bits and one channel.
fn wav(bits: u16, samples: &[i32]) -> Vec<u8> {
    let bytes = usize::from(bits / 8);
    let data: Vec<u8> = match bits {
        8 => samples.iter().map(|x| (x + 128) as u8).collect(),
        _ => samples.iter().flat_map(|x| x.to_le_bytes()[..bytes].to_vec()).collect(),
    };
    let mut file = b"RIFF".to_vec();
    file.extend((36 + data.len() as u32).to_le_bytes());
    file.extend(b"WAVEfmt \x10\0\0\0\x01\0\x01\0");
    file.extend(2000u32.to_le_bytes());
    file.extend((2000 * bytes as u32).to_le_bytes());
    file.extend([bytes as u8, 0, bits as u8, 0]);
    file.extend(b"data");
    file.extend((data.len() as u32).to_le_bytes());
    file.extend(data);
    file
}

/// Which limit it is, the recording's form says: of 8 bits as they are brought to 16, of 16, of 20. Text says nothing, and goes by its samples.
#[test]
fn limits_of_each_form() {
    let folder = Folder::new("clipped-forms");
    folder.write("l.csv", "a,0,0,0,0\nb,9,9,9,9\n");
    folder.done("build l.sheet --samples 4 l.csv");
    folder.write("16.wav", wav(16, &[32_767, -32_768, 32_766, 0]));
    folder.write("8.wav", wav(8, &[127, -128, 126, 0]));
    folder.write("24.wav", wav(24, &[32_767 << 4, -32_768 << 4, 5, 0]));
    folder.write("full.wav", wav(24, &[0x7f_ffff, -0x80_0000, 5, 0]));
    folder.write("16.csv", "32767,-32768,32766,0");
    folder.write("20.csv", "32767,-32768,32768,0");
    let clipped = |line: &str| {
        let object = only(&folder, &format!("match l.sheet {line} --clipped --beyond 40 --json"));
        let limits = ["limit_low", "limit_high"].map(|field| object.at("clipped").at(field).clone_number());
        let samples: Vec<[i64; 4]> = object
            .at("clipped")
            .at("samples")
            .list()
            .iter()
            .map(|one| ["sample", "recorded", "low", "high"].map(|field| one.at(field).clone_number()))
            .collect();
        assert_eq!(object.at("clipped_samples").number(), samples.len() as u64);
        // a plain match counts the same
        assert_eq!(only(&folder, &format!("match l.sheet {line} --json")).at("clipped_samples").number(), samples.len() as u64, "{line}");
        (limits, samples)
    };
    let of_16 = vec![[1, 32_767, 32_767, 32_807], [2, -32_768, -32_808, -32_768]];
    assert_eq!(clipped("16.wav"), ([-32_768, 32_767], of_16.clone()));
    assert_eq!(clipped("16.csv"), ([-32_768, 32_767], of_16.clone()));
    assert_eq!(clipped("8.wav --convert"), ([-32_768, 32_512], vec![[1, 32_512, 32_512, 32_552], [2, -32_768, -32_808, -32_768]]));
    // 24 bits, of which none is at the end of its range; and text with a sample beyond 16 bits
    assert_eq!(clipped("24.wav --convert"), ([-524_288, 524_287], vec![]));
    assert_eq!(clipped("20.csv"), ([-524_288, 524_287], vec![]));
    // at the end of 20 bits there is no room; of 16 there is
    assert_eq!(clipped("full.wav --convert --bits 16"), ([-32_768, 32_767], of_16));
    let why = folder.refused("match l.sheet full.wav --convert --clipped --beyond 40");
    assert!(why.contains("full.wav: sample 1 is 524287, clipped at 524287, and 40 beyond that is no sample: these are -524288 to 524287."), "{why}");
    assert!(why.contains("`--convert --bits 16`"), "{why}");
}

trait Numbers {
    fn clone_number(&self) -> i64;
}

impl Numbers for Json {
    fn clone_number(&self) -> i64 {
        let Json::Number(number) = self else { panic!("no number: {self:?}") };
        *number as i64
    }
}

/// Limits that are named: one of them, both, and samples past them.
#[test]
fn named_limits() {
    let folder = Folder::new("clipped-at");
    folder.write("l.csv", "a,0,0,0\nb,400,0,0\nc,0,-400,0\n");
    folder.write("s.csv", "110,-105,7");
    folder.done("build l.sheet --samples 3 l.csv");
    for (at, limits) in [(",100", [i32::MIN, 100]), ("-100,", [-100, i32::MAX]), ("-100,100", [-100, 100]), ("-100,8", [-100, 8]), ("7,8", [7, 8])] {
        let beyond = 300;
        let object = only(&folder, &format!("match l.sheet s.csv --clipped --at {at} --beyond {beyond} --json"));
        let between = ranges(&[110, -105, 7], limits, beyond);
        for one in object.at("clipped").at("samples").list() {
            let place = one.at("sample").number() as usize - 1;
            assert_eq!(["low", "high"].map(|field| one.at(field).clone_number()), [&between[0], &between[1]].map(|end| end[place].into()), "{at}");
        }
        let open = between[0].iter().zip(&between[1]).filter(|(low, high)| low < high).count();
        assert_eq!(object.at("clipped_samples").number(), open as u64, "{at}");
        let traces = [vec![0, 0, 0], vec![400, 0, 0], vec![0, -400, 0]];
        assert_eq!(listed(&object), scanned(&traces, &between), "{at}");
    }
    let said = folder.done("match l.sheet s.csv --clipped --at -100,100 --beyond 300");
    assert!(
        said.contains("Clipped: 2 of 3 samples: 1 at 100, taken to have been 100 to 400; 2 at -100, taken to have been -400 to -100.\n"),
        "{said}"
    );
    let why = folder.refused("match l.sheet s.csv --clipped --at ,100 --beyond 9");
    assert!(why.contains("s.csv: sample 1 is 110, more than 9 beyond the limit 100. Say a larger `--beyond`"), "{why}");
    assert!(folder.done("match l.sheet s.csv --clipped --at ,100 --beyond 10").contains("1 at 100, taken to have been 100 to 110."));
    // the last sample that there is, and one more
    assert!(folder.done("match l.sheet s.csv --clipped --at ,100 --beyond 524187").contains("100 to 524287"));
    let why = folder.refused("match l.sheet s.csv --clipped --at ,100 --beyond 524188");
    assert!(why.contains("Take at most 524187 for `--beyond`"), "{why}");
    let why = folder.refused("match l.sheet s.csv --clipped --at -100, --beyond 99999999999999999999");
    assert!(why.contains("Take at most 524188 for `--beyond`"), "{why}");
}

#[test]
fn errors() {
    let (folder, _, _) = clipping("clipped-errors");
    let needs =
        "`--clipped` needs `--beyond V`: a clipped sample may truly have been up to V beyond the limit. No log says how far, so it is not guessed.";
    let too = "`--beyond` and `--at` are about clipped samples. Say `--clipped`, too.";
    for (line, why) in [
        ("match faults.sheet today.csv --clipped", needs),
        ("plot faults.sheet today.csv --clipped -o x.svg", needs),
        ("report faults.sheet today.csv --clipped --at ,5 -o x.svg", needs),
        ("match faults.sheet today.csv --beyond 5", too),
        ("plot faults.sheet today.csv --at -5,5 -o x.svg", too),
        ("match faults.sheet today.csv --clipped --beyond 0", "--beyond: 0 is too few. Take 1 or more."),
        ("match faults.sheet today.csv --clipped --beyond -5", "--beyond: `-5` is no whole number."),
        ("match faults.sheet today.csv --clipped --beyond 5 -k 3", "`--clipped` and `-k` do not go together"),
        ("match faults.sheet today.csv --clipped --beyond 5 -k 1", "`--clipped` and `-k` do not go together"),
        ("match faults.sheet today.csv --clipped --beyond 5 --leaves 3", "`--clipped` and `--leaves` do not go together"),
        ("match faults.sheet today.csv --clipped --beyond 5 --json --tsv", "`--json` and `--tsv` do not go together."),
        ("match faults.sheet today.csv --clipped --beyond 5 --at 5", "--at: takes LOW,HIGH"),
        ("match faults.sheet today.csv --clipped --beyond 5 --at ,", "--at: takes LOW,HIGH"),
        ("match faults.sheet today.csv --clipped --beyond 5 --at 1,2,3", "--at: takes LOW,HIGH"),
        ("match faults.sheet today.csv --clipped --beyond 5 --at 7,7", "--at: 7 is not below 7. Say the lower limit first."),
        ("match faults.sheet today.csv --clipped --beyond 5 --at x,7", "--at: `x` is no sample. Take whole numbers from -524288 to 524287."),
        ("match faults.sheet today.csv --clipped --beyond 5 --at ,524288", "--at: `524288` is no sample."),
        ("report faults.sheet today.csv --clipped --beyond 5 --off 0,5 -o x.svg", "`--clipped` and bands do not go together"),
        ("remote faults.sheet today.csv --clipped", "`--clipped` is no option of this command."),
    ] {
        let ran = folder.line(line);
        assert_eq!((ran.status, ran.out.as_str()), (2, ""), "{line}: {}", ran.err);
        assert!(ran.err.contains(why), "{line}: {}", ran.err);
    }
    assert!(!folder.files().contains(&"x.svg".to_string()));
    folder.write("empty.sheet", TraceLibrary::open(64, 8, 2).unwrap().write_sheet().unwrap());
    let why = folder.refused("match empty.sheet today.csv --clipped --beyond 5");
    assert!(why.contains("empty.sheet: refused 6, empty: the library holds no trace"), "{why}");
    folder.write("short.csv", "1 2 3");
    assert!(folder.refused("match faults.sheet short.csv --clipped --beyond 5").contains("3 samples, and 64 are wanted"));
}

/// A program that asks for a match's fields is never given what is only possible for one. The help names every field.
#[test]
fn fields_for_programs() {
    let (folder, _, _) = clipping("clipped-fields");
    let object = only(&folder, "match faults.sheet today.csv --clipped --beyond 12000 --json");
    let plain = only(&folder, "match faults.sheet today.csv --json");
    let own = fields(&object);
    let shared: Vec<&str> = own.iter().filter(|field| fields(&plain).contains(field)).copied().collect();
    assert_eq!(shared, ["name", "file", "rate", "clipped_samples", "verdict", "remarks"]);
    let verdict: Vec<&str> = fields(object.at("verdict")).into_iter().filter(|field| fields(plain.at("verdict")).contains(field)).collect();
    assert_eq!(verdict, ["word", "text", "fault", "stored_apart_least", "stored_apart_greatest"]);
    let help = folder.done("help match");
    let listed = &object.at("could_be_the_match").list()[0];
    let sample = &object.at("clipped").at("samples").list()[0];
    for one in [&object, object.at("verdict"), object.at("clipped"), listed, sample, &object.at("faults").list()[0]] {
        for field in fields(one) {
            assert!(help.contains(&format!("`{field}`")), "{field}");
        }
    }
    assert_eq!(text(listed.at("name")), "dry rail, right, machine 4118");
    assert_eq!(text(listed.at("fault")), "dry rail, right");
}

/// Several sweeps have a line each, for people and for programs; a clipped one in a plain match has a hint below.
#[test]
fn several_sweeps() {
    let (folder, faults, today) = clipping("clipped-several");
    let known: Vec<i32> = faults[4].1.iter().map(|x| x / 2).collect();
    folder.write("both.csv", format!("\"one\",{}\n\"two\",{}\n", joined(&today, ","), joined(&known, ",")));
    let said = folder.done("match faults.sheet both.csv --clipped --beyond 12000");
    let lines: Vec<&str> = said.lines().collect();
    assert_eq!(lines[0], "both.csv: holds 2 traces of 64 samples");
    assert!(lines[1].contains("verdict") && lines[2].contains("one") && lines[2].contains("fault certain") && lines[3].contains("two"), "{said}");
    assert!(said.contains("Clipped samples are taken to have been up to 12000 beyond their limit. The fault is certain then of 2 of 2 sweeps.\n"));
    let tsv = folder.done("match faults.sheet both.csv --clipped --beyond 12000 --tsv");
    let rows: Vec<Vec<&str>> = tsv.lines().map(|line| line.split('\t').collect()).collect();
    assert_eq!((rows.len(), rows[1].len(), rows[2].len()), (3, rows[0].len(), rows[0].len()));
    let cell = |row: usize, head: &str| rows[row][rows[0].iter().position(|own| *own == head).unwrap()];
    let object = only(&folder, "match faults.sheet today.csv --clipped --beyond 12000 --json");
    assert_eq!((cell(1, "clipped"), cell(2, "clipped"), cell(1, "beyond")), ("4", "0", "12000"));
    assert_eq!(cell(1, "could be the match"), listed(&object).len().to_string());
    assert_eq!(cell(1, "smallest greatest"), object.at("smallest_greatest").number().to_string());
    assert_eq!((cell(1, "fault"), cell(1, "all faults"), cell(1, "file")), ("dry rail, right", "dry rail, right", "both.csv"));

    let hint = "`--clipped --beyond V` lists every trace that could be the match, if such samples may have been up to V larger.\n";
    for (line, hinted) in [("match faults.sheet today.csv", true), ("match faults.sheet both.csv", true), ("match faults.sheet faults.csv", false)] {
        assert_eq!(folder.done(line).matches(hint).count(), usize::from(hinted), "{line}");
        assert!(!folder.done(&format!("{line} --json")).contains("--beyond"), "{line}");
    }
}

/// Of two libraries the list is that of one which holds both, the factory's first.
#[test]
fn two_libraries() {
    let (folder, faults, today) = clipping("clipped-two");
    for (first, beyond) in [(18, 12_000), (18, 60_000), (6, 60_000), (0, 12_000), (36, 12_000)] {
        let lines: Vec<String> = faults.iter().map(|(name, trace)| format!("\"{name}\",{}\n", joined(trace, ","))).collect();
        for (name, part) in [("factory", &lines[..first]), ("own", &lines[first..])] {
            folder.write(&format!("{name}.csv"), part.concat());
            match part.is_empty() {
                true => folder.write(&format!("{name}.sheet"), TraceLibrary::open(64, 8, 2).unwrap().write_sheet().unwrap()),
                false => drop(folder.done(&format!("build {name}.sheet --samples 64 --force {name}.csv"))),
            }
        }
        let line = format!("match own.sheet --factory factory.sheet today.csv --clipped --beyond {beyond}");
        let object = only(&folder, &format!("{line} --json"));
        let number = |one: &Json| one.at("number").number() + if text(one.at("library")) == "factory" { 0 } else { first as u64 };
        let found: Vec<u64> = object.at("could_be_the_match").list().iter().map(number).collect();
        let traces: Vec<Vec<i32>> = faults.iter().map(|(_, trace)| trace.clone()).collect();
        let expected: Vec<u64> = scanned(&traces, &ranges(&today, [LOW, HIGH], beyond)).into_iter().map(|one| one.0).collect();
        assert_eq!(found, expected, "{first} {beyond}");
        assert!(folder.done(&line).contains("library  no.  name"), "{first}");
        for name in ["factory", "own"] {
            let _ = fs::remove_file(folder.0.join(format!("{name}.names")));
        }
    }
}

/// Codes make faults, and stand with the serials in the table.
#[test]
fn with_labels() {
    let (folder, _, _) = clipping("clipped-labels");
    folder.done("build coded.sheet --samples 64 --code 17 --serial 4119 faults.csv");
    folder.write("coded.codes", "17,gone dry\n");
    let said = folder.done("match coded.sheet today.csv --clipped --beyond 60000");
    assert!(said.contains("no.  code    name") && said.contains("  0x0011  ") && said.contains("serial"), "{said}");
    assert!(
        said.contains("The fault is certain within these ranges: ") && said.contains("gone dry") && said.contains(" of 36 traces, of 1 fault."),
        "{said}"
    );
    // many are listed: the first ones are shown, and the others counted
    assert!(said.contains("more traces, which `--json` lists.\n"), "{said}");
    let object = only(&folder, "match coded.sheet today.csv --clipped --beyond 60000 --json");
    let rows = said.lines().filter(|line| line.contains("  0x0011  ")).count();
    let left: usize = said.split_once("And ").unwrap().1.split(' ').next().unwrap().parse().unwrap();
    assert_eq!(rows + left, listed(&object).len());
}

/// The corners of each shaded area, of the samples that are not known and the known ones beside them.
fn corners(picture: &str) -> Vec<usize> {
    let areas = picture.split("<polygon class=\"range\" points=\"").skip(1);
    areas.map(|area| area.split('"').next().unwrap().split(' ').count()).collect()
}

#[test]
fn the_range_is_shaded() {
    let (folder, _, _) = clipping("clipped-picture");
    let said = folder.done("plot faults.sheet today.csv --clipped --beyond 60000 -k 2");
    assert!(
        said.starts_with("today.svg: today and 2 of the ") && said.contains("that could be the match. A browser shows it.\nClipped: 4 of 64"),
        "{said}"
    );
    let picture = folder.text("today.svg");
    // samples 9 to 12 with the two beside them, above and below; over the curves and in each row
    assert_eq!(corners(&picture), [12, 12, 12]);
    assert!(picture.contains("what they may truly have been: up to 60000 beyond the limit") && picture.contains("clipped: 4 of 64"), "{picture}");
    assert!(picture.contains("prefers-color-scheme: dark") && picture.matches(".range {").count() == 2);
    assert_eq!(picture.matches("<polyline").count(), 1 + 2 + 2);
    // the scale has room for all of it
    let heights =
        |area: &str| area.split('"').next().unwrap().split(' ').map(|at| at.split_once(',').unwrap().1.parse::<f64>().unwrap()).collect::<Vec<f64>>();
    let frames: Vec<[f64; 2]> = picture
        .split("<rect class=\"frame\"")
        .skip(1)
        .map(|rect| ["y=\"", "height=\""].map(|name| rect.split_once(name).unwrap().1.split('"').next().unwrap().parse().unwrap()))
        .collect();
    for (area, [top, height]) in picture.split("<polygon class=\"range\" points=\"").skip(1).map(heights).zip(frames) {
        assert!(area.iter().all(|y| (top - 0.1..=top + height + 0.1).contains(y)), "{area:?} {top} {height}");
    }
    // nothing is clipped: nothing is shaded
    folder.done("plot faults.sheet faults.csv --clipped --beyond 60000 --sweep 4 -o plain.svg");
    assert!(corners(&folder.text("plain.svg")).is_empty());
    // at the ends of a sweep, and of a sweep of one sample
    folder.write("l.csv", "a,0,0,0\nb,9,9,9\n");
    folder.write("s.csv", "32767,0,-32768");
    folder.done("build l.sheet --samples 3 l.csv");
    folder.done("plot l.sheet s.csv --clipped --beyond 100 -k 1");
    assert_eq!(corners(&folder.text("s.svg")), [4, 4, 4, 4]);
    folder.write("l.csv", "a,0\n");
    folder.write("s.csv", "32767");
    folder.done("build l.sheet --samples 1 --force l.csv");
    folder.done("plot l.sheet s.csv --clipped --beyond 100 --force");
    assert_eq!(corners(&folder.text("s.svg")), [4, 4]);
}

#[test]
fn on_a_page() {
    let (folder, _, _) = clipping("clipped-page");
    let said = folder.done("report faults.sheet today.csv --clipped --beyond 12000");
    let lines: Vec<&str> = said.lines().collect();
    assert_eq!(lines[0], "today.html: today. A browser shows it, and prints it on one page.");
    assert!(lines[3].starts_with("The fault is certain within these ranges: dry rail, right."), "{said}");
    let page = folder.text("today.html");
    assert!(page.contains("<p class=\"verdict fits\"><strong>The fault is certain within these ranges: dry rail, right.</strong>"), "{page}");
    assert!(!page.contains("<script") && page.contains("Content-Security-Policy"));
    let object = only(&folder, "match faults.sheet today.csv --clipped --beyond 12000 --json");
    let many = listed(&object).len();
    assert!(page.contains(&format!("<h2>Could be the match: {many} of 36 traces, of 1 fault.</h2>")));
    assert_eq!(page.matches("<td class=\"bar\"><svg").count(), many);
    assert_eq!(corners(&page), [12, 12]);
    assert!(page.contains("the match is one of those listed.") && !page.contains("leaves"));
    folder.done("report faults.sheet today.csv --clipped --beyond 60000 --force");
    assert!(folder.text("today.html").contains("<p class=\"verdict between\"><strong>The fault is open within these ranges: dry rail, right; "));
}

/// The guide's program, where there is a compiler: compiled with every warning an error, run, and what it prints held to the page. With
/// GUIDE_WRITE set the page becomes what it prints.
#[test]
fn the_guides_program() {
    let repository = Path::new(env!("CARGO_MANIFEST_DIR")).join("..");
    let path = repository.join("docs/GUIDE.md");
    let page = fs::read_to_string(&path).unwrap();
    let (before, behind) = page.split_once("\n## Sweeps with clipped samples\n").unwrap();
    let section = behind.split("\n## ").next().unwrap();
    let blocks = |kind: &str| -> Vec<&str> {
        let begin = format!("\n```{kind}\n");
        section.split(begin.as_str()).skip(1).map(|block| block.split("```").next().unwrap()).collect()
    };
    let (programs, printed) = (blocks("c"), blocks("text"));
    assert_eq!((programs.len(), printed.len()), (1, 1));
    let cc = std::env::var("CC").unwrap_or("cc".to_string());
    if !Command::new(&cc).arg("--version").output().is_ok_and(|ran| ran.status.success()) {
        return;
    }
    let folder = Folder::new("clipped-guide");
    folder.write("clipped.c", programs[0]);
    let lib = std::env::var_os("SILKENDOZ_LIB").map_or_else(|| repository.join("target/staticlib"), Into::into);
    let archive = ["libsilkendoz.a", "liblibrary_c.a"].map(|name| lib.join(name)).into_iter().find(|path| path.is_file()).unwrap();
    let mut compiler = Command::new(&cc);
    compiler.current_dir(&folder.0).args(["-std=c99", "-Wall", "-Wextra", "-Wpedantic", "-Werror", "-I"]).arg(repository.join("include"));
    let compiled = compiler.arg("clipped.c").arg(archive).args(["-o", "clipped"]).output().unwrap();
    assert!(compiled.status.success(), "{}", String::from_utf8_lossy(&compiled.stderr));
    let ran = Command::new(folder.0.join("clipped")).output().unwrap();
    let told = String::from_utf8(ran.stdout).unwrap();
    assert!(ran.status.success(), "{told}");
    match std::env::var_os("GUIDE_WRITE").is_some() {
        true => {
            let behind = behind.replacen(&format!("\n```text\n{}", printed[0]), &format!("\n```text\n{told}"), 1);
            fs::write(&path, format!("{before}\n## Sweeps with clipped samples\n{behind}")).unwrap();
        }
        false => assert_eq!(told, printed[0]),
    }
}
