//! The program for the bench, run as it is built, on files in a folder of its own.

mod bench;

use bench::*;
use silkendoz::{StoredSample, TraceLibrary};
use std::ffi::OsStr;
use std::fs;
use std::process::{Command, Stdio};

// ---- building and adding

#[test]
fn built_from_text_with_names() {
    let folder = shelf("built");
    let (faults, _) = faults();
    let library = folder.library("faults.sheet");
    assert_eq!((library.n(), library.capacity(), library.leaf_size(), library.len()), (N, 64, 4, faults.len()));
    for (number, (_, trace)) in faults.iter().enumerate() {
        assert_eq!(library.trace(number).unwrap(), *trace);
    }
    let lines: Vec<String> = faults.iter().enumerate().map(|(number, (name, _))| format!("{number}\t{name}\tfaults.csv\t-")).collect();
    assert_eq!(named(&folder.text("faults.names")), lines);
    assert_eq!(folder.files(), ["faults.csv", "faults.names", "faults.sheet", "today.csv"]);
}

#[test]
fn built_from_text_without_names() {
    let folder = Folder::new("nameless");
    folder.write("two.txt", "# two sweeps\n1 2 3 4\n\n5\t6\t7\t8\n");
    folder.write("one.txt", "\u{feff}9;10;11;12\r\n");
    let out = folder.done("build all --samples=4 two.txt one.txt");
    assert_eq!(out, "all: 3 traces of 4 samples, room for 64, leaf size 16.\n");
    let names = ["0\ttwo, line 2\ttwo.txt\t-", "1\ttwo, line 4\ttwo.txt\t-", "2\tone\tone.txt\t-"];
    assert_eq!(named(&folder.text("all.names")), names);
    assert_eq!(folder.library("all").trace(2).unwrap(), [9, 10, 11, 12]);
}

#[test]
fn a_larger_library_from_a_smaller_one() {
    let folder = shelf("larger");
    folder.done("build large.sheet --samples 64 --capacity 100 faults.sheet");
    assert_eq!(folder.library("large.sheet").capacity(), 100);
    // with the files that the traces came from
    assert_eq!(folder.text("large.names"), folder.text("faults.names"));
}

#[test]
fn added_all_or_none() {
    let folder = shelf("added");
    let (_, today) = faults();
    folder.write("more.csv", format!("new fault,{}\nworn brush,{}\n", joined(&today, ","), joined(&today, ",")));
    folder.write("short.csv", joined(&today[1..], ","));
    let before = (folder.read("faults.sheet"), folder.read("faults.names"));
    let err = folder.refused("add faults.sheet more.csv short.csv");
    assert!(err.contains("short.csv, line 1: 63 samples, and 64 are wanted"), "{err}");
    assert!(before == (folder.read("faults.sheet"), folder.read("faults.names")));

    let out = folder.done("add faults.sheet --again more.csv today.csv");
    assert_eq!(out, "faults.sheet: 3 traces added, numbers 36 to 38; 39 of 64 are taken.\n");
    let names = ["36\tnew fault\tmore.csv\t-", "37\tworn brush\tmore.csv\t-", "38\ttoday\ttoday.csv\t-"];
    assert_eq!(named(&folder.text("faults.names"))[36..], names);
    assert_eq!(folder.library("faults.sheet").trace(38).unwrap(), today);

    let before = (folder.read("faults.sheet"), folder.read("faults.names"));
    let err = folder.refused("add faults.sheet --again faults.csv");
    assert!(err.contains("refused 5, full: there is room for 64 traces, and there would be 75"), "{err}");
    let command = "`silkendoz build NEW.sheet --samples 64 --capacity 75 --leaf-size 4 faults.sheet` makes a larger one of it";
    assert!(err.contains("Nothing was added") && err.contains(command), "{err}");
    assert!(before == (folder.read("faults.sheet"), folder.read("faults.names")));
    assert_eq!(folder.files(), ["faults.csv", "faults.names", "faults.sheet", "more.csv", "short.csv", "today.csv"]);
}

#[test]
fn a_name_that_is_no_text() {
    use std::os::unix::ffi::OsStrExt;
    let folder = shelf("bytes");
    let odd = OsStr::from_bytes(b"sw\xffep.csv");
    fs::copy(folder.0.join("today.csv"), folder.0.join(odd)).unwrap();
    let ran = folder.run(&[OsStr::new("match"), OsStr::new("faults.sheet"), odd]);
    assert_eq!(ran.status, 0);
    assert!(ran.out.contains("dry rail, right, machine 4119"));
}

// ---- matching

#[test]
fn matched_with_names() {
    let folder = shelf("matched");
    let (faults, today) = faults();
    let library = folder.library("faults.sheet");
    for k in [1, 2, 5, 16] {
        let out = folder.done(&format!("match faults.sheet today.csv -k {k}"));
        let found = library.k_nearest(&today, k).unwrap();
        let rows: Vec<&str> = out.lines().skip(2).take(k).collect();
        assert_eq!(out.lines().count(), 2 + k + 2, "{out}");
        for (row, near) in rows.iter().zip(&found.list) {
            let words: Vec<&str> = row.split_whitespace().collect();
            assert_eq!(words[0], near.trace.to_string());
            assert_eq!(words[words.len() - 2], near.distance.to_string());
            assert_eq!(words[words.len() - 1], format!("{:.1}", (near.distance as f64 / N as f64).sqrt()));
            assert!(row.contains(&faults[near.trace].0));
        }
    }
    assert!(folder.done("match faults.sheet today.csv").contains("Next fault: healthy, 6.4 times as far (362.6).\n"));
    assert_eq!(folder.done("match faults.sheet today.csv").lines().count(), 9);
    // the three nearest are of one fault: so another is looked for among six
    let found = library.k_nearest(&today, 6).unwrap();
    let read = format!("Read: {} of {} leaves, {} of 36 traces (for the 6 nearest).", found.leaves, library.leaf_count(), found.traces);
    assert!(folder.done("match faults.sheet today.csv -k 3").contains(&read));
}

#[test]
fn a_line_for_each_sweep() {
    let folder = shelf("several");
    let out = folder.done("match faults.sheet faults.csv");
    // the file, the headings, what verdicts are by, and of each that it is stored already
    assert_eq!(out.lines().count(), 2 + 36 + 1 + 36, "{out}");
    assert!(out.starts_with("faults.csv: holds 36 traces of 64 samples\n"));
    for (number, line) in out.lines().skip(2).take(36).enumerate() {
        let (name, _) = &faults().0[number];
        assert!(line.trim_start().starts_with(name.as_str()), "{line}");
        assert!(line.contains(&format!("  {number}  {name}")), "{line}");
    }
}

#[test]
fn matched_for_programs() {
    let folder = shelf("json");
    let (faults, today) = faults();
    folder.write("q\"uote.csv", format!("\"a \"\"sweep\"\" \\ of today\",{}\n{}\n", joined(&today, ","), joined(&faults[3].1, ",")));
    let ran = folder.run(&["match", "faults.sheet", "q\"uote.csv", "-k", "4", "--json"]);
    assert_eq!((ran.status, ran.err.as_str()), (0, ""));
    let told = Json::of(&ran.out);
    assert_eq!(told.at("library").at("traces").number(), 36);
    let sweeps = told.at("sweeps").list();
    assert_eq!(sweeps[0].at("file"), &Json::Text("q\"uote.csv".to_string()));
    assert_eq!(sweeps.len(), 2);
    assert_eq!(sweeps[0].at("name"), &Json::Text("a \"sweep\" \\ of today".to_string()));
    let found = folder.library("faults.sheet").k_nearest(&today, 4).unwrap();
    for (told, near) in sweeps[0].at("nearest").list().iter().zip(&found.list) {
        assert_eq!((told.at("number").number(), told.at("distance").number()), (near.trace as u64, near.distance));
        assert_eq!(told.at("name"), &Json::Text(faults[near.trace].0.clone()));
    }
    assert_eq!(sweeps[0].at("leaves_read").number(), found.leaves as u64);
    assert_eq!(sweeps[0].at("verdict").at("other_fault_trace").number(), found.list[3].trace as u64);
    // the second sweep is stored
    assert_eq!(sweeps[1].at("nearest").list()[0].at("distance").number(), 0);
    assert_eq!(sweeps[1].at("stored_already_as").number(), 3);
    assert_eq!(sweeps[1].at("verdict").at("other_fault_times_as_far"), &Json::Null);
}

#[test]
fn names_that_are_not_there() {
    let folder = shelf("unnamed");
    fs::remove_file(folder.0.join("faults.names")).unwrap();
    assert!(folder.done("match faults.sheet today.csv").contains("19  (no name)  "));
    assert!(folder.done("info faults.sheet").contains("names             none"));
    let told = Json::of(&folder.done("match faults.sheet today.csv --json"));
    assert_eq!(told.at("sweeps").list()[0].at("nearest").list()[0].at("name"), &Json::Null);
    for (names, why) in [
        ("0\ta\tb\n36\tc\td\n", "line 2: names trace 36, and the sheet has 36"),
        ("0\ta\tb\n0\tc\td\n", "line 2: names trace 0 a second time"),
        ("zero\ta\tb\n", "line 1: `zero` is no trace's number"),
        ("a name\n", "line 1: has to be number, name, file, rate and hash"),
    ] {
        folder.write("faults.names", names);
        assert!(folder.refused("match faults.sheet today.csv").contains(why), "{why}");
        let ran = folder.line("check faults.sheet");
        assert_eq!(ran.status, 1);
        assert!(ran.out.contains("faults.sheet: sound.") && ran.out.contains(why), "{}", ran.out);
    }
    folder.write("faults.names", "19\tdry\n\n3\tloose\tx.csv\n");
    assert!(folder.done("match faults.sheet today.csv").contains("19  dry  "));
}

// ---- drawing

/// Whether the tags of an XML text balance, attributes are quoted and nothing is left unescaped; how often a tag opens.
fn tags(xml: &str, wanted: &str) -> usize {
    let body = xml.strip_prefix("<?xml version=\"1.0\" encoding=\"UTF-8\"?>").unwrap();
    let mut open: Vec<&str> = Vec::new();
    let mut count = 0;
    for piece in body.split('<').skip(1) {
        let (tag, text) = piece.split_once('>').expect("a tag ends");
        for behind in text.split('&').skip(1).chain(tag.split('&').skip(1)) {
            assert!(["amp;", "lt;", "gt;", "quot;"].iter().any(|entity| behind.starts_with(entity)), "{behind}");
        }
        assert_eq!(tag.matches('"').count() % 2, 0, "{tag}");
        if let Some(name) = tag.strip_prefix('/') {
            assert_eq!(open.pop(), Some(name));
            continue;
        }
        let name = tag.split([' ', '/']).next().unwrap();
        count += usize::from(name == wanted);
        if !tag.ends_with('/') {
            open.push(name);
        }
    }
    assert!(open.is_empty(), "{open:?}");
    count
}

#[test]
fn drawn() {
    let folder = shelf("drawn");
    let (_, today) = faults();
    assert!(folder.done("plot faults.sheet today.csv").starts_with("today.svg: today and its 3 nearest faults."));
    let drawn = folder.text("today.svg");
    assert_eq!(tags(&drawn, "polyline"), 1 + 3 + 3);
    assert!(drawn.contains("prefers-color-scheme: dark"));
    for label in ["dry rail, right: trace 19, machine 4119, off by 56.5 a sample", "healthy: trace 29, ", "encoder wheel slipping: trace 24, "] {
        assert!(drawn.contains(label), "{label}");
    }
    // the sample's number below each end of both axes
    assert_eq!((drawn.matches(">1</text>").count(), drawn.matches(">64</text>").count()), (2, 2));
    // names that XML would take for its own
    folder.write("odd.csv", format!("\"<b> & \"\"c\"\" ]]>\",{}\nsecond,{}\n", joined(&today, ","), joined(&today, ",")));
    folder.done("add faults.sheet --again odd.csv");
    folder.done("plot faults.sheet odd.csv --sweep 2 -k 6 -o picture.svg");
    let drawn = folder.text("picture.svg");
    assert_eq!(tags(&drawn, "polyline"), 1 + 6 + 6);
    assert!(drawn.contains("&lt;b&gt; &amp; &quot;c&quot; ]]&gt;"));
    assert!(folder.refused("plot faults.sheet odd.csv --sweep 3 -o third.svg").contains("there is no sweep 3"));
    assert!(folder.refused("plot faults.sheet odd.csv --sweep 0 -o third.svg").contains("there is no sweep 0"));

    // one sample, all the same
    folder.write("point.csv", "5\n5\n");
    folder.done("build point.sheet --samples 1 point.csv");
    folder.done("plot point.sheet point.csv");
    assert_eq!(tags(&folder.text("point.svg"), "circle"), 3);
}

// ---- what a library is like

#[test]
fn described() {
    let folder = shelf("described");
    let out = folder.done("info faults.sheet");
    let library = folder.library("faults.sheet");
    let shape = format!("{} nodes, {} leaves, depth ", library.node_count(), library.leaf_count());
    assert!(out.contains(&shape), "{out}");
    assert!(out.contains("traces            36 of 64\n"));
    assert!(out.contains("names             36, in faults.names\n"));
    // the guide's table for n = 64, c = 64
    let last: Vec<&str> = out.lines().last().unwrap().split_whitespace().collect();
    assert_eq!(last, ["16,384", "88,392", "128", "1,016", "512", "106,442", "128", "9,728", "17,920"]);
    folder.write("empty.sheet", TraceLibrary::open(3, 4, 2).unwrap().write_sheet().unwrap());
    assert!(folder.done("info empty.sheet").contains("none: no trace is stored"));
}

#[test]
fn advised() {
    let folder = shelf("advised");
    let out = folder.done("advise faults.sheet");
    for row in ["leaf size 4 ", "leaf size 64 ", "plain scan ", "scan, leaving early "] {
        assert_eq!(out.matches(row).count(), 1, "{out}");
    }
    assert!(out.contains("do not look normalised"), "{out}");
    let lines: Vec<String> = (0..80).map(normalised).collect();
    folder.write("normalised.csv", lines.concat());
    folder.done("build normalised.sheet --samples 64 normalised.csv");
    let out = folder.done("advise normalised.sheet");
    assert!(out.contains("The traces look normalised"), "{out}");
    assert!(out.contains("with a tenth of the others"), "{out}");
    folder.write("one.csv", joined(&faults().1, ","));
    folder.done("build one.sheet --samples 64 one.csv");
    assert!(folder.refused("advise one.sheet").contains("Add some"));
}

/// A square wave of one height: level 0 and swing 5,000 for all.
fn normalised(at: usize) -> String {
    let trace: Vec<i32> = (0..N).map(|i| if ((i * (1 + at % 31) + at) / 2).is_multiple_of(2) { 5000 } else { -5000 }).collect();
    let level: i64 = trace.iter().map(|&x| i64::from(x)).sum();
    // as many above as below
    let mut trace = trace;
    let mut left = level / 10_000;
    for x in trace.iter_mut() {
        if left > 0 && *x > 0 || left < 0 && *x < 0 {
            left -= left.signum();
            *x = -*x;
        }
    }
    format!("{}\n", joined(&trace, ","))
}

// ---- torn sheets

#[test]
fn every_torn_block_is_shown() {
    let folder = shelf("torn");
    let sheet = folder.read("faults.sheet");
    assert_eq!(folder.done("check faults.sheet"), "faults.sheet: sound. 11 blocks, 36 traces of 64 samples.\n");
    let mut damaged = damage(&sheet, &[2, 9]);
    damaged[512 * 5..512 * 7].fill(0xff);
    damaged[512 * 8] = 3;
    folder.write("torn.sheet", &damaged);
    let ran = folder.line("check torn.sheet faults.sheet");
    assert_eq!(ran.status, 1);
    let expected = "\
torn.sheet: refused 9, torn block.
  block 2 (samples of traces 3 to 7): its check does not fit: something in it changed.
  blocks 5 to 6 (samples of traces 15 to 23): every byte is 255: it was never written, or was erased.
  block 8 (samples of traces 27 to 31): it says that it is block 3: it stands in the wrong place, or changed.
  block 9 (samples of traces 31 to 35): its check does not fit: something in it changed.
  5 of 11 whole blocks torn. With another copy of the same writing: `silkendoz repair A B -o OUT`; without one: `silkendoz salvage FILE -o OUT`.
faults.sheet: sound. 11 blocks, 36 traces of 64 samples.
";
    assert_eq!(ran.out, expected);
    let err = folder.refused("match torn.sheet today.csv");
    assert!(err.contains("torn.sheet: refused 9, torn block: block 2 first"), "{err}");
    assert!(err.contains("`silkendoz check torn.sheet`"), "{err}");

    // a command that can be typed
    folder.write("the torn.sheet", &damaged);
    let ran = folder.run(&["match", "the torn.sheet", "today.csv"]);
    assert!(ran.err.contains("`silkendoz check 'the torn.sheet'`"), "{}", ran.err);

    // block 0 is not believed when it is torn
    folder.write("head.sheet", damage(&sheet, &[0, 10]));
    let out = folder.line("check head.sheet").out;
    assert!(out.contains("  block 0: its check") && out.contains("  block 10: its check"), "{out}");
}

#[test]
fn what_is_wrong_with_a_sheet() {
    let folder = shelf("wrong");
    let sheet = folder.read("faults.sheet");
    let seal = |bytes: &mut [u8]| testing::model::sheet::seal(bytes);
    let altered = |at: usize, byte: u8| {
        let mut bytes = sheet.clone();
        bytes[at] = byte;
        seal(&mut bytes[at / 512 * 512..][..512]);
        bytes
    };
    let longer = [&sheet[..], &damage(&sheet, &[1])[512..1024]].concat();
    for (bytes, why) in [
        (vec![], "refused 8, sheet length: the file is empty"),
        (sheet[..1000].to_vec(), "1000 bytes, no multiple of 512: it ends within block 1"),
        (vec![0; 512 * 8374], "refused 8, sheet length: 4287488 bytes, and the largest sheet has 4286976"),
        (longer, "refused 9, torn block.\n  block 11"),
        (altered(5, b'X'), "refused 10, bad sheet: every block is sound, but it does not begin with the letters TRCL"),
        (altered(9, 2), "but 576 samples, capacity 64 and leaf size 4 are no measures"),
        (altered(14, 65), "but it says that it holds 65 traces, and there is room for 64"),
        (altered(14, 30), "but it has 11 blocks, and 30 traces of 64 samples take 9: something stands behind its end"),
        (sheet[..512 * 10].to_vec(), "but it has 10 blocks, and 36 traces of 64 samples take 11: blocks are missing at the end"),
        (altered(512 + 3, 1), "but a byte that has to be 0 is not: byte 3 of block 1"),
        (altered(20, 1), "but a byte that has to be 0 is not: byte 20 of block 0"),
        (altered(512 * 10 + 500, 1), "but a byte that has to be 0 is not: byte 500 of block 10"),
    ] {
        folder.write("bad.sheet", bytes);
        let ran = folder.line("check bad.sheet");
        assert_eq!(ran.status, 1);
        assert!(ran.out.contains(why), "{why}: {}", ran.out);
    }
    let ran = folder.line("check nowhere.sheet faults.sheet");
    assert_eq!(ran.status, 1);
    assert_eq!(
        ran.out,
        "nowhere.sheet: there is no such file. Look at its name and folder.\nfaults.sheet: sound. 11 blocks, 36 traces of 64 samples.\n"
    );
}

#[test]
fn repaired_from_two_copies() {
    let folder = shelf("repaired");
    let sheet = folder.read("faults.sheet");
    folder.write("a.sheet", damage(&sheet, &[0, 3, 4]));
    folder.write("b.sheet", &damage(&sheet, &[2, 9])[..5400]);
    fs::copy(folder.0.join("faults.names"), folder.0.join("b.names")).unwrap();
    let out = folder.done("repair a.sheet b.sheet -o whole.sheet");
    let counts = "11 blocks: 5 sound in both copies and the same, 3 from the first alone, 3 from the second alone.";
    assert_eq!(out, format!("whole.sheet: sound. {counts}\nwhole.names: from b.names.\n"));
    assert!(folder.read("whole.sheet") == sheet);
    assert!(folder.read("whole.names") == folder.read("faults.names"));

    // a copy is never overwritten
    for line in ["repair a.sheet b.sheet -o a.sheet", "repair a.sheet b.sheet -o a.sheet --force"] {
        assert!(folder.refused(line).contains("a.sheet: is read here too"));
    }
}

#[test]
fn not_repaired() {
    let folder = shelf("not-repaired");
    let sheet = folder.read("faults.sheet");
    folder.write("a.sheet", damage(&sheet, &[3, 4]));
    folder.write("b.sheet", damage(&sheet, &[2, 4]));
    assert!(folder.refused("repair a.sheet b.sheet -o out.sheet").contains("block 4 is sound in neither"));
    folder.done("add faults.sheet today.csv");
    assert!(folder.refused("repair a.sheet faults.sheet -o out.sheet").contains("block 0 is sound in both, and differs"));
    // every block is sound, and together they are no library
    folder.write("c.sheet", &sheet[..512 * 10]);
    let err = folder.refused("repair c.sheet c.sheet -o out.sheet");
    assert!(err.contains("refused 10, bad sheet") && err.contains("Nothing was written"), "{err}");
    assert!(!folder.files().contains(&"out.sheet".to_string()));
}

// ---- recordings

#[test]
fn recordings_go_both_ways() {
    let folder = shelf("recordings");
    let (faults, _) = faults();
    assert!(folder
        .done("export faults.sheet 19 -o dry.wav --rate 2000")
        .contains("trace 19, dry rail, right, machine 4119, 64 samples at 2000 a second"));
    let wav = folder.read("dry.wav");
    assert_eq!(wav.len(), 44 + 2 * N);
    assert_eq!((&wav[..4], &wav[24..28]), (&b"RIFF"[..], &2000u32.to_le_bytes()[..]));
    folder.done("export faults.sheet 3 -o loose.wav");
    // two traces in one recording
    let mut both = wav.clone();
    both.extend_from_slice(&folder.read("loose.wav")[44..]);
    both[4..8].copy_from_slice(&(36 + 4 * N as u32).to_le_bytes());
    both[40..44].copy_from_slice(&(4 * N as u32).to_le_bytes());
    folder.write("both.wav", &both);
    folder.done("build w.sheet --samples 64 dry.wav both.wav loose.wav");
    let library = folder.library("w.sheet");
    let stored: Vec<Vec<i32>> = library.traces().map(StoredSample::values).collect();
    assert_eq!(stored, [19, 19, 3, 3].map(|number: usize| faults[number].1.clone()));
    let names = ["0\tdry\tdry.wav\t2000", "1\tboth, trace 1\tboth.wav\t2000", "2\tboth, trace 2\tboth.wav\t2000", "3\tloose\tloose.wav\t8000"];
    assert_eq!(named(&folder.text("w.names")), names);
    assert!(folder.done("match faults.sheet dry.wav -k 1").contains("dry rail, right, machine 4119         0       0.0"));
    // the file, the headings, two sweeps, what verdicts are by, and of each that it is stored already
    assert_eq!(folder.done("match faults.sheet both.wav").lines().count(), 7);
    // the same samples at the rate that they were recorded at are the same file
    folder.done("export w.sheet 3 -o again.wav");
    assert!(folder.read("again.wav") == folder.read("loose.wav"));
    folder.done("export w.sheet 0 -o again-dry.wav");
    assert!(folder.read("again-dry.wav") == folder.read("dry.wav"));
}

#[test]
fn what_is_wrong_with_a_recording() {
    let folder = shelf("bad-recordings");
    folder.done("export faults.sheet 0 -o good.wav");
    let good = folder.read("good.wav");
    let altered = |at: usize, byte: u8| {
        let mut bytes = good.clone();
        bytes[at] = byte;
        bytes
    };
    let mut piped = good.clone();
    piped[40..44].fill(255);
    let mut short = good[..good.len() - 2].to_vec();
    short[4] -= 2;
    short[40] -= 2;
    for (bytes, why) in [
        (good[..40].to_vec(), "it has 40 bytes, and the header alone takes 44"),
        (altered(8, b'A'), "no WAV"),
        (altered(16, 18), "its header is not WAV's usual 44 bytes"),
        (altered(36, b'L'), "its header is not WAV's usual 44 bytes"),
        (altered(20, 3), "its format is 3"),
        (altered(22, 2), "it has 2 channels"),
        (altered(34, 24), "it has 24 bits a sample"),
        (good[..good.len() - 2].to_vec(), "its header says 128 bytes of data, and there are 126"),
        ([&good[..], b"LIST"].concat(), "its header says 128 bytes of data, and there are 132"),
        (piped, "its header says 4294967295 bytes of data, and there are 128. It was written into a pipe"),
        (short, "it has 63 samples, and a trace has 64. It is too short"),
        (altered(28, 1), "a number of its header does not fit the others"),
    ] {
        folder.write("bad.wav", bytes);
        let err = folder.refused("match faults.sheet bad.wav");
        assert!(err.contains("bad.wav: ") && err.contains(why), "{why}: {err}");
    }
    let err = folder.refused("export faults.sheet 36 -o x.wav");
    assert!(err.ends_with("there is no trace 36; it holds traces 0 to 35.\n"), "{err}");
    assert!(!folder.files().contains(&"x.wav".to_string()));
}

// ---- what goes wrong

#[test]
fn refused_with_what_and_where() {
    let folder = shelf("refused");
    folder.write("heading.csv", "name,s0,s1\n");
    folder.write("long.csv", format!("{}\n", joined(&[7; 65], ",")));
    folder.write("nothing.csv", "# nothing\n");
    folder.write("bytes.csv", [0xff, 0xfe, 0x00]);
    folder.write("empty.sheet", TraceLibrary::open(N, 4, 2).unwrap().write_sheet().unwrap());
    folder.write("other.csv", "1,2,3\n");
    folder.done("build other.sheet --samples 3 other.csv");
    for (line, why) in [
        ("match faults.sheet nowhere.csv", "nowhere.csv: there is no such file"),
        ("match nowhere.sheet today.csv", "nowhere.sheet: there is no such file"),
        ("match today.csv faults.sheet", "today.csv: is text, and a library's sheet has to stand here"),
        ("match faults.sheet heading.csv", "heading.csv, line 1: `s0` in column 2"),
        ("match faults.sheet long.csv", "long.csv, line 1: 65 samples, and 64 are wanted. If the first column is a name"),
        ("match faults.sheet nothing.csv", "nothing.csv: holds no trace"),
        ("match faults.sheet bytes.csv", "bytes.csv: is no WAV recording, and is text in UTF-16"),
        ("match faults.sheet other.sheet", "other.sheet: a library of traces of 3 samples, and 64 are wanted"),
        ("match empty.sheet today.csv", "refused 6, empty: the library holds no trace"),
        ("match . today.csv", ".: is a folder, and has to be a file"),
        ("build new.sheet --samples 64 --capacity 35 faults.csv", "refused 5, full: there is room for 35 traces, and there would be 36"),
        ("build nowhere/new.sheet --samples 64 today.csv", "nowhere/new.sheet: cannot be written"),
        ("export faults.sheet 0 -o nowhere/x.wav", "nowhere/x.wav: cannot be written"),
    ] {
        let err = folder.refused(line);
        assert!(err.contains(why), "{line}: {err}");
    }
    assert!(!folder.files().iter().any(|name| name.starts_with("new") || name.ends_with(".part")));
}

#[test]
fn wrong_usage() {
    let folder = shelf("usage");
    for (line, why) in [
        ("", "there is no command ``"),
        ("find x", "there is no command `find`"),
        ("help find", "there is no command `find`"),
        ("help build add", "`add` is one word too many"),
        ("build", "OUT.sheet is missing"),
        ("build out.sheet --samples 4", "a FILE with recordings is missing"),
        ("build out.sheet faults.csv", "`--samples` is missing"),
        ("build out.sheet faults.csv --samples", "`--samples` has no value"),
        ("build out.sheet faults.csv --samples four", "--samples: `four` is no whole number"),
        ("build out.sheet faults.csv --samples -4", "--samples: `-4` is no whole number"),
        ("build out.sheet faults.csv --samples 4 --samples 4", "`--samples` stands there twice"),
        ("build out.sheet faults.csv --samples 4 --quick", "`--quick` is no option of this command"),
        ("build out.sheet faults.csv --samples 4 --force=yes", "`--force=yes` is no option of this command"),
        ("build out.sheet --samples 257 today.csv", "257 samples: refused 1, measure"),
        ("build out.sheet --samples 0 today.csv", "0 samples: refused 1, measure"),
        ("build out.sheet --samples 64 --capacity 4097 today.csv", "64 samples, capacity 4097: refused 1, measure"),
        ("build out.sheet --samples 64 --leaf-size 65 today.csv", "64 samples, leaf size 65: refused 1, measure"),
        ("export faults.sheet 0 -o x.wav --rate 2147483648", "--rate: a rate is 0 to 2147483647"),
        ("add faults.sheet", "a FILE with recordings is missing"),
        ("add", "LIBRARY is missing"),
        ("match faults.sheet", "a FILE with a sweep is missing"),
        ("match faults.sheet today.csv -k 17", "-k: 17 traces cannot be listed. Take 1 to 16"),
        ("match faults.sheet today.csv -k 0", "-k: 0 traces cannot be listed"),
        ("match faults.sheet today.csv --json --tsv", "`--json` and `--tsv` do not go together"),
        ("report faults.sheet today.csv today.csv", "`today.csv` is one word too many"),
        ("report faults.sheet today.csv -k 7", "-k: 7 faults cannot be drawn. Take 1 to 6"),
        ("match faults.sheet today.csv -k", "`-k` has no value"),
        ("match faults.sheet today.csv -k many", "-k: `many` is no whole number"),
        ("plot faults.sheet", "a FILE with a sweep is missing"),
        ("plot faults.sheet today.csv -k 7", "-k: 7 faults cannot be drawn. Take 1 to 6"),
        ("plot faults.sheet today.csv -k 0", "-k: 0 faults cannot be drawn"),
        ("info", "LIBRARY is missing"),
        ("info faults.sheet --tsv", "`--tsv` is no option of this command"),
        ("check", "a FILE with a sheet is missing"),
        ("repair a.sheet", "the second copy B is missing"),
        ("repair a.sheet b.sheet", "`-o` is missing"),
        ("advise", "LIBRARY is missing"),
        ("export faults.sheet", "the trace's NUMBER is missing"),
        ("export faults.sheet one -o x.wav", "NUMBER: `one` is no whole number"),
        ("export faults.sheet 1", "`-o` is missing"),
        ("salvage faults.sheet -o x.sheet --samples 257", "257 samples: refused 1, measure"),
        ("salvage faults.sheet -o x.sheet --samples 0", "0 samples: refused 1, measure"),
    ] {
        let before = folder.files();
        let ran = folder.line(line);
        assert_eq!((ran.status, ran.out.as_str()), (2, ""), "{line}");
        assert!(ran.err.contains(why), "{line}: {}", ran.err);
        assert!(ran.err.contains("silkendoz help"), "{line}: {}", ran.err);
        assert_eq!(folder.files(), before);
    }
    let ran = folder.run::<&str>(&[]);
    assert_eq!(ran.status, 2);
    assert!(ran.err.contains("a command is missing"));
}

#[test]
fn nothing_is_overwritten() {
    let folder = shelf("overwritten");
    folder.write("there.svg", "mine");
    folder.write("there.wav", "mine");
    folder.write("there.sheet", "mine");
    folder.write("names-only.names", "mine");
    let lines = [
        ("build there.sheet --samples 64 today.csv", "there.sheet"),
        ("build names-only.sheet --samples 64 today.csv", "names-only.names"),
        ("plot faults.sheet today.csv -o there.svg", "there.svg"),
        ("export faults.sheet 0 -o there.wav", "there.wav"),
        ("repair faults.sheet faults.sheet -o there.sheet", "there.sheet"),
    ];
    for (line, file) in lines {
        let err = folder.refused(line);
        assert!(err.contains(&format!("{file}: is there already")), "{line}: {err}");
        assert_eq!(folder.text(file), "mine");
    }
    for (line, file) in lines {
        folder.done(&format!("{line} --force"));
        assert_ne!(folder.read(file), b"mine");
    }
    // names of the library that was there before do not stay
    assert_eq!(named(&folder.text("names-only.names")), ["0\ttoday\ttoday.csv\t-"]);
    assert!(!folder.files().iter().any(|name| name.ends_with(".part")));
}

#[test]
fn a_link_stays_a_link() {
    let folder = shelf("linked");
    std::os::unix::fs::symlink("faults.sheet", folder.0.join("link.sheet")).unwrap();
    folder.done("add link.sheet today.csv");
    assert!(folder.0.join("link.sheet").symlink_metadata().unwrap().is_symlink());
    assert_eq!(folder.library("faults.sheet").len(), 37);
}

#[test]
fn help_of_every_command() {
    let folder = Folder::new("help");
    let overview = folder.done("help");
    assert_eq!(overview, folder.done("--help"));
    assert!(folder.done("--version").starts_with("silkendoz "));
    let commands: Vec<&str> = overview.lines().filter_map(|line| line.strip_prefix("  ")?.split(' ').next()).collect();
    for command in
        ["build", "add", "match", "plot", "report", "bands", "info", "list", "rename", "check", "repair", "salvage", "advise", "export", "help"]
    {
        assert!(commands.contains(&command), "{command}");
    }
    for command in commands {
        let about = folder.done(&format!("help {command}"));
        assert!(about.starts_with(&format!("silkendoz {command} ")));
        assert_eq!(folder.done(&format!("{command} --help")), about);
    }
}

/// A reader that has seen enough is no fault.
#[test]
fn a_closed_pipe() {
    let folder = shelf("pipe");
    for (line, said) in [("match faults.sheet faults.csv", ""), ("export faults.sheet 0 -o -", "standard output: trace 0, ")] {
        let mut command = Command::new(env!("CARGO_BIN_EXE_silkendoz"));
        command.current_dir(&folder.0).args(line.split(' ')).stdout(Stdio::piped()).stderr(Stdio::piped());
        let mut child = command.spawn().unwrap();
        drop(child.stdout.take());
        let ran = child.wait_with_output().unwrap();
        let err = String::from_utf8(ran.stderr).unwrap();
        assert_eq!(ran.status.code(), Some(0), "{line}: {err}");
        assert!(err.starts_with(said) && !err.contains("cannot") && (!said.is_empty() || err.is_empty()), "{line}: {err}");
    }
}
