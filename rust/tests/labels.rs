//! Labels at the bench: codes and serials given and shown, words for codes, what the remote is told, and blocks of labels that are torn,
//! put together again and salvaged. A library without labels is used as before.

mod bench;

use bench::*;
use silkendoz::{Label, TraceLibrary};
use std::fs;
use testing::model::sheet::seal;

/// The code of a fault by its place among the example's twelve, and the serial that a trace's name says.
fn label_of(number: usize) -> Label {
    Label { code: 0x0400 + (number / 3) as u16, serial: 4100 + number as u32 }
}

/// The faults with labels by a file of them, words for codes beside the sheet.
fn labelled(name: &str) -> Folder {
    let folder = bench(name);
    let (faults, _) = faults();
    let line = |(number, (name, _)): (usize, &(String, Vec<i32>))| format!("{name},{:#x},{}\n", label_of(number).code, label_of(number).serial);
    let lines: Vec<String> = faults.iter().enumerate().map(line).collect();
    folder.write("labels.csv", format!("name,code,serial\n# by hand\n{}", lines.concat()));
    folder.write("faults.codes", "0x0406 right rail dry\n1033,healthy\n");
    let out = folder.done("build faults.sheet --samples 64 --capacity 64 --leaf-size 4 --labels labels.csv faults.csv");
    assert_eq!(out, "faults.sheet: 36 traces of 64 samples, room for 64, leaf size 4; 36 with a label.\n");
    folder
}

fn text(json: &Json) -> &str {
    let Json::Text(text) = json else { panic!("no text: {json:?}") };
    text
}

// ---- given

#[test]
fn given_by_a_file() {
    let folder = labelled("by-file");
    assert!(folder.library("faults.sheet").labels().eq((0..36).map(label_of)));
    // by the file of a recording, with or without folder and ending
    fs::create_dir(folder.0.join("in")).unwrap();
    for (number, name) in ["a.csv", "b.csv", "c, d.csv"].into_iter().enumerate() {
        folder.write(&format!("in/{name}"), format!("{number} 7\n"));
    }
    folder.write("l.txt", "in/a.csv;1;10\nb\t2\t20\n\"c, d.csv\",0x3,30\n");
    assert_eq!(
        folder.done("build l.sheet --samples 2 --labels l.txt in"),
        "l.sheet: 3 traces of 2 samples, room for 64, leaf size 16; 3 with a label.\n"
    );
    let told: Vec<(u16, u32)> = folder.library("l.sheet").labels().map(|label| (label.code, label.serial)).collect();
    assert_eq!(told, [(1, 10), (2, 20), (3, 30)]);
}

#[test]
fn given_for_all() {
    let folder = Folder::new("for-all");
    folder.write("two.csv", "1 2\n3 4\n");
    folder.write("one.csv", "5 6\n");
    folder.done("build l.sheet --samples 2 --code 0x0412 two.csv");
    let out = folder.done("add l.sheet --code 7 --serial 4294967295 one.csv");
    assert_eq!(out, "l.sheet: 1 trace added, number 2; 1 with a label; 3 of 64 are taken.\n");
    let of = |code, serial| Label { code, serial };
    assert!(folder.library("l.sheet").labels().eq([of(0x412, 0), of(0x412, 0), of(7, u32::MAX)]));
    // a library's labels come along, unless others are given: so a stored one is changed
    folder.done("build m.sheet --samples 2 l.sheet");
    assert!(folder.library("m.sheet").labels().eq(folder.library("l.sheet").labels()));
    folder.write("new.csv", "one,1,2\n");
    assert_eq!(folder.done("build n.sheet --samples 2 --labels new.csv l.sheet").lines().count(), 1);
    assert!(folder.library("n.sheet").labels().eq([of(0x412, 0), of(0x412, 0), of(1, 2)]));
}

#[test]
fn given_wrongly() {
    let folder = labelled("wrongly");
    let before = folder.read("faults.sheet");
    for (words, why) in [
        ("--code 65536", "--code: `65536` is no number from 0 to 65535, nor 0x and its digits."),
        ("--serial -1", "--serial: `-1` is no number from 0 to 4294967295"),
        ("--code 1 --labels labels.csv", "`--labels` does not go together with `--code` and `--serial`."),
    ] {
        let ran = folder.line(&format!("add faults.sheet {words} today.csv"));
        assert_eq!(ran.status, 2, "{words}");
        assert!(ran.err.contains(why), "{words}: {}", ran.err);
    }
    for (lines, why) in [
        ("today,1\n", "l.csv, line 1: has to be a name or a file, a code and a serial."),
        ("\ntoday,x,1\n", "l.csv, line 2: `x` is no number from 0 to 65535"),
        ("yesterday,1,2\n", "l.csv, line 1: `yesterday` is neither a name nor a file of what is read here."),
        ("today,1,2\ntoday.csv,1,3\n", "l.csv, line 2: today.csv has a label by line 1 already."),
    ] {
        folder.write("l.csv", lines);
        let err = folder.refused("add faults.sheet --labels l.csv today.csv");
        assert!(err.contains(why), "{lines}: {err}");
    }
    assert!(folder.refused("add faults.sheet --labels gone.csv today.csv").contains("gone.csv: there is no such file"));
    assert!(folder.refused("build labels.csv --samples 64 --force --labels labels.csv faults.csv").contains("is read here too"));
    assert!(folder.read("faults.sheet") == before);
}

// ---- shown

#[test]
fn matched_by_code() {
    let folder = labelled("by-code");
    let out = folder.done("match faults.sheet today.csv");
    let rows: Vec<&str> = out.lines().skip(1).take(2).collect();
    assert_eq!(rows[0].split_whitespace().take(4).collect::<Vec<_>>(), ["no.", "code", "name", "serial"]);
    assert_eq!(rows[1].split_whitespace().collect::<Vec<_>>().join(" "), "19 0x0406 dry rail, right, machine 4119 4119 204579 56.5");
    assert!(out.contains("\nFits: 0x0406 right rail dry, off by 56.5 a sample; "), "{out}");
    assert!(out.contains(" Next fault: 0x0409 healthy, 6.4 times as far (362.6).\n"), "{out}");
    let told = Json::of(&folder.done("match faults.sheet today.csv --json"));
    let nearest = &told.at("sweeps").list()[0].at("nearest").list()[0];
    assert_eq!((nearest.at("code").number(), nearest.at("serial").number()), (0x0406, 4119));
    assert!(folder.done("match faults.sheet today.csv --tsv").starts_with("sweep\tverdict\tno.\tcode\tname\tserial\tdistance\t"));
    // without words a code stands for itself
    fs::remove_file(folder.0.join("faults.codes")).unwrap();
    assert!(folder.done("match faults.sheet today.csv").contains("\nFits: code 0x0406, off by"));
    // two names, one code: one fault
    folder.write("l.csv", "left,5,1\nright,5,2\nother,6,3\n");
    folder.write("three.csv", "left,0,0\nright,10,10\nother,99,99\n");
    folder.done("build l.sheet --samples 2 --labels l.csv three.csv");
    folder.write("sweep.csv", "4 4\n");
    assert!(folder.done("match l.sheet sweep.csv").contains("Fits: code 0x0005, off by"));
}

#[test]
fn listed_and_described() {
    let folder = labelled("listed-labels");
    let out = folder.done("info faults.sheet");
    assert!(out.contains("\n  labels            36 of 36: 12 codes (2 with a word in faults.codes), 36 serials\n"), "{out}");
    let told = Json::of(&folder.done("info faults.sheet --json"));
    assert_eq!(["labels", "codes", "serials"].map(|field| told.at(field).number()), [36, 12, 36]);
    let out = folder.done("list faults.sheet");
    assert!(out.lines().nth(1).unwrap().ends_with("rate  code    serial") && out.lines().nth(2).unwrap().ends_with("  -  0x0400    4100"), "{out}");
    let told = Json::of(&folder.done("list faults.sheet --json"));
    let last = &told.at("traces").list()[35];
    assert_eq!((last.at("code").number(), last.at("serial").number()), (0x040b, 4135));
    assert_eq!(folder.done("check faults.sheet"), "faults.sheet: sound. 12 blocks, 36 traces of 64 samples; 36 with a label.\n");
}

#[test]
fn words_for_codes() {
    let folder = labelled("words");
    for (lines, why) in [
        ("17\n", "faults.codes, line 1: has to be a code and its word. Correct it, or move it away to go on without words for codes."),
        ("# faults\n0 none\n", "faults.codes, line 2: code 0 says that there is none."),
        ("1 a\n0x1 b\n", "faults.codes, line 2: has code 0x0001 a second time."),
    ] {
        folder.write("faults.codes", lines);
        for command in ["match", "remote", "plot"] {
            let err = folder.refused(&format!("{command} faults.sheet today.csv"));
            assert!(err.contains(why), "{command}: {err}");
        }
    }
    // no picture and no recording goes over the words
    folder.write("faults.codes", "1 a\n");
    assert!(folder.refused("export faults.sheet 0 -o faults.codes --force").contains("faults.codes: is read here too"));
    assert!(folder.refused("plot faults.sheet today.csv -o faults.codes --force").contains("is read here too"));
    assert_eq!(folder.text("faults.codes"), "1 a\n");
}

// ---- the remote

#[test]
fn what_the_remote_is_told() {
    let folder = labelled("remote");
    let out = folder.done("remote faults.sheet today.csv");
    let cells: Vec<Vec<&str>> = out.lines().map(|line| line.split_whitespace().collect()).collect();
    assert_eq!(cells[0].join(" "), "sweep no. code fault distance a sample leaves traces");
    assert_eq!(cells[1][..7].join(" "), "today 19 0x0406 right rail dry 204579");
    let told = Json::of(&folder.done("remote faults.sheet today.csv --json"));
    let sweep = &told.at("sweeps").list()[0];
    assert_eq!((sweep.at("number").number(), sweep.at("code").number(), text(sweep.at("name"))), (19, 0x0406, "today"));
    // other serials and other names: the same
    let other: String = folder.text("labels.csv").lines().map(|line| format!("{}7\n", line.trim_end_matches(char::is_numeric))).collect();
    folder.write("other.csv", other.replace("serial7", "serial"));
    folder.done("build other.sheet --samples 64 --capacity 64 --leaf-size 4 --labels other.csv faults.csv");
    assert!(folder.library("other.sheet").labels().all(|label| label.serial == 7));
    fs::copy(folder.0.join("faults.codes"), folder.0.join("other.codes")).unwrap();
    folder.run(&["rename", "other.sheet", "19", "somebody's"]);
    assert_eq!(folder.done("remote other.sheet today.csv"), out);
    // no word, no code
    folder.write("two.csv", "1 2\n8 9\n");
    folder.done("build l.sheet --samples 2 --serial 4119 two.csv");
    let out = folder.done("remote l.sheet two.csv");
    assert_eq!(out.lines().nth(1).unwrap().split_whitespace().collect::<Vec<_>>().join(" "), "two, line 1 0 - - 0 0.0 1 2");
    assert!(!out.contains("4119"));
    assert!(folder.refused("remote faults.sheet two.csv").contains("2 samples, and 64 are wanted"));
}

// ---- blocks of labels

/// 200 traces of one sample in block 1, their labels in blocks 2 to 4.
fn long(name: &str) -> (Folder, Vec<u8>) {
    let folder = Folder::new(name);
    let mut library = TraceLibrary::open(1, 200, 16).unwrap();
    for number in 0..200u16 {
        library.add_labelled(&[number.into()], Label { code: 1 + number, serial: 4100 }).unwrap();
    }
    let sheet = library.write_sheet().unwrap();
    folder.write("long.sheet", &sheet);
    (folder, sheet)
}

#[test]
fn torn_blocks_of_labels() {
    let (folder, sheet) = long("torn-labels");
    folder.write("torn.sheet", damage(&sheet, &[2, 4]));
    let expected = "\
torn.sheet: refused 9, torn block.
  block 2 (labels of traces 0 to 83): its check does not fit: something in it changed.
  block 4 (labels of traces 168 to 199): its check does not fit: something in it changed.
  2 of 5 whole blocks torn. With another copy of the same writing: `silkendoz repair A B -o OUT`; without one: `silkendoz salvage FILE -o OUT`.
";
    assert_eq!(folder.line("check torn.sheet").out, expected);
    let mut erased = sheet.clone();
    erased[512..].fill(0xff);
    folder.write("erased.sheet", &erased);
    let out = folder.line("check erased.sheet").out;
    assert!(out.contains("  blocks 1 to 4 (samples of traces 0 on, labels of traces up to 199): every byte is 255"), "{out}");
    // put together from two copies, byte for byte
    folder.write("other.sheet", damage(&sheet, &[1, 3]));
    let out = folder.done("repair torn.sheet other.sheet -o whole.sheet");
    assert_eq!(out, "whole.sheet: sound. 5 blocks: 1 sound in both copies and the same, 2 from the first alone, 2 from the second alone.\n");
    assert!(folder.read("whole.sheet") == sheet);
}

#[test]
fn bad_sheets_with_labels() {
    let (folder, sheet) = long("bad-labels");
    let altered = |block: usize, at: usize, value: u8| {
        let mut other = sheet.clone();
        other[512 * block + at] = value;
        seal(&mut other[512 * block..512 * (block + 1)]);
        other
    };
    let zero = (2..5).fold(sheet.clone(), |mut zero, block| {
        zero[512 * block + 4..512 * block + 510].fill(0);
        seal(&mut zero[512 * block..512 * (block + 1)]);
        zero
    });
    // block 3 becomes one of samples, behind labels
    let behind = altered(3, 2, 2);
    for (bytes, why) in [
        (sheet[..512 * 4].to_vec(), "the number of its blocks of labels is 2, and 200 traces take 3, or none"),
        (
            [&sheet[..512], &altered(2, 0, 1)[1024..1536]].concat(),
            "it has 1 blocks besides 1 of labels, and 200 traces of 1 samples take 2: files were mixed",
        ),
        (altered(4, 508, 1), "a byte that has to be 0 is not: byte 508 of block 4"),
        (altered(4, 4 + 6 * 32, 1), "a byte that has to be 0 is not: byte 196 of block 4"),
        (altered(2, 3, 1), "a byte that has to be 0 is not: byte 3 of block 2"),
        (zero, "all its labels are zero, and then it has no block of them"),
        (behind, "block 3 (labels of traces 84 to 167): it holds samples behind labels, or its check does not fit"),
        (altered(2, 2, 7), "block 2 (labels of traces 0 to 83): its kind is 7, and has to be 2 or 5"),
        (altered(2, 2, 4), "block 2 (labels of traces 0 to 83): it holds samples of four bytes, and the sheet's have two: files were mixed"),
    ] {
        folder.write("bad.sheet", bytes);
        let ran = folder.line("check bad.sheet");
        assert_eq!(ran.status, 1);
        assert!(ran.out.contains(why), "{why}: {}", ran.out);
    }
}

#[test]
fn salvaged_with_labels() {
    let (folder, sheet) = long("salvaged-labels");
    folder.write("torn.sheet", damage(&sheet, &[3]));
    let out = folder.done("salvage torn.sheet -o out.sheet");
    assert_eq!(out, "out.sheet: 200 of 200 traces, all there were.\nWithout a label, since that stood in a torn block: 84 traces.\n");
    let kept = |number: u16| if (84..168).contains(&number) { Label::default() } else { Label { code: 1 + number, serial: 4100 } };
    assert!(folder.library("out.sheet").labels().eq((0..200).map(kept)));
    folder.done("salvage long.sheet -o all.sheet");
    assert!(folder.read("all.sheet") == sheet);
    // block 0 torn: labels are found behind the samples, and the traces of zeros at the end have none
    folder.write("head.sheet", damage(&sheet, &[0]));
    folder.done("salvage head.sheet -o h.sheet --samples 1");
    let library = folder.library("h.sheet");
    assert_eq!((library.len(), library.label(199).unwrap().code, library.label(200).unwrap().code), (253, 200, 0));
}

// ---- without labels

#[test]
fn as_before() {
    let folder = shelf("unlabelled");
    assert_eq!(folder.read("faults.sheet").len(), 11 * 512);
    assert_eq!(folder.done("check faults.sheet"), "faults.sheet: sound. 11 blocks, 36 traces of 64 samples.\n");
    for line in ["match faults.sheet today.csv", "info faults.sheet", "list faults.sheet"] {
        let out = folder.done(line);
        assert!(!out.contains("0x") && !out.contains(" code ") && !out.contains("serial") && !out.contains("with a label"), "{line}: {out}");
    }
    // a code of 0 is none
    folder.done("build zero.sheet --samples 64 --capacity 64 --leaf-size 4 --code 0 --serial 0 faults.csv");
    assert!(folder.read("zero.sheet") == folder.read("faults.sheet"));
}
