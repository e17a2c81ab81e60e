//! Sweeps of 20 bits at the bench: from text and from recordings of 24 bits, stored, matched, drawn, exported; and wide sheets, sound, torn
//! and put together again.

mod bench;

use bench::*;
use silkendoz::{Label, StoredSample, TraceLibrary};
use testing::model::sheet::{seal, write_as, Width};
use testing::model::Measures;

/// Sweeps of a long bed: four faults, two machines each, of 20 samples.
fn sweeps() -> Vec<(String, Vec<i32>)> {
    let trace = |fault: i32, machine: i32| (0..20).map(|at| 100_000 * fault - 9_000 * at + 700 * machine + 31 * at * machine).collect();
    (0..8).map(|at| (format!("fault {}, machine {at}", at / 2), trace(at / 2, at % 2))).collect()
}

fn lines(sweeps: &[(String, Vec<i32>)]) -> String {
    sweeps.iter().map(|(name, trace)| format!("\"{name}\",{}\n", joined(trace, ","))).collect()
}

/// A library of these, and a sweep like the sixth.
fn long_bed(name: &str) -> Folder {
    let folder = Folder::new(name);
    folder.write("bed.csv", lines(&sweeps()));
    folder.done("build bed.sheet --samples 20 bed.csv");
    let today: Vec<i32> = sweeps()[5].1.iter().map(|x| x + 40).collect();
    folder.write("today.csv", joined(&today, " "));
    folder
}

/// A WAV of one channel at 8,000 a second.
fn wav(bits: u16, data: &[u8]) -> Vec<u8> {
    let block = u32::from(bits / 8);
    let sizes = [36 + data.len() as u32, 16, 8000, 8000 * block, data.len() as u32].map(u32::to_le_bytes);
    let tail = [(block as u16).to_le_bytes(), bits.to_le_bytes()].concat();
    [b"RIFF", &sizes[0][..], b"WAVEfmt ", &sizes[1], &[1, 0, 1, 0], &sizes[2], &sizes[3], &tail, b"data", &sizes[4], data].concat()
}

/// Samples of 20 bits as 24, with nothing below them.
fn in_24_bits(samples: &[i32]) -> Vec<u8> {
    samples.iter().flat_map(|x| (16 * x).to_le_bytes()[..3].to_vec()).collect()
}

// ---- in and out

#[test]
fn from_text() {
    let folder = long_bed("wide-text");
    let library = folder.library("bed.sheet");
    assert_eq!(folder.read("bed.sheet")[2], 3);
    for (number, (_, trace)) in sweeps().iter().enumerate() {
        assert_eq!(library.trace(number).unwrap(), *trace);
    }
    let out = folder.done("match bed.sheet today.csv");
    assert!(out.contains("Fits: fault 2, off by 40.0 a sample"), "{out}");
    assert!(folder.done("match bed.sheet bed.csv --tsv").lines().skip(1).all(|line| line.split('\t').nth(4).unwrap() == "0"));
    // the names stay beside their traces: a hash of four bytes a sample
    assert!(folder.done("list bed.sheet").contains("fault 3, machine 7"));
    folder.done("rename bed.sheet 7 other");
    folder.done("add bed.sheet today.csv");
    assert!(folder.done("list bed.sheet").contains("other") && folder.done("check bed.sheet").contains("sound"));
    assert!(folder.refused("add bed.sheet today.csv").contains("is stored already, as trace 8"));
}

#[test]
fn ends_of_the_range() {
    let folder = Folder::new("wide-ends");
    folder.write("ends.csv", "low,-524288,-524288\nhigh,524287,524287.0\nzero,0,0\n");
    folder.done("build e.sheet --samples 2 ends.csv");
    assert_eq!(folder.library("e.sheet").traces().map(StoredSample::values).collect::<Vec<_>>(), [[-524_288; 2], [524_287; 2], [0; 2]]);
    for (text, what) in [
        ("1,524288", "bad.csv, line 1: `524288` in column 2 is no whole number from -524288 to 524287. Scale the recording"),
        ("x,1,2\ny,-524289,2", "bad.csv, line 2: `-524289` in column 2 is no whole number from -524288 to 524287."),
        ("1 99999999999", "bad.csv, line 1: `99999999999` in column 2 is no whole number"),
    ] {
        folder.write("bad.csv", text);
        for line in ["add e.sheet bad.csv", "match e.sheet bad.csv", "build b.sheet --samples 2 bad.csv"] {
            let err = folder.refused(line);
            assert!(err.contains(what), "{err}");
        }
    }
    // a sweep at the limit, of 20 bits and of 16: sample 2 is at the limit of the one that it was recorded by
    folder.write("one.csv", "32767 524287");
    assert!(folder.done("match e.sheet one.csv").contains("1 sample is at the converter's limit, from sample 2 on"));
    folder.write("two.csv", "0 -32768");
    assert!(folder.done("match e.sheet two.csv").contains("1 sample is at the converter's limit, from sample 2 on"));
}

#[test]
fn from_24_bits() {
    let folder = long_bed("wide-24");
    let all: Vec<i32> = sweeps().into_iter().flat_map(|(_, trace)| trace).collect();
    folder.write("bed.wav", wav(24, &in_24_bits(&all)));
    let err = folder.refused("build w.sheet --samples 20 bed.wav");
    assert!(err.contains("it has 24 bits a sample, and has to have 16") && err.contains("`--convert` brings it to what can be taken"), "{err}");
    let out = folder.done("build w.sheet --samples 20 --convert bed.wav");
    assert!(out.starts_with("bed.wav: converted: 24 bits shifted right by 4, to 20.\n"), "{out}");
    assert!(folder.read("w.sheet") == folder.read("bed.sheet"), "the same traces make the same sheet");
    // a part of a trace at its end, with and without --cut
    folder.write("odd.wav", wav(24, &in_24_bits(&all[..47])));
    let err = folder.refused("add w.sheet --convert odd.wav");
    assert!(err.contains("it has 47 samples, which is no multiple of 20. `--cut` takes its whole traces"), "{err}");
    let out = folder.done("add w.sheet --convert --cut --again odd.wav");
    assert!(out.contains("shifted right by 4") && out.contains("cut into 2 traces; 7 samples at its end left out."), "{out}");
    folder.write("short.wav", wav(24, &in_24_bits(&all[..9])));
    assert!(folder.refused("match w.sheet --convert --cut short.wav").contains("it has 9 samples, and a trace has 20. It is too short"));
    folder.write("none.wav", wav(24, &[]));
    assert!(folder.refused("match w.sheet --convert none.wav").contains("holds no trace"));
    folder.write("many.wav", wav(24, &vec![0; 3 * 4097]));
    assert!(folder.refused("build m.sheet --samples 1 --convert many.wav").contains("holds more than 4096 traces of 1 sample"));
}

/// The same recording at 16 bits and at 20 differs by a factor of 16: where stored traces all fit 16 bits, that is said.
#[test]
fn to_other_bits_than_the_library() {
    let folder = Folder::new("wide-bits");
    let stored: Vec<i32> = (0..40).map(|at| 12_800 - 640 * (at % 20) + 16 * (at / 20)).collect();
    folder.write("old.wav", wav(24, &in_24_bits(&stored)));
    folder.done("build old.sheet --samples 20 --convert --bits 16 old.wav");
    assert_eq!(folder.read("old.sheet")[2], 1);
    let doubt = "old.wav: has 20 bits now, and every stored trace fits 16. If those were brought to 16 bits, say `--bits 16`";
    for line in ["match old.sheet old.wav --convert", "remote old.sheet old.wav --convert", "add old.sheet old.wav --convert"] {
        assert!(folder.done(line).contains(doubt), "{line}");
    }
    folder.done("build old.sheet --samples 20 --convert --bits 16 old.wav --force");
    let out = folder.done("match old.sheet old.wav --convert --bits 16");
    assert!(!out.contains("every stored trace fits 16"), "{out}");
    // one trace beyond 16 bits, and there is no doubt
    folder.write("one.csv", joined(&[40_000; 20], ","));
    folder.done("add old.sheet one.csv");
    assert!(!folder.done("match old.sheet old.wav --convert").contains("every stored trace fits 16"));
}

#[test]
fn exported() {
    let folder = long_bed("wide-export");
    let err = folder.refused("export bed.sheet 5 -o five.wav");
    let why = "refused 12: trace 5, fault 2, machine 5, has samples beyond 16 bits: sample 1 is 200700, and a WAV file here holds -32768 to 32767";
    assert!(err.contains(why) && err.contains("`--csv` writes it as text."), "{err}");
    assert!(!folder.files().contains(&"five.wav".to_string()));
    let out = folder.done("export bed.sheet 5 --csv -o five.csv");
    assert_eq!(out, "five.csv: trace 5, fault 2, machine 5, 20 samples as text.\n");
    assert_eq!(folder.text("five.csv"), lines(&sweeps()[5..6]));
    // all of them, and a library of these texts is the library
    for number in 0..8 {
        folder.done(&format!("export bed.sheet {number} --csv -o {number}.csv"));
    }
    folder.done("build again.sheet --samples 20 0.csv 1.csv 2.csv 3.csv 4.csv 5.csv 6.csv 7.csv");
    assert!(folder.read("again.sheet") == folder.read("bed.sheet"));
    assert_eq!(folder.done("list again.sheet").lines().filter(|line| line.contains("fault")).count(), 8);
    // a trace of a wide library that fits 16 bits is exported as it was
    folder.write("zero.csv", joined(&[0; 20], ","));
    folder.done("add bed.sheet zero.csv");
    folder.done("export bed.sheet 8 -o zero.wav");
    assert_eq!(folder.read("zero.wav").len(), 44 + 2 * 20);
    // a trace without a name is samples alone, and standard output takes it too
    std::fs::remove_file(folder.0.join("bed.names")).unwrap();
    let ran = folder.line("export bed.sheet 8 --csv -o -");
    assert_eq!((ran.status, ran.out), (0, format!("{}\n", joined(&[0; 20], ","))));
    assert!(folder.refused("export bed.sheet 9 --csv -o nine.csv").contains("refused 12: there is no trace 9; it holds traces 0 to 8."));
    assert!(folder.refused("export bed.sheet 0 --csv -o five.csv").contains("is there already"));
    let ran = folder.line("export bed.sheet 0 --csv --rate 8000 -o r.csv");
    assert!(ran.status == 2 && ran.err.contains("--rate: a line of text has none. Leave it out, or `--csv`."), "{}", ran.err);
}

#[test]
fn told_by_info() {
    let folder = long_bed("wide-info");
    let out = folder.done("info bed.sheet");
    assert!(out.contains("  sheet             wide: 8 of 8 traces with samples beyond 16 bits; all take four bytes\n"), "{out}");
    // 64 traces of 20 samples: 4 bytes each; narrow and wide, 1 + 6 or 11 + 1 blocks
    assert!(out.contains(" 5,120 ") && out.contains(" 4,096 ") && out.contains("  6,656\n"), "{out}");
    let json = Json::of(&folder.done("info bed.sheet --json"));
    assert_eq!((json.at("wide_traces").number(), json.at("memory").at("samples").number()), (8, 4 * 64 * 20));
    assert_eq!((json.at("memory").at("full_sheet").number(), json.at("memory").at("full_wide_sheet").number()), (512 * 8, 512 * 13));
    folder.write("mixed.csv", format!("1{}\n40000{}\n", ",0".repeat(19), ",0".repeat(19)));
    folder.done("build mixed.sheet --samples 20 mixed.csv");
    assert!(folder.done("info mixed.sheet").contains("wide: 1 of 2 traces with samples beyond 16 bits"));
    folder.done("build narrow.sheet --samples 20 --without 1 mixed.sheet");
    assert!(folder.done("info narrow.sheet").contains("  sheet             narrow: all samples fit 16 bits, and take two bytes\n"));
    assert_eq!((folder.read("narrow.sheet")[2], folder.read("mixed.sheet")[2]), (1, 3));
}

#[test]
fn drawn_and_advised() {
    let folder = long_bed("wide-drawn");
    folder.done("plot bed.sheet today.csv");
    let svg = folder.text("today.svg");
    // marks up to the samples, and no curve beyond the picture
    assert!(svg.contains(">300000<") && svg.contains(">-100000<"), "{svg}");
    let points = svg.split("points=\"").skip(1).flat_map(|rest| rest.split('"').next().unwrap().split(' '));
    let inside = |point: &str| point.split(',').all(|at| (0.0..=1200.0).contains(&at.parse::<f64>().unwrap()));
    assert!(points.filter(|point| !point.is_empty()).all(inside));
    folder.done("report bed.sheet today.csv");
    assert!(folder.text("today.html").contains("fault 2"));
    let out = folder.done("advise bed.sheet");
    assert!(out.contains("plain scan") && out.contains("All traces have the same swing"), "{out}");
    folder.write("ends.csv", format!("low{0}\nhigh{1}\n", ",-524288".repeat(20), ",524287".repeat(20)));
    folder.done("build ends.sheet --samples 20 ends.csv");
    folder.write("sweep.csv", ["524287"; 20].join(" "));
    folder.done("plot ends.sheet sweep.csv -k 2");
    let svg = folder.text("sweep.svg");
    assert!(svg.contains(">1000000<") && svg.contains(">-1500000<") && svg.contains("at the converter's limit: 20 of 20"), "{svg}");
    folder.done("advise ends.sheet");
}

// ---- sheets

/// A wide sheet of several blocks, with labels.
fn long(name: &str) -> (Folder, Vec<u8>) {
    let folder = Folder::new(name);
    let mut library = TraceLibrary::open(20, 100, 8).unwrap();
    for number in 0..90i32 {
        let trace: Vec<i32> = (0..20).map(|at| 5_000 * number - 300 * at).collect();
        library.add_labelled(&trace, Label { code: 1 + number as u16, serial: 4100 }).unwrap();
    }
    let sheet = library.write_sheet().unwrap();
    // 1,800 samples, 126 a block: blocks 1 to 15; 90 labels, 84 a block: 16 and 17
    assert_eq!((sheet.len(), sheet[2]), (18 * 512, 3));
    folder.write("long.sheet", &sheet);
    (folder, sheet)
}

#[test]
fn torn_and_put_together() {
    let (folder, sheet) = long("wide-torn");
    assert!(folder.done("check long.sheet").contains("sound. 18 blocks, 90 traces of 20 samples; 90 with a label."));
    folder.write("a.sheet", damage(&sheet, &[0, 3, 15]));
    folder.write("b.sheet", damage(&sheet, &[1, 16]));
    let said = folder.line("check b.sheet").out;
    // block 1 has samples 0 to 125, of traces 0 to 6
    assert!(said.contains("block 1 (samples of traces 0 to 6): ") && said.contains("block 16 (labels of traces 0 to 83): "), "{said}");
    assert!(folder.line("check a.sheet").out.contains("3 of 18 whole blocks torn"));
    assert!(folder.done("repair a.sheet b.sheet -o whole.sheet").contains("18 blocks: 13 sound in both copies and the same, 2 from the first alone"));
    assert!(folder.read("whole.sheet") == sheet);
    // block 3 has samples 252 to 377, of traces 12 to 18; block 15 has samples 1764 on, of traces 88 and 89
    folder.write("torn.sheet", damage(&sheet, &[3, 15, 17]));
    let out = folder.done("salvage torn.sheet -o less.sheet");
    assert!(out.contains("less.sheet: 81 of 90 traces. Lost, by their old numbers: 9 traces"), "{out}");
    let less = folder.library("less.sheet");
    let value = |number: usize| less.trace(number).unwrap()[1].value();
    assert_eq!((less.len(), value(11), value(12), value(80)), (81, 54_700, 94_700, 434_700));
    // block 0 is torn: the others say that it is a wide sheet
    folder.write("headless.sheet", damage(&sheet, &[0]));
    assert!(folder.refused("salvage headless.sheet -o no.sheet").contains("say `--samples N`"));
    folder.done("salvage headless.sheet --samples 20 -o all.sheet");
    let all = folder.library("all.sheet");
    assert!(all.len() >= 90 && all.trace(89).unwrap()[1].value() == 444_700);
}

#[test]
fn what_is_wrong_with_a_wide_sheet() {
    let (folder, sheet) = long("wide-wrong");
    let m = Measures { n: 2, capacity: 4, leaf_size: 1 };
    let none = [testing::model::Label::default(); 2];
    let narrow = write_as(Width::Narrow, m, &[vec![1, 2], vec![3, 4]], &none);
    let wide = write_as(Width::Wide, m, &[vec![1, 40_000], vec![3, 4]], &none);
    let mut kind = wide.clone();
    kind[512..].copy_from_slice(&narrow[512..]);
    let mut stray = wide.clone();
    stray[512 + 4 + 16] = 1;
    seal(&mut stray[512..]);
    let other = "Another program wrote it, or files were cut or joined: read the other copy.";
    for (bytes, status, what) in [
        (write_as(Width::Wide, m, &[vec![1, 2], vec![3, 4]], &none), 10, "it is a wide sheet, of four bytes a sample, and all its samples fit two."),
        (write_as(Width::Wide, m, &[], &[]), 10, "it is a wide sheet, of four bytes a sample, and all its samples fit two."),
        (write_as(Width::Wide, m, &[vec![1, 2], vec![524_288, 4]], &none), 15, "sample 1 of trace 1 is 524288, and samples are -524288 to 524287."),
        (
            write_as(Width::Wide, m, &[vec![1, i32::MIN], vec![1, 4]], &none),
            15,
            "sample 2 of trace 0 is -2147483648, and samples are -524288 to 524287.",
        ),
        (stray, 10, "a byte that has to be 0 is not: byte 20 of block 1."),
    ] {
        folder.write("bad.sheet", &bytes);
        let said = folder.line("check bad.sheet");
        assert!(said.status == 1 && said.out.contains(&format!("refused {status}, ")), "{}", said.out);
        assert!(said.out.contains(&format!("every block is sound, but {what} {other}")), "{}", said.out);
        assert!(folder.refused("info bad.sheet").contains(what));
    }
    folder.write("kind.sheet", &kind);
    let said = folder.line("check kind.sheet").out;
    assert!(
        said.contains("block 1 (samples of traces 0 to 1): it holds samples of two bytes, and the sheet's have four: files were mixed"),
        "{said}"
    );
    // a block of samples behind labels, and a kind that there is not
    let mut behind = sheet.clone();
    behind[17 * 512..].copy_from_slice(&sheet[15 * 512..16 * 512]);
    behind[17 * 512] = 17;
    seal(&mut behind[17 * 512..]);
    folder.write("behind.sheet", &behind);
    assert!(folder.line("check behind.sheet").out.contains("block 17 (labels of traces 84 to 89): it holds samples behind labels"));
    let mut odd = sheet.clone();
    odd[4 * 512 + 2] = 7;
    odd[2] = 9;
    folder.write("odd.sheet", &odd);
    let said = folder.line("check odd.sheet").out;
    assert!(
        said.contains("block 0: its kind is 9, and has to be 1 or 3.") && said.contains("block 4: its kind is 7, and has to be 4 or 5."),
        "{said}"
    );
    // erased: told in one line
    folder.write("erased.sheet", [&sheet[..512 * 2], &vec![0; 512 * 16]].concat());
    assert!(folder.line("check erased.sheet").out.contains("  blocks 2 to 17 (samples of traces 6 on, labels of traces up to 89): every byte is 0"));
    // too long for any sheet
    folder.write("long.bin", vec![0xff; 512 * 8374]);
    assert!(folder.refused("info long.bin").contains("4287488 bytes, and the largest sheet has 4286976"));
}
