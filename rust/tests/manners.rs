//! What the bench program does for those who use it every day: folders and standard input, other forms of WAV, lists, names, salvage.

mod bench;

use bench::*;
use std::fs;
use std::io::Write;
use std::process::{Command, Stdio};

/// Runs a line of words with these bytes on standard input.
fn fed(folder: &Folder, line: &str, input: &[u8]) -> Ran {
    let mut command = Command::new(env!("CARGO_BIN_EXE_silkendoz"));
    command.current_dir(&folder.0).args(line.split(' ')).stdin(Stdio::piped()).stdout(Stdio::piped()).stderr(Stdio::piped());
    let mut child = command.spawn().unwrap();
    child.stdin.take().unwrap().write_all(input).unwrap();
    let ran = child.wait_with_output().unwrap();
    let text = |bytes| String::from_utf8(bytes).unwrap();
    Ran { status: ran.status.code().unwrap(), out: text(ran.stdout), err: text(ran.stderr) }
}

fn text(json: &Json) -> &str {
    let Json::Text(text) = json else { panic!("no text: {json:?}") };
    text
}

// ---- what is read

#[test]
fn folders_and_standard_input() {
    let folder = Folder::new("folders");
    fs::create_dir(folder.0.join("faults")).unwrap();
    for (name, text) in [("b.csv", "1 2"), ("a.TXT", "3 4"), ("c.svg", "<svg/>"), (".hidden.csv", "5 6"), ("notes.md", "-")] {
        folder.write(&format!("faults/{name}"), text);
    }
    folder.done("build l.sheet --samples 2 faults");
    assert_eq!(named(&folder.text("l.names")), ["0\ta\tfaults/a.TXT\t-", "1\tb\tfaults/b.csv\t-"]);
    let ran = fed(&folder, "add l.sheet -", b"7,8\n");
    assert_eq!((ran.status, ran.out.as_str()), (0, "l.sheet: 1 trace added, number 2; 3 of 64 are taken.\n"));
    assert_eq!(named(&folder.text("l.names"))[2], "2\tstandard input\tstandard input\t-");
    fs::create_dir(folder.0.join("empty")).unwrap();
    assert!(folder.refused("add l.sheet empty").contains("empty: this folder has no file that ends in .wav, .csv, .tsv or .txt"));
}

#[test]
fn every_bad_file_is_named_at_once() {
    let folder = Folder::new("bad-files");
    folder.write("good.csv", "1,2\n");
    folder.write("long.csv", "1,2,3\n");
    folder.write("odd.csv", "1,x\n");
    folder.write("none.csv", "");
    let err = folder.refused("build l.sheet --samples 2 good.csv long.csv odd.csv none.csv gone.csv");
    assert!(err.starts_with("silkendoz: 4 of 5 files cannot be taken:\nlong.csv, line 1: 3 samples"), "{err}");
    for part in ["\nodd.csv, line 1: `x`", "\nnone.csv: holds no trace", "\ngone.csv: there is no such file"] {
        assert!(err.contains(part), "{err}");
    }
    assert!(!folder.files().contains(&"l.sheet".to_string()));
}

#[test]
fn text_of_other_habits() {
    let folder = Folder::new("habits");
    folder.write("point.csv", "1603.0,2\n");
    folder.write("comma.csv", "1603,0;2\n");
    folder.done("build l.sheet --samples 2 point.csv comma.csv");
    let library = folder.library("l.sheet");
    assert!((0..2).all(|number| library.trace(number).unwrap() == [1603, 2]));
    for (text, why) in [
        ("1,5;2,5\n", "`1,5` in column 1 is no whole number from -524288 to 524287. It looks like a number with a decimal comma"),
        ("1\n2\n3\n4\n", "line 1: 1 sample, and 2 are wanted, and so in all lines. A trace is one line"),
        ("\"dry\",1\n", "line 1: 1 sample, and 2 are wanted"),
    ] {
        folder.write("odd.csv", text);
        let err = folder.refused("add l.sheet odd.csv");
        assert!(err.contains(why), "{text}: {err}");
    }
}

// ---- recordings of other forms

/// A WAV file of these parts, whatever they are.
fn wav(format: u16, channels: u16, bits: u16, data: &[u8], before: &[u8]) -> Vec<u8> {
    let block = channels * bits / 8;
    let mut head = Vec::new();
    let said = if format == 0xfffe { 1u16 } else { format };
    head.extend(format.to_le_bytes());
    head.extend(channels.to_le_bytes());
    head.extend(11025u32.to_le_bytes());
    head.extend((11025 * u32::from(block)).to_le_bytes());
    head.extend(block.to_le_bytes());
    head.extend(bits.to_le_bytes());
    if format == 0xfffe {
        head.extend(22u16.to_le_bytes());
        head.extend(bits.to_le_bytes());
        head.extend([0; 4]);
        head.extend(said.to_le_bytes());
        head.extend(b"\0\0\0\0\x10\0\x80\0\0\xaa\0\x38\x9b\x71");
    }
    let mut body = b"WAVEfmt ".to_vec();
    body.extend((head.len() as u32).to_le_bytes());
    body.extend(head);
    body.extend(before);
    body.extend(b"data");
    body.extend((data.len() as u32).to_le_bytes());
    body.extend(data);
    let mut file = b"RIFF".to_vec();
    file.extend((body.len() as u32).to_le_bytes());
    file.extend(body);
    file
}

#[test]
fn converted_if_that_is_wanted() {
    const EIGHT: &str = "converted: 8 bits times 256; 2 samples at the converter's limit of 8 bits.";
    let folder = Folder::new("converted");
    let floats = |list: [f32; 4]| list.iter().flat_map(|x| x.to_le_bytes()).collect::<Vec<u8>>();
    let doubles = |list: [f64; 4]| list.iter().flat_map(|x| x.to_le_bytes()).collect::<Vec<u8>>();
    let list = b"LIST\x05\0\0\0INFOx\0";
    let same = [1000, -2, 32767, -32768];
    let coded = same.map(|x| (x as i16).to_le_bytes());
    let plain: Vec<u8> = coded.concat();
    let stereo: Vec<u8> = coded.iter().flat_map(|x| [*x, [7, 7]].concat()).collect();
    // as many bytes below, of which the upper four bits are read
    let wide = |low: usize| coded.iter().flat_map(|x| [vec![0x90; low], x.to_vec()].concat()).collect::<Vec<u8>>();
    let wider = same.map(|x| 16 * x + 9);
    for (name, bytes, expected, said) in [
        ("tagged", wav(1, 1, 16, &plain, list), same, "converted: without `LIST`."),
        ("stereo", wav(1, 2, 16, &stereo, b""), same, "converted: the first of 2 channels."),
        ("extensible", wav(0xfffe, 1, 16, &plain, b""), same, "converted: under the usual header."),
        ("8", wav(1, 1, 8, &[128, 129, 255, 0], b""), [0, 256, 32512, -32768], EIGHT),
        (
            "float",
            wav(3, 1, 32, &floats([0.5, -0.25, 2.0, -1.0]), b"fact\x04\0\0\0\x04\0\0\0"),
            [262_144, -131_072, 524_287, -524_288],
            "converted: floating point times 524288, rounded; without `fact`; 1 sample beyond 20 bits set to the limit.",
        ),
        ("double", wav(3, 1, 64, &doubles([0.5, -0.25, 0.0, 0.1]), b""), [262_144, -131_072, 0, 52_429], "floating point"),
        ("24", wav(1, 1, 24, &wide(1), b""), wider, "converted: 24 bits shifted right by 4, to 20."),
        ("32", wav(1, 1, 32, &wide(2), b""), wider, "converted: 32 bits shifted right by 12, to 20; 4 samples had bits below these."),
        ("extensible24", wav(0xfffe, 1, 24, &wide(1), b""), wider, "converted: 24 bits shifted right by 4, to 20."),
    ] {
        let file = format!("{name}.wav");
        folder.write(&file, bytes);
        let err = folder.refused(&format!("build {name}.sheet --samples 4 {file}"));
        assert!(err.contains("`--convert` brings it to what can be taken"), "{name}: {err}");
        let out = folder.done(&format!("build {name}.sheet --samples 4 --convert {file}"));
        assert!(out.starts_with(&format!("{file}: ")) && out.contains(said), "{name}: {out}");
        assert_eq!(folder.library(&format!("{name}.sheet")).trace(0).unwrap(), expected, "{name}");
        assert!(folder.text(&format!("{name}.names")).contains("\t11025\t"));
    }
    // to 16 bits, as it was before there were 20
    for (name, expected, said) in [
        ("24", same, "converted: 24 bits shifted right by 8, to 16; 4 samples had bits below these."),
        ("32", same, "converted: 32 bits shifted right by 16, to 16; 4 samples had bits below these."),
        ("float", [16384, -8192, 32767, -32768], "floating point times 32768, rounded; without `fact`; 1 sample beyond 16 bits set to the limit."),
        ("8", [0, 256, 32512, -32768], EIGHT),
    ] {
        let out = folder.done(&format!("build n{name}.sheet --samples 4 --convert --bits 16 {name}.wav"));
        assert!(out.contains(said), "{name}: {out}");
        assert_eq!(folder.library(&format!("n{name}.sheet")).trace(0).unwrap(), expected, "{name}");
    }
    for (line, why) in [
        ("build b.sheet --samples 4 --bits 16 24.wav", "--bits: says to how many bits `--convert` brings a recording. Say both."),
        ("build b.sheet --samples 4 --convert --bits 24 24.wav", "--bits: samples get 16 bits or 20, and not 24."),
    ] {
        let ran = folder.line(line);
        assert!(ran.status == 2 && ran.err.contains(why), "{}", ran.err);
    }
    // one that is plain already is taken as it is
    folder.write("plain.wav", wav(1, 1, 16, &plain, b""));
    assert!(!folder.done("build plain.sheet --samples 4 --convert plain.wav").contains("converted"));
    // what cannot be converted
    let whole = wav(1, 1, 24, &wide(1), b"");
    let mut piped = whole.clone();
    piped[40..44].fill(255);
    for (bytes, why) in [
        (wav(6, 1, 8, &[1, 2, 3, 4], b""), "its format is 6, which is not converted here"),
        (wav(1, 1, 12, &plain, b""), "12 bits, 1 channels and rate 11025 are not converted here"),
        (whole[..whole.len() - 1].to_vec(), "its part `data` says 12 bytes, and 11 are there. It was cut off"),
        (piped, "its part `data` says 4294967295 bytes, and 12 are there. It was written into a pipe"),
        (whole[..36].to_vec(), "it has no header or no samples"),
        (whole[..20].to_vec(), "was cut off"),
    ] {
        folder.write("bad.wav", bytes);
        let err = folder.refused("build bad.sheet --samples 4 --convert bad.wav");
        assert!(err.contains(why), "{why}: {err}");
        // nor is it said that it can be
        assert!(!folder.refused("build bad.sheet --samples 4 bad.wav").contains("--convert"), "{why}");
    }
}

#[test]
fn cut_if_that_is_wanted() {
    let folder = Folder::new("cut");
    let data: Vec<u8> = (0..11i16).flat_map(i16::to_le_bytes).collect();
    folder.write("long.wav", wav(1, 1, 16, &data, b""));
    folder.write("short.wav", wav(1, 1, 16, &data[..6], b""));
    let err = folder.refused("build l.sheet --samples 4 long.wav");
    assert!(err.contains("it has 11 samples, which is no multiple of 4. `--cut` takes its whole traces"), "{err}");
    let out = folder.done("build l.sheet --samples 4 --cut long.wav");
    assert!(out.starts_with("long.wav: cut into 2 traces; 3 samples at its end left out.\n"), "{out}");
    assert_eq!(folder.library("l.sheet").trace(1).unwrap(), [4, 5, 6, 7]);
    for line in ["add l.sheet short.wav", "add l.sheet --cut short.wav"] {
        assert!(folder.refused(line).contains("it has 3 samples, and a trace has 4. It is too short"), "{line}");
    }
    // both at once, on a file of another form
    folder.write("stereo.wav", wav(1, 2, 16, &[data.clone(), data].concat(), b""));
    let out = folder.done("add l.sheet --cut --convert stereo.wav");
    assert!(out.contains("the first of 2 channels.\n") && out.contains("cut into 2 traces"), "{out}");
    assert_eq!(folder.library("l.sheet").trace(2).unwrap(), [0, 2, 4, 6]);
}

#[test]
fn the_rate_of_a_recording_stays() {
    let folder = Folder::new("rates");
    let data: Vec<u8> = (0..8i16).flat_map(i16::to_le_bytes).collect();
    folder.write("a.wav", wav(1, 1, 16, &data, b""));
    folder.done("build l.sheet --samples 8 a.wav");
    assert!(folder.done("info l.sheet").contains("rate              11025 samples a second\n"));
    assert!(folder.done("export l.sheet 0 -o again.wav").ends_with("8 samples at 11025 a second.\n"));
    assert!(folder.read("again.wav") == folder.read("a.wav"));
    folder.done("export l.sheet 0 -o slow.wav --rate 2000");
    let out = folder.done("add l.sheet slow.wav --again");
    assert!(out.contains("slow.wav: recorded at 2000 samples a second; the library's are of 11025."), "{out}");
    folder.write("b.csv", "1 2 3 4 5 6 7 8");
    assert!(folder.done("build mixed.sheet --samples 8 a.wav slow.wav b.csv").contains("of different rates: 2000, 11025"));
    assert!(folder.done("export mixed.sheet 2 -o b.wav").ends_with("8 samples at 8000 a second, which nobody said.\n"));
}

// ---- what is stored

#[test]
fn listed_and_renamed() {
    let folder = shelf("listed");
    let (faults, _) = faults();
    let out = folder.done("list faults.sheet");
    assert!(out.starts_with("faults.sheet: 36 traces of 64 samples\n"));
    for ((number, (name, _)), line) in faults.iter().enumerate().zip(out.lines().skip(2)) {
        assert!(line.trim_start().starts_with(&format!("{number}  {name}  ")) && line.ends_with("faults.csv     -"), "{line}");
    }
    let told = Json::of(&folder.done("list faults.sheet --json"));
    assert_eq!((told.at("samples").number(), told.at("traces").list().len()), (64, 36));
    assert_eq!(text(told.at("traces").list()[3].at("name")), faults[3].0);
    assert_eq!(told.at("traces").list()[3].at("rate"), &Json::Null);

    let sheet = folder.read("faults.sheet");
    let ran = folder.run(&["rename", "faults.sheet", "3", "belt too loose"]);
    assert_eq!(ran.out, format!("faults.sheet: trace 3, {}, is called belt too loose now.\n", faults[3].0));
    assert!(folder.read("faults.sheet") == sheet);
    assert_eq!(named(&folder.text("faults.names"))[3], "3\tbelt too loose\tfaults.csv\t-");
    assert!(folder.refused("rename faults.sheet 36 x").contains("there is no trace 36; it holds 36, counted from 0"));
    for (name, why) in [("", "NAME: it is empty"), (" \t", "NAME: it is empty"), (&"x".repeat(201)[..], "201 letters")] {
        let ran = folder.run(&["rename", "faults.sheet", "3", name]);
        assert_eq!(ran.status, 2);
        assert!(ran.err.contains(why), "{}", ran.err);
    }
    // a trace that has no name gets one
    fs::remove_file(folder.0.join("faults.names")).unwrap();
    folder.done("rename faults.sheet 5 worn");
    assert_eq!(named(&folder.text("faults.names")), ["5\tworn\t\t-"]);
}

#[test]
fn a_trace_that_is_stored_already() {
    let folder = shelf("again");
    let (faults, _) = faults();
    let before = (folder.read("faults.sheet"), folder.read("faults.names"));
    folder.write("known.csv", format!("{}\n", joined(&faults[7].1, ",")));
    let err = folder.refused("add faults.sheet today.csv known.csv");
    let stored = format!("known.csv: is stored already, as trace 7, {}.\nNothing was added. Say `--again`", faults[7].0);
    assert!(err.contains(&stored), "{err}");
    assert!(folder.refused("add faults.sheet faults.csv").contains("26 more are there already"));
    // twice in one command is twice too
    let err = folder.refused("add faults.sheet today.csv today.csv");
    assert!(err.contains("today.csv: is the same, sample by sample, as today.csv.\nNothing was added. Say `--again`"), "{err}");
    assert!(before == (folder.read("faults.sheet"), folder.read("faults.names")));
    let out = folder.done("build twice.sheet --samples 64 known.csv today.csv faults.csv");
    assert!(out.starts_with(&format!("faults.csv: {}: is the same, sample by sample, as known.csv.\ntwice.sheet: 38 traces", faults[7].0)), "{out}");
    folder.done("add faults.sheet --again known.csv");
    assert_eq!(folder.library("faults.sheet").trace(36).unwrap(), faults[7].1);
}

#[test]
fn a_wrong_recording_goes() {
    let folder = shelf("without");
    let (faults, _) = faults();
    let out = folder.done("build new.sheet --samples 64 --without 3,35 faults.sheet");
    assert!(out.starts_with(&format!("without trace 3, {}.\nwithout trace 35, {}.\nnew.sheet: 34 traces", faults[3].0, faults[35].0)), "{out}");
    let library = folder.library("new.sheet");
    assert_eq!(library.trace(3).unwrap(), faults[4].1);
    assert!(named(&folder.text("new.names"))[3].starts_with(&format!("3\t{}\t", faults[4].0)));
    assert!(folder.refused("build x.sheet --samples 64 --without 36 faults.sheet").contains("there is no trace 36; the files hold 36"));
    folder.write("one.csv", "1,2");
    assert!(folder.refused("build x.sheet --samples 2 --without 0 one.csv").contains("no trace is left"));
    assert_eq!(folder.line("build x.sheet --samples 2 --without a one.csv").status, 2);
}

#[test]
fn salvaged() {
    let folder = shelf("salvaged");
    let (faults, _) = faults();
    let sheet = folder.read("faults.sheet");
    // block 2 holds samples of traces 3 to 7
    folder.write("torn.sheet", damage(&sheet, &[2]));
    fs::copy(folder.0.join("faults.names"), folder.0.join("torn.names")).unwrap();
    let out = folder.done("salvage torn.sheet -o out.sheet");
    assert!(out.starts_with("out.sheet: 31 of 36 traces. Lost, by their old numbers: 5 traces\n"), "{out}");
    assert!((3..=7).all(|lost| out.contains(&format!("  {lost}  {}\n", faults[lost].0))), "{out}");
    let library = folder.library("out.sheet");
    let kept: Vec<usize> = (0..36).filter(|number| !(3..=7).contains(number)).collect();
    assert_eq!((library.len(), library.capacity(), library.leaf_size()), (31, 64, 4));
    let names = named(&folder.text("out.names"));
    for (number, old) in kept.iter().enumerate() {
        assert_eq!(library.trace(number).unwrap(), faults[*old].1);
        assert!(names[number].starts_with(&format!("{number}\t{}\t", faults[*old].0)));
    }
    // a sound sheet gives all of it back, a cut one its beginning
    folder.done("salvage faults.sheet -o all.sheet");
    assert!(folder.read("all.sheet") == sheet && folder.read("all.names") == folder.read("faults.names"));
    folder.write("cut.sheet", &sheet[..512 * 5 + 100]);
    assert!(folder.done("salvage cut.sheet -o begin.sheet").starts_with("begin.sheet: 15 of 36 traces."));
    // block 0 torn: how long a trace is has to be said
    folder.write("head.sheet", damage(&sheet, &[0]));
    assert!(folder.refused("salvage head.sheet -o h.sheet").contains("say `--samples N`"));
    folder.done("salvage head.sheet -o h.sheet --samples 64");
    assert_eq!(folder.library("h.sheet").trace(35).unwrap(), faults[35].1);
    // nothing is overwritten, nothing made of nothing
    assert!(folder.refused("salvage torn.sheet -o all.sheet").contains("is there already"));
    assert!(folder.refused("salvage torn.sheet -o torn.sheet --force").contains("is read here too"));
    folder.write("lost.sheet", damage(&sheet, &[1, 2, 3, 4, 5, 6, 7, 8, 9, 10]));
    assert!(folder.refused("salvage lost.sheet -o x.sheet").contains("no trace stands in sound blocks alone"));
    let err = folder.refused("salvage torn.sheet -o x.sheet --samples 32");
    assert!(err.contains("torn.sheet: block 0 is sound, and says 64 samples a trace. Leave out `--samples`."), "{err}");
    folder.write("little.sheet", "TRCL");
    assert!(folder.refused("salvage little.sheet -o x.sheet").contains("no whole block"));
}

#[test]
fn for_programs() {
    let folder = shelf("programs");
    let told = Json::of(&folder.done("info faults.sheet --json"));
    assert_eq!([told.at("traces").number(), told.at("capacity").number(), told.at("names").number()], [36, 64, 36]);
    assert_eq!(told.at("memory").at("all").number(), 106_442);
    let sum = Command::new("sha256sum").arg(folder.0.join("faults.sheet")).output().unwrap().stdout;
    assert_eq!(text(told.at("hash")).as_bytes(), &sum[..64]);
    let sheet = folder.read("faults.sheet");
    folder.write("torn.sheet", damage(&sheet, &[2, 9]));
    let ran = folder.line("check --json faults.sheet torn.sheet gone.sheet");
    assert_eq!(ran.status, 1);
    let told = Json::of(&ran.out.replace("true", "1").replace("false", "0"));
    let of = |field: &str| told.list().iter().map(|one| one.at(field).number()).collect::<Vec<_>>();
    assert_eq!(of("sound"), [1, 0, 0]);
    let torn: Vec<u64> = told.list()[1].at("torn_blocks").list().iter().map(Json::number).collect();
    assert_eq!((told.list()[1].at("refusal").number(), torn), (9, vec![2, 9]));
    assert!(text(&told.list()[2].at("lines").list()[0]).contains("there is no such file"));
}

#[test]
fn checked_in_few_words() {
    let folder = shelf("joined");
    let sheet = folder.read("faults.sheet");
    folder.write("twice.sheet", [&sheet[..], &sheet[..], &sheet[..]].concat());
    let out = folder.line("check twice.sheet").out;
    assert!(out.contains("  blocks 11 to 21: they say that they are blocks 0 to 10: another sheet begins here, files were joined.\n"), "{out}");
    assert!(out.contains("  blocks 22 to 32: they say that they are blocks 0 to 10"), "{out}");
    assert_eq!(out.lines().count(), 4);
    folder.write("moved.sheet", [&sheet[..512 * 3], &sheet[512..512 * 9]].concat());
    let out = folder.line("check moved.sheet").out;
    assert!(out.contains("  blocks 3 to 10: they say that they are blocks 1 to 8: they stand in the wrong place.\n"), "{out}");
    folder.done("export faults.sheet 0 -o zero.wav");
    assert!(folder.line("check zero.wav").out.contains("zero.wav: is a WAV recording, and no sheet."));
}

// ---- the program itself

#[test]
fn helpful() {
    let folder = Folder::new("helpful");
    let ran = folder.line("help nope");
    assert_eq!(ran.status, 2);
    assert!(ran.err.contains("there is no command `nope`. There are build, add,") && !ran.err.contains("help help"), "{}", ran.err);
    let script = folder.done("completions");
    folder.write("completions", &script);
    let complete = |line: &str| {
        let words: Vec<&str> = line.split(' ').collect();
        let last = words.len() - 1;
        let ask = format!(". ./completions; COMP_WORDS=({line}); COMP_CWORD={last}; _silkendoz; echo \"${{COMPREPLY[@]}}\"");
        String::from_utf8(Command::new("bash").current_dir(&folder.0).args(["-c", &ask]).output().unwrap().stdout).unwrap()
    };
    assert_eq!(complete("silkendoz sal").trim(), "salvage");
    assert_eq!(complete("silkendoz help ren").trim(), "rename");
    assert_eq!(complete("silkendoz build --sa").trim(), "--samples");
    assert_eq!(complete("silkendoz add l.sheet --no").trim(), "--no-wait");
    let page = folder.done("man");
    assert!(page.starts_with(".TH SILKENDOZ 1 "));
    let overview = folder.done("help");
    for command in overview.lines().filter_map(|line| line.strip_prefix("  ")?.split(' ').next()) {
        assert!(page.contains(&format!(".SS {command} \\- ")), "{command}");
    }
    // a line that begins with a point would be a request
    assert!(page.lines().filter(|line| line.starts_with('.')).all(|line| [".TH", ".SH", ".SS", ".B ", ".br", ".nf", ".fi"].contains(&&line[..3])));
    for command in ["completions", "man"] {
        assert_eq!(folder.line(&format!("{command} x")).status, 2);
    }
}
