//! A factory's library beside one of the bench's: `match`, `plot` and `report` with `--factory`, which only reads; and a library as constant
//! tables for C, with the guide's program over them.

mod bench;

use bench::*;
use silkendoz::{Library, TraceLibrary};
use std::fs;
use std::os::unix::fs::PermissionsExt;
use std::path::Path;
use std::process::Command;

/// A folder with the example's faults in two libraries: each third one is the bench's.
fn two(name: &str) -> Folder {
    let folder = bench(name);
    let lines: Vec<String> = folder.text("faults.csv").lines().map(|line| format!("{line}\n")).collect();
    let part = |own: bool| lines.iter().enumerate().filter(|(at, _)| (at % 3 == 2) == own).map(|(_, line)| line.as_str()).collect::<String>();
    folder.write("theirs.csv", part(false));
    folder.write("own.csv", part(true));
    folder.done("build factory.sheet --samples 64 --leaf-size 4 theirs.csv");
    folder.done("build bench.sheet --samples 64 --leaf-size 2 own.csv");
    folder
}

/// Distances of all traces of both to a query, the factory's first among equals: whose it is, its number, its distance.
fn both(folder: &Folder, query: &[i32]) -> Vec<(&'static str, u64, u64)> {
    let mut all = Vec::new();
    for (which, sheet) in [("factory", "factory.sheet"), ("bench", "bench.sheet")] {
        for (number, trace) in folder.library(sheet).traces().enumerate() {
            let apart = trace.iter().zip(query).map(|(x, y)| i64::from(x.value() - y).pow(2) as u64).sum();
            all.push((which, number as u64, apart));
        }
    }
    // a stable sort: the factory's stay first
    all.sort_by_key(|&(_, _, apart)| apart);
    all
}

fn text(json: &Json) -> &str {
    let Json::Text(text) = json else { panic!("no text: {json:?}") };
    text
}

/// The k nearest of both, each with its library and its number there; leaves of both.
#[test]
fn the_nearest_of_both() {
    let folder = two("factory-nearest");
    let today = faults().1;
    let all = both(&folder, &today);
    let libraries = [folder.library("factory.sheet"), folder.library("bench.sheet")];
    for k in [1, 2, 5, 16] {
        let json = Json::of(&folder.done(&format!("match bench.sheet today.csv --factory factory.sheet -k {k} --json")));
        let sweep = &json.at("sweeps").list()[0];
        let near = |near: &Json| (text(near.at("library")).to_string(), near.at("number").number(), near.at("distance").number());
        let listed: Vec<_> = sweep.at("nearest").list().iter().map(near).collect();
        let expected: Vec<_> = all[..k].iter().map(|&(which, number, apart)| (which.to_string(), number, apart)).collect();
        assert_eq!(listed, expected, "{k}");
        let found = TraceLibrary::match_both(&libraries[0], &libraries[1], &today).unwrap();
        let (leaves, theirs) = (sweep.at("leaves_read").number() as usize, sweep.at("factory_leaves_read").number() as usize);
        let traces = (sweep.at("traces_read").number() as usize, sweep.at("factory_traces_read").number() as usize);
        if k == 1 {
            assert_eq!((leaves, theirs, traces.0), (found.leaves, found.factory_trail.len(), found.traces));
        } else {
            // a longer list reads at least as much, and all that it reads is counted
            assert!(leaves >= found.leaves && theirs >= found.factory_trail.len());
            let looked = sweep.at("nearest_looked_at").number() as usize;
            let each = libraries.each_ref().map(|library| library.k_nearest(&today, looked).unwrap());
            assert_eq!((leaves - theirs, theirs), (each[1].leaves, each[0].leaves));
            assert_eq!(traces, (each[0].traces + each[1].traces, each[0].traces));
        }
    }
    let json = Json::of(&folder.done("match bench.sheet today.csv --json"));
    assert_eq!(json.at("factory"), &Json::Null);
    assert_eq!(json.at("sweeps").list()[0].at("nearest").list()[0].at("library"), &Json::Null);
}

#[test]
fn a_column_for_the_library() {
    let folder = two("factory-column");
    let said = folder.done("match bench.sheet today.csv --factory factory.sheet");
    let lines: Vec<&str> = said.lines().collect();
    assert!(lines[1].trim_start().starts_with("library  no.  name"), "{said}");
    assert!(lines[2].trim_start().starts_with("factory") || lines[2].trim_start().starts_with("bench"), "{said}");
    assert!(lines.last().unwrap().starts_with("Read: factory ") && lines.last().unwrap().contains("; bench "), "{said}");
    folder.write("more.csv", format!("{}{}", folder.text("own.csv"), folder.text("theirs.csv")));
    let said = folder.done("match bench.sheet more.csv --factory factory.sheet --tsv");
    let heads: Vec<&str> = said.lines().next().unwrap().split('\t').collect();
    let at = |head: &str| heads.iter().position(|own| *own == head).unwrap();
    let rows: Vec<Vec<&str>> = said.lines().skip(1).map(|line| line.split('\t').collect()).collect();
    assert_eq!(rows.len(), 36);
    for (number, row) in rows.iter().enumerate() {
        // each sweep is stored: the bench's twelve come first
        let (which, own) = if number < 12 { ("bench", number) } else { ("factory", number - 12) };
        assert_eq!((row[at("library")], row[at("no.")], row[at("distance")]), (which, own.to_string().as_str(), "0"));
        assert!(row[at("remarks")].contains(&format!("{which} trace {own} is the same")));
        assert!(row[at("leaves read, factory")].parse::<usize>().is_ok() && row[at("leaves read, bench")].parse::<usize>().is_ok());
    }
    assert!(folder.done("match bench.sheet more.csv --factory factory.sheet").contains("leaves read, factory  leaves read, bench"));
}

/// The same trace in both: the factory's is shown first. A fault that is stored once in each is stored twice; a code has the factory's word.
#[test]
fn faults_of_both() {
    let folder = Folder::new("factory-faults");
    folder.write("a.csv", "\"dry, 1\",0,0,0,0\n\"loose, 1\",90,90,90,90\n");
    folder.write("b.csv", "\"dry, 2\",0,0,0,2\n\"dry, 1\",0,0,0,0\n");
    folder.write("q.csv", "1,0,0,0\n");
    folder.done("build f.sheet --samples 4 a.csv");
    folder.done("build b.sheet --samples 4 b.csv");
    assert!(folder.done("match f.sheet q.csv").contains("is not judged: no fault is stored twice"));
    let said = folder.done("match b.sheet q.csv --factory f.sheet");
    let rows: Vec<Vec<&str>> = said.lines().skip(2).take(4).map(|line| line.split_whitespace().collect()).collect();
    assert_eq!([rows[0][0], rows[1][0], rows[2][0], rows[3][0]], ["factory", "bench", "bench", "factory"], "{said}");
    assert_eq!([rows[0][1], rows[1][1], rows[2][1], rows[3][1]], ["0", "1", "0", "1"], "{said}");
    assert!(said.contains("Fits: dry, off by 0.5 a sample; traces of one fault lie 0.0 to 1.0 apart. Next fault: loose"), "{said}");

    folder.done("build fc.sheet --samples 4 --code 17 a.csv --force");
    folder.done("build bc.sheet --samples 4 --code 17 b.csv");
    folder.write("bc.codes", "17 bench word\n");
    assert!(folder.done("match bc.sheet q.csv --factory fc.sheet").contains("0x0011 bench word"));
    folder.write("fc.codes", "17 factory word\n");
    assert!(folder.done("match bc.sheet q.csv --factory fc.sheet").contains("Fits: 0x0011 factory word"));
}

#[test]
fn what_is_refused() {
    let folder = two("factory-refused");
    folder.write("short.csv", "1,2,3\n");
    folder.done("build short.sheet --samples 3 short.csv");
    let why = folder.refused("match bench.sheet today.csv --factory short.sheet");
    assert!(why.contains("refused 17, unlike libraries") && why.contains("bench.sheet 64") && why.contains("short.sheet 3"), "{why}");
    assert!(folder.refused("match bench.sheet today.csv --factory none.sheet").contains("none.sheet: there is no such file"));
    assert!(folder.refused("match bench.sheet today.csv --factory today.csv").contains("today.csv: is text"));
    fs::hard_link(folder.0.join("bench.sheet"), folder.0.join("same.sheet")).unwrap();
    for line in ["match bench.sheet today.csv --factory bench.sheet", "match bench.sheet today.csv --factory same.sheet"] {
        let ran = folder.line(line);
        assert!(ran.status == 2 && ran.err.contains("is the LIBRARY itself"), "{line}: {}", ran.err);
    }
    let ran = folder.line("match bench.sheet today.csv --factory");
    assert!(ran.status == 2 && ran.err.contains("`--factory` has no value behind it"), "{}", ran.err);
    let ran = folder.line("report bench.sheet today.csv --factory factory.sheet --off 0,1");
    assert!(ran.status == 2 && ran.err.contains("bands are of one library"), "{}", ran.err);

    // one of them empty, or both
    let empty = TraceLibrary::open(64, 8, 2).unwrap().write_sheet().unwrap();
    folder.write("empty.sheet", &empty);
    folder.write("void.sheet", &empty);
    for (line, which) in
        [("match empty.sheet today.csv --factory factory.sheet -k 3", "factory"), ("match bench.sheet today.csv --factory empty.sheet -k 1", "bench")]
    {
        let said = folder.done(line);
        assert!(said.lines().nth(2).unwrap().trim_start().starts_with(which), "{said}");
        assert!(said.contains("0 of 0 leaves, 0 of 0 traces"), "{said}");
    }
    assert!(folder.refused("match empty.sheet today.csv --factory void.sheet").contains("refused 6, empty"));
}

/// Whatever is asked, the factory's files stay as they are, and so does its folder; and what is write-protected no command changes.
#[test]
fn the_factorys_is_never_written() {
    let folder = two("factory-protected");
    let mode = |name: &str, bits: u32| fs::set_permissions(folder.0.join(name), fs::Permissions::from_mode(bits)).unwrap();
    mode("factory.sheet", 0o444);
    let look = |name: &str| (folder.read(name), fs::metadata(folder.0.join(name)).unwrap().modified().unwrap());
    let before = ["factory.sheet", "factory.names"].map(look);
    let files = folder.files();
    for line in ["match bench.sheet today.csv --factory factory.sheet", "match bench.sheet today.csv --factory factory.sheet -k 1 --json"] {
        folder.done(line);
    }
    assert_eq!(folder.files(), files, "no lock, and nothing else");
    folder.done("plot bench.sheet today.csv --factory factory.sheet");
    folder.done("report bench.sheet today.csv --factory factory.sheet");
    for line in [
        "add factory.sheet today.csv",
        "rename factory.sheet 0 other",
        "build factory.sheet --samples 64 --force today.csv",
        "repair bench.sheet bench.sheet -o factory.sheet --force",
        "salvage bench.sheet -o factory.sheet --force",
        "export bench.sheet 0 -o factory.sheet --force",
        "tables bench.sheet -o factory.sheet --force",
    ] {
        assert!(folder.refused(line).contains("factory.sheet: is write-protected"), "{line}");
    }
    mode("factory.sheet", 0o644);
    for own in ["factory.sheet", "factory.names"] {
        for command in ["plot", "report"] {
            let why = folder.refused(&format!("{command} bench.sheet today.csv --factory factory.sheet --force -o {own}"));
            assert!(why.contains(&format!("{own}: is read here too")), "{why}");
        }
    }
    assert!(["factory.sheet", "factory.names"].map(look) == before);
    // and one more trace in the bench's does not touch it
    folder.done("add bench.sheet today.csv");
    assert!(["factory.sheet", "factory.names"].map(look) == before);
    assert!(folder.done("match bench.sheet today.csv --factory factory.sheet").contains("It is stored already: bench trace 12"));
}

/// The picture and the page name the library of each trace, and the page both sheets.
#[test]
fn drawn_and_reported() {
    let folder = two("factory-report");
    let said = folder.done("plot bench.sheet today.csv --factory factory.sheet -k 6");
    assert!(said.contains("6 nearest faults"), "{said}");
    let picture = folder.text("today.svg");
    assert!(picture.contains("in factory.sheet, bench.sheet</text>") && picture.contains(": factory trace ") && picture.contains(": bench trace "));
    folder.done("report bench.sheet today.csv --factory factory.sheet");
    let page = folder.text("today.html");
    for sheet in ["Library bench.sheet: 12 traces of 64 samples.", "Factory library factory.sheet: 24 traces of 64 samples."] {
        assert!(page.contains(sheet), "{sheet}");
    }
    assert!(page.matches("SHA-256 of its sheet: ").count() == 2 && page.contains("Read: factory ") && page.contains("<td>factory trace "));
}

/// The numbers of a table in a file of C.
fn table(source: &str, name: &str) -> Vec<i64> {
    let (_, behind) = source.split_once(&format!(" {name}[")).unwrap();
    let (length, behind) = behind.split_once("] = {").unwrap();
    let numbers: Vec<i64> = behind.split('}').next().unwrap().split(',').filter_map(|word| word.trim().parse().ok()).collect();
    assert_eq!(numbers.len(), length.parse().unwrap(), "{name}");
    numbers
}

/// Constant tables: those of the same traces and labels in a library without further room, which the check accepts.
#[test]
fn tables_for_c() {
    let folder = two("factory-tables");
    folder.done("build coded.sheet --samples 64 --capacity 40 --leaf-size 3 --code 17 --serial 4294967295 own.csv");
    let said = folder.done("tables coded.sheet -o coded.h --name dealers_own");
    assert_eq!(said, "coded.h: 12 traces of 64 samples as constant tables, 19,210 bytes.\n");
    let (source, stored) = (folder.text("coded.h"), folder.library("coded.sheet"));
    let mut full = TraceLibrary::open(64, 12, 3).unwrap();
    for (trace, label) in stored.traces().zip(stored.labels()) {
        full.add_labelled(&silkendoz::StoredSample::values(trace), label).unwrap();
    }
    let t = full.tables();
    let wide = |words: &[u16]| words.iter().map(|&x| i64::from(x)).collect::<Vec<_>>();
    assert_eq!((table(&source, "dealers_own_control"), table(&source, "dealers_own_links")), (wide(t.control), wide(t.links)));
    assert_eq!(table(&source, "dealers_own_nodes"), t.nodes);
    assert_eq!(table(&source, "dealers_own_samples"), t.samples.iter().map(|x| x.word().into()).collect::<Vec<i64>>());
    assert_eq!(table(&source, "dealers_own_labels"), t.labels.iter().map(|&x| x as i64).collect::<Vec<_>>());
    assert!(
        source.contains("SILKENDOZ_FACTORY(dealers_own, 64, 12);") && source.contains(&format!("SILKENDOZ_LAYOUT != {}", silkendoz::calls::LAYOUT))
    );
    // a library without a trace has room for one
    folder.write("empty.sheet", TraceLibrary::open(2, 8, 2).unwrap().write_sheet().unwrap());
    assert!(folder.line("tables empty.sheet -o -").out.contains("factory_control[5] = {\n    2, 1, 2, 0, 0,\n};"));
    for (line, why) in [
        ("tables coded.sheet", "`-o` is missing"),
        ("tables coded.sheet -o x.h --name 2x", "`2x` is no name in C"),
        ("tables coded.sheet -o x.h --name a,b", "`a,b` is no name in C"),
    ] {
        let ran = folder.line(line);
        assert!(ran.status == 2 && ran.err.contains(why), "{line}: {}", ran.err);
    }
    assert!(folder.refused("tables coded.sheet -o coded.h").contains("coded.h: is there already"));
    assert!(folder.refused("tables coded.sheet -o coded.sheet --force").contains("is read here too"));
}

/// The guide's program over constant tables, where there is a compiler: compiled with every warning an error, run, and what it prints held to
/// the page. With GUIDE_WRITE set the page becomes what it prints.
#[test]
fn the_guides_program() {
    let repository = Path::new(env!("CARGO_MANIFEST_DIR")).join("..");
    let path = repository.join("docs/GUIDE.md");
    let page = fs::read_to_string(&path).unwrap();
    let (_, section) = page.split_once("\n## A factory library and one of your own\n").unwrap();
    let block = |kind: &str| section.split_once(&format!("\n```{kind}\n")).unwrap().1.split("```\n").next().unwrap();
    let builds = block("console").lines().find_map(|line| line.strip_prefix("$ silkendoz build factory.sheet ")).unwrap();
    let folder = Folder::new("factory-guide");
    let cc = std::env::var("CC").unwrap_or("cc".to_string());
    if !Command::new(&cc).arg("--version").output().is_ok_and(|ran| ran.status.success()) {
        return;
    }
    let shell = |line: &str| {
        let ran = Command::new("sh").arg("-c").arg(line).current_dir(&folder.0).output().unwrap();
        assert!(ran.status.success(), "{line}: {}", String::from_utf8_lossy(&ran.stderr));
        String::from_utf8(ran.stdout).unwrap()
    };
    shell(&format!("cp -r '{}' .", repository.join("examples/faults").display()));
    shell(&format!("'{}' build factory.sheet {builds}", env!("CARGO_BIN_EXE_silkendoz")));
    folder.done("tables factory.sheet -o factory.h");
    folder.write("both.c", block("c"));
    let lib = std::env::var_os("SILKENDOZ_LIB").map_or_else(|| repository.join("target/staticlib"), Into::into);
    let archive = ["libsilkendoz.a", "liblibrary_c.a"].map(|name| lib.join(name)).into_iter().find(|path| path.is_file()).unwrap();
    let warned = "-std=c99 -Wall -Wextra -Wpedantic -Werror";
    shell(&format!("{cc} {warned} -I'{}' both.c '{}' -o both", repository.join("include").display(), archive.display()));
    let printed = shell("./both");
    if std::env::var_os("GUIDE_WRITE").is_some() {
        let below = block("text");
        fs::write(&path, page.replace(&format!("\n```text\n{below}```\n\n`won` holds"), &format!("\n```text\n{printed}```\n\n`won` holds"))).unwrap();
    } else {
        assert_eq!(printed, block("text"));
    }
}

/// Which library a trace is of, as the wrapper says it, is what the program shows.
#[test]
fn as_the_call_says() {
    let folder = two("factory-call");
    let libraries = [folder.library("factory.sheet"), folder.library("bench.sheet")];
    for (name, trace) in faults().0 {
        let mut sweep = trace.clone();
        sweep[7] += 40;
        folder.write("q.csv", joined(&sweep, ","));
        let found = TraceLibrary::match_both(&libraries[0], &libraries[1], &sweep).unwrap();
        let which = if found.library == Library::Factory { "factory" } else { "bench" };
        let said = folder.done("match bench.sheet q.csv --factory factory.sheet -k 1");
        let row: Vec<&str> = said.lines().nth(2).unwrap().split_whitespace().collect();
        assert_eq!((row[0], row[1]), (which, found.trace.to_string().as_str()), "{name}: {said}");
    }
}
