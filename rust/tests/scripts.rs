//! Whole scripts of calls with the replies of another implementation: those of `vectors/` that hold at this stage, and a few lines of the protocol that no
//! file has. They are played by the calls and by the model. What no reply shows is held by the session itself.

mod common;

use common::vectors;
use testing::program;
use testing::script::{Session, STAGE};

/// A script from a file of vectors: its calls, each with the reply.
struct Case {
    stage: usize,
    name: String,
    lines: Vec<(String, String)>,
}

/// The cases of a file. A comment `# stage N` says from which stage on the cases behind it hold.
fn cases(file: &str) -> Vec<Case> {
    let mut stage = 0;
    let mut list: Vec<Case> = Vec::new();
    for line in vectors(file).lines() {
        if let Some(rest) = line.strip_prefix("# stage ") {
            stage = rest.split(' ').next().and_then(|word| word.parse().ok()).expect("a stage is a number");
        } else if let Some(name) = line.strip_prefix("case ") {
            list.push(Case { stage, name: name.into(), lines: Vec::new() });
        } else if let Some(call) = line.strip_prefix("> ") {
            list.last_mut().expect("a case first").lines.push((call.into(), String::new()));
        } else if let Some(reply) = line.strip_prefix("< ") {
            list.last_mut().and_then(|case| case.lines.last_mut()).expect("a call first").1 = reply.into();
        } else {
            assert!(line.is_empty() || line.starts_with('#'), "{file}: {line}");
        }
    }
    list
}

/// Files of scripts, and how many cases each has at least that hold at this stage.
type Files = &'static [(&'static str, usize)];

const STAGES: Files = &[
    ("stage-04.txt", 40),
    ("stage-05.txt", 40),
    ("stage-06.txt", 40),
    ("stage-07.txt", 40),
    ("stage-08.txt", 40),
    ("stage-09.txt", 40),
    ("stage-10.txt", 40),
    ("stage-11.txt", 40),
    ("stage-12.txt", 40),
    ("stage-13.txt", 40),
];

/// The tree, bounds, upper figures, walks and distances with a limit between the calls.
const INSIDE: Files = &[("inside-04.txt", 25), ("inside-05.txt", 25), ("inside-09.txt", 25), ("inside-10.txt", 25)];

const ALTERED: Files = &[("altered-09.txt", 30)];

/// The program's line for a sheet.
const PROGRAM: Files = &[("program-04.txt", 20), ("program-08.txt", 20), ("program-09.txt", 20)];

/// The smallest cases that tell two readings of document 02 apart.
const TELLING: Files = &[("telling.txt", 105)];

/// Plays the cases that hold at this stage.
fn play(files: Files, session: fn() -> Session) {
    for (file, at_least) in files {
        let held: Vec<Case> = cases(file).into_iter().filter(|case| (0..=STAGE).contains(&case.stage)).collect();
        assert!(held.len() >= *at_least, "{file}: {} cases", held.len());
        for case in held {
            // seen if a call breaks a rule
            println!("{file}: case {}", case.name);
            let mut session = session();
            for (call, reply) in &case.lines {
                assert_eq!(session.play(call).as_ref(), Some(reply), "{file}: case {}: {call}", case.name);
            }
        }
    }
}

#[test]
fn the_stage() {
    play(STAGES, Session::new);
}

#[test]
fn looked_inside() {
    play(INSIDE, Session::new);
}

#[test]
fn altered_tables() {
    play(ALTERED, Session::new);
}

#[test]
fn the_program() {
    play(PROGRAM, Session::new);
}

#[test]
fn telling_cases() {
    play(TELLING, Session::new);
}

/// The model, which other tests hold the calls to, gives the same replies.
#[test]
fn by_the_model() {
    for files in [STAGES, INSIDE, ALTERED, PROGRAM, TELLING] {
        play(files, Session::of_the_model);
    }
}

/// A script of lines and replies, by the calls and by the model.
fn says(lines: &[(&str, &str)]) {
    for mut session in [Session::new(), Session::of_the_model()] {
        for (line, reply) in lines {
            assert_eq!(session.play(line).as_deref(), Some(*reply), "{line}");
        }
    }
}

#[test]
fn two_libraries() {
    says(&[
        ("match 1 | short=samples", "refused 3 0"),
        ("match 1 | short=control,work", "refused 2 0"),
        ("tree", "tree 0"),
        ("open 4 8 2 | short=links", "refused 2 0"),
        ("open 4 8 2 | short=labels", "refused 2 0"),
        ("open 257 8 2", "refused 1 0"),
        ("open 4 8 2", "done"),
        ("2 add 1 1 1 1", "refused 3 0"),
        ("2 open 1 8 2", "done"),
        ("add 0 0 0 0", "added 0"),
        ("add 4 4 4 4", "added 1"),
        ("2 add -1", "added 0"),
        ("add 0 8 0 8", "added 2"),
        ("match 2 2 2 2", "matched 0 16 2 3 trail 1 2"),
        ("match 2 2 2 2 | trail=1", "refused 7 0"),
        ("match 2 2 2 2 | trail=1 short=labels", "refused 2 0"),
        ("2 match 3 | trail=9", "matched 0 16 1 1 trail 0"),
        (
            "tree",
            "tree 3 ; 0 inner ends 4 sums 0:16 scatters 0:256 run 1 4 figure sum T 16 children 1 2 ; 1 leaf ends 4 sums 0:0 scatters 0:0 traces 0 ; \
                  2 leaf ends 4 sums 16:16 scatters 0:256 traces 1 2",
        ),
        ("below 1 1 1 1", "below 1:4:4 2:36:100"),
        ("2 tree", "tree 1 ; 0 leaf ends 1 sums -1:-1 scatters 0:0 traces 0"),
    ]);
}

/// Document 01's sheet of one trace: written, read into the other library in both forms of bytes, torn, and given to the program.
#[test]
fn sheets() {
    let sheet = "000001005452434c010008000200010000*494.520801000200ff*2.00*504.fc0a";
    says(&[
        ("open 1 8 2", "done"),
        ("add -1", "added 0"),
        ("write", &format!("written 2 {}", sheet.replace("010000*494.", "0100*495.").replace("ff*2.", "ffff"))),
        ("write | sheet=1023", "refused 8 0"),
        (&format!("2 read {sheet} | short=work"), "refused 2 0"),
        ("2 match 0", "refused 3 0"),
        (&format!("2 read {sheet}"), "done"),
        ("2 match 0", "matched 0 1 1 1 trail 0"),
        ("2 read -", "refused 8 0"),
        (&format!("2 read {}", sheet.replace("fc0a", "fc0b")), "refused 9 1"),
        ("2 match 0", "matched 0 1 1 1 trail 0"),
    ]);
    assert!(program::path().exists(), "tools/archive builds target/bin/match_sheet");
    says(&[(&format!("program {sheet}"), "refused 6 0"), ("program -", "refused 8 0")]);
}

/// Tables altered between the calls: a figure is loose, a threshold is not, a sample may be.
#[test]
fn checks() {
    says(&[
        ("check", "refused 3 0"),
        ("open 1 8 1", "done"),
        ("check", "trusted"),
        ("check | short=work", "refused 2 0"),
        ("check | short=labels", "refused 2 0"),
        ("add 0", "added 0"),
        ("add 4", "added 1"),
        ("check", "trusted"),
        ("alter 2 0 greatest_sum 5", "altered"),
        ("check", "refused 13 0"),
        ("match 4", "matched 1 0 1 1 trail 2"),
        ("alter 2 0 greatest_sum 4", "altered"),
        ("alter 0 threshold -1", "altered"),
        ("check", "trusted"),
        ("match 0", "matched 0 0 1 1 trail 1"),
        ("add 3", "added 2"),
        ("check", "trusted"),
        ("alter trace 0 1 1", "altered"),
        ("check", "refused 13 0"),
        ("alter 0 0 least_sum 1000000000", "altered"),
        ("check", "refused 3 0"),
        ("2 check", "refused 3 0"),
    ]);
}

/// A number of queries, places of the list, and the run.
#[test]
fn batches() {
    says(&[
        ("batch 1 1 0", "refused 3 0"),
        ("open 1 8 1", "done"),
        ("batch 1 2 0", "refused 14 0"),
        ("batch 1 1 0", "refused 6 0"),
        ("add 0", "added 0"),
        ("add 4", "added 1"),
        ("batch 0 0", "refused 14 0"),
        ("batch 0 0 1", "refused 14 0"),
        ("batch 17 17 1", "refused 14 0"),
        ("batch 1 2 0", "refused 14 0"),
        ("batch 2 1 0 4", "refused 14 0"),
        ("batch 2 2 0", "refused 4 0"),
        ("batch 2 2 0 4 4", "refused 4 0"),
        ("batch 2 2 4 0", "batch 2 trail 1 2 answers 1:0 0:0"),
        ("batch 2 2 0 1", "batch 1 trail 1 answers 0:0 0:1"),
        ("batch 1 1 2", "batch 2 trail 1 2 answers 0:4"),
        ("batch 1 1 0 | trail=1", "refused 7 0"),
        ("batch 1 1 0 | short=work", "refused 2 0"),
    ]);
}

/// Labels given, told, and what is refused; the remote is told the code.
#[test]
fn labels() {
    says(&[
        ("label 0", "refused 3 0"),
        ("remote 0", "refused 3 0"),
        ("addl 1 2 0", "refused 3 0"),
        ("open 1 8 1", "done"),
        ("label 0", "refused 12 0"),
        ("remote 0", "refused 6 0"),
        ("remote 0 0", "refused 4 0"),
        ("addl 65535 4294967295 0", "added 0"),
        ("addl 17 4119 4", "added 1"),
        ("add 9", "added 2"),
        ("label 0", "label 65535 4294967295"),
        ("label 1", "label 17 4119"),
        ("label 2", "label 0 0"),
        ("label 3", "refused 12 0"),
        ("label 3 | short=labels", "refused 2 0"),
        ("addl 1 1 1 1 | short=labels", "refused 2 0"),
        ("addl 1 1 1 1", "refused 4 0"),
        ("match 4", "matched 1 0 1 1 trail 3"),
        ("remote 4", "remote 1 0 1 1 17 trail 3"),
        ("remote 4 | trail=2", "refused 7 0"),
        ("remote 4 | short=labels", "refused 2 0"),
        ("write | sheet=1535", "refused 8 0"),
    ]);
}

/// A sheet of one trace with a label, code 256 and serial 1: read, told, and written again.
#[test]
fn a_sheet_with_labels() {
    let sheet = "000001005452434c0100080002000100*495.5208010002000700*505.2a000200050000010100*503.1e00";
    says(&[
        (&format!("read {sheet} | short=labels"), "refused 2 0"),
        (&format!("read {sheet}"), "done"),
        ("label 0", "label 256 1"),
        ("remote 7", "remote 0 0 1 1 256 trail 0"),
        ("write | sheet=1535", "refused 8 0"),
        ("write", &format!("written 3 {sheet}")),
        ("add 8", "added 1"),
        ("label 1", "label 0 0"),
        ("open 1 8 1", "done"),
        ("add 7", "added 0"),
        ("label 0", "label 0 0"),
    ]);
}

/// 15 in its place, by every call that takes samples.
#[test]
fn samples_outside_the_limits() {
    says(&[
        ("add 524288", "refused 3 0"),
        ("open 1 1 1", "done"),
        ("match 524288", "refused 15 0"),
        ("match 524288 | trail=0", "refused 15 0"),
        ("match 524288 | short=labels", "refused 2 0"),
        ("match 524288 0", "refused 4 0"),
        ("remote -524289", "refused 15 0"),
        ("near 1 2147483647", "refused 15 0"),
        ("near 1 -2147483648 | list=0", "refused 15 0"),
        ("near 0 524288", "refused 11 0"),
        ("batch 2 2 0 524288", "refused 15 0"),
        ("batch 2 1 0 524288", "refused 14 0"),
        ("batch 2 2 524288", "refused 4 0"),
        ("add 524287", "added 0"),
        ("add 524288", "refused 15 0"),
        ("add 524287", "refused 5 0"),
        ("addl 1 2 -524289", "refused 15 0"),
        ("match -524288", "matched 0 1099509530625 1 1 trail 0"),
        ("export 8000 0 | buffer=0", "refused 12 0"),
    ]);
}

/// Edges, then the query. What is sure and what is possible, 16 in its place, and an empty library.
#[test]
fn bands() {
    says(&[
        ("bands 2 0 5 1 1 1 1", "refused 3 0"),
        ("open 4 8 2", "done"),
        ("bands 2 0 5 1 1 1 1", "bands 0:0"),
        ("bands 3 0 5 9 1 1 1 1 | list=1", "refused 7 0"),
        ("add 0 0 0 0", "added 0"),
        ("add 4 4 4 4", "added 1"),
        ("add 0 8 0 8", "added 2"),
        ("below 1 1 1 1", "below 1:4:4 2:36:100"),
        ("bands 2 0 101 1 1 1 1", "bands 3:3"),
        ("bands 3 5 100 101 1 1 1 1", "bands 0:2 0:2"),
        ("bands 3 0 4 5 1 1 1 1", "bands 0:0 1:1"),
        ("bands 3 0 36 37 1 1 1 1", "bands 1:1 0:2"),
        ("bands 2 101 18446744073709551615 1 1 1 1", "bands 0:0"),
        ("bands 3 5 100 101 1 1 1 1 | list=3", "bands 0:2 0:2"),
        ("bands 3 5 100 101 1 1 1 1 | list=1", "refused 7 0"),
        ("bands 0 1 1 1 1", "refused 16 0"),
        ("bands 1 0 1 1 1 1 | list=0", "refused 16 0"),
        ("bands 17 0 1 2 3 4 5 6 7 8 9 10 11 12 13 14 15 16 1 1 1 1", "refused 16 0"),
        ("bands 16 0 1 2 3 4 5 6 7 8 9 10 11 12 13 14 15 1 1 1 1", "bands 0:0 0:0 0:0 0:0 1:1 0:0 0:0 0:0 0:0 0:0 0:0 0:0 0:0 0:0 0:0"),
        ("bands 2 5 5 1 1 1 1", "refused 16 0"),
        ("bands 3 0 6 5 1 1 1 1 | list=0", "refused 16 0"),
        ("bands 1 0 1 1 1", "refused 4 0"),
        ("bands 1 0 1 1 1 524288", "refused 15 0"),
        ("bands 2 5 5 1 1 1 1 | short=work", "refused 2 0"),
        ("2 bands 2 0 1 0", "refused 3 0"),
    ]);
}

/// Library 1 is the factory's: it is tested first, and wins where distances are equal. Each library's leaves are read by the joint distance.
#[test]
fn pairs() {
    says(&[
        ("pair 1", "refused 3 0"),
        ("2 open 1 8 1", "done"),
        ("pair 1 | short2=control", "refused 3 0"),
        ("open 2 8 1", "done"),
        ("pair 1 | short=links short2=control", "refused 2 0"),
        ("pair 1 | short2=labels", "refused 2 0"),
        ("pair 1 2 3", "refused 17 0"),
        ("pair 524288", "refused 17 0"),
        ("open 1 4 1", "done"),
        ("pair 1 2", "refused 4 0"),
        ("pair 524288", "refused 15 0"),
        ("pair 1 | trail=0 trail2=0", "refused 6 0"),
        ("add 0", "added 0"),
        ("add 4", "added 1"),
        ("pair 2 | trail2=0", "pair 1 0 4 2 2 trail1 1 2 trail2"),
        ("pair 2 | trail=1", "refused 7 0"),
        ("2 add 2", "added 0"),
        ("pair 2", "pair 2 0 0 1 1 trail1 trail2 0"),
        ("pair 3", "pair 1 1 1 2 2 trail1 2 trail2 0"),
        ("pair 3 | trail2=0", "refused 7 0"),
        ("2 add 9", "added 1"),
        ("2 add 4", "added 2"),
        (
            "2 tree",
            "tree 5 ; 0 inner ends 1 sums 2:9 scatters 0:0 run 1 1 figure sum T 11 children 1 2 ; \
                    1 inner ends 1 sums 2:4 scatters 0:0 run 1 1 figure sum T 6 children 3 4 ; 2 leaf ends 1 sums 9:9 scatters 0:0 traces 1 ; \
                    3 leaf ends 1 sums 2:2 scatters 0:0 traces 0 ; 4 leaf ends 1 sums 4:4 scatters 0:0 traces 2",
        ),
        ("pair 4", "pair 1 1 0 2 2 trail1 2 trail2 4"),
        ("pair 8 | trail=9 trail2=9", "pair 2 1 1 1 1 trail1 trail2 2"),
        ("pair 8 | short=work", "refused 2 0"),
        ("check", "trusted"),
        ("2 check", "trusted"),
    ]);
}

/// A limit on leaves: the first of the full trail, settled if these are all of it. 18 comes before what a match refuses, and 7 is by the leaves.
#[test]
fn limits() {
    says(&[
        ("limit 0 1", "refused 3 0"),
        ("open 1 8 1", "done"),
        ("limit 0 1 | short=nodes", "refused 2 0"),
        ("limit 0 1 2 | trail=0", "refused 18 0"),
        ("limit 0", "refused 18 0"),
        ("limit 1", "refused 4 0"),
        ("limit 1 1 2", "refused 4 0"),
        ("limit 1 524288", "refused 15 0"),
        ("limit 1 1 | trail=0", "refused 6 0"),
        ("add 0", "added 0"),
        ("add 4", "added 1"),
        ("limit 1 0", "limit settled 0 0 1 1 trail 1"),
        ("limit 1 0 | trail=1", "refused 7 0"),
        ("limit 0 0 | trail=1", "refused 18 0"),
        ("limit 1 2", "limit open 0 4 1 1 4 trail 1"),
        ("limit 2 2", "limit settled 0 4 2 2 trail 1 2"),
        ("limit 3 2 | trail=9", "limit settled 0 4 2 2 trail 1 2"),
        ("limit 18446744073709551615 2", "limit settled 0 4 2 2 trail 1 2"),
        ("2 open 2 8 2", "done"),
        ("2 add 4 0", "added 0"),
        ("2 add 0 0", "added 1"),
        ("2 add 5 4", "added 2"),
        // the nearest is neither at the bound nor at the distance given
        ("2 limit 1 1 5", "limit open 1 26 1 2 9 trail 1"),
        ("2 limit 2 1 5", "limit settled 2 17 2 3 trail 1 2"),
        ("2 match 1 5", "matched 2 17 2 3 trail 1 2"),
        ("2 limit 1 1 5 | short=work", "refused 2 0"),
        ("2 check", "trusted"),
    ]);
}

/// Clipped sweeps: 4 and 15 of lows and highs alike, then 19, 6, and 7 by all that are stored.
#[test]
fn clipped_sweeps() {
    says(&[
        ("ranges 2 1", "refused 3 0"),
        ("open 1 8 1", "done"),
        ("ranges 524288 1 0 | short=nodes", "refused 2 0"),
        ("ranges", "refused 4 0"),
        ("ranges 1", "refused 4 0"),
        ("ranges 524288 1 0", "refused 4 0"),
        ("ranges 1 2 | lows=0", "refused 4 0"),
        ("ranges 1 2 | lows=2", "refused 4 0"),
        ("ranges 524288 0", "refused 15 0"),
        ("ranges 0 -524289", "refused 15 0"),
        ("ranges 524287 -524288", "refused 19 0"),
        ("ranges 2 1 | list=0", "refused 19 0"),
        ("ranges 1 2", "refused 6 0"),
        ("add 5", "added 0"),
        ("add 0", "added 1"),
        ("add 9", "added 2"),
        ("ranges 2 1 | list=0", "refused 19 0"),
        ("ranges 0 0 | list=2", "refused 7 0"),
        ("ranges 0 0", "ranges 1 list 1"),
        ("ranges 0 0 | list=9", "ranges 1 list 1"),
        // 5 and 9 are at 4
        ("ranges 7 7", "ranges 2 list 0 2"),
        // 5 at 0 to 4, 0 at 9 to 49, 9 at 4 to 36: its least is the smallest greatest
        ("ranges 3 7", "ranges 2 list 0 2"),
        ("ranges 3 6", "ranges 1 list 0"),
        ("ranges -524288 524287", "ranges 3 list 0 1 2"),
        ("ranges 3 6 | short=work", "refused 2 0"),
        ("ranges 3 6 | short=labels", "refused 2 0"),
        ("2 open 2 4 1", "done"),
        ("2 add 0 32000", "added 0"),
        ("2 add 0 36000", "added 1"),
        ("2 add 9000 33000", "added 2"),
        ("2 ranges 10 32767 10 40000", "ranges 2 list 0 1"),
        ("2 ranges 10 32767 40000 | lows=2", "refused 4 0"),
        ("2 ranges 10 32767 40000 9 | lows=1", "refused 4 0"),
        // nothing is asked of the tree
        ("2 alter 0 0 greatest_sum 1000000", "altered"),
        ("2 check", "refused 13 0"),
        ("2 ranges 10 32767 10 40000", "ranges 2 list 0 1"),
    ]);
}

/// Figures and thresholds at the limits of 20 bits: w × 524,288, w² × 2^38, 2 × w × 524,288.
#[test]
fn figures_at_the_limits() {
    for (line, reply) in [
        ("alter 0 0 least_sum -1572864", "trusted"),
        ("alter 0 0 least_sum -1572865", "refused 3 0"),
        ("alter 0 0 greatest_sum 1572864", "trusted"),
        ("alter 0 0 greatest_sum 1572865", "refused 3 0"),
        ("alter 0 0 greatest_scatter 2473901162496", "trusted"),
        ("alter 0 0 greatest_scatter 2473901162497", "refused 3 0"),
        ("alter 0 threshold 3145728", "trusted"),
        ("alter 0 threshold 3145729", "refused 3 0"),
    ] {
        let check = if reply == "trusted" && !line.contains("threshold") { "refused 13 0" } else { reply };
        says(&[("open 3 8 1", "done"), ("add 0 0 0", "added 0"), ("add 0 1 -1", "added 1"), (line, "altered"), ("check", check)]);
    }
}

/// A wide sheet of one trace, 32,768, with a label: kinds 3, 4 and 5. Read, written again, and given to the program.
#[test]
fn a_wide_sheet() {
    let wide = "000003005452434c0100010001000100*495.fe0701000400008000*504.0d03";
    says(&[
        ("open 1 1 1", "done"),
        ("add 32768", "added 0"),
        ("write", &format!("written 2 {wide}")),
        (&format!("2 read {wide} | short=work"), "refused 2 0"),
        (&format!("2 read {wide}"), "done"),
        ("2 match 32768", "matched 0 0 1 1 trail 0"),
        ("2 export 8000 0", "refused 12 0"),
        ("2 write | sheet=1023", "refused 8 0"),
        (&format!("program {wide}"), "refused 6 0"),
    ]);
}

#[test]
fn lines_that_are_no_calls() {
    let mut session = Session::new();
    for line in ["", "#", "# match 1"] {
        assert_eq!(session.play(line), None);
    }
    assert_eq!(session.play("open 2 8 1").as_deref(), Some("done"));
    assert_eq!(session.play("add 3 3").as_deref(), Some("added 0"));
    for line in [
        "nothing",
        "open 1 8",
        "open 1 8 1 1",
        "open -1 8 1",
        "add 2147483648 0",
        "match 1 -2147483649",
        "add 1  1",
        "match 1 1 | sheet=3",
        "match 1 1 | short=trail",
        "read 0",
        "write 1",
        "check 1",
        "batch 1",
        "addl 1",
        "addl 65536 0 1 1",
        "addl 0 4294967296 1 1",
        "addl -1 0 1 1",
        "label",
        "label 0 0",
        "label 0 | trail=1",
        "remote 1 1 | sheet=3",
        "batch 1 1 0 | list=1",
        "bands",
        "bands 2 0",
        "bands 2 0 -1 1 1",
        "bands 2 0 18446744073709551616 1 1",
        "bands 2 0 5 1 1 | trail=1",
        "2 pair 1 1",
        "pair 1 1 | list=1",
        "pair 1 1 | short2=trail",
        "match 1 1 | short2=nodes",
        "limit",
        "limit -1 1 1",
        "limit 18446744073709551616 1 1",
        "limit 1 1 1 | list=1",
        "ranges 1 1 | lows=3",
        "ranges 1 2147483648",
        "ranges 1 1 | trail=1",
        "match 1 1 | lows=1",
        "check | trail=1",
        "tree 1",
        "below 1",
        "walks",
        "walks 1",
        "distance 1",
        "distance -1 0 3 3",
        "distance 1 1 3 3",
        "distance 1 0 3",
        "alter 1 0 least_sum 0",
        "alter 0 1 least_sum 0",
        "alter 0 0 least 0",
        "alter 0 threshold 0",
        "alter trace 1 1 0",
        "alter trace 0 3 0",
        "alter trace 0 1 524288",
        "alter trace 0 1 -524289",
        "alter 0 0 least_sum 0 0",
        "program 0",
    ] {
        let reply = session.play(line).expect("a reply");
        assert!(reply.starts_with("error "), "{line}: {reply}");
    }
    assert_eq!(session.play("match 3 3").as_deref(), Some("matched 0 0 1 1 trail 0"));
}
