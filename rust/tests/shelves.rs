//! Libraries on the disk: nothing is lost and nothing overwritten, whoever else writes there, and no name stands beside another's trace.

mod bench;

use bench::*;
use std::collections::HashMap;
use std::fs::{self, File};
use std::io::{Read, Write};
use std::os::unix::fs::{symlink, FileTypeExt, MetadataExt, PermissionsExt};
use std::os::unix::net::UnixListener;
use std::process::{Child, Command, Stdio};
use std::time::{Duration, Instant};

fn program(folder: &Folder, line: &str) -> Command {
    let mut command = Command::new(env!("CARGO_BIN_EXE_silkendoz"));
    command.current_dir(&folder.0).args(line.split(' ')).stdin(Stdio::null()).stdout(Stdio::piped()).stderr(Stdio::piped());
    command
}

fn start(folder: &Folder, line: &str) -> Child {
    program(folder, line).spawn().unwrap()
}

/// A line of the shell, with the program's path as `$S`.
fn shell(folder: &Folder, line: &str) -> Ran {
    let ran = Command::new("sh").arg("-c").arg(line).current_dir(&folder.0).env("S", env!("CARGO_BIN_EXE_silkendoz")).output().unwrap();
    let text = |bytes: Vec<u8>| String::from_utf8_lossy(&bytes).into_owned();
    Ran { status: ran.status.code().unwrap_or(-1), out: text(ran.stdout), err: text(ran.stderr) }
}

/// A sweep of its own for each number.
fn sweep(number: i32) -> Vec<i32> {
    (0..8).map(|at| 100 * number + at).collect()
}

/// A folder with a library of one sweep, and a text for each of some more, `1.csv` and so on.
fn numbered(name: &str, many: i32) -> Folder {
    let folder = Folder::new(name);
    for number in 0..=many {
        folder.write(&format!("{number}.csv"), format!("fault {number},{}\n", joined(&sweep(number), ",")));
    }
    folder.done("build l.sheet --samples 8 --capacity 400 0.csv");
    folder
}

/// Each trace beside its name, as the program shows them. Nothing is left behind but the library.
fn every_name_its_own(folder: &Folder) -> usize {
    let library = folder.library("l.sheet");
    let out = folder.done("list l.sheet");
    let rows: Vec<&str> = out.lines().skip(2).collect();
    assert_eq!(rows.len(), library.len());
    for (number, row) in rows.iter().enumerate() {
        let fault = library.trace(number).unwrap()[0].value() / 100;
        assert_eq!(library.trace(number).unwrap(), sweep(fault));
        assert!(row.contains(&format!("fault {fault}  ")), "{row}");
    }
    library.len()
}

fn strays(folder: &Folder) -> Vec<String> {
    folder.files().into_iter().filter(|name| name.starts_with('.')).collect()
}

// ---- several at once

#[test]
fn forty_at_once() {
    let folder = numbered("forty", 40);
    let children: Vec<Child> = (1..=40).map(|number| start(&folder, &format!("add l.sheet {number}.csv"))).collect();
    for child in children {
        let ran = child.wait_with_output().unwrap();
        assert!(ran.status.success(), "{}", String::from_utf8_lossy(&ran.stderr));
    }
    assert_eq!(every_name_its_own(&folder), 41);
    let stored: Vec<i32> = folder.library("l.sheet").traces().map(|trace| trace[0].value() / 100).collect();
    assert!((0..=40).all(|number| stored.contains(&number)), "{stored:?}");
    assert!(strays(&folder).is_empty());
}

#[test]
fn a_held_lock() {
    let folder = numbered("held", 2);
    let lock = File::create(folder.0.join(".l.sheet.lock")).unwrap();
    lock.lock().unwrap();
    for line in ["add l.sheet 1.csv --no-wait", "build l.sheet --samples 8 1.csv --force --no-wait", "rename l.sheet 0 x --no-wait"] {
        assert!(folder.refused(line).contains("l.sheet: another run is writing this library"), "{line}");
    }
    // who only looks does not wait
    folder.done("info l.sheet --json");
    let mut waiting = start(&folder, "add l.sheet 1.csv");
    let mut said = String::new();
    let mut err = waiting.stderr.take().unwrap();
    let mut bytes = [0; 200];
    while !said.contains("waiting for it") {
        let count = err.read(&mut bytes).unwrap();
        assert!(count > 0, "{said}");
        said.push_str(&String::from_utf8_lossy(&bytes[..count]));
    }
    assert!(waiting.try_wait().unwrap().is_none());
    drop(lock);
    assert!(waiting.wait().unwrap().success());
    assert_eq!(every_name_its_own(&folder), 2);
    assert!(strays(&folder).is_empty());
}

/// What stands at the lock's place and is no file is not waited for, nor followed.
#[test]
fn a_lock_that_is_none() {
    let folder = numbered("no-lock", 1);
    let lock = folder.0.join(".l.sheet.lock");
    assert!(Command::new("mkfifo").arg(&lock).status().unwrap().success());
    for line in ["add l.sheet 1.csv", "rename l.sheet 0 x --no-wait"] {
        assert!(folder.refused(line).contains("l.sheet: cannot be written: its lock .l.sheet.lock is no plain file; remove it."), "{line}");
    }
    fs::remove_file(&lock).unwrap();
    symlink("elsewhere", &lock).unwrap();
    assert!(folder.refused("add l.sheet 1.csv").contains("is no plain file"));
    fs::remove_file(&lock).unwrap();
    folder.done("add l.sheet 1.csv");
    assert_eq!(folder.files(), ["0.csv", "1.csv", "l.names", "l.sheet"]);
}

/// Who reads while a library is replaced sees the one or the other, with all its names.
#[test]
fn read_while_it_is_replaced() {
    let folder = numbered("replaced", 6);
    std::thread::scope(|scope| {
        let writing = scope.spawn(|| {
            for round in 0..40 {
                let files = if round % 2 == 0 { "1.csv 2.csv" } else { "3.csv 4.csv 5.csv" };
                folder.done(&format!("build l.sheet --samples 8 --force {files}"));
            }
        });
        while !writing.is_finished() {
            let out = folder.done("list l.sheet");
            let faults: Vec<&str> = out.lines().skip(2).map(|row| row.split_whitespace().nth(2).unwrap()).collect();
            let whole = [&["0"][..], &["1", "2"], &["3", "4", "5"]].contains(&&faults[..]);
            assert!(whole, "{out}");
        }
    });
    assert!(strays(&folder).is_empty());
}

#[test]
fn killed_in_the_midst() {
    let folder = numbered("killed", 9);
    let mut before = 1;
    for round in 0..60u64 {
        let mut child = start(&folder, &format!("add l.sheet --again {}.csv", 1 + round % 9));
        std::thread::sleep(Duration::from_micros(120 * round % 7919));
        let _ = child.kill();
        child.wait().unwrap();
        let after = every_name_its_own(&folder);
        assert!(after == before || after == before + 1);
        before = after;
    }
    folder.done("add l.sheet 1.csv --again");
    assert_eq!(every_name_its_own(&folder), before + 1);
    assert!(strays(&folder).is_empty(), "{:?}", strays(&folder));
    assert_eq!(folder.text("l.names").lines().count(), before + 1);
}

// ---- names and traces

#[test]
fn names_of_another_library_are_not_shown() {
    let folder = numbered("mixed-up", 2);
    folder.done("build other.sheet --samples 8 1.csv");
    fs::copy(folder.0.join("other.names"), folder.0.join("l.names")).unwrap();
    assert!(folder.done("match l.sheet 0.csv -k 1").contains("(no name)"));
    let ran = folder.line("check l.sheet");
    assert_eq!(ran.status, 1);
    assert!(ran.out.contains("1 line that fits no trace") && ran.out.contains("1 trace without a name"), "{}", ran.out);
    assert!(folder.done("info l.sheet").contains("none (no line of l.names fits"));
    // dropped by the next adding
    folder.done("add l.sheet 2.csv");
    assert_eq!(named(&folder.text("l.names")), ["1\tfault 2\t2.csv\t-"]);
}

#[test]
fn names_of_an_older_version() {
    let folder = numbered("older", 2);
    folder.write("l.names", "\u{feff}0\tfault 0\t0.csv\r\n");
    assert_eq!(every_name_its_own(&folder), 1);
    assert_eq!(folder.done("check l.sheet"), "l.sheet: sound. 2 blocks, 1 trace of 8 samples.\n");
    folder.done("add l.sheet 1.csv");
    assert_eq!(named(&folder.text("l.names")), ["0\tfault 0\t0.csv\t-", "1\tfault 1\t1.csv\t-"]);
    assert_eq!(every_name_its_own(&folder), 2);
    // a line somebody wrote
    folder.write("l.names", "1\tworn brush\n");
    assert!(folder.done("match l.sheet 1.csv -k 1").contains("worn brush"));
    folder.done("add l.sheet 2.csv");
    assert_eq!(named(&folder.text("l.names")), ["1\tworn brush\t\t-", "2\tfault 2\t2.csv\t-"]);
}

#[test]
fn names_that_cannot_be_read() {
    let folder = numbered("unread", 1);
    let good = folder.text("l.names");
    let long = format!("0\t{}\tx\n", "x".repeat(100_000));
    for (bytes, why) in [
        (&b"\xff\xfe0\0\t\0a\0"[..], "l.names: is text in UTF-16. Save it as text in UTF-8"),
        (b"0\tcaf\xe9\tx\n", "l.names: is no text in UTF-8: line 1 has the byte 233"),
        (b"0\ta\tb\t8000\tnothex\n", "l.names, line 1: the last column has to be 16 digits"),
        (b"0\ta\tb\tfast\t0123456789abcdef\n", "l.names, line 1: `fast` is no rate"),
        (b"0\ta\tb\tc\td\te\tf\n", "l.names, line 1: has to be number, name, file, rate and hash"),
        (long.as_bytes(), "has 100000 letters, and may have 200"),
    ] {
        folder.write("l.names", bytes);
        for line in ["match l.sheet 0.csv", "add l.sheet 1.csv"] {
            let err = folder.refused(line);
            assert!(err.contains(why) && err.len() < 600, "{why}: {err}");
        }
    }
    // nothing but "not found" means that there are none
    fs::remove_file(folder.0.join("l.names")).unwrap();
    fs::create_dir(folder.0.join("l.names")).unwrap();
    assert!(folder.refused("add l.sheet 1.csv").contains("l.names: is a folder"));
    fs::remove_dir(folder.0.join("l.names")).unwrap();
    symlink("l.names", folder.0.join("l.names")).unwrap();
    assert!(folder.refused("add l.sheet 1.csv").contains("l.names"));
    fs::remove_file(folder.0.join("l.names")).unwrap();
    folder.write("l.names", good);
    assert_eq!(every_name_its_own(&folder), 1);
}

#[test]
fn nothing_acts_on_the_terminal() {
    let folder = numbered("terminal", 1);
    let odd = "e\x1b[31mvil\n\u{202e}.csv";
    folder.write(odd, format!("\"\x1b]0;gone\x07\u{9b}2Jname\",{}\n\x1b[2J {}\n", joined(&sweep(1), ","), "x".repeat(70_000)));
    folder.write("fine.csv", format!("\"\x1b]0;gone\x07name\",{}\n", joined(&sweep(1), ",")));
    for words in [vec!["add", "l.sheet", odd], vec!["match", odd, "l.sheet"], vec!["\x1b[2J"], vec!["add", "l.sheet", "--\x1b[2J"]] {
        let ran = folder.run(&words);
        assert_ne!(ran.status, 0);
        assert!(!ran.err.contains('\x1b') && !ran.err.contains('\u{9b}') && ran.err.len() < 1000, "{:?}", ran.err);
    }
    folder.done("add l.sheet fine.csv");
    for line in ["list l.sheet", "match l.sheet fine.csv", "info l.sheet", "match l.sheet fine.csv --json"] {
        let out = folder.done(line);
        assert!(!out.contains('\x1b') && !out.contains('\x07'), "{out:?}");
    }
}

// ---- what is written, and where

#[test]
fn a_library_behind_a_link() {
    let folder = numbered("behind", 1);
    fs::create_dir(folder.0.join("far")).unwrap();
    for name in ["l.sheet", "l.names"] {
        fs::rename(folder.0.join(name), folder.0.join("far").join(name)).unwrap();
    }
    symlink("far/l.sheet", folder.0.join("near.sheet")).unwrap();
    folder.done("add near.sheet 1.csv");
    assert!(folder.0.join("near.sheet").symlink_metadata().unwrap().is_symlink());
    assert_eq!(folder.files(), ["0.csv", "1.csv", "far", "near.sheet"]);
    assert_eq!(named(&folder.text("far/l.names")), ["0\tfault 0\t0.csv\t-", "1\tfault 1\t1.csv\t-"]);
    assert!(folder.done("match near.sheet 1.csv -k 1").contains("fault 1"));
    symlink("nowhere", folder.0.join("dangling.sheet")).unwrap();
    for line in ["build dangling.sheet --samples 8 1.csv --force", "export near.sheet 0 -o dangling.sheet --force"] {
        assert!(folder.refused(line).contains("dangling.sheet: is a link that leads nowhere"), "{line}");
    }
}

#[test]
fn rights_stay() {
    let folder = numbered("rights", 2);
    let mode = |name: &str| fs::metadata(folder.0.join(name)).unwrap().permissions().mode() & 0o777;
    let set = |name: &str, mode: u32| fs::set_permissions(folder.0.join(name), fs::Permissions::from_mode(mode)).unwrap();
    set("l.sheet", 0o600);
    fs::remove_file(folder.0.join("l.names")).unwrap();
    folder.done("add l.sheet 1.csv");
    // new names have the sheet's rights
    assert_eq!((mode("l.sheet"), mode("l.names")), (0o600, 0o600));
    set("l.names", 0o640);
    folder.done("add l.sheet 2.csv");
    assert_eq!((mode("l.sheet"), mode("l.names")), (0o600, 0o640));
    // what is protected is not written
    for protected in ["l.sheet", "l.names"] {
        let (before, old) = (folder.read(protected), mode(protected));
        set(protected, 0o444);
        for line in ["add l.sheet 1.csv", "build l.sheet --samples 8 1.csv --force", "rename l.sheet 0 x"] {
            assert!(folder.refused(line).contains(&format!("{protected}: is write-protected")), "{line}");
        }
        assert!(folder.read(protected) == before);
        set(protected, old);
    }
    assert!(strays(&folder).is_empty());
}

#[test]
fn only_plain_files_are_replaced() {
    let folder = numbered("plain", 1);
    assert!(Command::new("mkfifo").arg(folder.0.join("pipe.wav")).status().unwrap().success());
    let path = folder.0.join("pipe.wav");
    let reader = std::thread::spawn(move || fs::read(path).unwrap());
    folder.done("export l.sheet 0 -o pipe.wav --force");
    assert_eq!(reader.join().unwrap().len(), 44 + 16);
    assert!(fs::symlink_metadata(folder.0.join("pipe.wav")).unwrap().file_type().is_fifo());
    // a library is no FIFO, and is not read from one
    let begun = Instant::now();
    for (line, why) in [
        ("build pipe.wav --samples 8 1.csv --force", "pipe.wav: is no plain file, and is not replaced"),
        ("add l.sheet pipe.wav", "pipe.wav: is a FIFO, and has to be a file"),
        ("match l.sheet /dev/zero", "/dev/zero: is a device, and has to be a file"),
        ("check /dev/null l.sheet", ""),
        ("build /dev/null --samples 8 1.csv --force", "/dev/null: is no plain file"),
    ] {
        let ran = folder.line(line);
        assert_eq!(ran.status, 1, "{line}");
        assert!(ran.err.contains(why), "{line}: {}", ran.err);
    }
    assert!(begun.elapsed() < Duration::from_secs(10));
    let null = fs::metadata("/dev/null").unwrap();
    folder.done("export l.sheet 0 -o /dev/null");
    assert_eq!(fs::metadata("/dev/null").unwrap().ino(), null.ino());
    // standard output has the file, standard error the words
    let ran = program(&folder, "export l.sheet 0 -o -").output().unwrap();
    assert_eq!((ran.stdout.len(), &ran.stdout[..4]), (44 + 16, &b"RIFF"[..]));
    assert!(String::from_utf8(ran.stderr).unwrap().contains("trace 0, fault 0"));
    // a pipe that is open has an end
    let ran = shell(&folder, "cat 1.csv | \"$S\" add l.sheet -");
    assert_eq!((ran.status, ran.err.as_str()), (0, ""));
    let ran = shell(&folder, "bash -c '\"$S\" match l.sheet <(cat 1.csv) -k 1'");
    assert!(ran.out.contains("fault 1"), "{}{}", ran.out, ran.err);
    // a library too, without the names that stand beside its file
    for line in ["cat l.sheet | \"$S\" build piped.sheet --samples 8 -", "bash -c '\"$S\" build piped.sheet --force --samples 8 <(cat l.sheet)'"] {
        let ran = shell(&folder, line);
        assert_eq!((ran.status, ran.err.as_str()), (0, ""), "{line}");
        assert!(folder.library("piped.sheet").traces().eq(folder.library("l.sheet").traces()), "{line}");
    }
}

#[test]
fn a_socket_is_written_to() {
    let folder = numbered("socket", 1);
    // a socket's path has to be short
    let path = std::env::temp_dir().join(format!("silkendoz-{}.socket", std::process::id()));
    let listener = UnixListener::bind(&path).unwrap();
    let reader = std::thread::spawn(move || {
        let mut bytes = Vec::new();
        listener.accept().unwrap().0.read_to_end(&mut bytes).unwrap();
        bytes
    });
    folder.done(&format!("export l.sheet 0 --force -o {}", path.display()));
    assert_eq!(reader.join().unwrap().len(), 44 + 16);
    assert!(fs::symlink_metadata(&path).unwrap().file_type().is_socket());
    // nobody listens any more
    assert!(folder.refused(&format!("export l.sheet 0 --force -o {}", path.display())).contains("cannot be written: Connection refused"));
    fs::remove_file(path).unwrap();
}

#[test]
fn an_input_is_never_overwritten() {
    let folder = numbered("input", 1);
    folder.done("export l.sheet 0 -o zero.wav");
    symlink("l.sheet", folder.0.join("link.sheet")).unwrap();
    let before: HashMap<String, Vec<u8>> = folder.files().into_iter().map(|name| (name.clone(), folder.read(&name))).collect();
    for line in [
        "export l.sheet 0 -o l.sheet",
        "export l.sheet 0 -o l.names",
        "export l.sheet 0 -o link.sheet",
        "build l.sheet --samples 8 l.sheet",
        "build l.sheet --samples 8 link.sheet",
        "build 1.csv --samples 8 .",
        "repair l.sheet l.sheet -o l.sheet",
    ] {
        assert!(folder.refused(&format!("{line} --force")).contains("is read here too"), "{line}");
        folder.refused(line);
    }
    for (name, bytes) in before {
        assert!(folder.read(&name) == bytes, "{name}");
    }
}

#[test]
fn repaired_over_another_library() {
    let folder = numbered("repaired-over", 3);
    folder.done("build a.sheet --samples 8 2.csv 3.csv");
    fs::remove_file(folder.0.join("a.names")).unwrap();
    fs::copy(folder.0.join("a.sheet"), folder.0.join("b.sheet")).unwrap();
    assert!(folder.refused("repair a.sheet b.sheet -o l.sheet").contains("l.sheet: is there already"));
    folder.done("repair a.sheet b.sheet -o l.sheet --force");
    // the names of the library that was there do not stay
    assert!(!folder.files().contains(&"l.names".to_string()));
    assert_eq!(folder.library("l.sheet").len(), 2);
}

/// What was written is not called unwritten because nobody can be told.
#[test]
fn an_output_that_cannot_be_written() {
    let folder = numbered("unprinted", 3);
    for (line, status, stored) in [
        ("\"$S\" info l.sheet >&-", 1, 1),
        ("\"$S\" info l.sheet > /dev/full", 1, 1),
        ("\"$S\" add l.sheet 1.csv > /dev/full", 3, 2),
        ("\"$S\" add l.sheet 2.csv >&-", 3, 3),
        ("\"$S\" info l.sheet > /dev/null", 0, 3),
        ("\"$S\" export l.sheet 0 -o - >&-", 1, 3),
        ("\"$S\" report l.sheet 1.csv -o - >&-", 1, 3),
        ("\"$S\" export l.sheet 0 -o - > /dev/full", 1, 3),
        ("\"$S\" export l.sheet 0 -o /dev/full", 1, 3),
    ] {
        let ran = shell(&folder, line);
        assert_eq!((ran.status, folder.library("l.sheet").len()), (status, stored), "{line}: {}", ran.err);
        assert_eq!(ran.err.contains("was done all the same"), status == 3, "{line}: {}", ran.err);
        assert_eq!(ran.err.contains("cannot be written"), status != 0, "{line}: {}", ran.err);
    }
    assert_eq!(every_name_its_own(&folder), 3);
}

#[test]
fn no_more_is_read_than_a_library_holds() {
    let folder = numbered("many", 1);
    folder.write("ones.csv", "1\n".repeat(300_000));
    folder.write("wide.csv", "1,".repeat(2_000_000));
    let begun = Instant::now();
    let err = folder.refused("build ones.sheet --samples 1 ones.csv");
    assert!(err.contains("ones.csv, line 4097: more than 4096 traces"), "{err}");
    assert!(folder.refused("add l.sheet wide.csv").contains("2000001 samples, and 8 are wanted"));
    assert!(begun.elapsed() < Duration::from_secs(5));
    // a full library, and advice that can be followed
    folder.write("full.csv", "1\n".repeat(4096));
    folder.write("one.csv", "7\n");
    folder.done("build full.sheet --samples 1 full.csv");
    let err = folder.refused("add full.sheet one.csv");
    assert!(err.contains("No library holds more than 4096 traces. Begin another library") && !err.contains("--capacity"), "{err}");
    assert!(err.contains("`silkendoz build NEW.sheet --samples 1 --without N,M full.sheet FILE..` leaves out"), "{err}");
    folder.done("build less.sheet --samples 1 --without 5,7,5 full.sheet one.csv");
    let library = folder.library("less.sheet");
    assert_eq!((library.len(), library.trace(4094).unwrap()[0].value()), (4095, 7));
    let err = folder.refused("build more.sheet --samples 1 full.csv one.csv");
    assert!(err.contains("these files hold more than 4096 traces") && err.contains("one.csv"), "{err}");
    let mut input = File::create(folder.0.join("input")).unwrap();
    input.write_all(&vec![b'#'; 70 << 20]).unwrap();
    assert!(folder.refused("add l.sheet input").contains("larger than 64 MiB"));
    fs::remove_file(folder.0.join("input")).unwrap();
}

/// `l` would have its names where `l.sheet` has them.
#[test]
fn two_sheets_never_share_a_file_of_names() {
    let folder = numbered("twins", 2);
    let (sheet, names) = (folder.read("l.sheet"), folder.read("l.names"));
    let said = folder.refused("build l --samples 8 --force 1.csv");
    assert!(said.contains("l: l.sheet has its names in l.names too. Take another name"), "{said}");
    assert!(!folder.0.join("l").exists() && folder.read("l.sheet") == sheet && folder.read("l.names") == names);
    // nor is one written whose twin came by hand
    folder.write("l", &sheet);
    assert!(folder.refused("add l.sheet 1.csv").contains("l has its names in l.names too"));
    assert!(folder.read("l.sheet") == sheet && folder.read("l.names") == names);
    // a folder, or a file that is no sheet, is no twin
    fs::remove_file(folder.0.join("l")).unwrap();
    folder.write("l", "no sheet");
    folder.done("add l.sheet 1.csv");
}
