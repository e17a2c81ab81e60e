//! The commands of `docs/GUIDE.md`, run one after another beside `examples/`, as it is in a fresh clone. What they print is what the page says,
//! and the pictures that they leave are those that stand there.

use std::fs;
use std::path::{Path, PathBuf};
use std::process::Command;

fn repository() -> PathBuf {
    Path::new(env!("CARGO_MANIFEST_DIR")).join("..")
}

/// The commands of the page's `console` blocks, each with what stands below it.
fn commands(page: &str) -> Vec<(String, String)> {
    let blocks = page.split("\n```").collect::<Vec<_>>();
    let mut found: Vec<(String, String)> = Vec::new();
    for block in blocks.iter().filter_map(|block| block.strip_prefix("console\n")) {
        for line in block.lines() {
            match (line.strip_prefix("$ "), found.last_mut()) {
                (Some(command), _) => found.push((command.to_string(), String::new())),
                (None, Some((_, below))) => below.push_str(&format!("{line}\n")),
                (None, None) => panic!("a block begins with a command"),
            }
        }
    }
    found
}

/// Runs a line of the shell in a folder, with the program on the path. What it prints, whatever its exit status.
fn printed(folder: &Path, line: &str) -> String {
    let bin = Path::new(env!("CARGO_BIN_EXE_silkendoz")).parent().unwrap();
    let others = std::env::var_os("PATH").unwrap_or_default();
    let path = std::env::join_paths([bin.to_path_buf()].into_iter().chain(std::env::split_paths(&others))).unwrap();
    let ran = Command::new("sh").arg("-c").arg(line).current_dir(folder).env("PATH", path).env("LC_ALL", "C").output().unwrap();
    String::from_utf8([ran.stdout, ran.stderr].concat()).unwrap()
}

/// A folder with the examples, as a fresh clone has them.
fn fresh(name: &str) -> PathBuf {
    let folder = Path::new(env!("CARGO_TARGET_TMPDIR")).join(name);
    let _ = fs::remove_dir_all(&folder);
    fs::create_dir_all(&folder).unwrap();
    let copied = Command::new("cp").arg("-r").arg(repository().join("examples")).arg(&folder).status().unwrap();
    assert!(copied.success());
    folder
}

/// The pictures that the commands leave, and what they are called beside the page.
const PICTURES: [(&str, &str); 4] =
    [("today.svg", "docs/match.svg"), ("bands.svg", "docs/bands.svg"), ("limits.svg", "docs/limits.svg"), ("clipped.svg", "docs/clipped.svg")];

/// With GUIDE_WRITE set, the page and its pictures become what the commands print.
#[test]
fn the_commands_print_what_the_page_says() {
    let path = repository().join("docs/GUIDE.md");
    let mut page = fs::read_to_string(&path).unwrap();
    let mut folder = fresh("guide");
    let commands = commands(&page);
    const SHOWN: [&str; 16] = [
        "build", "match", "remote", "plot", "report", "bands", "limits", "add", "info", "export", "rename", "list", "check", "repair", "salvage",
        "tables",
    ];
    for command in SHOWN {
        let shown = commands.iter().any(|(line, _)| line.starts_with(&format!("silkendoz {command} ")));
        assert!(shown, "the page shows {command}");
    }
    let write = std::env::var_os("GUIDE_WRITE").is_some();
    for (line, below) in commands {
        if let Some(inside) = line.strip_prefix("cd ") {
            folder = folder.join(inside);
            assert!(folder.is_dir(), "{line}");
        }
        let told = printed(&folder, if line.starts_with("cd ") { "true" } else { &line });
        if write {
            page = page.replacen(&format!("\n$ {line}\n{below}"), &format!("\n$ {line}\n{told}"), 1);
        } else {
            assert_eq!(told, below, "{line}");
        }
    }
    if write {
        fs::write(path, page).unwrap();
    }
    for (left, shown) in PICTURES {
        let picture = fs::read_to_string(folder.join(left)).unwrap();
        if write {
            fs::write(repository().join(shown), &picture).unwrap();
        }
        assert!(picture == fs::read_to_string(repository().join(shown)).unwrap(), "{shown} is the picture of the page's commands");
    }
    assert!(fs::read_to_string(folder.join("today.html")).unwrap().contains("Fits: dry rail, right"));
    // a command whose times differ from run to run
    assert!(printed(&folder, "silkendoz advise faults.sheet").contains("do not look normalised"));
}

/// The sheet, its recordings and the page have one numbering: `examples/faults.names` names the traces that the page's commands number so.
#[test]
fn one_numbering() {
    let folder = fresh("numbering");
    printed(&folder, "silkendoz build built.sheet --samples 64 examples/faults/*.wav");
    let listed = |sheet: &str| printed(&folder, &format!("silkendoz list {sheet}"));
    let names = |text: String| -> Vec<String> {
        let words = |line: &str| line.split("  ").map(str::trim).filter(|cell| !cell.is_empty()).take(2).collect::<Vec<_>>().join(" ");
        text.lines().map(words).filter(|line| line.contains("machine")).collect()
    };
    let built = names(listed("built.sheet"));
    assert_eq!(built.len(), 36);
    assert_eq!(built, names(listed("examples/faults.sheet")));
    assert_eq!(built[19], "19 dry rail, right, machine 4119");
}
