//! What `docs/GUIDE.md` and the README say in tables and in passing is what the library does. The programs of the guide are tests of their own: the one in
//! Rust with the documentation (`src/lib.rs`), the one in C by `tools/guide_c`.

use silkendoz::{calls, Refusal, StoredSample, TraceLibrary};
use std::path::PathBuf;
use testing::model::sheet::{all_label_blocks, blocks_needed, program_line, write_as, Width};
use testing::model::{Label, Measures};

fn file(name: &str) -> Vec<u8> {
    std::fs::read(PathBuf::from(env!("CARGO_MANIFEST_DIR")).join("..").join(name)).unwrap()
}

fn text(name: &str) -> String {
    String::from_utf8(file(name)).unwrap()
}

/// The rows of the table under a heading, cell by cell, without its first two lines.
fn table(page: &str, heading: &str) -> Vec<Vec<String>> {
    let section = page.split("\n## ").find(|s| s.starts_with(heading)).unwrap();
    let rows = section.lines().filter(|l| l.starts_with('|')).skip(2);
    rows.map(|l| l.trim_matches('|').split('|').map(|cell| cell.trim().to_string()).collect()).collect()
}

/// By docs/LAYOUT.md: samples, node records, links, search work, labels; then all of it, and a full sheet, narrow and wide.
#[test]
fn memory_needs() {
    let rows = table(&text("docs/GUIDE.md"), "Memory needs");
    assert_eq!(rows.len(), 4);
    for row in rows {
        let cells: Vec<usize> = row.iter().map(|cell| cell.replace(',', "").parse().unwrap()).collect();
        let (n, c) = (cells[0], cells[1]);
        let tables = [4 * c * n, 8 * (2 * c - 1) * 87, 2 * c, 8 * (2 * c - 1), 8 * c];
        assert_eq!(cells[2..7], tables);
        assert_eq!(cells[7], tables.iter().sum::<usize>() + 10);
        assert_eq!(cells[7], 4 * c * n + 1418 * c - 694);
        let sheet = |width| 512 * (blocks_needed(width, c as u64, n as u64) + all_label_blocks(c as u64));
        assert_eq!(cells[8..], [sheet(Width::Narrow), sheet(Width::Wide)]);
    }
}

#[test]
fn refusals() {
    let rows = table(&text("docs/GUIDE.md"), "Refusals");
    let named: Vec<(u64, String)> = rows.iter().map(|row| (row[0].parse().unwrap(), row[1].clone())).collect();
    let all: Vec<(u64, String)> = (1..=19).map(|number| (number, Refusal::from_number(number, 0).unwrap().word().to_string())).collect();
    assert_eq!(named, all);
}

/// The name that `examples/faults.txt` has for a trace.
fn fault(trace: &str) -> String {
    let names = text("examples/faults.txt");
    names.lines().find_map(|l| l.trim_start().strip_prefix(&format!("{trace}  "))).unwrap().to_string()
}

/// The nearest to the example sheet's last trace. That trace is stored itself, and so comes before all others, at distance 0.
#[test]
fn runner_up() {
    let rows = table(&text("docs/GUIDE.md"), "The runner-up");
    let library = TraceLibrary::read_sheet(&file("examples/faults.sheet")).unwrap();
    let query = library.len() - 1;
    let samples = StoredSample::values(library.trace(query).unwrap());
    let list = library.k_nearest(&samples, 1 + rows.len()).unwrap().list;
    assert_eq!((list[0].trace, list[0].distance), (query, 0));
    let rounded = |x: f64| x.round() as u64;
    for (row, near) in rows.iter().zip(&list[1..]) {
        let root = (near.distance as f64).sqrt();
        assert_eq!(row[0], near.trace.to_string());
        assert_eq!(row[1], fault(&row[0]));
        let figures: Vec<u64> = row[2..].iter().map(|cell| cell.replace(',', "").parse().unwrap()).collect();
        assert_eq!(figures, [near.distance, rounded(root), rounded(root / (library.n() as f64).sqrt())]);
    }
}

/// The line that both pages show for the example sheet, and the fault that they name.
#[test]
fn the_line_of_the_example_sheet() {
    let line = program_line(&file("examples/faults.sheet"));
    let name = &fault(line.split(' ').next().unwrap());
    for page in ["docs/GUIDE.md", "README.md"] {
        let words: Vec<String> = text(page).split_whitespace().map(str::to_string).collect();
        let running = words.join(" ");
        assert!(running.contains(&format!("`{line}`")), "{page}: {line}");
        assert!(running.contains(name), "{page}: {name}");
    }
}

/// What the guide says of stack is what `tests/stack.c` holds the calls to.
#[test]
fn stack() {
    let held = text("tests/stack.c");
    for row in table(&text("docs/GUIDE.md"), "Stack") {
        let call = row[0].trim_matches('`').strip_prefix("silkendoz_").unwrap().to_string();
        let limit: usize = row[2].strip_suffix(" KiB").unwrap().parse().unwrap();
        let measured: usize = row[1].replace(',', "").parse().unwrap();
        assert!(measured < 1024 * limit);
        let start = held.find(&format!("{{\"{call}\", ")).unwrap();
        assert!(held[start..].split(", ").nth(2).unwrap() == limit.to_string(), "{call}");
    }
}

/// The refusals of the program that reads a sheet, as the guide's table has them.
#[test]
fn refusals_of_the_program() {
    let rows = table(&text("docs/GUIDE.md"), "The program `match_sheet`");
    let printed: Vec<String> = rows.iter().map(|row| row[0].trim_matches('`').replace('B', "1")).collect();
    let sheet = |n, capacity, count| {
        let mut library = TraceLibrary::open(n, capacity, 2).unwrap();
        for _ in 0..count {
            library.add(&vec![1; n]).unwrap();
        }
        library.write_sheet().unwrap()
    };
    let mut torn = sheet(4, 8, 3);
    torn[600] ^= 1;
    // a sound block too many
    let bad = [&sheet(4, 8, 3)[..], &sheet(4, 300, 300)[1024..1536]].concat();
    let m = Measures { n: 1, capacity: 8, leaf_size: 2 };
    let outside = write_as(Width::Wide, m, &[vec![524_288]], &[Label::default()]);
    let shown = [vec![], torn, bad, outside, sheet(65, 4, 2), sheet(4, 64, 1)].map(|bytes| program_line(&bytes));
    assert_eq!(printed, shown);
    assert_eq!(program_line(&vec![0; 65_536 + 512]), printed[0]);
    assert_eq!(program_line(&sheet(4, 65, 2)), printed[4]);
    assert_eq!(program_line(&sheet(4, 64, 0)), printed[5]);
}

/// One version for the header and the crate.
#[test]
fn version() {
    let header = text("include/silkendoz.h");
    assert!(header.contains(&format!("#define SILKENDOZ_VERSION \"{}\"\n", env!("CARGO_PKG_VERSION"))));
}

/// One layout for the header, the crate and the archive.
#[test]
fn layout() {
    assert_eq!(calls::layout(), calls::LAYOUT);
    assert!(text("include/silkendoz.h").contains(&format!("#define SILKENDOZ_LAYOUT {}\n", calls::LAYOUT)));
}

/// Each step of the first page has its time.
#[test]
fn times_of_the_steps() {
    let page = text("docs/GUIDE.md");
    let (_, behind) = page.split_once("\n| Step | Time").unwrap();
    let rows: Vec<&str> = behind.lines().skip(2).take_while(|line| line.starts_with('|')).collect();
    let timed = |row: &&str| row.rsplit('|').nth(1).unwrap().contains(|c: char| c.is_ascii_digit());
    assert!(rows.len() > 2 && rows.iter().all(timed), "{rows:?}");
}

/// The page's program in Rust is the one under `examples/`.
#[test]
fn the_program_in_rust() {
    let page = text("docs/GUIDE.md");
    let shown = page.split("\n```rust\n").nth(1).unwrap().split("```").next().unwrap();
    let (_, program) = include_str!("../examples/faults.rs").split_once("\n\n").unwrap();
    assert_eq!(shown, program);
}
