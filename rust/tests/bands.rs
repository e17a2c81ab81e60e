//! `bands` at the bench: edges as distances and off a sample, bars of text and of the picture, and the page of `report` with them. What is
//! shown is what the call reports, and the true numbers lie between.

mod bench;

use bench::*;
use silkendoz::{StoredSample, TraceLibrary};

/// The distances of the library's traces to the sweep.
fn distances(library: &TraceLibrary, query: &[i32]) -> Vec<u64> {
    let apart = |trace: &[StoredSample]| trace.iter().zip(query).map(|(x, y)| i64::from(x.value() - y).pow(2) as u64).sum();
    library.traces().map(apart).collect()
}

/// The numbers of a row of the table; the bar stands behind them.
fn row(line: &str) -> (Vec<f64>, String) {
    let cells: Vec<&str> = line.split_whitespace().collect();
    let bar = cells.get(8).copied().unwrap_or("");
    (cells[..8].iter().map(|cell| cell.parse().unwrap()).collect(), bar.to_string())
}

#[test]
fn bands_of_a_sweep() {
    let folder = shelf("bands");
    let (library, query) = (folder.library("faults.sheet"), faults().1);
    let stored = distances(&library, &query);
    let edges = [0, 300_000, 1_000_000, 10_000_000, 40_000_000, 4_000_000_000];
    let said = folder.done("bands faults.sheet today.csv --edges 0,300000,1000000,10000000,40000000,4000000000");
    let lines: Vec<&str> = said.lines().collect();
    assert_eq!(lines.len(), 1 + 1 + 5 + 1, "{said}");
    assert!(lines[0].starts_with("today") && lines[1].contains("surely  at most"), "{said}");
    let bands = library.count_bands(&query, &edges).unwrap();
    let mut placed = 0;
    for (at, band) in bands.iter().enumerate() {
        let (cells, bar) = row(lines[2 + at]);
        assert_eq!(cells[2..6].iter().map(|&x| x as u64).collect::<Vec<_>>(), [edges[at], edges[at + 1], band.sure, band.possible]);
        assert_eq!(cells[1], (10.0 * (edges[at + 1] as f64 / 64.0).sqrt()).round() / 10.0);
        let all = library.count_bands(&query, &[0, edges[at + 1]]).unwrap()[0];
        assert_eq!((cells[6] as u64, cells[7] as u64), (all.sure, all.possible));
        assert_eq!(bar, format!("{}{}", "#".repeat(band.sure as usize), ".".repeat((band.possible - band.sure) as usize)));
        let truly = stored.iter().filter(|d| (edges[at]..edges[at + 1]).contains(d)).count() as u64;
        assert!(band.sure <= truly && truly <= band.possible);
        placed += band.sure;
    }
    assert!(lines[7].starts_with(&format!("The band is sure for {placed} of 36 traces. No trace was read")), "{said}");
}

/// Off a sample: n times its square, rounded up, so that just those are below that are off by less.
#[test]
fn edges_off_a_sample() {
    let folder = shelf("bands-off");
    let by_distance = folder.done("bands faults.sheet today.csv --edges 0,640000,2250000,64000000");
    let off = folder.done("bands faults.sheet today.csv --off 0,100,187.5,1000");
    let figures = |text: &str| text.lines().skip(2).take(3).map(|line| row(line).0[2..].to_vec()).collect::<Vec<_>>();
    assert_eq!(figures(&by_distance), figures(&off));
    // the distance at which a sample is off by 56.5383…: 204579 is the nearest trace's, and the edge takes it in or leaves it out
    for (edges, least) in [("0,56.538", 204_579), ("0,56.537", 204_572)] {
        let json = Json::of(&folder.done(&format!("bands faults.sheet today.csv --off {edges} --json")));
        let below = json.at("bands").list()[0].at("below").number();
        assert!(below.abs_diff(least) <= 8, "{below}");
        let off: f64 = edges[2..].parse().unwrap();
        let exact = 64.0 * off * off;
        assert!(below as f64 >= exact && (below as f64) < exact + 1.0, "{below} {exact}");
    }
}

#[test]
fn a_first_look() {
    let folder = shelf("bands-first");
    let said = folder.done("bands faults.sheet today.csv");
    let rows: Vec<(Vec<f64>, String)> = said.lines().skip(2).filter(|line| line.starts_with("  ")).map(row).collect();
    assert!(rows.len() > 1 && rows.len() < 15, "{said}");
    // nothing is left out but bands that hold nothing
    assert!(rows[0].0[5] > 0.0 && rows[rows.len() - 1].0[5] > 0.0, "{said}");
    let last = &rows[rows.len() - 1].0;
    assert_eq!((last[6], last[7]), (36.0, 36.0), "{said}");
    // an empty library reports zeros
    let empty = TraceLibrary::open(64, 8, 2).unwrap();
    folder.write("empty.sheet", empty.write_sheet().unwrap());
    let said = folder.done("bands empty.sheet today.csv");
    assert!(said.contains("sure for 0 of 0 traces"), "{said}");
    assert_eq!(said.lines().count(), 4, "{said}");
}

#[test]
fn for_programs() {
    let folder = shelf("bands-json");
    let json = Json::of(&folder.done("bands faults.sheet today.csv --edges 0,300000,4000000000 --json"));
    assert_eq!((json.at("name"), json.at("traces").number()), (&Json::Text("today".to_string()), 36));
    let bands = library_bands(&folder, &[0, 300_000, 4_000_000_000]);
    for (at, (sure, possible)) in bands.into_iter().enumerate() {
        let band = &json.at("bands").list()[at];
        assert_eq!((band.at("surely").number(), band.at("at_most").number()), (sure, possible));
    }
}

fn library_bands(folder: &Folder, edges: &[u64]) -> Vec<(u64, u64)> {
    let bands = folder.library("faults.sheet").count_bands(&faults().1, edges).unwrap();
    bands.iter().map(|band| (band.sure, band.possible)).collect()
}

/// A bar for surely, an outline for at most, and what they stand for.
#[test]
fn a_picture() {
    let folder = shelf("bands-picture");
    let edges = [0, 640_000, 4_000_000, 64_000_000];
    let said = folder.done("bands faults.sheet today.csv --edges 0,640000,4000000,64000000 -o bands.svg");
    assert_eq!(said, "bands.svg: today, 3 bands. A browser shows it.\n");
    let picture = folder.text("bands.svg");
    let bands = library_bands(&folder, &edges);
    // each kind once more in the legend
    let drawn = |class: &str| picture.matches(&format!("<rect class=\"{class}\"")).count();
    assert_eq!(drawn("sure"), 1 + bands.iter().filter(|band| band.0 > 0).count());
    assert_eq!(drawn("possible"), 1 + bands.iter().filter(|band| band.1 > 0).count());
    assert!(picture.contains(">0.0 to 100.0</text>") && picture.contains(">surely so many</text>") && picture.contains(">traces</text>"));
    assert!(folder.refused("bands faults.sheet today.csv --off 0,1 -o bands.svg").contains("bands.svg: is there already"));
    for own in ["faults.sheet", "faults.names", "today.csv"] {
        assert!(folder.refused(&format!("bands faults.sheet today.csv --force -o {own}")).contains(own));
    }
    let ran = folder.line("bands faults.sheet today.csv --edges 0,640000,4000000,64000000 -o -");
    assert_eq!((ran.status, ran.out), (0, picture));
    assert_eq!(ran.err, said.replace("bands.svg", "standard output"));
}

/// The page of `report` has the bars if edges are said, and else it is as it was.
#[test]
fn on_the_page() {
    let folder = shelf("bands-page");
    folder.done("report faults.sheet today.csv --off 0,100,250,1000");
    let page = folder.text("today.html");
    assert_eq!(page.matches("<svg").count(), 2);
    assert!(page.contains("How many traces lie how far</h2>") && page.contains("class=\"possible\"") && page.contains(">100 to 250</text>"));
    let said = folder.done("bands faults.sheet today.csv --off 0,100,250,1000");
    assert!(page.contains(said.lines().last().unwrap()));
    folder.done("report faults.sheet today.csv -o plain.html");
    assert_eq!(folder.text("plain.html").matches("<svg").count(), 1);
}

#[test]
fn what_is_refused() {
    let folder = shelf("bands-refused");
    folder.write("short.csv", "1,2,3\n");
    folder.write("far.csv", format!("{}524288\n", "0,".repeat(63)));
    for (line, why) in [
        ("bands faults.sheet", "a FILE with a sweep is missing"),
        ("bands faults.sheet today.csv today.csv", "`today.csv` is one word too many"),
        ("bands faults.sheet today.csv --edges 5", "--edges: 1 edge. Take 2 to 16"),
        ("bands faults.sheet today.csv --edges 5,5", "5 is not above 5"),
        ("bands faults.sheet today.csv --edges 0,7,6", "7 and 6: 6 is not above 7"),
        ("bands faults.sheet today.csv --edges 0,1.5", "`1.5` is no distance"),
        ("bands faults.sheet today.csv --off 0,x", "`x` is nothing that a sample is off by"),
        ("bands faults.sheet today.csv --off 0,0.01,0.02", "both are distance 1"),
        ("bands faults.sheet today.csv --edges 0,1 --off 0,1", "do not go together"),
        ("bands faults.sheet today.csv --json -o x.svg", "do not go together"),
        ("bands faults.sheet today.csv --edges 0,1,2,3,4,5,6,7,8,9,10,11,12,13,14,15,16", "17 edges. Take 2 to 16"),
        ("report faults.sheet today.csv --edges 5", "--edges: 1 edge"),
    ] {
        let ran = folder.line(line);
        assert_eq!((ran.status, ran.out.as_str()), (2, ""), "{line}: {}", ran.err);
        assert!(ran.err.contains(why), "{line}: {}", ran.err);
    }
    assert!(folder.refused("bands faults.sheet short.csv").contains("3 samples, and 64 are wanted"));
    assert!(folder.refused("bands faults.sheet far.csv").contains("524288"));
    assert!(folder.refused("bands faults.sheet today.csv --sweep 2").contains("there is no sweep 2"));
}
