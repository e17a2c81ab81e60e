//! The page of `report`: it stands for itself, says what `match` says, and looks as it is meant to, in a browser where one is installed.

mod bench;

use bench::*;
use std::io::Write;
use std::path::Path;
use std::process::Command;

/// Tags that stand alone in HTML.
const ALONE: [&str; 2] = ["meta", "!DOCTYPE"];

/// Whether the tags of a page balance and nothing is left unescaped.
fn balanced(html: &str) {
    let (before, style) = html.split_once("<style>").unwrap();
    let (style, behind) = style.split_once("</style>").unwrap();
    assert!(!style.contains('<') && !style.contains("url(") && !style.contains("@import"));
    let mut open: Vec<&str> = Vec::new();
    for piece in before.split('<').skip(1).chain(behind.split('<').skip(1)) {
        let (tag, text) = piece.split_once('>').expect("a tag ends");
        for entity in text.split('&').skip(1).chain(tag.split('&').skip(1)) {
            assert!(["amp;", "lt;", "gt;", "quot;"].iter().any(|known| entity.starts_with(known)), "{entity}");
        }
        let name = tag.split([' ', '/']).next().unwrap();
        match tag.strip_prefix('/') {
            Some(name) => assert_eq!(open.pop(), Some(name)),
            None if tag.ends_with('/') || ALONE.contains(&name) => {}
            None => open.push(name),
        }
    }
    assert!(open.is_empty(), "{open:?}");
}

/// No script, nothing from elsewhere, below 100 kB.
fn stands_for_itself(html: &str) {
    stands_below(html, 100_000);
}

/// The same below so many bytes.
fn stands_below(html: &str, most: usize) {
    balanced(html);
    assert!(html.len() < most, "{}", html.len());
    for word in ["<script", "javascript:", " src=", " href=", "<link", "<img", "<iframe", "<object", " onload"] {
        assert!(!html.contains(word), "{word}");
    }
    let addresses = html.matches("http").count();
    assert_eq!(addresses, html.matches("http://www.w3.org/2000/svg").count() + html.matches("http-equiv").count());
}

#[test]
fn a_page() {
    let folder = shelf("report");
    let said = folder.done("report faults.sheet today.csv");
    let verdict = folder.done("match faults.sheet today.csv").lines().find(|line| line.starts_with("Fits: ")).unwrap().to_string();
    assert_eq!(said, format!("today.html: today. A browser shows it, and prints it on one page.\n{verdict}\n"));
    let page = folder.text("today.html");
    stands_for_itself(&page);
    let (first, rest) = verdict.split_at("Fits: dry rail, right".len());
    assert!(page.contains(&format!("<strong>{first}</strong>{rest}</p>")), "{first}");
    assert!(page.contains("prefers-color-scheme: dark") && page.contains("sample, from 1") && !page.contains("milliseconds"));
    assert_eq!(page.matches("<polyline").count(), 1 + 3 + 3);
    assert!(page.contains("<td>trace 19, machine 4119</td><td class=\"number\"></td><td class=\"number\">56.5</td>"));
    assert!(page.contains("of the 16 nearest") && page.contains(concat!("silkendoz ", env!("CARGO_PKG_VERSION"), ", 20")));
    let sum = Command::new("sha256sum").arg(folder.0.join("faults.sheet")).output().unwrap().stdout;
    assert!(page.contains(&format!("SHA-256 of its sheet: {}.", &String::from_utf8(sum).unwrap()[..64])));
    // nothing is overwritten unless it is said
    assert!(folder.refused("report faults.sheet today.csv").contains("today.html: is there already"));
    folder.done("report faults.sheet today.csv --force -k 6");
    assert_eq!(folder.text("today.html").matches("<polyline").count(), 1 + 6 + 6);
    for own in ["faults.sheet", "faults.names", "today.csv"] {
        let before = folder.read(own);
        assert!(folder.refused(&format!("report faults.sheet today.csv --force -o {own}")).contains(own));
        assert!(folder.refused(&format!("plot faults.sheet today.csv --force -o {own}")).contains(own));
        assert!(folder.read(own) == before);
    }
    // to standard output, the words aside
    let ran = folder.line("report faults.sheet today.csv -o -");
    assert_eq!(ran.status, 0);
    stands_for_itself(&ran.out);
    assert_eq!(ran.err, said.replace("today.html", "standard output"));
}

/// A day that is given makes the same page again.
#[test]
fn the_same_page_again() {
    let folder = shelf("report-again");
    let page = || {
        let mut command = Command::new(env!("CARGO_BIN_EXE_silkendoz"));
        command.current_dir(&folder.0).env("SOURCE_DATE_EPOCH", "1794850259").args(["report", "faults.sheet", "today.csv", "-o", "-"]);
        String::from_utf8(command.output().unwrap().stdout).unwrap()
    };
    assert!(page().contains("2026-11-16 17:30 UTC") && page() == page());
}

/// The worst that names, traces and files can do to a page: as long as they may be, with letters that HTML takes for its own, sixteen faults,
/// samples at the limit, all remarks.
fn worst(name: &str) -> Folder {
    let folder = Folder::new(name);
    let hostile = "<script>alert(1)</script> & \"\"x\"\" ' ]]> 漢字 ";
    let line = |i: usize| {
        let trace: Vec<i32> = (0..256).map(|at| ((at * 7 + i * 900) % 30_000) as i32).collect();
        format!("\"{hostile}{}{i}, machine {i}\",{}\n", "long ".repeat(20), joined(&trace, ","))
    };
    let lines: Vec<String> = (0..40).map(|i| line(i / 2)).collect();
    folder.write("faults.csv", lines.concat());
    folder.done("build faults.sheet --samples 256 faults.csv");
    let clipped: Vec<i32> = (0..256).map(|at| if at % 3 == 0 { 32_767 } else { -32_768 }).collect();
    folder.write("sweep.csv", format!("\"{hostile}{}\",{}\n", "today ".repeat(20), joined(&clipped, ",")));
    folder
}

#[test]
fn hostile_names() {
    let folder = worst("report-worst");
    folder.done("report faults.sheet sweep.csv -k 6");
    let page = folder.text("sweep.html");
    stands_for_itself(&page);
    assert!(page.contains("&lt;script&gt;alert(1)&lt;/script&gt;"));
    assert_eq!(page.matches("<circle class=\"limit\"").count(), 256 + 1);
    folder.done("report faults.sheet sweep.csv -k 6 --clipped --beyond 400000 --force");
    // each of 256 samples has a range, over the curves and in six rows
    stands_below(&folder.text("sweep.html"), 150_000);
}

/// Across stand milliseconds where the rate is known, and the last mark is the last sample's.
#[test]
fn milliseconds() {
    let folder = shelf("report-rate");
    folder.done("export faults.sheet 3 -o loose.wav --rate 2000");
    folder.done("report faults.sheet loose.wav");
    let page = folder.text("loose.html");
    assert!(page.contains("64 samples at 2000 a second (32.0 ms)") && page.contains("milliseconds") && page.contains(">31.5</text>"));
}

/// In a browser: every page shows on light and on dark paper, and prints on one page; with bands, on two.
#[test]
fn in_a_browser() {
    let Some(browser) = ["chromium", "chromium-browser", "google-chrome"].into_iter().find(|name| runs(name)) else {
        // not by println, which a test that passes does not show
        std::io::stderr().write_all(b"in_a_browser: skipped, chromium is not installed\n").unwrap();
        return;
    };
    let folder = worst("browser");
    folder.done("report faults.sheet sweep.csv -k 6 -o worst.html");
    let plain = shelf("browser-plain");
    plain.done("report faults.sheet today.csv");
    folder.done(&format!("report faults.sheet sweep.csv -k 6 --off {} -o bands.html", joined(&(0..16).collect::<Vec<i32>>(), ",")));
    folder.done("report faults.sheet sweep.csv -k 6 --clipped --beyond 400000 -o clipped.html");
    plain.done("report faults.sheet today.csv --clipped --at ,4000 --beyond 2600 -o clipped.html");
    let clipped = [&folder, &plain].map(|folder| (folder.0.join("clipped.html"), 1));
    let others = [(folder.0.join("worst.html"), 1), (plain.0.join("today.html"), 1), (folder.0.join("bands.html"), 2)];
    for (page, sheets) in others.into_iter().chain(clipped) {
        let light = shot(browser, &page, "light.png", &[]);
        let dark = shot(browser, &page, "dark.png", &["--force-dark-mode", "--blink-settings=preferredColorScheme=0"]);
        // a picture of one colour takes next to nothing
        assert!(light.len() > 40_000 && dark.len() > 40_000, "{} {}", light.len(), dark.len());
        assert!(light != dark);
        let pdf = printed(browser, &page);
        assert_eq!(count(&pdf, b"/Type /Pages"), 1);
        assert_eq!(count(&pdf, b"/Type /Page\n") + count(&pdf, b"/Type /Page\r"), sheets, "{}", page.display());
    }
}

fn runs(name: &str) -> bool {
    Command::new(name).arg("--version").output().is_ok_and(|ran| ran.status.success())
}

fn count(bytes: &[u8], wanted: &[u8]) -> usize {
    bytes.windows(wanted.len()).filter(|window| *window == wanted).count()
}

fn browse(browser: &str, page: &Path, result: &Path, words: &[&str]) -> Vec<u8> {
    let folder = page.parent().unwrap();
    let mut command = Command::new(browser);
    command.args(["--headless=new", "--no-sandbox", "--disable-gpu", "--hide-scrollbars", "--window-size=980,1500"]);
    command.arg(format!("--user-data-dir={}", folder.join("browser").display())).args(words);
    let ran = command.arg(format!("file://{}", page.canonicalize().unwrap().display())).output().unwrap();
    std::fs::read(result).unwrap_or_else(|why| panic!("{}: {why}\n{}", result.display(), String::from_utf8_lossy(&ran.stderr)))
}

fn shot(browser: &str, page: &Path, name: &str, words: &[&str]) -> Vec<u8> {
    let result = page.with_file_name(name);
    browse(browser, page, &result, &[&[format!("--screenshot={}", result.display()).as_str()], words].concat())
}

fn printed(browser: &str, page: &Path) -> Vec<u8> {
    let result = page.with_file_name("page.pdf");
    browse(browser, page, &result, &["--no-pdf-header-footer", &format!("--print-to-pdf={}", result.display())])
}
