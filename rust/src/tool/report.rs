//! `report`: a page to file, mail and print: the verdict, the sweep beside the nearest faults, and what it was found by. It has no script
//! and asks for nothing from elsewhere. Bars of bands, if they are asked for, print on a sheet of their own. Of a sweep with clipped samples
//! the page has what could be the match.

use super::arguments::Arguments;
use super::bands::{Edges, Report};
use super::clipped::{Asked, Found, CLIPPED};
use super::drawing;
use super::files::shown;
use super::limited::Sure;
use super::matching::Match;
use super::plot::{beside, chosen, drawing, drawing_of_possible, faults_asked, output_of, LOOKED_AT};
use super::reading::{self, Sweep};
use super::shelf::Shelf;
use super::shelves::{Possible, Shelves, FACTORY};
use super::svg::{escaped, Svg};
use super::verdict::{self, behind_fault, ByFault, Faults, Word};
use super::{notes, numbers, plain, written, wrong, Answer};
use std::path::Path;
use std::time::{SystemTime, UNIX_EPOCH};

/// Of how many faults traces are listed, and how many.
const FAULTS_IN_FULL: usize = 3;
const TRACES_A_FAULT: usize = 3;
/// Of how many faults that could be the match any is listed, so that the page stays one.
const FAULTS_LISTED: usize = 6;

pub fn run(a: &Arguments) -> Answer {
    let [library, file] = a.exactly(["LIBRARY", "a FILE with a sweep"])?.map(Path::new);
    let (many, asked) = (faults_asked(a)?, Asked::of(a)?);
    let out = a.path("-o").unwrap_or_else(|| beside(file, "html"));
    let shelves = Shelves::load(a, library)?;
    let edges = Edges::said(a, shelves.n())?;
    if edges.is_some() && shelves.factory.is_some() {
        return wrong(format!("`{FACTORY}` and bands do not go together: bands are of one library. `silkendoz bands` shows those of either."));
    }
    if edges.is_some() && asked.is_some() {
        return wrong(format!("`{CLIPPED}` and bands do not go together: bands are of a sweep whose samples are known."));
    }
    let output = output_of(a, &out, &shelves, file)?;
    let read = reading::one(file, &shelves.wanted(a)?)?;
    let (sweep, which) = chosen(a, file, &read.sweeps)?;
    let faults = Faults::of(&shelves)?;
    if let Some(asked) = asked {
        let found = Found::of(&shelves, &faults, sweep, &asked)?;
        let page = PossiblePage { shelves: &shelves, found: &found, many, notes: &read.notes, which: &which };
        let done = output.write(page.html().as_bytes())?;
        let said = format!("{}: {}{which}. A browser shows it, and prints it on one page.", shown(&out), sweep.name);
        let lines = [vec![said, found.ranges.text(), found.counted()], found.said().to_vec()].concat();
        return written(format!("{}{}\n", notes(&read), lines.join("\n")), done);
    }
    let found = Match::of(&shelves, &faults, sweep, LOOKED_AT)?;
    let groups = verdict::by_fault(&faults, &found.list);
    let bands = edges.map(|edges| Report::of(&shelves.own, sweep, edges)).transpose()?;
    let drawn = groups.len().min(many);
    let page = Page { shelves: &shelves, found: &found, groups: &groups, drawn, bands, notes: &read.notes, which: &which };
    let done = output.write(page.html().as_bytes())?;
    let pages = if page.bands.is_some() { "two pages" } else { "one page" };
    let said = format!("{}: {}{which}. A browser shows it, and prints it on {pages}.", shown(&out), sweep.name);
    let text = format!("{}{said}\n{}\n", notes(&read), found.verdict.text());
    written(text, done)
}

struct Page<'a> {
    shelves: &'a Shelves,
    found: &'a Match<'a>,
    groups: &'a [ByFault],
    /// So many of the faults are drawn.
    drawn: usize,
    /// How many traces lie how far, if it was asked for.
    bands: Option<Report<'a>>,
    notes: &'a [String],
    which: &'a str,
}

const STYLE: &str = "\
:root { color-scheme: light dark; }
body { color: #1b1e22; background: #ffffff; font: 15px/1.4 system-ui, sans-serif; margin: 0; }
main { max-width: 900px; margin: 0 auto; padding: 20px; }
h1 { font-size: 24px; margin: 0; overflow-wrap: anywhere; }
h2 { font-size: 17px; margin: 14px 0 4px; }
p { margin: 4px 0; overflow-wrap: anywhere; }
.small, footer { font-size: 12px; color: #565c64; }
.verdict { margin: 12px 0; padding: 8px 12px; border-left: 6px solid #8a9099; background: #f3f4f5; }
.verdict strong { font-size: 17px; }
.fits { border-left-color: #00805d; }
.between { border-left-color: #c77700; }
.nothing { border-left-color: #c1121f; }
.remark::before { content: \"\\26a0\\00a0\"; color: #c1121f; }
svg { display: block; width: 100%; height: auto; }
.bar { width: 40%; }
.bar svg { print-color-adjust: exact; }
table { border-collapse: collapse; }
th, td { text-align: left; padding: 1px 18px 1px 0; vertical-align: top; overflow-wrap: anywhere; }
th { font-size: 13px; }
.number { text-align: right; font-variant-numeric: tabular-nums; white-space: nowrap; }
.fault { font-weight: 600; }
.one { color: #565c64; }
.one td:first-child { padding-left: 18px; }
footer { margin-top: 14px; padding-top: 6px; border-top: 1px solid #8a9099; overflow-wrap: anywhere; }
@media screen and (prefers-color-scheme: dark) {
body { color: #eceef0; background: #14171a; }
.verdict { background: #22262b; }
.small, footer, .one { color: #a9b0b8; }
.fits { border-left-color: #3ddbab; }
.between { border-left-color: #ffb454; }
.nothing, .remark::before { border-left-color: #ff7b7b; color: inherit; }
}
@page { margin: 10mm; }
@media print {
body { font-size: 11px; line-height: 1.25; }
main { padding: 0; max-width: none; }
h1 { font-size: 16px; }
h2 { font-size: 12px; margin: 6px 0 2px; }
.bars { break-before: page; }
p { margin: 2px 0; }
.verdict { margin: 4px 0; padding: 4px 10px; print-color-adjust: exact; }
.verdict strong { font-size: 13px; }
th, td { padding-top: 0; padding-bottom: 0; }
th { font-size: 10px; }
.small, footer { font-size: 9px; }
footer { margin-top: 6px; }
svg { max-height: 112mm; }
}
";

impl Page<'_> {
    fn html(&self) -> String {
        let title = format!("{} and the traces of {}", self.found.sweep.shown(), self.shelves.paths());
        let drawing = drawing(self.shelves, self.found, &self.groups[..self.drawn]);
        let mut svg = Svg::inside(drawing::WIDTH, drawing.height(), &format!("{} and its nearest faults", self.found.sweep.name));
        drawing.draw(&mut svg, 0.0);
        page(&title, &drawing.style(), &[self.head(), svg.finish(), self.table(), self.distances(), self.foot()])
    }

    fn head(&self) -> String {
        let Match { sweep, verdict, remarks, .. } = self.found;
        let kind = match verdict.word {
            Word::Fits => "fits",
            Word::Between => "between",
            Word::Nothing => "nothing",
            Word::NotJudged => "not-judged",
        };
        // its first words, up to the fault, stand out
        let text = verdict.text();
        let (first, rest) = text.split_at(verdict.headline());
        let mut html = heading(sweep, self.which);
        html.push_str(&format!("<p class=\"verdict {kind}\"><strong>{}</strong>{}</p>\n", escaped(first), escaped(rest)));
        html + &self::remarks(remarks.iter().chain(self.notes))
    }

    /// A row a fault; of the nearest faults, their nearest traces too.
    fn table(&self) -> String {
        let n = self.shelves.n();
        let looked = self.found.list.len();
        let nearest = self.found.verdict.nearest.distance;
        let mut html = format!(
            "<h2>Nearest, by fault</h2>\n<table>\n<tr><th>fault</th><th class=\"number\">of the {looked} nearest</th>\
             <th class=\"number\">off by, a sample</th><th class=\"number\">as far</th></tr>\n"
        );
        for (at, group) in self.groups.iter().enumerate() {
            let first = group.traces[0];
            let times = numbers::times_as_far(nearest, first.distance).filter(|_| at > 0);
            let cells = [group.traces.len().to_string(), apart(first.distance, n), times.map_or_else(String::new, |times| format!("{times:.2} x"))];
            html.push_str(&row("fault", &drawing::short(&group.fault, 60), &cells));
            let shown = if at < FAULTS_IN_FULL { TRACES_A_FAULT } else { 0 };
            for near in group.traces.iter().take(shown) {
                let name = format!("{}, {}", self.shelves.called(near.trace), behind_fault(self.shelves.shown(near.trace)));
                html.push_str(&row("one", &drawing::short(&name, 60), &[String::new(), apart(near.distance, n), String::new()]));
            }
        }
        html.push_str("</table>\n");
        html
    }

    /// A bar a band.
    fn distances(&self) -> String {
        let Some(bands) = &self.bands else { return String::new() };
        let histogram = bands.histogram(&self.shelves.own);
        let mut svg = Svg::inside(drawing::WIDTH, histogram.height(), "How many traces lie how far");
        histogram.draw(&mut svg, 0.0);
        let said = escaped(&bands.said(&self.shelves.own));
        format!("<h2 class=\"bars\">How many traces lie how far</h2>\n{}<p class=\"small\">{said}</p>\n", svg.finish())
    }

    /// What it was found by.
    fn foot(&self) -> String {
        let exact = "The answer is exact: the one that reading every stored trace would give.";
        foot(self.shelves, &format!("{} {exact}", self.found.read(self.shelves)))
    }
}

/// A page about what could be the match of a sweep with clipped samples.
struct PossiblePage<'a> {
    shelves: &'a Shelves,
    found: &'a Found<'a>,
    /// So many faults are drawn.
    many: usize,
    notes: &'a [String],
    which: &'a str,
}

impl PossiblePage<'_> {
    fn html(&self) -> String {
        let title = format!("{} and what could be its match in {}", self.found.sweep.shown(), self.shelves.paths());
        let drawing = drawing_of_possible(self.shelves, self.found, self.many);
        let mut svg = Svg::inside(drawing::WIDTH, drawing.height(), &format!("{} and what could be its match", self.found.sweep.name));
        drawing.draw(&mut svg, 0.0);
        page(&title, &drawing.style(), &[self.head(), svg.finish(), self.table(), self.foot()])
    }

    fn head(&self) -> String {
        let found = self.found;
        let kind = match (found.sure(), found.certain()) {
            (Sure::Far, _) => "nothing",
            (_, Some(_)) => "fits",
            (_, None) => "between",
        };
        let [fault, lies] = found.said();
        // the fault stands out
        let end = fault.find(". ").map_or(fault.len(), |at| at + 1);
        let (first, rest) = fault.split_at(end);
        let mut html = heading(found.sweep, self.which);
        html.push_str(&format!("<p class=\"verdict {kind}\"><strong>{}</strong>{} {}</p>\n", escaped(first), escaped(rest), escaped(&lies)));
        html.push_str(&format!("<p>{}</p>\n", escaped(&found.ranges.text())));
        html + &remarks(found.remarks.iter().chain(self.notes))
    }

    /// A row a listed trace with its bar, by fault. If they are many, of each of some faults the first few.
    fn table(&self) -> String {
        let found = self.found;
        let mut html = format!(
            "<h2>{}</h2>\n<table>\n<tr><th>fault</th><th class=\"number\">traces</th><th class=\"number\">least, a sample</th>\
             <th class=\"number\">greatest</th><th>from least to greatest, 0 to {}</th></tr>\n",
            escaped(&found.counted()),
            found.a_sample(found.list.iter().map(|one| one.greatest).max().unwrap_or_default()),
        );
        let cell = |class: &str, text: &str| format!("<td class=\"{class}\">{text}</td>");
        let figures = |one: &Possible| {
            let off = [one.least, one.greatest].map(|distance| cell("number", &found.a_sample(distance))).concat();
            format!("{off}{}", cell("bar", &self.bar(one)))
        };
        for (at, group) in found.groups.iter().take(FAULTS_LISTED).enumerate() {
            let (name, count) = (escaped(&drawing::short(&group.fault, 60)), cell("number", &group.traces.len().to_string()));
            let (own, traces) = match at < FAULTS_IN_FULL {
                true => ("<td></td><td></td><td></td>".to_string(), of_fault(at)),
                // the first of its traces stands beside it
                false => (figures(&group.traces[0]), 0),
            };
            html.push_str(&format!("<tr class=\"fault\"><td>{name}</td>{count}{own}</tr>\n"));
            for one in group.traces.iter().take(traces) {
                let name = format!("{}, {}", self.shelves.called(one.trace), behind_fault(self.shelves.shown(one.trace)));
                let name = escaped(&drawing::short(&name, 60));
                html.push_str(&format!("<tr class=\"one\"><td>{name}</td><td></td>{}</tr>\n", figures(one)));
            }
        }
        let shown: usize = (0..).zip(found.groups.iter().take(FAULTS_LISTED)).map(|(at, group)| group.traces.len().min(of_fault(at))).sum();
        html.push_str("</table>\n");
        if shown < found.list.len() {
            html.push_str(&format!("<p class=\"small\">Not shown: {}.</p>\n", numbers::count(found.list.len() - shown, "more trace")));
        }
        if found.ranges.count() > 0 {
            let said = format!(
                "Behind the line in each bar, {} a sample, no trace is the match. That is the smallest greatest of all.",
                found.a_sample(found.most())
            );
            html.push_str(&format!("<p class=\"small\">{said}</p>\n"));
        }
        html
    }

    /// From least to greatest: as far as the trace could be the match, and behind.
    fn bar(&self, one: &Possible) -> String {
        const WIDTH: f64 = 400.0;
        let n = self.found.n;
        let greatest = self.found.list.iter().map(|one| one.greatest).max().unwrap_or_default();
        let x = |distance: u64| match greatest {
            0 => 0.0,
            _ => (WIDTH - 4.0) * numbers::per_sample(distance, n) / numbers::per_sample(greatest, n) + 2.0,
        };
        let [from, mark, to] = [one.least, self.found.most(), one.greatest].map(x);
        let mut svg = Svg::inside(WIDTH, 14.0, &format!("off by {} to {}", self.found.a_sample(one.least), self.found.a_sample(one.greatest)));
        for (class, from, to) in [("sure", from, mark), ("possible", mark, to)] {
            let place = [("x", from), ("y", 3.0), ("width", to - from), ("height", 8.0)].map(|(name, at)| (name, format!("{at:.1}")));
            svg.element("rect", &[&[("class", class.to_string())], &place[..]].concat());
        }
        svg.line("limit", (mark, 0.0), (mark, 14.0));
        svg.finish()
    }

    fn foot(&self) -> String {
        let all = "Every stored trace was compared. Whatever the clipped samples were within these ranges, the match is one of those listed.";
        foot(self.shelves, all)
    }
}

/// How many traces of a fault are listed, by its place.
fn of_fault(at: usize) -> usize {
    match at < FAULTS_IN_FULL {
        true => TRACES_A_FAULT,
        false => 1,
    }
}

/// A whole page of these parts; the style is the picture's.
fn page(title: &str, style: &str, parts: &[String]) -> String {
    // nothing from elsewhere, whatever a name would like
    let rule = "default-src 'none'; style-src 'unsafe-inline'";
    [
        "<!DOCTYPE html>\n<html lang=\"en\">\n<head>\n<meta charset=\"utf-8\">\n".to_string(),
        format!("<meta http-equiv=\"Content-Security-Policy\" content=\"{rule}\">\n"),
        "<meta name=\"viewport\" content=\"width=device-width\">\n".to_string(),
        format!("<title>{}</title>\n<style>\n{style}{STYLE}</style>\n</head>\n<body>\n<main>\n", escaped(title)),
        parts.concat(),
        "</main>\n</body>\n</html>\n".to_string(),
    ]
    .concat()
}

/// The sweep, how long it is, and which of its file it is.
fn heading(sweep: &Sweep, which: &str) -> String {
    let n = sweep.samples.len();
    let taken = match sweep.rate {
        Some(rate) if rate > 0 => format!("{} at {rate} a second ({:.1} ms)", numbers::count(n, "sample"), 1000.0 * n as f64 / f64::from(rate)),
        _ => format!("{}, their rate is not known", numbers::count(n, "sample")),
    };
    format!("<h1>{}</h1>\n<p class=\"small\">{taken}{}</p>\n", escaped(&drawing::short(&sweep.shown(), 120)), escaped(which))
}

fn remarks<'a>(remarks: impl Iterator<Item = &'a String>) -> String {
    remarks.map(|remark| format!("<p class=\"remark\">{}</p>\n", escaped(remark))).collect()
}

/// The libraries, how it was found in them, the program and the date.
fn foot(shelves: &Shelves, how: &str) -> String {
    let of = |what: &str, shelf: &Shelf| {
        let traces = numbers::count(shelf.library.len(), "trace");
        let samples = numbers::count(shelf.library.n(), "sample");
        format!("{what} {}: {traces} of {samples}. SHA-256 of its sheet: {}.", plain::path(&shelf.path), shelf.hash())
    };
    let mut parts = vec![of("Library", &shelves.own)];
    parts.extend(shelves.factory.as_ref().map(|shelf| of("Factory library", shelf)));
    parts.push(how.to_string());
    parts.push(format!("silkendoz {}, {}.", env!("CARGO_PKG_VERSION"), now()));
    format!("<footer>{}</footer>\n", escaped(&parts.join(" ")))
}

fn apart(distance: u64, n: usize) -> String {
    format!("{:.1}", numbers::per_sample(distance, n))
}

fn row(class: &str, name: &str, cells: &[String; 3]) -> String {
    let cells: String = cells.iter().map(|cell| format!("<td class=\"number\">{cell}</td>")).collect();
    format!("<tr class=\"{class}\"><td>{}</td>{cells}</tr>\n", escaped(name))
}

/// Date and time, by UTC; those of SOURCE_DATE_EPOCH, if it is set, so that a page can be made again.
fn now() -> String {
    let said = std::env::var("SOURCE_DATE_EPOCH").ok().and_then(|text| text.parse().ok());
    let clock = || SystemTime::now().duration_since(UNIX_EPOCH).map_or(0, |since| since.as_secs());
    date(said.unwrap_or_else(clock))
}

/// Seconds since 1970 as a date, by the calendar's rule of 400 years.
fn date(seconds: u64) -> String {
    let (days, rest) = (seconds / 86_400, seconds % 86_400);
    // days from 1 March of the year 0, so that a leap day is the last of its year
    let from = days + 719_468;
    let (era, day) = (from / 146_097, from % 146_097);
    let year = (day - day / 1_460 + day / 36_524 - day / 146_096) / 365;
    let in_year = day - (365 * year + year / 4 - year / 100);
    let month = (5 * in_year + 2) / 153;
    let (year, month_day) = (era * 400 + year, in_year - (153 * month + 2) / 5 + 1);
    let (year, month) = if month < 10 { (year, month + 3) } else { (year + 1, month - 9) };
    format!("{year:04}-{month:02}-{month_day:02} {:02}:{:02} UTC", rest / 3600, rest / 60 % 60)
}

#[cfg(test)]
mod tests {
    use super::*;

    #[test]
    fn dates() {
        let shown = [0, 951_782_399, 951_782_400, 951_868_800, 1_794_850_259, 4_107_542_400].map(date);
        let right = ["1970-01-01 00:00", "2000-02-28 23:59", "2000-02-29 00:00", "2000-03-01 00:00", "2026-11-16 17:30", "2100-03-01 00:00"];
        assert_eq!(shown, right.map(|text| format!("{text} UTC")));
    }
}
