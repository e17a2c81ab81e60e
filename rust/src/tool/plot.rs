//! `plot`: the sweep and the nearest trace of each of the nearest faults as a picture; of a sweep with clipped samples, of each fault that could
//! be the match.

use super::arguments::Arguments;
use super::clipped::{Asked, Found, Group};
use super::drawing::{self, Curve, Drawing, Range, MOST_DRAWN};
use super::files::{shown, Output};
use super::matching::Match;
use super::reading::{self, Sweep};
use super::shelves::Shelves;
use super::svg::Svg;
use super::verdict::{self, behind_fault, ByFault, Faults};
use super::{notes, numbers, plain, refused, written, wrong, Answer, Failure};
use std::path::{Path, PathBuf};

/// How many faults are drawn unless it is said.
const DRAWN: usize = 3;

/// As many of the nearest traces as are looked at for faults: as many as a search lists.
pub const LOOKED_AT: usize = 16;

pub fn run(a: &Arguments) -> Answer {
    let [library, file] = a.exactly(["LIBRARY", "a FILE with a sweep"])?.map(Path::new);
    let (many, asked) = (faults_asked(a)?, Asked::of(a)?);
    let out = a.path("-o").unwrap_or_else(|| beside(file, "svg"));
    let shelves = Shelves::load(a, library)?;
    let output = output_of(a, &out, &shelves, file)?;
    let read = reading::one(file, &shelves.wanted(a)?)?;
    let (sweep, which) = chosen(a, file, &read.sweeps)?;
    let faults = Faults::of(&shelves)?;
    let said = format!("{}{}: {}{which}", notes(&read), shown(&out), sweep.name);
    if let Some(asked) = asked {
        let found = Found::of(&shelves, &faults, sweep, &asked)?;
        let drawing = drawing_of_possible(&shelves, &found, many);
        let title = format!("{} and what could be its match in {}", sweep.name, shelves.paths());
        let done = output.write(picture(&title, &drawing).as_bytes())?;
        let (drawn, faults) = (drawing.curves.len(), numbers::count(found.groups.len(), "fault"));
        let text = format!("{said} and {drawn} of the {faults} that could be the match. A browser shows it.\n{}\n", found.ranges.text());
        return written(text, done);
    }
    let found = Match::of(&shelves, &faults, sweep, LOOKED_AT)?;
    let groups = verdict::by_fault(&faults, &found.list);
    let drawing = drawing(&shelves, &found, &groups[..groups.len().min(many)]);
    let title = format!("{} and its nearest faults in {}", sweep.name, shelves.paths());
    let done = output.write(picture(&title, &drawing).as_bytes())?;
    let drawn = numbers::count(drawing.curves.len(), "nearest fault");
    written(format!("{said} and its {drawn}. A browser shows it.\n"), done)
}

/// Where it goes: over none of the files that are read here.
pub fn output_of(a: &Arguments, out: &Path, shelves: &Shelves, file: &Path) -> Result<Output, Failure> {
    let files = shelves.files()?;
    let inputs: Vec<&Path> = files.iter().map(PathBuf::as_path).chain([file]).collect();
    Output::of(out, a.has("--force"), &inputs)
}

/// `-k`: so many faults.
pub fn faults_asked(a: &Arguments) -> Result<usize, Failure> {
    match a.number("-k")?.unwrap_or(DRAWN) {
        many if (1..=MOST_DRAWN).contains(&many) => Ok(many),
        many => wrong(format!("-k: {many} faults cannot be drawn. Take 1 to {MOST_DRAWN}.")),
    }
}

/// The file's own name with another ending; of standard input, a name in this folder.
pub fn beside(file: &Path, ending: &str) -> PathBuf {
    match reading::is_standard(file) {
        true => Path::new("sweep").with_extension(ending),
        false => file.with_extension(ending),
    }
}

/// `--sweep`: which of the file's sweeps, with words for it if there are several.
pub fn chosen<'a>(a: &Arguments, file: &Path, sweeps: &'a [Sweep]) -> Result<(&'a Sweep, String), Failure> {
    let which = a.number("--sweep")?.unwrap_or(1);
    match which.checked_sub(1).and_then(|at| sweeps.get(at)) {
        Some(sweep) if sweeps.len() > 1 => Ok((sweep, format!(" (sweep {which} of {})", sweeps.len()))),
        Some(sweep) => Ok((sweep, String::new())),
        None => refused(format!("{}: there is no sweep {which}; it holds {}, counted from 1.", plain::path(file), sweeps.len())),
    }
}

/// The nearest trace of each fault.
pub fn drawing(shelves: &Shelves, found: &Match<'_>, groups: &[ByFault]) -> Drawing {
    let curve = |group: &ByFault| {
        let near = group.traces[0];
        let apart = numbers::per_sample(near.distance, shelves.n());
        let (called, name) = (shelves.called(near.trace), behind_fault(shelves.shown(near.trace)));
        let label = format!("{}: {called}, {name}, off by {apart:.1} a sample", drawing::short(&group.fault, 60));
        Curve { label, fault: group.fault.clone(), samples: shelves.trace(near.trace) }
    };
    Drawing {
        sweep: found.sweep.samples.clone(),
        name: found.sweep.name.clone(),
        curves: groups.iter().map(curve).collect(),
        clipped: found.sweep.clipped(),
        range: None,
        rate: found.sweep.rate.or(shelves.rate()),
    }
}

/// Of each fault that could be the match, the trace with the smallest least distance; with what the clipped samples may have been.
pub fn drawing_of_possible(shelves: &Shelves, found: &Found<'_>, many: usize) -> Drawing {
    let curve = |group: &Group| {
        let one = group.traces[0];
        let (called, name) = (shelves.called(one.trace), behind_fault(shelves.shown(one.trace)));
        let off = [one.least, one.greatest].map(|distance| found.a_sample(distance)).join(" to ");
        // the figures are seen, however long the names are
        let behind = format!(": {called}, {}, off by {off} a sample", drawing::short(name, 20));
        let room = drawing::LONGEST_ENTRY.saturating_sub(behind.chars().count()).max(8);
        let label = format!("{}{behind}", drawing::short(&group.fault, room));
        Curve { label, fault: group.fault.clone(), samples: shelves.trace(one.trace) }
    };
    let ranges = &found.ranges;
    let label = format!("what they may truly have been: up to {} beyond the limit", ranges.beyond);
    let range = (ranges.count() > 0).then(|| Range { lows: ranges.lows.clone(), highs: ranges.highs.clone(), label });
    Drawing {
        sweep: found.sweep.samples.clone(),
        name: found.sweep.name.clone(),
        curves: found.groups.iter().take(many).map(curve).collect(),
        clipped: ranges.all(),
        range,
        rate: found.sweep.rate.or(shelves.rate()),
    }
}

fn picture(title: &str, drawing: &Drawing) -> String {
    const TOP: f64 = 50.0;
    let mut svg = Svg::new(drawing::WIDTH, TOP + drawing.height(), title, &drawing.style());
    svg.label("title", (20.0, 30.0), &drawing::short(title, drawing::LONGEST_TITLE));
    drawing.draw(&mut svg, TOP);
    svg.finish()
}
