//! The sweep and the nearest trace of each of some faults, one over the other; below, in a row a fault, what the sweep is above it. For
//! `plot` and for `report`.

use super::svg::Svg;

/// Of how many faults a curve can be told apart.
pub const MOST_DRAWN: usize = 6;

pub const WIDTH: f64 = 900.0;

/// So many letters fit across: of a title, and of a line of the legend.
pub const LONGEST_TITLE: usize = 80;
pub const LONGEST_ENTRY: usize = 88;

const LEFT: f64 = 70.0;
const RIGHT: f64 = 24.0;
const LEGEND_LINE: f64 = 22.0;
const CURVES: f64 = 260.0;
const ROW: f64 = 64.0;
const BETWEEN: f64 = 26.0;
const AXIS: f64 = 42.0;

/// A stored trace beside the sweep.
pub struct Curve {
    /// For the legend, and for its row.
    pub label: String,
    pub fault: String,
    pub samples: Vec<i32>,
}

pub struct Drawing {
    pub sweep: Vec<i32>,
    pub name: String,
    pub curves: Vec<Curve>,
    /// Samples at the converter's limit, from 0.
    pub clipped: Vec<usize>,
    /// What these may truly have been, if that was said.
    pub range: Option<Range>,
    /// Samples a second, if they are known.
    pub rate: Option<u32>,
}

/// Between which figures the samples of the sweep lie, and words for it.
pub struct Range {
    pub lows: Vec<i32>,
    pub highs: Vec<i32>,
    pub label: String,
}

impl Range {
    /// The stretches where a sample is not known, each with the known samples beside it: from there the curve goes anywhere into the range.
    fn stretches(&self) -> Vec<[usize; 2]> {
        let open = |at: usize| self.lows[at] < self.highs[at];
        let mut found: Vec<[usize; 2]> = Vec::new();
        for at in (0..self.lows.len()).filter(|&at| open(at)) {
            match found.last_mut() {
                Some([_, last]) if *last + 1 == at => *last = at,
                _ => found.push([at, at]),
            }
        }
        let last = self.lows.len().saturating_sub(1);
        found.into_iter().map(|[from, to]| [from.saturating_sub(1), (to + 1).min(last)]).collect()
    }
}

/// Half as wide as the range of a sweep of one sample is drawn.
const ONE_SAMPLE: f64 = 12.0;

/// Colours of the curves, on light and on dark paper, and a dash for each, so that they differ on grey paper too.
const CURVE_STYLES: [(&str, &str, &str); MOST_DRAWN] = [
    ("#0068b5", "#59b5ff", "none"),
    ("#c94f00", "#ff9a57", "9 3"),
    ("#00805d", "#3ddbab", "3 3"),
    ("#a8437c", "#f4a0cc", "12 4 3 4"),
    ("#7a6200", "#e3c94a", "6 6"),
    ("#5b4bc4", "#b3a6ff", "1 4"),
];

const LIGHT: &str = "\
svg { color: #1b1e22; font: 14px system-ui, sans-serif; }
.paper { fill: #ffffff; }
text { fill: currentColor; }
.title { font-size: 18px; font-weight: 600; }
.note { font-size: 12px; }
.end { font-size: 12px; text-anchor: end; }
.middle { font-size: 12px; text-anchor: middle; }
.frame { fill: none; stroke: #8a9099; }
.grid { stroke: #8a9099; stroke-opacity: 0.3; }
.zero { stroke: #8a9099; }
polyline { fill: none; stroke-width: 1.6; stroke-linejoin: round; }
line.trace, line.query { stroke-width: 2.4; }
.query { stroke: currentColor; }
polyline.query { stroke-width: 2.4; }
circle.query { fill: currentColor; stroke: none; }
.limit { fill: none; stroke: #c1121f; stroke-width: 1.6; }
.sure { fill: #0068b5; }
.possible { fill: none; stroke: #0068b5; stroke-width: 1.6; }
.count { font-size: 12px; stroke: #ffffff; stroke-width: 4; stroke-linejoin: round; paint-order: stroke; }
";

const DARK: &str = "\
svg { color: #eceef0; }
.paper { fill: #14171a; }
.limit { stroke: #ff7b7b; }
.sure { fill: #59b5ff; }
.possible { stroke: #59b5ff; }
.count { stroke: #14171a; }
";

/// For what clipped samples may have been, which most pictures do not have.
const RANGE: &str = "\
.range { fill: #c1121f; fill-opacity: 0.2; stroke: #c1121f; stroke-opacity: 0.45; stroke-width: 0.8; print-color-adjust: exact; }
@media screen and (prefers-color-scheme: dark) {
.range { fill: #ff7b7b; fill-opacity: 0.3; stroke: #ff7b7b; }
}
";

/// Light and dark, as the one who looks has set it; light on paper.
pub fn style() -> String {
    let each =
        |rule: fn(usize, &(&str, &str, &str)) -> String| -> String { CURVE_STYLES.iter().enumerate().map(|(at, style)| rule(at, style)).collect() };
    let light = each(|at, (light, _, dash)| format!(".t{at} {{ stroke: {light}; stroke-dasharray: {dash}; }}\ncircle.t{at} {{ fill: {light}; }}\n"));
    let dark = each(|at, (_, dark, _)| format!(".t{at} {{ stroke: {dark}; }}\ncircle.t{at} {{ fill: {dark}; }}\n"));
    format!("{LIGHT}{light}@media screen and (prefers-color-scheme: dark) {{\n{DARK}{dark}}}\n")
}

impl Drawing {
    pub fn style(&self) -> String {
        let range = if self.range.is_some() { RANGE } else { "" };
        format!("{}{range}", style())
    }

    pub fn height(&self) -> f64 {
        self.rows_from() + self.curves.len() as f64 * (ROW + BETWEEN) - BETWEEN + AXIS
    }

    fn legend(&self) -> f64 {
        let lines = 1 + self.curves.len() + usize::from(!self.clipped.is_empty()) + usize::from(self.range.is_some());
        LEGEND_LINE * lines as f64 + 22.0
    }

    fn rows_from(&self) -> f64 {
        self.legend() + CURVES + AXIS + 26.0
    }

    /// Draws all of it, from a height on.
    pub fn draw(&self, svg: &mut Svg, top: f64) {
        self.draw_legend(svg, top);
        let values = |samples: &[i32]| samples.iter().map(|&x| f64::from(x)).collect::<Vec<f64>>();
        let sweep = values(&self.sweep);
        let stored: Vec<Vec<f64>> = self.curves.iter().map(|curve| values(&curve.samples)).collect();

        let panel = self.panel(top + self.legend(), CURVES);
        let ends = self.range.as_ref().map_or(Vec::new(), |range| [values(&range.lows), values(&range.highs)].concat());
        let scale = Scale::of(stored.iter().flatten().chain(&sweep).chain(&ends), 5.0);
        panel.frame(svg, &scale, "current, in the converter's steps");
        panel.marks(svg, true);
        panel.range(svg, &scale, self.range.as_ref(), None);
        for (at, trace) in stored.iter().enumerate().rev() {
            panel.curve(svg, &scale, &format!("trace t{at}"), trace);
        }
        panel.curve(svg, &scale, "query", &sweep);
        for &at in &self.clipped {
            let (x, y) = (panel.x(at as f64), panel.y(&scale, sweep[at]));
            let place = [("cx", x), ("cy", y), ("r", 4.5)].map(|(name, at)| (name, format!("{at:.1}")));
            svg.element("circle", &[&[("class", "limit".to_string())], &place[..]].concat());
        }
        self.draw_rows(svg, top + self.rows_from(), &sweep, &stored);
    }

    /// What the sweep is above each stored trace, all at one scale.
    fn draw_rows(&self, svg: &mut Svg, top: f64, sweep: &[f64], stored: &[Vec<f64>]) {
        let less = |samples: &[f64], trace: &[f64]| samples.iter().zip(trace).map(|(q, t)| q - t).collect::<Vec<f64>>();
        let apart: Vec<Vec<f64>> = stored.iter().map(|trace| less(sweep, trace)).collect();
        let ends = |range: &Range| [&range.lows, &range.highs].map(|end| end.iter().map(|&x| f64::from(x)).collect::<Vec<f64>>());
        let ends: Vec<Vec<f64>> = self.range.iter().flat_map(ends).flat_map(|end| stored.iter().map(|t| less(&end, t)).collect::<Vec<_>>()).collect();
        let scale = Scale::about_zero(apart.iter().chain(&ends).flatten());
        for (at, values) in apart.iter().enumerate() {
            let panel = self.panel(top + at as f64 * (ROW + BETWEEN), ROW);
            panel.frame(svg, &scale, &format!("the sweep less {}", short(&self.curves[at].fault, 80)));
            svg.line("zero", (LEFT, panel.y(&scale, 0.0)), (WIDTH - RIGHT, panel.y(&scale, 0.0)));
            panel.marks(svg, at + 1 == apart.len());
            panel.range(svg, &scale, self.range.as_ref(), Some(&stored[at]));
            panel.curve(svg, &scale, &format!("trace t{at}"), values);
        }
    }

    fn draw_legend(&self, svg: &mut Svg, top: f64) {
        let mut y = top + 12.0;
        let mut entry = |class: &str, text: &str| {
            svg.line(class, (LEFT, y - 5.0), (LEFT + 44.0, y - 5.0));
            svg.label("entry", (LEFT + 56.0, y), text);
            y += LEGEND_LINE;
        };
        entry("query", &short(&format!("the sweep: {}", self.name), LONGEST_ENTRY));
        for (at, curve) in self.curves.iter().enumerate() {
            entry(&format!("trace t{at}"), &short(&curve.label, LONGEST_ENTRY));
        }
        if !self.clipped.is_empty() {
            let place = [("cx", LEFT + 22.0), ("cy", y - 5.0), ("r", 4.5)].map(|(name, at)| (name, format!("{at:.1}")));
            svg.element("circle", &[&[("class", "limit".to_string())], &place[..]].concat());
            let limit = if self.range.is_some() { "clipped" } else { "at the converter's limit" };
            svg.label("entry", (LEFT + 56.0, y), &format!("{limit}: {} of {}", self.clipped.len(), self.sweep.len()));
            y += LEGEND_LINE;
        }
        if let Some(range) = &self.range {
            let place = [("x", LEFT), ("y", y - 12.0), ("width", 44.0), ("height", 14.0)].map(|(name, at)| (name, format!("{at:.1}")));
            svg.element("rect", &[&[("class", "range".to_string())], &place[..]].concat());
            svg.label("entry", (LEFT + 56.0, y), &short(&range.label, LONGEST_ENTRY));
        }
    }

    fn panel(&self, top: f64, height: f64) -> Panel {
        Panel { top, height, n: self.sweep.len(), rate: self.rate }
    }
}

/// A text that is not longer than so many letters.
pub fn short(text: &str, most: usize) -> String {
    match text.chars().count() > most {
        true => text.chars().take(most - 1).chain(['…']).collect(),
        false => text.to_string(),
    }
}

/// The least of 1, 2 and 5 times a power of ten that is not below a number.
pub fn round_step(rough: f64) -> f64 {
    let power = 10f64.powf(rough.log10().floor());
    [1.0, 2.0, 5.0, 10.0].map(|times| times * power).into_iter().find(|step| *step >= rough * 0.999_999).unwrap_or(rough)
}

/// From the least to the greatest value, with marks at round numbers.
struct Scale {
    low: f64,
    high: f64,
    step: f64,
}

impl Scale {
    /// With about so many marks.
    fn of<'a>(values: impl Iterator<Item = &'a f64>, marks: f64) -> Scale {
        let (mut low, mut high) = (f64::INFINITY, f64::NEG_INFINITY);
        for &value in values {
            (low, high) = (low.min(value), high.max(value));
        }
        if high - low < 2.0 {
            (low, high) = (low - 1.0, high + 1.0);
        }
        let step = round_step((high - low) / marks).max(1.0);
        Scale { low: (low / step).floor() * step, high: (high / step).ceil() * step, step }
    }

    /// As much below zero as above, with a mark at each end and in the middle.
    fn about_zero<'a>(values: impl Iterator<Item = &'a f64>) -> Scale {
        let most = values.fold(1.0, |most: f64, value| most.max(value.abs()));
        let power = 10f64.powf(most.log10().floor());
        let steps = [1.0, 1.5, 2.0, 3.0, 4.0, 5.0, 6.0, 8.0, 10.0].map(|times| times * power);
        let step = steps.into_iter().find(|step| *step >= most).unwrap_or(most).ceil();
        Scale { low: -step, high: step, step }
    }

    fn marks(&self) -> impl Iterator<Item = f64> + '_ {
        let count = ((self.high - self.low) / self.step).round() as usize;
        (0..=count).map(|at| self.low + self.step * at as f64)
    }
}

/// Where marks stand along n samples, in samples from 0, and what stands there: milliseconds, if the rate is known, else the sample's number
/// from 1. The first sample has one and so has the last.
fn marks_along(n: usize, rate: Option<u32>) -> Vec<(f64, String)> {
    let last = (n - 1) as f64;
    let Some(rate) = rate.filter(|rate| *rate > 0 && n > 1) else {
        let step = [1, 2, 4, 8, 16, 32].into_iter().find(|step| (n - 1) / step <= 8).unwrap_or(32);
        let mut marks: Vec<usize> = (0..n).step_by(step).filter(|mark| *mark == 0 || n - 1 - mark >= step).collect();
        if n > 1 {
            marks.push(n - 1);
        }
        return marks.into_iter().map(|mark| (mark as f64, (mark + 1).to_string())).collect();
    };
    let samples_a_ms = f64::from(rate) / 1000.0;
    let whole = last / samples_a_ms;
    let step = round_step(whole / 8.0);
    let digits = if step >= 1.0 { 0 } else { (-step.log10().floor()) as usize };
    let mut marks = Vec::new();
    let mut at = 0.0;
    while whole - at >= 0.75 * step {
        marks.push((at * samples_a_ms, format!("{at:.digits$}")));
        at += step;
    }
    // the last one is seldom round
    let shown = format!("{whole:.0$}", digits.max(1));
    marks.push((last, shown.trim_end_matches('0').trim_end_matches('.').to_string()));
    marks
}

/// A part of the drawing, for curves of n samples.
struct Panel {
    top: f64,
    height: f64,
    n: usize,
    rate: Option<u32>,
}

impl Panel {
    fn x(&self, sample: f64) -> f64 {
        let across = WIDTH - LEFT - RIGHT;
        if self.n == 1 {
            LEFT + across / 2.0
        } else {
            LEFT + across * sample / (self.n - 1) as f64
        }
    }

    fn y(&self, scale: &Scale, value: f64) -> f64 {
        self.top + self.height * (scale.high - value) / (scale.high - scale.low)
    }

    fn frame(&self, svg: &mut Svg, scale: &Scale, title: &str) {
        svg.label("note", (LEFT, self.top - 6.0), title);
        for mark in scale.marks() {
            let y = self.y(scale, mark);
            svg.line("grid", (LEFT, y), (WIDTH - RIGHT, y));
            svg.label("end", (LEFT - 8.0, y + 4.0), &format!("{mark}"));
        }
        let places = [("x", LEFT), ("y", self.top), ("width", WIDTH - LEFT - RIGHT), ("height", self.height)];
        let mut attributes = vec![("class", "frame".to_string())];
        attributes.extend(places.map(|(name, at)| (name, format!("{at:.1}"))));
        svg.element("rect", &attributes);
    }

    /// Lines along the panel, and below it what they stand for.
    fn marks(&self, svg: &mut Svg, told: bool) {
        let bottom = self.top + self.height;
        for (sample, text) in marks_along(self.n, self.rate) {
            let x = self.x(sample);
            svg.line("grid", (x, self.top), (x, bottom));
            if told {
                svg.label("middle", (x, bottom + 17.0), &text);
            }
        }
        if told {
            let unit = if self.rate.is_some_and(|rate| rate > 0) && self.n > 1 { "milliseconds" } else { "sample, from 1" };
            svg.label("end", (WIDTH - RIGHT, bottom + 34.0), unit);
        }
    }

    /// All that a sweep with these ranges can be there, less a trace, if there is one.
    fn range(&self, svg: &mut Svg, scale: &Scale, range: Option<&Range>, less: Option<&[f64]>) {
        let Some(range) = range else { return };
        let height = |samples: &[i32], at: usize| self.y(scale, f64::from(samples[at]) - less.map_or(0.0, |trace| trace[at]));
        for [from, to] in range.stretches() {
            let above = (from..=to).map(|at| (self.x(at as f64), height(&range.highs, at)));
            let below = (from..=to).rev().map(|at| (self.x(at as f64), height(&range.lows, at)));
            let around: Vec<(f64, f64)> = match self.n {
                1 => [(height(&range.highs, 0), [-1.0, 1.0]), (height(&range.lows, 0), [1.0, -1.0])]
                    .into_iter()
                    .flat_map(|(y, sides)| sides.map(|side| (self.x(0.0) + side * ONE_SAMPLE, y)))
                    .collect(),
                _ => above.chain(below).collect(),
            };
            svg.area("range", &around);
        }
    }

    fn curve(&self, svg: &mut Svg, scale: &Scale, class: &str, values: &[f64]) {
        let points: Vec<(f64, f64)> = values.iter().enumerate().map(|(at, &value)| (self.x(at as f64), self.y(scale, value))).collect();
        svg.curve(class, &points);
    }
}

#[cfg(test)]
mod tests {
    use super::*;

    fn texts(n: usize, rate: Option<u32>) -> Vec<String> {
        marks_along(n, rate).into_iter().map(|(_, text)| text).collect()
    }

    /// Whatever the length and the rate: the first and the last sample have a mark, marks rise, and none stands over the next.
    #[test]
    fn marks_from_the_first_to_the_last() {
        assert_eq!(texts(64, None), ["1", "9", "17", "25", "33", "41", "49", "64"]);
        assert_eq!(texts(1, None), ["1"]);
        assert_eq!(texts(1, Some(8000)), ["1"]);
        assert_eq!(texts(256, Some(8000)), ["0", "5", "10", "15", "20", "25", "31.9"]);
        assert_eq!(texts(64, Some(2000)), ["0", "5", "10", "15", "20", "25", "31.5"]);
        for n in 1..=256 {
            for rate in [None, Some(0), Some(1), Some(7), Some(100), Some(2000), Some(8000), Some(44_100), Some(1_000_000), Some(2_147_483_647)] {
                let marks = marks_along(n, rate);
                assert_eq!((marks[0].0, marks[marks.len() - 1].0), (0.0, (n - 1) as f64), "{n} {rate:?}");
                assert!(marks.len() <= 12, "{n} {rate:?}");
                for pair in marks.windows(2) {
                    assert!((pair[1].0 - pair[0].0) * 12.0 >= (n - 1) as f64 * 0.7, "{n} {rate:?} {marks:?}");
                    assert_ne!(pair[0].1, pair[1].1, "{n} {rate:?}");
                }
            }
        }
    }

    /// A stretch has the known samples beside it; two that meet are one.
    #[test]
    fn stretches_of_unknown_samples() {
        let stretches = |apart: &[i32]| Range { lows: vec![0; apart.len()], highs: apart.to_vec(), label: String::new() }.stretches();
        assert_eq!(stretches(&[0, 0, 5, 5, 0, 5, 0, 0]), [[1, 4], [4, 6]]);
        assert_eq!(stretches(&[5, 0, 0, 5]), [[0, 1], [2, 3]]);
        assert_eq!(stretches(&[5, 5]), [[0, 1]]);
        assert_eq!(stretches(&[5]), [[0, 0]]);
        assert!(stretches(&[0, 0]).is_empty());
    }

    #[test]
    fn marks_up() {
        let scale = Scale::of([-19_000.0, 22_693.0].iter(), 5.0);
        assert_eq!(scale.marks().collect::<Vec<_>>(), [-20_000.0, -10_000.0, 0.0, 10_000.0, 20_000.0, 30_000.0]);
        assert_eq!(Scale::of([5.0].iter(), 5.0).marks().collect::<Vec<_>>(), [4.0, 5.0, 6.0]);
        let ends = [vec![0.0], vec![-1450.0, 700.0], vec![1.0, 65_535.0]].map(|values| Scale::about_zero(values.iter()).high);
        assert_eq!(ends, [1.0, 1500.0, 80_000.0]);
        // samples of 20 bits, and what two of them are apart at most
        let scale = Scale::of([-524_288.0, 524_287.0].iter(), 5.0);
        assert_eq!(scale.marks().collect::<Vec<_>>(), [-1_000_000.0, -500_000.0, 0.0, 500_000.0, 1_000_000.0]);
        let farthest = Scale::about_zero([1_048_575.0].iter());
        assert_eq!((farthest.low, farthest.high), (-1_500_000.0, 1_500_000.0));
    }
}
