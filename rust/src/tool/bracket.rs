//! How the true distance is hemmed in as more leaves are read, as a picture: the distance of the best so far falls in steps, the bound rises in
//! steps, and the room between them closes. For `limits`.

use super::drawing::{self, round_step, short, LONGEST_ENTRY, WIDTH};
use super::numbers;
use super::svg::Svg;

const LEFT: f64 = 86.0;
const RIGHT: f64 = 30.0;
const LEGEND_LINE: f64 = 22.0;
/// The legend's lines, and room for what stands over the scale.
const LEGEND: f64 = 4.0 * LEGEND_LINE + 30.0;
const PANEL: f64 = 300.0;
const AXIS: f64 = 46.0;

/// Marks across at most, and about so many up.
const MOST_ACROSS: usize = 12;
const ABOUT_UP: f64 = 5.0;

/// What the true distance lies between, from a limit on. Both are in what a sample is off by.
#[derive(Clone, Copy, Debug, PartialEq)]
pub struct Step {
    pub limit: usize,
    pub distance: f64,
    pub bound: f64,
}

pub struct Bracket {
    /// By rising limit, from 1 on. The last is settled: there the two are the same. Never empty.
    pub steps: Vec<Step>,
    /// As many as the library has.
    pub leaves: usize,
    /// The trace that is settled, in words.
    pub settled: String,
}

const LIGHT: &str = "\
.bracket { fill: #0068b5; fill-opacity: 0.16; stroke: none; }
.settled { fill: #00805d; stroke: #ffffff; stroke-width: 1.6; }
.here { font-size: 12px; text-anchor: end; stroke: #ffffff; stroke-width: 4; stroke-linejoin: round; paint-order: stroke; }
";

const DARK: &str = "\
.bracket { fill: #59b5ff; fill-opacity: 0.28; }
.settled { fill: #3ddbab; stroke: #14171a; }
.here { stroke: #14171a; }
";

impl Bracket {
    /// Light and dark as for the other pictures.
    pub fn style(&self) -> String {
        format!("{}{LIGHT}@media screen and (prefers-color-scheme: dark) {{\n{DARK}}}\n", drawing::style())
    }

    pub fn height(&self) -> f64 {
        LEGEND + PANEL + AXIS
    }

    /// Draws all of it, from a height on.
    pub fn draw(&self, svg: &mut Svg, top: f64) {
        self.draw_legend(svg, top);
        let scale = Scale::of(&self.steps);
        let frame = Frame { top: top + LEGEND, many: self.last().limit, scale };
        frame.draw(svg);
        self.draw_steps(svg, &frame);
        self.draw_end(svg, &frame);
    }

    fn draw_legend(&self, svg: &mut Svg, top: f64) {
        let line = |at: usize| top + 12.0 + at as f64 * LEGEND_LINE;
        let text = |svg: &mut Svg, at: usize, text: &str| svg.label("entry", (LEFT + 56.0, line(at)), text);
        svg.line("trace t0", (LEFT, line(0) - 5.0), (LEFT + 44.0, line(0) - 5.0));
        text(svg, 0, "the distance of the best so far");
        rect(svg, "bracket", (LEFT, line(1) - 12.0), (44.0, 14.0));
        text(svg, 1, "the true distance lies in here");
        svg.line("trace t1", (LEFT, line(2) - 5.0), (LEFT + 44.0, line(2) - 5.0));
        text(svg, 2, "the bound of the first unread leaf: no stored trace is nearer");
        circle(svg, (LEFT + 22.0, line(3) - 5.0));
        let (last, all) = (self.last(), numbers::count(self.leaves, "leaf"));
        text(svg, 3, &short(&format!("settled with {} of {all}, off by {:.1}: {}", last.limit, last.distance, self.settled), LONGEST_ENTRY));
    }

    fn last(&self) -> Step {
        self.steps[self.steps.len() - 1]
    }

    /// The two lines, and what lies between them. The bound ends where it is settled; its dashes are drawn last, so that both lines are seen
    /// where they are one.
    fn draw_steps(&self, svg: &mut Svg, frame: &Frame) {
        let above = frame.along(&self.steps, |step| step.distance);
        let mut below = frame.along(&self.steps, |step| step.bound);
        below.pop();
        let between: Vec<(f64, f64)> = above[..above.len() - 1].iter().chain(below.iter().rev()).copied().collect();
        svg.area("bracket", &between);
        for (class, line) in [("trace t0", above), ("trace t1", below)] {
            svg.element("polyline", &[("class", class.to_string()), ("points", points(&line))]);
        }
    }

    /// Where it is settled. The word stands above the point, where no line is but one that falls to it; below, if there is no room.
    fn draw_end(&self, svg: &mut Svg, frame: &Frame) {
        let Step { limit, distance, .. } = self.last();
        let (x, y) = (frame.x(limit as f64), frame.y(distance));
        let text = if y - frame.top > 30.0 { y - 12.0 } else { y + 22.0 };
        svg.label("here", ((x + 22.0).min(WIDTH - RIGHT - 6.0), text), "settled");
        circle(svg, (x, y));
    }
}

/// The panel that the lines are drawn in: a column a limit, of the same width each.
struct Frame {
    top: f64,
    many: usize,
    scale: Scale,
}

impl Frame {
    /// The middle of a limit's column, and halves beside it.
    fn x(&self, limit: f64) -> f64 {
        LEFT + (WIDTH - LEFT - RIGHT) * (limit - 0.5) / self.many as f64
    }

    fn y(&self, off: f64) -> f64 {
        self.top + PANEL * (self.scale.high - off) / (self.scale.high - self.scale.low)
    }

    fn draw(&self, svg: &mut Svg) {
        let bottom = self.top + PANEL;
        svg.label("note", (LEFT, self.top - 8.0), "off by, a sample");
        for mark in self.scale.marks() {
            let y = self.y(mark);
            svg.line("grid", (LEFT, y), (WIDTH - RIGHT, y));
            svg.label("end", (LEFT - 8.0, y + 4.0), &self.scale.shown(mark));
        }
        for limit in marks_across(self.many) {
            let x = self.x(limit as f64);
            svg.line("zero", (x, bottom), (x, bottom + 5.0));
            svg.label("middle", (x, bottom + 19.0), &limit.to_string());
        }
        svg.label("end", (WIDTH - RIGHT, bottom + 37.0), "leaves read at most: the limit");
        rect(svg, "frame", (LEFT, self.top), (WIDTH - LEFT - RIGHT, PANEL));
    }

    /// A line of steps: each value as wide as the columns of the limits that have it.
    fn along(&self, steps: &[Step], value: impl Fn(&Step) -> f64) -> Vec<(f64, f64)> {
        let mut line = vec![(self.x(0.5), self.y(value(&steps[0])))];
        for (at, step) in steps.iter().enumerate().skip(1) {
            let (x, y) = (self.x(step.limit as f64 - 0.5), self.y(value(step)));
            let (_, last) = line[line.len() - 1];
            if y != last || at + 1 == steps.len() {
                line.extend([(x, last), (x, y)]);
            }
        }
        let (_, last) = line[line.len() - 1];
        line.push((self.x(self.many as f64 + 0.5), last));
        line
    }
}

/// Round numbers up, whole ones or not.
#[derive(Debug, PartialEq)]
struct Scale {
    low: f64,
    high: f64,
    step: f64,
}

impl Scale {
    /// From 0, unless all that is shown lies in the upper half of that.
    fn of(steps: &[Step]) -> Scale {
        let low = steps.iter().map(|step| step.bound).fold(f64::INFINITY, f64::min);
        let high = steps.iter().map(|step| step.distance).fold(0.0, f64::max);
        let low = if low < high / 2.0 { 0.0 } else { low };
        // a single value has some room on both sides
        let (low, high) = if high - low < high / 50.0 || high == 0.0 { ((low * 0.9).max(0.0), (high * 1.1).max(1.0)) } else { (low, high) };
        let step = round_step((high - low) / ABOUT_UP);
        Scale { low: (low / step).floor() * step, high: (high / step).ceil() * step, step }
    }

    fn marks(&self) -> Vec<f64> {
        let count = ((self.high - self.low) / self.step).round() as usize;
        (0..=count).map(|at| self.low + self.step * at as f64).collect()
    }

    /// A mark, with as many digits as the steps need.
    fn shown(&self, mark: f64) -> String {
        let digits = if self.step >= 1.0 { 0 } else { (-self.step.log10().floor()) as usize };
        format!("{mark:.digits$}")
    }
}

/// Limits with a mark: the first, the last, and round numbers that stand clear of these.
fn marks_across(many: usize) -> Vec<usize> {
    let steps = (0..).flat_map(|power| [1, 2, 5].map(|times| times * 10usize.pow(power)));
    let step = steps.into_iter().find(|step| many / step < MOST_ACROSS).unwrap_or(many);
    let clear = |limit: &usize| *limit > step.div_ceil(2) && many - limit >= step.div_ceil(2);
    let between = (1..).map(|times| times * step).take_while(|limit| *limit < many).filter(clear);
    let mut marks: Vec<usize> = [1].into_iter().chain(between).collect();
    if many > 1 {
        marks.push(many);
    }
    marks
}

fn points(line: &[(f64, f64)]) -> String {
    line.iter().map(|(x, y)| format!("{x:.1},{y:.1}")).collect::<Vec<_>>().join(" ")
}

fn rect(svg: &mut Svg, class: &str, at: (f64, f64), size: (f64, f64)) {
    let places = [("x", at.0), ("y", at.1), ("width", size.0), ("height", size.1)].map(|(name, at)| (name, format!("{at:.1}")));
    svg.element("rect", &[&[("class", class.to_string())], &places[..]].concat());
}

fn circle(svg: &mut Svg, at: (f64, f64)) {
    let places = [("cx", at.0), ("cy", at.1), ("r", 6.0)].map(|(name, at)| (name, format!("{at:.1}")));
    svg.element("circle", &[&[("class", "settled".to_string())], &places[..]].concat());
}

#[cfg(test)]
mod tests {
    use super::*;

    fn steps(pairs: &[(f64, f64)]) -> Vec<Step> {
        (1..).zip(pairs).map(|(limit, &(distance, bound))| Step { limit, distance, bound }).collect()
    }

    #[test]
    fn marks_across_stand_clear() {
        assert_eq!(marks_across(1), [1]);
        assert_eq!(marks_across(2), [1, 2]);
        assert_eq!(marks_across(11), [1, 2, 3, 4, 5, 6, 7, 8, 9, 10, 11]);
        assert_eq!(marks_across(36), [1, 5, 10, 15, 20, 25, 30, 36]);
        for many in 1..=4096 {
            let marks = marks_across(many);
            assert!(marks.len() <= MOST_ACROSS + 1 && marks[0] == 1 && marks[marks.len() - 1] == many, "{many}");
            let clear = marks.windows(2).all(|pair| (pair[1] - pair[0]) * 2 * MOST_ACROSS >= many - 1);
            assert!(clear, "{many}: {marks:?}");
        }
    }

    /// Everything lies within the scale, whatever it is; the marks are few, and each has a text of its own.
    #[test]
    fn the_scale_has_room() {
        assert_eq!(Scale::of(&steps(&[(60.0, 12.0), (56.5, 56.5)])).marks(), [0.0, 20.0, 40.0, 60.0]);
        assert_eq!(Scale::of(&steps(&[(60.0, 52.0), (56.5, 56.5)])).marks(), [52.0, 54.0, 56.0, 58.0, 60.0]);
        for pairs in [
            vec![(0.0, 0.0)],
            vec![(0.5, 0.5)],
            vec![(7.0, 7.0)],
            vec![(1_048_575.0, 1_048_575.0)],
            vec![(1_048_575.0, 0.0), (3.0, 3.0)],
            vec![(56.54, 56.53), (56.54, 56.54)],
            vec![(0.25, 0.0), (0.125, 0.125)],
            vec![(999.0, 998.0), (998.5, 998.5)],
        ] {
            let steps = steps(&pairs);
            let scale = Scale::of(&steps);
            assert!(scale.low >= 0.0 && scale.high > scale.low, "{pairs:?} {scale:?}");
            assert!(steps.iter().all(|step| scale.low <= step.bound && step.distance <= scale.high), "{pairs:?} {scale:?}");
            let marks: Vec<String> = scale.marks().iter().map(|&mark| scale.shown(mark)).collect();
            assert!((2..=12).contains(&marks.len()) && marks.windows(2).all(|pair| pair[0] != pair[1]), "{pairs:?} {marks:?}");
        }
    }

    /// The lines begin at the first limit's column and meet at the last one's; the distance falls, the bound rises.
    #[test]
    fn lines_that_meet() {
        let steps = steps(&[(60.0, 10.0), (60.0, 30.0), (50.0, 40.0), (50.0, 50.0)]);
        let frame = Frame { top: 0.0, many: 4, scale: Scale::of(&steps) };
        let (above, below) = (frame.along(&steps, |step| step.distance), frame.along(&steps, |step| step.bound));
        assert_eq!((above[0].0, below[0].0), (LEFT, LEFT));
        assert_eq!(above.last(), below.last());
        assert!((above[above.len() - 1].0 - (WIDTH - RIGHT)).abs() < 1e-9);
        for line in [&above, &below] {
            assert!(line.windows(2).all(|pair| pair[0].0 <= pair[1].0), "{line:?}");
        }
        // up is less
        assert!(above.windows(2).all(|pair| pair[0].1 <= pair[1].1) && below.windows(2).all(|pair| pair[0].1 >= pair[1].1));
        // one step down, three up
        let heights = |line: &[(f64, f64)]| line.windows(2).filter(|pair| pair[0].1 != pair[1].1).count();
        assert_eq!((heights(&above), heights(&below)), (1, 3));
        // limits that are left out have the values of the one before them
        let sparse = [steps[0], Step { limit: 3, ..steps[2] }, Step { limit: 4, ..steps[3] }];
        assert_eq!(frame.along(&sparse, |step| step.distance), above);
    }
}
