//! How many traces lie in each band, as a picture: a bar for those that surely do, and an outline for those that may. For `bands` and for
//! `report`.

use super::drawing::WIDTH;
use super::svg::Svg;

/// Left of the bars at least, and a letter of what stands there: a digit of the widest common fonts.
const LEFT: f64 = 190.0;
const LETTER: f64 = 7.7;
const RIGHT: f64 = 130.0;
const LEGEND: f64 = 52.0;
const ROW: f64 = 26.0;
const BAR: f64 = 16.0;
const AXIS: f64 = 42.0;

/// A band: what a sample is off by in it, and how many traces lie there.
pub struct Bar {
    pub label: String,
    pub sure: u64,
    pub possible: u64,
}

pub struct Histogram {
    pub bars: Vec<Bar>,
    /// As many as are stored: what the scale goes to at most.
    pub traces: u64,
}

impl Histogram {
    pub fn height(&self) -> f64 {
        LEGEND + self.bars.len() as f64 * ROW + AXIS
    }

    /// Draws all of it, from a height on.
    pub fn draw(&self, svg: &mut Svg, top: f64) {
        let left = self.left();
        let (sure, possible) = (left, left + 190.0);
        rect(svg, "sure", sure, top + 2.0, 40.0);
        svg.label("entry", (sure + 48.0, top + 15.0), "surely so many");
        rect(svg, "possible", possible, top + 2.0, 40.0);
        svg.label("entry", (possible + 48.0, top + 15.0), "at most so many, by the tree's ranges");
        let (first, last) = (top + LEGEND, top + LEGEND + self.bars.len() as f64 * ROW);
        svg.label("end", (left - 12.0, first - 8.0), "off by, a sample");
        for mark in self.marks() {
            let x = self.x(mark);
            svg.line("grid", (x, first), (x, last));
            svg.label("middle", (x, last + 17.0), &mark.to_string());
        }
        svg.label("end", (WIDTH - RIGHT, last + 34.0), "traces");
        for (at, bar) in self.bars.iter().enumerate() {
            self.draw_bar(svg, first + at as f64 * ROW, bar);
        }
        svg.line("zero", (left, first), (left, last));
    }

    fn draw_bar(&self, svg: &mut Svg, top: f64, bar: &Bar) {
        let (left, y, text) = (self.left(), top + (ROW - BAR) / 2.0, top + ROW / 2.0 + 4.0);
        svg.label("end", (left - 12.0, text), &bar.label);
        // the outline last, so that it is seen around a bar as long
        for (class, count) in [("sure", bar.sure), ("possible", bar.possible)] {
            if count > 0 {
                rect(svg, class, left, y, self.x(count) - left);
            }
        }
        let said = match bar.possible {
            0 => "none".to_string(),
            possible if possible == bar.sure => format!("{possible}"),
            possible => format!("{} to {possible}", bar.sure),
        };
        svg.label("count", (self.x(bar.possible) + 8.0, text), &said);
    }

    /// Where bars begin: there is room for the longest label.
    fn left(&self) -> f64 {
        let letters = self.bars.iter().map(|bar| bar.label.chars().count()).max().unwrap_or(0);
        LEFT.max(letters as f64 * LETTER + 20.0)
    }

    /// The scale ends at the longest outline.
    fn most(&self) -> u64 {
        self.bars.iter().map(|bar| bar.possible).max().unwrap_or(0).clamp(1, self.traces.max(1))
    }

    fn x(&self, count: u64) -> f64 {
        self.left() + (WIDTH - self.left() - RIGHT) * count as f64 / self.most() as f64
    }

    /// Round numbers of traces, 0 and up to the scale's end.
    fn marks(&self) -> Vec<u64> {
        let most = self.most();
        let steps = (0..5).flat_map(|power| [1, 2, 5].map(|times| times * 10u64.pow(power)));
        let step = steps.into_iter().find(|step| most / step <= 8).unwrap_or(most);
        (0..=most / step).map(|times| times * step).collect()
    }
}

fn rect(svg: &mut Svg, class: &str, x: f64, y: f64, width: f64) {
    let places = [("x", x), ("y", y), ("width", width), ("height", BAR)].map(|(name, at)| (name, format!("{at:.1}")));
    svg.element("rect", &[&[("class", class.to_string())], &places[..]].concat());
}

#[cfg(test)]
mod tests {
    use super::*;

    fn marks(possible: u64) -> Vec<u64> {
        Histogram { bars: vec![Bar { label: String::new(), sure: 0, possible }], traces: 4096 }.marks()
    }

    /// The longest label that edges can have begins inside the picture, and the bars have room beside it.
    #[test]
    fn room_for_labels() {
        let of = |label: &str| Histogram { bars: vec![Bar { label: label.to_string(), sure: 1, possible: 4096 }], traces: 4096 };
        assert_eq!(of("2000 to 2500").left(), LEFT);
        let longest = of("000123456.123456 to 000123457.123456");
        assert!(longest.left() >= 36.0 * LETTER && longest.x(4096) - longest.left() > WIDTH / 3.0);
    }

    #[test]
    fn marks_at_round_numbers() {
        assert_eq!(marks(0), [0, 1]);
        assert_eq!(marks(3), [0, 1, 2, 3]);
        assert_eq!(marks(9), [0, 2, 4, 6, 8]);
        assert_eq!(marks(37), [0, 5, 10, 15, 20, 25, 30, 35]);
        assert_eq!(marks(4096), [0, 500, 1000, 1500, 2000, 2500, 3000, 3500, 4000]);
        for possible in 0..=4096 {
            assert!((2..=9).contains(&marks(possible).len()), "{possible}");
        }
    }
}
