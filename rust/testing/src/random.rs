//! Test data: a seeded generator, and traces of several shapes.

use crate::model::{Label, Trace};

/// Samples of 20 bits, and those that fit 16.
pub const LEAST: i32 = -524_288;
pub const GREATEST: i32 = 524_287;
const NARROW_LEAST: i32 = -32_768;
const NARROW_GREATEST: i32 = 32_767;

/// SplitMix64.
#[derive(Clone, Debug)]
pub struct Random(u64);

impl Random {
    pub fn seeded(seed: u64) -> Random {
        Random(seed)
    }

    /// 64 bits.
    pub fn word(&mut self) -> u64 {
        self.0 = self.0.wrapping_add(0x9e37_79b9_7f4a_7c15);
        let mut z = self.0;
        z = (z ^ (z >> 30)).wrapping_mul(0xbf58_476d_1ce4_e5b9);
        z = (z ^ (z >> 27)).wrapping_mul(0x94d0_49bb_1331_11eb);
        z ^ (z >> 31)
    }

    /// From 0 to below `end`, which is not 0.
    pub fn below(&mut self, end: usize) -> usize {
        (self.word() % end as u64) as usize
    }

    /// From `low` to `high`, both included.
    pub fn within(&mut self, low: i64, high: i64) -> i64 {
        low + (self.word() % (high - low + 1) as u64) as i64
    }

    /// True once in `times`.
    pub fn once_in(&mut self, times: usize) -> bool {
        self.below(times) == 0
    }

    pub fn pick<'a, T>(&mut self, from: &'a [T]) -> &'a T {
        &from[self.below(from.len())]
    }
}

fn sample(x: i64) -> i32 {
    x.clamp(LEAST.into(), GREATEST.into()) as i32
}

/// .. that fits 16 bits.
fn narrow(x: i64) -> i32 {
    x.clamp(NARROW_LEAST.into(), NARROW_GREATEST.into()) as i32
}

/// Samples anywhere in these limits, each by itself.
pub fn uniform(random: &mut Random, n: usize, low: i64, high: i64) -> Trace {
    (0..n).map(|_| sample(random.within(low, high))).collect()
}

/// Each sample a step from the one before.
pub fn walk(random: &mut Random, n: usize, step: i64) -> Trace {
    let mut at = random.within(-2000, 2000);
    (0..n)
        .map(|_| {
            at += random.within(-step, step);
            narrow(at)
        })
        .collect()
}

/// A sine of some period, height and phase, with noise.
pub fn noisy_sine(random: &mut Random, n: usize, noise: i64) -> Trace {
    let turns = random.within(1, 8) as f64;
    let height = random.within(500, 12_000) as f64;
    let phase = random.within(0, 999) as f64 / 1000.0;
    (0..n)
        .map(|i| {
            let angle = std::f64::consts::TAU * (turns * i as f64 / n as f64 + phase);
            narrow((height * angle.sin()) as i64 + random.within(-noise, noise))
        })
        .collect()
}

/// The trace with each sample moved by up to `by`; one that fits 16 bits still does.
pub fn near(random: &mut Random, trace: &[i32], by: i64) -> Trace {
    let fits = trace.iter().all(|x| (NARROW_LEAST..=NARROW_GREATEST).contains(x));
    let within = if fits { narrow } else { sample };
    trace.iter().map(|&x| within(i64::from(x) + random.within(-by, by))).collect()
}

/// Kinds of libraries that tests go through.
#[derive(Clone, Copy, Debug, PartialEq, Eq)]
pub enum Shape {
    Uniform,
    Small,
    Walk,
    Sine,
    Clusters,
    Identical,
    Constants,
    Extremes,
    Ties,
    /// Samples of 20 bits.
    Wide,
    WideClusters,
    WideExtremes,
    /// Mostly samples that fit 16 bits, and a wide one now and then: a library of few traces may have none.
    Mixed,
}

/// Those whose samples all fit 16 bits.
pub const NARROW_SHAPES: [Shape; 9] =
    [Shape::Uniform, Shape::Small, Shape::Walk, Shape::Sine, Shape::Clusters, Shape::Identical, Shape::Constants, Shape::Extremes, Shape::Ties];

pub const WIDE_SHAPES: [Shape; 4] = [Shape::Wide, Shape::WideClusters, Shape::WideExtremes, Shape::Mixed];

/// All of them.
pub const SHAPES: [Shape; 13] = {
    let mut all = [Shape::Mixed; 13];
    let mut at = 0;
    while at < all.len() {
        all[at] = if at < NARROW_SHAPES.len() { NARROW_SHAPES[at] } else { WIDE_SHAPES[at - NARROW_SHAPES.len()] };
        at += 1;
    }
    all
};

/// `count` traces of n samples.
pub fn traces(random: &mut Random, shape: Shape, n: usize, count: usize) -> Vec<Trace> {
    let centres: Vec<Trace> = (0..4).map(|_| uniform(random, n, -20_000, 20_000)).collect();
    (0..count).map(|_| one(random, shape, n, &centres)).collect()
}

fn one(random: &mut Random, shape: Shape, n: usize, centres: &[Trace]) -> Trace {
    match shape {
        Shape::Uniform => uniform(random, n, -32_768, 32_767),
        Shape::Small => uniform(random, n, -2, 2),
        Shape::Walk => walk(random, n, 200),
        Shape::Sine => noisy_sine(random, n, 100),
        Shape::Clusters => {
            let centre = random.pick(centres).clone();
            near(random, &centre, 5)
        }
        Shape::Identical => centres[0].clone(),
        Shape::Constants => vec![narrow(random.within(-3, 3) * 10_000); n],
        Shape::Extremes => (0..n).map(|_| *random.pick(&[NARROW_LEAST, NARROW_GREATEST])).collect(),
        // few values, and traces that are each other turned round: many equal sums, scatters and distances
        Shape::Ties => {
            let mut trace: Trace = (0..n).map(|i| (i % 2) as i32).collect();
            trace.rotate_left(random.below(2) % n);
            let at = random.below(n);
            trace[at] = random.within(-1, 1) as i32;
            trace
        }
        Shape::Wide => uniform(random, n, LEAST.into(), GREATEST.into()),
        Shape::WideClusters => {
            let centre: Trace = random.pick(centres).iter().map(|x| 26 * x).collect();
            near(random, &centre, 80)
        }
        Shape::WideExtremes => (0..n).map(|_| *random.pick(&[LEAST, GREATEST])).collect(),
        Shape::Mixed => (0..n).map(|_| any(random)).collect(),
    }
}

/// A sample, mostly one that fits 16 bits; now and then one at an end of 16 bits or of 20, or beside it.
fn any(random: &mut Random) -> i32 {
    match random.below(40) {
        0 => *random.pick(&[LEAST, LEAST + 1, GREATEST - 1, GREATEST, NARROW_LEAST - 1, NARROW_GREATEST + 1]),
        1 => *random.pick(&[NARROW_LEAST, NARROW_GREATEST]),
        2 => random.within(LEAST.into(), GREATEST.into()) as i32,
        _ => random.within(-300, 300) as i32,
    }
}

/// A number that is no sample: outside the limits, mostly just outside.
pub fn no_sample(random: &mut Random) -> i32 {
    *random.pick(&[LEAST - 1, GREATEST + 1, i32::MIN, i32::MAX, -600_000, 786_432, 1 << 24])
}

/// A label: none, a code or a serial alone, the greatest, or any.
pub fn label(random: &mut Random) -> Label {
    let any = Label { code: random.word() as u16, serial: random.word() as u32 };
    match random.below(8) {
        0 => Label::default(),
        1 => Label { serial: 0, ..any },
        2 => Label { code: 0, ..any },
        3 => Label { code: u16::MAX, serial: u32::MAX },
        4 => Label { code: random.below(3) as u16, serial: random.below(3) as u32 },
        _ => any,
    }
}

/// A label for each of so many traces; now and then none has one, or one alone.
pub fn labels(random: &mut Random, count: usize) -> Vec<Label> {
    let mut list = vec![Label::default(); count];
    match random.below(4) {
        0 => {}
        1 if count > 0 => list[random.below(count)] = label(random),
        _ => list.iter_mut().for_each(|place| *place = label(random)),
    }
    list
}

/// A query: a stored trace, one near it, one between two, or a fresh one.
pub fn query(random: &mut Random, shape: Shape, n: usize, stored: &[Trace]) -> Trace {
    if stored.is_empty() || random.once_in(4) {
        return traces(random, shape, n, 1).remove(0);
    }
    let a = random.pick(stored).clone();
    match random.below(3) {
        0 => a,
        1 => near(random, &a, 3),
        _ => {
            let b = random.pick(stored);
            a.iter().zip(b).map(|(&x, &y)| (x + y) / 2).collect()
        }
    }
}
