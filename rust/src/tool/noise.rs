//! Noise for trials, the same in each run.

use super::numbers::bits_of;
use silkendoz::SAMPLES;

pub struct Noise(u64);

impl Noise {
    pub fn seeded(seed: u64) -> Noise {
        Noise(seed)
    }

    /// The trace with each sample moved by up to `by`, and not beyond the bits that the trace takes.
    pub fn near(&mut self, trace: &[i32], by: i64) -> Vec<i32> {
        let (least, greatest) = match bits_of(trace) {
            16 => (i16::MIN.into(), i16::MAX.into()),
            _ => (*SAMPLES.start(), *SAMPLES.end()),
        };
        let moved = |&x: &i32| (i64::from(x) + self.within(by)).clamp(least.into(), greatest.into()) as i32;
        trace.iter().map(moved).collect()
    }

    /// From -by to by. (A linear congruential generator, by Knuth; its upper bits are the random ones.)
    fn within(&mut self, by: i64) -> i64 {
        self.0 = self.0.wrapping_mul(6_364_136_223_846_793_005).wrapping_add(1_442_695_040_888_963_407);
        ((self.0 >> 33) % (2 * by as u64 + 1)) as i64 - by
    }
}

#[cfg(test)]
mod tests {
    use super::*;

    #[test]
    fn near_a_trace() {
        let trace = [0, 100, 32_767, -32_768];
        let (one, other) = (Noise::seeded(1).near(&trace, 20), Noise::seeded(2).near(&trace, 20));
        assert_ne!(one, other);
        assert_eq!(one, Noise::seeded(1).near(&trace, 20));
        assert!(trace.iter().zip(&one).all(|(a, b)| (a - b).abs() <= 20 && i16::try_from(*b).is_ok()));
        assert_eq!(Noise::seeded(1).near(&trace, 0), trace);
        let wide = [524_287, -524_288, 32_767];
        assert!(Noise::seeded(1).near(&wide, 20).iter().zip(wide).all(|(a, b)| (a - b).abs() <= 20 && SAMPLES.contains(a)));
    }
}
