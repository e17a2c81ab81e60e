//! A plain scan by AVX2, where the processor has it: what an index has to be held against, where it is asked what one is worth.
//! `silkendoz::scan` is made for every x86-64. Where all samples fit 16 bits, they are held so, as one who scans would hold them.

/// Traces one behind another, ready to be scanned.
pub enum Held {
    Narrow(Vec<i16>),
    Wide(Vec<i32>),
}

impl Held {
    pub fn of(samples: &[i32]) -> Held {
        narrow(samples).map_or_else(|| Held::Wide(samples.to_vec()), Held::Narrow)
    }

    /// The lowest number at the least distance, and that distance, as `silkendoz::scan::nearest` says it.
    pub fn nearest(&self, n: usize, query: &[i32]) -> Option<(usize, u64)> {
        match (self, narrow(query)) {
            (Held::Narrow(samples), Some(query)) => scanned(samples, n, &query, distance_of_16),
            (Held::Narrow(samples), None) => scanned(&samples.iter().map(|&x| x.into()).collect::<Vec<i32>>(), n, query, distance_of_32),
            (Held::Wide(samples), _) => scanned(samples, n, query, distance_of_32),
        }
    }
}

fn narrow(samples: &[i32]) -> Option<Vec<i16>> {
    samples.iter().map(|&sample| i16::try_from(sample).ok()).collect()
}

fn scanned<S>(samples: &[S], n: usize, query: &[S], distance: impl Fn(&[S], &[S]) -> u64) -> Option<(usize, u64)> {
    #[cfg(target_arch = "x86_64")]
    if std::arch::is_x86_feature_detected!("avx2") {
        // SAFETY: the function asks for nothing but a processor with AVX2, and this one has it.
        return unsafe { by_avx2(samples, n, query, distance) };
    }
    plain(samples, n, query, distance)
}

#[cfg(target_arch = "x86_64")]
#[target_feature(enable = "avx2")]
fn by_avx2<S>(samples: &[S], n: usize, query: &[S], distance: impl Fn(&[S], &[S]) -> u64) -> Option<(usize, u64)> {
    plain(samples, n, query, distance)
}

/// Made once for each kind of processor, and so always inside its caller.
#[inline(always)]
fn plain<S>(samples: &[S], n: usize, query: &[S], distance: impl Fn(&[S], &[S]) -> u64) -> Option<(usize, u64)> {
    let mut best: Option<(usize, u64)> = None;
    for (number, trace) in samples.chunks_exact(n).enumerate() {
        let apart = distance(trace, query);
        if best.is_none_or(|(_, least)| apart < least) {
            best = Some((number, apart));
        }
    }
    best
}

/// The sum of squared differences of at most 65,536 samples: the lower and the upper 16 bits of the squares each have a sum in 32.
#[inline(always)]
fn distance_of_16(a: &[i16], b: &[i16]) -> u64 {
    let (mut low, mut high) = (0u32, 0u32);
    for (&x, &y) in a.iter().zip(b) {
        let apart = x.abs_diff(y);
        let square = u32::from(apart) * u32::from(apart);
        low += u32::from(square as u16);
        high += u32::from((square >> 16) as u16);
    }
    u64::from(low) + (u64::from(high) << 16)
}

/// The same of samples of 20 bits: a difference fits 32 bits, its square 64.
#[inline(always)]
fn distance_of_32(a: &[i32], b: &[i32]) -> u64 {
    a.iter().zip(b).map(|(&x, &y)| u64::from(x.abs_diff(y))).map(|apart| apart * apart).sum()
}

#[cfg(test)]
mod tests {
    use super::*;
    use silkendoz::{scan, StoredSample};
    use testing::random::{self, Random, Shape};

    /// Both ways, whatever this processor has: the same answers as the library's scan, at the ends of 16 bits and of 20 too.
    #[test]
    fn as_the_plain_scan() {
        let random = &mut Random::seeded(7);
        for n in (1..=256).step_by(5).chain([256]) {
            let shape = *random.pick(&[Shape::Uniform, Shape::Extremes, Shape::Wide, Shape::WideExtremes, Shape::Mixed]);
            let samples = random::traces(random, shape, n, 9).concat();
            let stored: Vec<StoredSample> = samples.iter().map(|&sample| StoredSample::new(sample).unwrap()).collect();
            for asked in [shape, Shape::Uniform, Shape::Wide] {
                let query = random::traces(random, asked, n, 1).remove(0);
                let expected = scan::nearest(&stored, n, &query);
                assert_eq!(Held::of(&samples).nearest(n, &query), expected, "{n} {shape:?}");
                assert_eq!(plain(&samples, n, &query, distance_of_32), expected, "{n} {shape:?}");
            }
        }
        assert_eq!(Held::of(&[7, 7, 7]).nearest(1, &[5]), Some((0, 4)));
        assert_eq!(distance_of_16(&[i16::MIN; 256], &[i16::MAX; 256]), 256 * 65_535 * 65_535);
        assert_eq!(distance_of_32(&[-524_288; 256], &[524_287; 256]), 281_474_439_840_000);
        assert_eq!(Held::of(&[]).nearest(4, &[0; 4]), None);
    }
}
