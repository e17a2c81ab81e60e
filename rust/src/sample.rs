//! A stored sample, as the table of samples has it.

use std::fmt;
use std::hash::{Hash, Hasher};
use std::ops::RangeInclusive;

/// Samples, as arguments of every call: what a converter of 20 bits gives. One outside is refused ([`crate::Refusal::SampleRange`]).
///
/// ```
/// use silkendoz::{Refusal, TraceLibrary, SAMPLES};
///
/// let mut library = TraceLibrary::open(2, 4, 1)?;
/// library.add(&[*SAMPLES.start(), *SAMPLES.end()])?;
/// assert_eq!(library.add(&[0, SAMPLES.end() + 1]), Err(Refusal::SampleRange));
/// assert_eq!(library.nearest(&[SAMPLES.start() - 1, 0]), Err(Refusal::SampleRange));
/// # Ok::<(), Refusal>(())
/// ```
pub const SAMPLES: RangeInclusive<i32> = -524_288..=524_287;

/// Bits of a word below its sample.
const LOWER: u32 = 12;

/// A sample as it lies in the table: a word of 32 bits, of which the upper 20 are the sample. The lower twelve are written as zero and
/// ignored, so that every word stands for a sample within the limits. [`StoredSample::value`] is the sample; comparing is by it.
///
/// ```
/// use silkendoz::{StoredSample, TraceLibrary};
///
/// let mut library = TraceLibrary::open(2, 4, 1)?;
/// library.add(&[-524_288, 7])?;
/// let stored: &[StoredSample] = library.trace(0).unwrap();
/// assert_eq!((stored[0].value(), stored[1].value()), (-524_288, 7));
/// assert_eq!((stored[0].word(), stored[1].word()), (i32::MIN, 7 * 4096));
/// assert_eq!(StoredSample::values(stored), [-524_288, 7]);
/// // a stored trace is compared with plain samples as it is
/// assert_eq!(stored, [-524_288, 7]);
/// # Ok::<(), silkendoz::Refusal>(())
/// ```
#[derive(Clone, Copy, Default)]
#[repr(transparent)]
pub struct StoredSample(i32);

impl StoredSample {
    /// The sample as it is stored; nothing if it is outside the limits.
    ///
    /// ```
    /// use silkendoz::StoredSample;
    ///
    /// assert_eq!(StoredSample::new(-1).unwrap().word(), -4096);
    /// assert!(StoredSample::new(524_288).is_none());
    /// ```
    pub const fn new(sample: i32) -> Option<StoredSample> {
        match *SAMPLES.start() <= sample && sample <= *SAMPLES.end() {
            true => Some(StoredSample(sample << LOWER)),
            false => None,
        }
    }

    /// What a word of the table stands for: every word is one.
    pub const fn from_word(word: i32) -> StoredSample {
        StoredSample(word)
    }

    /// The word, as it stands in the table.
    pub const fn word(self) -> i32 {
        self.0
    }

    /// The sample: the word over 4,096, rounded down.
    pub const fn value(self) -> i32 {
        self.0 >> LOWER
    }

    /// Whether the sample does not fit 16 bits.
    pub const fn is_wide(self) -> bool {
        let sample = self.value();
        sample < i16::MIN as i32 || sample > i16::MAX as i32
    }

    /// The samples of a stored trace, or of several.
    pub fn values(stored: &[StoredSample]) -> Vec<i32> {
        stored.iter().map(|sample| sample.value()).collect()
    }

    /// Words from elsewhere, such as a controller's memory, as a table of samples.
    ///
    /// ```
    /// use silkendoz::StoredSample;
    ///
    /// let words = [4096, -4096, 4095];
    /// assert_eq!(StoredSample::of_words(&words), [1, -1, 0]);
    /// assert_eq!(StoredSample::words(StoredSample::of_words(&words)), words);
    /// ```
    pub const fn of_words(words: &[i32]) -> &[StoredSample] {
        // Safety: a stored sample is a word and nothing else, and every word is one.
        unsafe { std::slice::from_raw_parts(words.as_ptr().cast(), words.len()) }
    }

    /// The same, to be written.
    pub fn of_words_mut(words: &mut [i32]) -> &mut [StoredSample] {
        // Safety: as above; the words are borrowed for as long as what is made of them.
        unsafe { std::slice::from_raw_parts_mut(words.as_mut_ptr().cast(), words.len()) }
    }

    /// The words of a table of samples, to be kept somewhere.
    pub const fn words(stored: &[StoredSample]) -> &[i32] {
        // Safety: as above, the other way.
        unsafe { std::slice::from_raw_parts(stored.as_ptr().cast(), stored.len()) }
    }
}

/// The sample.
impl fmt::Debug for StoredSample {
    fn fmt(&self, f: &mut fmt::Formatter<'_>) -> fmt::Result {
        self.value().fmt(f)
    }
}

impl PartialEq for StoredSample {
    fn eq(&self, other: &StoredSample) -> bool {
        self.value() == other.value()
    }
}

impl Eq for StoredSample {}

/// With a plain sample.
impl PartialEq<i32> for StoredSample {
    fn eq(&self, other: &i32) -> bool {
        self.value() == *other
    }
}

impl Hash for StoredSample {
    fn hash<H: Hasher>(&self, state: &mut H) {
        self.value().hash(state);
    }
}

impl From<StoredSample> for i32 {
    fn from(stored: StoredSample) -> i32 {
        stored.value()
    }
}

#[cfg(test)]
mod tests {
    use super::*;

    #[test]
    fn every_sample_both_ways() {
        for sample in SAMPLES {
            let stored = StoredSample::new(sample).unwrap();
            assert_eq!((stored.value(), stored.word() >> 12, stored.word() & 0xfff), (sample, sample, 0));
            for lower in [1, 2047, 4095] {
                assert_eq!(StoredSample::from_word(stored.word() + lower), stored);
            }
        }
        for sample in [i32::MIN, -524_289, 524_288, i32::MAX] {
            assert!(StoredSample::new(sample).is_none());
        }
    }

    #[test]
    fn tables_of_words() {
        let mut words = vec![i32::MIN, -1, 0, 4095, 4096, i32::MAX];
        assert_eq!(StoredSample::values(StoredSample::of_words(&words)), [-524_288, -1, 0, 0, 1, 524_287]);
        StoredSample::of_words_mut(&mut words)[1] = StoredSample::from_word(8192);
        assert_eq!(words[1], 8192);
        assert_eq!(format!("{:?}", StoredSample::of_words(&words[..2])), "[-524288, 2]");
    }
}
