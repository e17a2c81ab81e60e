//! Recordings, document 02, §2: WAV files, taken field by field, numbers of 64 bits.

use super::Trace;

/// What of a file has not been taken yet.
struct Rest<'a>(&'a [u8]);

impl<'a> Rest<'a> {
    fn take(&mut self, count: usize) -> Option<&'a [u8]> {
        let (taken, rest) = self.0.split_at_checked(count)?;
        self.0 = rest;
        Some(taken)
    }

    /// "the letters RIFF"
    fn letters(&mut self, letters: &[u8; 4]) -> Option<()> {
        (self.take(4)? == letters).then_some(())
    }

    /// A number of so many bytes, "low byte first".
    fn number(&mut self, bytes: usize) -> Option<u64> {
        Some(self.take(bytes)?.iter().rev().fold(0, |sum, &byte| 256 * sum + u64::from(byte)))
    }

    /// .. that has to be this one.
    fn says(&mut self, bytes: usize, value: u64) -> Option<()> {
        (self.number(bytes)? == value).then_some(())
    }
}

/// The rate of a file and its traces of n samples; nothing "for a file of any other form or length, an odd size, a sample count not a multiple of n".
pub fn read(n: u64, file: &[u8]) -> Option<(u64, Vec<Trace>)> {
    let mut rest = Rest(file);
    // "the letters RIFF, a size 36 above the data size, WAVE"
    rest.letters(b"RIFF")?;
    let size_and_36 = rest.number(4)?;
    rest.letters(b"WAVE")?;
    // ""fmt " of 16 bytes, format 1, one channel"
    rest.letters(b"fmt ")?;
    rest.says(4, 16)?;
    rest.says(2, 1)?;
    rest.says(2, 1)?;
    // "any rate below 2^31, byte rate twice the rate, block align 2, 16 bits"
    let rate = rest.number(4).filter(|&rate| rate < 1 << 31)?;
    rest.says(4, 2 * rate)?;
    rest.says(2, 2)?;
    rest.says(2, 16)?;
    // ""data", the data size, then exactly that many bytes, low byte first"
    rest.letters(b"data")?;
    let size = rest.number(4).filter(|&size| size_and_36 == size + 36)?;
    if size != rest.0.len() as u64 || size % 2 != 0 || size / 2 % n != 0 {
        return None;
    }
    let samples: Vec<i32> = rest.0.chunks(2).map(|sample| i16::from_le_bytes([sample[0], sample[1]]).into()).collect();
    // "The samples are cut into traces of n"
    Some((rate, samples.chunks(n as usize).map(<[i32]>::to_vec).collect()))
}

/// The file of some samples that fit 16 bits, at a rate.
pub fn write(rate: u64, samples: &[i32]) -> Vec<u8> {
    let size = 2 * samples.len() as u64;
    let four = |value: u64| u32::try_from(value).expect("four bytes say it").to_le_bytes();
    let fields: [&[u8]; 10] =
        [b"RIFF", &four(36 + size), b"WAVEfmt ", &four(16), &[1, 0, 1, 0], &four(rate), &four(2 * rate), &[2, 0, 16, 0], b"data", &four(size)];
    let mut file = fields.concat();
    file.extend(samples.iter().flat_map(|&sample| i16::try_from(sample).expect("it fits 16 bits").to_le_bytes()));
    file
}

/// How many bytes the file of one trace takes.
pub fn size(n: u64) -> usize {
    44 + 2 * n as usize
}

#[cfg(test)]
mod tests {
    use super::*;

    #[test]
    fn both_ways() {
        for rate in [0, 1, 8000, (1 << 31) - 1] {
            for count in [0, 1, 2, 5] {
                let traces: Vec<Trace> = (0..count).map(|t| vec![t, -t, i16::MAX.into(), i16::MIN.into()]).collect();
                let file = write(rate, &traces.concat());
                assert_eq!(file.len(), 44 + 8 * traces.len());
                assert_eq!(read(4, &file), Some((rate, traces)));
            }
        }
    }

    #[test]
    fn cut_otherwise() {
        let file = write(1, &[1, 2, 3, 4, 5, 6]);
        assert_eq!(read(3, &file), Some((1, vec![vec![1, 2, 3], vec![4, 5, 6]])));
        assert_eq!(read(6, &file).map(|(_, traces)| traces.len()), Some(1));
        assert_eq!(read(4, &file), None);
    }
}
