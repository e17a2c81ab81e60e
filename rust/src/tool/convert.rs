//! WAV files of other forms, brought to samples of 16 bits, in the plain form (one channel under the usual header), or to samples of 20, for
//! which there is no such form.

use super::numbers;
use super::recordings::{field, is_unset, plain, UNSET};

/// What a recording was brought to.
pub enum Samples {
    /// Of 16 bits: a recording of the plain form.
    Plain(Vec<u8>),
    /// Of 20 bits, with the rate.
    Wide(u32, Vec<i32>),
}

/// What was made, and what was done to make it.
pub struct Made {
    pub samples: Samples,
    /// The least and the greatest sample that the converter gives, as they were brought to these bits.
    pub limits: [i32; 2],
    pub note: String,
}

/// What a header says of the samples, and how many bits they get.
struct Form {
    float: bool,
    channels: usize,
    rate: u32,
    /// Bytes a sample.
    width: usize,
    /// 16, or 20 where the recording has more than 16.
    bits: u32,
}

/// What a step of 8 bits is in 16.
const EIGHT_BITS: i32 = 256;

const PCM: u64 = 1;
const FLOAT: u64 = 3;
const EXTENSIBLE: u64 = 0xfffe;

/// What was seen on the way: samples beyond the bits, at the limit of 8 bits, and with bits below those that are taken.
#[derive(Default)]
struct Seen {
    beyond: usize,
    at_limit: usize,
    dropped: usize,
}

/// The samples of a recording, those of more than 16 bits brought to so many (16 or 20); nothing if it is of the plain form already.
pub fn made(bytes: &[u8], bits: u32) -> Result<Option<Made>, String> {
    let chunks = chunks(bytes)?;
    let of = |name: &[u8; 4]| chunks.iter().find(|chunk| chunk.name == name).map(|chunk| chunk.body);
    let (Some(head), Some(data)) = (of(b"fmt "), of(b"data")) else {
        return Err("it has no header or no samples. Save it again as WAV.".to_string());
    };
    let form = Form::of(head, bits)?;
    let names: Vec<String> = chunks.iter().filter(|chunk| ![b"fmt ", b"data"].contains(&chunk.name)).map(Chunk::shown).collect();
    let frame = form.channels * form.width;
    let mut seen = Seen::default();
    let samples: Vec<i32> = data.chunks_exact(frame).map(|frame| form.sample(&frame[..form.width], &mut seen)).collect();
    let samples = match form.bits {
        16 => Samples::Plain(plain(form.rate, &samples.iter().flat_map(|&sample| (sample as i16).to_le_bytes()).collect::<Vec<u8>>())),
        _ => Samples::Wide(form.rate, samples),
    };
    if matches!(&samples, Samples::Plain(made) if made == bytes) {
        return Ok(None);
    }
    Ok(Some(Made { samples, limits: form.limits(), note: form.note(&names, &seen, data.len() % frame) }))
}

struct Chunk<'a> {
    name: &'a [u8; 4],
    body: &'a [u8],
}

impl Chunk<'_> {
    fn shown(&self) -> String {
        format!("`{}`", super::plain::short(&String::from_utf8_lossy(self.name), 4))
    }
}

/// The parts of the file, each with its name, its size and its bytes.
fn chunks(bytes: &[u8]) -> Result<Vec<Chunk<'_>>, String> {
    let mut rest = match bytes.get(12..) {
        Some(rest) if &bytes[8..12] == b"WAVE" => rest,
        _ => return Err("it is no WAV. Save it as WAV.".to_string()),
    };
    let mut chunks = Vec::new();
    while let Some((name, behind)) = rest.split_first_chunk::<4>() {
        let Some(body) = behind.get(4..) else { break };
        let size = field(behind, 0, 4) as usize;
        if size > body.len() {
            let shown = Chunk { name, body }.shown();
            let why = if is_unset(size as u64) { UNSET } else { "It was cut off: record it again." };
            return Err(format!("its part {shown} says {size} bytes, and {} are there. {why}", body.len()));
        }
        chunks.push(Chunk { name, body: &body[..size] });
        // a part of odd size has a byte behind it
        rest = body.get(size + size % 2..).unwrap_or_default();
    }
    Ok(chunks)
}

impl Form {
    fn of(head: &[u8], bits: u32) -> Result<Form, String> {
        if head.len() < 16 {
            return Err("its header is cut off. Record it again.".to_string());
        }
        let (said, channels, rate, own) = (field(head, 0, 2), field(head, 2, 2), field(head, 4, 4), field(head, 14, 2));
        // the extensible form says what it is behind 24 bytes
        let format = if said == EXTENSIBLE && head.len() >= 26 { field(head, 24, 2) } else { said };
        let float = format == FLOAT;
        let known = match format {
            PCM => [8, 16, 24, 32].contains(&own),
            FLOAT => [32, 64].contains(&own),
            _ => return Err(format!("its format is {format}, which is not converted here. Save it as 16-bit PCM.")),
        };
        if !known || channels == 0 || rate >= 1 << 31 {
            return Err(format!("{own} bits, {channels} channels and rate {rate} are not converted here. Save it as 16-bit PCM, mono."));
        }
        let bits = if own > 16 { bits } else { 16 };
        Ok(Form { float, channels: channels as usize, rate: rate as u32, width: own as usize / 8, bits })
    }

    /// Bits by which a whole number of more than 16 is shifted to the right.
    fn shift(&self) -> u32 {
        8 * self.width as u32 - self.bits
    }

    /// The least and the greatest sample that there can be, in as many bits as it gets.
    fn limits(&self) -> [i32; 2] {
        let beyond = 1 << (self.bits - 1);
        [-beyond, if self.width == 1 { EIGHT_BITS * i32::from(i8::MAX) } else { beyond - 1 }]
    }

    /// A sample, in as many bits as it gets.
    fn sample(&self, bytes: &[u8], seen: &mut Seen) -> i32 {
        if self.float {
            let value = match bytes.try_into().map(f32::from_le_bytes) {
                Ok(short) => f64::from(short),
                Err(_) => f64::from_le_bytes(std::array::from_fn(|at| bytes[at])),
            };
            let limit = f64::from(1 << (self.bits - 1));
            let scaled = (value * limit).round();
            seen.beyond += usize::from(!(-limit..limit).contains(&scaled));
            // what is no number at all becomes 0
            return scaled.clamp(-limit, limit - 1.0) as i32;
        }
        if self.width == 1 {
            // 8 bits have no sign, 128 is the middle; the upper limit is none of 16 bits, and would not be seen any more
            seen.at_limit += usize::from([0, 255].contains(&bytes[0]));
            return EIGHT_BITS * (i32::from(bytes[0]) - 128);
        }
        // the bytes of a word of 32 bits, from the highest down
        let word = i32::from_le_bytes(std::array::from_fn(|at| (at + self.width).checked_sub(4).map_or(0, |own| bytes[own])));
        seen.dropped += usize::from(word.trailing_zeros() < 32 - self.bits);
        word >> (32 - self.bits)
    }

    /// What was done: the parts left out, how it was scaled, what was seen, how many bytes were left over.
    fn note(&self, others: &[String], seen: &Seen, left: usize) -> String {
        let mut did = Vec::new();
        if self.channels > 1 {
            did.push(format!("the first of {} channels", self.channels));
        }
        match (self.float, self.width) {
            (true, _) => did.push(format!("floating point times {}, rounded", 1 << (self.bits - 1))),
            (false, 1) => did.push("8 bits times 256".to_string()),
            (false, 2) => (),
            (false, width) => did.push(format!("{} bits shifted right by {}, to {}", 8 * width, self.shift(), self.bits)),
        }
        if seen.dropped > 0 {
            did.push(format!("{} had bits below these", numbers::count(seen.dropped, "sample")));
        }
        if !others.is_empty() {
            did.push(format!("without {}", others.join(", ")));
        }
        if seen.beyond > 0 {
            did.push(format!("{} beyond {} bits set to the limit", numbers::count(seen.beyond, "sample"), self.bits));
        }
        if seen.at_limit > 0 {
            did.push(format!("{} at the converter's limit of 8 bits", numbers::count(seen.at_limit, "sample")));
        }
        if left > 0 {
            did.push(format!("without {} at the end", numbers::count(left, "byte")));
        }
        if did.is_empty() {
            did.push("under the usual header".to_string());
        }
        format!("converted: {}.", did.join("; "))
    }
}
