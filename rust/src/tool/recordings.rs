//! WAV files: what they hold and how they are written is the proved calls' to say, but for samples of 20 bits, which no call takes from a
//! file. Here is the way there and back, and words for a refusal.

use super::convert::{self, Made, Samples};
use super::numbers;
use super::reading::{Wanted, MOST_TRACES};
use silkendoz::{Refusal, StoredSample, TraceLibrary};

pub const HEADER: usize = 44;

/// What a recording holds.
pub struct Taken {
    pub traces: Vec<Vec<i32>>,
    /// Samples a second, as its header says.
    pub rate: u32,
    /// The least and the greatest sample that its form can hold.
    pub limits: [i32; 2],
    /// Whether it was brought to 20 bits.
    pub wide: bool,
    /// What was done to it.
    pub notes: Vec<String>,
}

/// Whether a file means to be a recording.
pub fn is_meant(bytes: &[u8]) -> bool {
    bytes.starts_with(b"RIFF")
}

/// The traces of a recording. If that is wanted, it is brought to samples of 16 or of 20 bits first, and cut to whole traces.
pub fn take(bytes: &[u8], wanted: &Wanted) -> Result<Taken, String> {
    match if wanted.convert { convert::made(bytes, wanted.bits)? } else { None } {
        None => plainly(bytes, wanted, Vec::new()),
        Some(Made { samples: Samples::Plain(bytes), limits, note }) => Ok(Taken { limits, ..plainly(&bytes, wanted, vec![note])? }),
        Some(Made { samples: Samples::Wide(rate, samples), limits, note }) => Ok(Taken { limits, ..widely(rate, &samples, wanted, vec![note])? }),
    }
}

/// The traces of a recording of the plain form.
fn plainly(bytes: &[u8], wanted: &Wanted, mut notes: Vec<String>) -> Result<Taken, String> {
    let cut = if wanted.cut { cut(bytes, wanted.n) } else { None };
    let whole = cut.as_ref().map_or(bytes, |(whole, note)| {
        notes.push(note.clone());
        whole
    });
    let traces = import(whole, wanted.n)?;
    Ok(Taken { traces, rate: field(whole, 24, 4) as u32, limits: numbers::limits_of(16), wide: false, notes })
}

/// Samples of 20 bits, which no recording of the plain form holds, as traces.
fn widely(rate: u32, samples: &[i32], wanted: &Wanted, mut notes: Vec<String>) -> Result<Taken, String> {
    let (n, all) = (wanted.n.max(1), samples.len());
    let left = all % n;
    match left {
        0 => (),
        left if wanted.cut && left < all => notes.push(cut_note(all - left, left, n)),
        _ => return Err(format!("no recording that can be taken: {}", no_whole_traces(all, n))),
    }
    let traces: Vec<Vec<i32>> = samples.chunks_exact(n).map(<[i32]>::to_vec).collect();
    match traces.len() > MOST_TRACES {
        true => Err(too_many(n)),
        false => Ok(Taken { traces, rate, limits: numbers::limits_of(20), wide: true, notes }),
    }
}

/// The traces of n samples that a recording holds, by a library of their own.
fn import(bytes: &[u8], n: usize) -> Result<Vec<Vec<i32>>, String> {
    let room = (bytes.len() / 2 / n.max(1)).clamp(1, MOST_TRACES);
    let mut library = TraceLibrary::open(n, room, 64).map_err(|why| why.to_string())?;
    match library.import_recording(bytes) {
        Ok(_) => Ok(library.traces().map(StoredSample::values).collect()),
        Err(Refusal::Full) => Err(too_many(n)),
        Err(why) => Err(format!("refused {}, no recording that can be taken: {}", why.number(), in_words(bytes, n))),
    }
}

fn too_many(n: usize) -> String {
    format!("holds more than {MOST_TRACES} traces of {}, which no library does. Cut it.", numbers::count(n, "sample"))
}

/// A recording of these samples under the plain header.
pub fn plain(rate: u32, data: &[u8]) -> Vec<u8> {
    let size = data.len() as u32;
    let mut bytes = Vec::with_capacity(HEADER + data.len());
    bytes.extend(b"RIFF");
    bytes.extend((size + 36).to_le_bytes());
    bytes.extend(b"WAVEfmt ");
    bytes.extend(16u32.to_le_bytes());
    bytes.extend([1, 0, 1, 0]);
    bytes.extend(rate.to_le_bytes());
    bytes.extend(rate.wrapping_mul(2).to_le_bytes());
    bytes.extend([2, 0, 16, 0]);
    bytes.extend(b"data");
    bytes.extend(size.to_le_bytes());
    bytes.extend(data);
    bytes
}

/// The whole traces of a plain recording that ends in the midst of one, and what was left out. One that holds none is left as it is.
fn cut(bytes: &[u8], n: usize) -> Option<(Vec<u8>, String)> {
    let data = bytes.get(HEADER..)?;
    let (samples, left) = (data.len() / 2, data.len() / 2 % n.max(1));
    let is_plain = &bytes[36..40] == b"data" && field(bytes, 40, 4) == data.len() as u64;
    if !is_plain || left == 0 || left == samples {
        return None;
    }
    let kept = samples - left;
    Some((plain(field(bytes, 24, 4) as u32, &data[..2 * kept]), cut_note(kept, left, n)))
}

fn cut_note(kept: usize, left: usize, n: usize) -> String {
    format!("cut into {}; {} at its end left out.", numbers::count(kept / n, "trace"), numbers::count(left, "sample"))
}

/// One stored trace as a recording. A rate that is out of range is refused by the call, one that is far out as the greatest.
pub fn export(library: &TraceLibrary, number: usize, rate: usize) -> Result<Vec<u8>, Refusal> {
    library.export_recording(number, u32::try_from(rate).unwrap_or(u32::MAX))
}

/// A number of a file, low byte first.
pub fn field(bytes: &[u8], at: usize, size: usize) -> u64 {
    bytes[at..at + size].iter().rev().fold(0, |sum, &byte| 256 * sum + u64::from(byte))
}

/// A hint, where it can be followed.
fn or_convert(bytes: &[u8]) -> &'static str {
    match convert::made(bytes, 20) {
        Ok(_) => "; `--convert` brings it to what can be taken",
        Err(_) => "",
    }
}

/// What keeps a file from being a recording, for people: the call itself only says that it is none.
fn in_words(bytes: &[u8], n: usize) -> String {
    if bytes.len() < HEADER {
        return format!("it has {} bytes, and the header alone takes {HEADER}. It was cut off: record it again.", bytes.len());
    }
    if &bytes[8..12] != b"WAVE" {
        return "it is of the family RIFF, but no WAV. Save it as WAV.".to_string();
    }
    let (format, convert) = (field(bytes, 20, 2), or_convert(bytes));
    if &bytes[12..16] != b"fmt " || field(bytes, 16, 4) != 16 || &bytes[36..40] != b"data" {
        return format!("its header is not WAV's usual {HEADER} bytes. Save it without tags, as plain 16-bit PCM{convert}.");
    }
    if format != 1 {
        return format!("its format is {format}, and has to be 1. Save it as plain PCM{convert}.");
    }
    let channels = field(bytes, 22, 2);
    if channels != 1 {
        return format!("it has {channels} channels, and has to have one. Save it as mono{convert}.");
    }
    let bits = field(bytes, 34, 2);
    if bits != 16 {
        return format!("it has {bits} bits a sample, and has to have 16. Save it as 16-bit PCM{convert}.");
    }
    in_sizes(field(bytes, 40, 4), (bytes.len() - HEADER) as u64, n as u64)
}

pub const UNSET: &str = "It was written into a pipe, where a size cannot be put right: write it to a file.";

/// Whether a size is one that programs put there as long as they do not know it.
pub fn is_unset(size: u64) -> bool {
    size >= 0x7fff_0000
}

/// The header says so many bytes of data, and so many are there.
fn in_sizes(said: u64, there: u64, n: u64) -> String {
    let samples = said / 2;
    if said != there && is_unset(said) {
        format!("its header says {said} bytes of data, and there are {there}. {UNSET}")
    } else if said != there {
        format!("its header says {said} bytes of data, and there are {there}. It was cut off, or something stands behind: save it again.")
    } else if said.is_multiple_of(2) && !samples.is_multiple_of(n) {
        no_whole_traces(samples as usize, n as usize)
    } else {
        "a number of its header does not fit the others (sizes, rates, block align). Save it again as 16-bit PCM, mono.".to_string()
    }
}

/// So many samples are no whole traces.
fn no_whole_traces(samples: usize, n: usize) -> String {
    match samples < n {
        true => format!("it has {}, and a trace has {n}. It is too short: record it again.", numbers::count(samples, "sample")),
        false => format!("it has {samples} samples, which is no multiple of {n}. `--cut` takes its whole traces, and leaves out the rest."),
    }
}
