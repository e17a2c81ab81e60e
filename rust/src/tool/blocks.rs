//! Every torn block of a sheet, by the proved calls alone. Reading answers the first torn block; with a sound block of the same number in
//! its place, as the proved writer makes them, it answers the next. A block's verdict depends on its number, its own bytes, on block 0's
//! kind, and on whether labels stand before it: so the sound block is one of the sheet's width, and behind labels one of labels.

use silkendoz::{Label, Refusal, TraceLibrary};

pub const BLOCK: usize = 512;

/// As many blocks as a sheet has at most, those of labels among them.
pub const MOST: usize = 8373;

/// Labels that a block behind the samples holds, of 6 bytes each.
pub const LABELS: usize = 84;

/// The kind that a block of labels says.
pub const OF_LABELS: u8 = 5;

/// How a sheet has its samples: in two bytes each, or in four, if any of them does not fit two.
#[derive(Clone, Copy, Debug, PartialEq, Eq)]
pub enum Width {
    Narrow,
    Wide,
}

impl Width {
    /// What block 0 says, if it is sound; else what most of the blocks of samples say.
    pub fn of(bytes: &[u8]) -> Width {
        let kinds = |kind: u8| bytes.chunks_exact(BLOCK).skip(1).filter(|block| block[2] == kind).count();
        let head = bytes.get(..BLOCK).unwrap_or_default();
        let wide = match TraceLibrary::read_sheet(head) {
            Err(Refusal::TornBlock(_) | Refusal::SheetLength) => kinds(Width::Wide.kinds()[1]) > kinds(Width::Narrow.kinds()[1]),
            _ => head[2] == Width::Wide.kinds()[0],
        };
        if wide {
            Width::Wide
        } else {
            Width::Narrow
        }
    }

    /// What block 0 and a block of samples say.
    pub const fn kinds(self) -> [u8; 2] {
        match self {
            Width::Narrow => [1, 2],
            Width::Wide => [3, 4],
        }
    }

    /// What blocks of samples say, of either width.
    pub const fn kinds_of_samples() -> [u8; 2] {
        [Width::Narrow.kinds()[1], Width::Wide.kinds()[1]]
    }

    /// Samples that a block behind block 0 holds.
    pub const fn samples(self) -> usize {
        match self {
            Width::Narrow => 253,
            Width::Wide => 126,
        }
    }

    /// Bytes that a sample takes.
    pub const fn bytes(self) -> usize {
        match self {
            Width::Narrow => 2,
            Width::Wide => 4,
        }
    }

    /// As many blocks as a sheet has at most without labels.
    const fn most(self) -> usize {
        1 + (4096 * 256usize).div_ceil(self.samples())
    }

    /// The sample of some bytes, which are as many as it takes or more.
    pub fn sample(self, bytes: &[u8]) -> i32 {
        match self {
            Width::Narrow => i16::from_le_bytes([bytes[0], bytes[1]]).into(),
            Width::Wide => i32::from_le_bytes([bytes[0], bytes[1], bytes[2], bytes[3]]),
        }
    }

    /// Where a sample stands, by its number through all traces.
    pub const fn place(self, sample: usize) -> usize {
        BLOCK * (1 + sample / self.samples()) + 4 + self.bytes() * (sample % self.samples())
    }
}

/// The numbers of the torn ones among the whole blocks.
pub fn torn(bytes: &[u8]) -> Vec<usize> {
    let count = whole(bytes);
    let mut scratch = bytes[..count * BLOCK].to_vec();
    let width = Width::of(bytes);
    let mut sound = Sound { width, samples: Vec::new(), labels: Vec::new() };
    let mut torn: Vec<usize> = Vec::new();
    while let Err(Refusal::TornBlock(place)) = TraceLibrary::read_sheet(&scratch) {
        let number = place as usize;
        assert!(torn.last().is_none_or(|last| *last < number), "a block that was written is sound");
        let behind_labels = number > 1 && scratch[(number - 1) * BLOCK + 2] == OF_LABELS;
        let block = sound.block(number, behind_labels || number >= width.most(), count);
        scratch[number * BLOCK..][..BLOCK].copy_from_slice(block);
        torn.push(number);
    }
    torn
}

/// How many whole blocks there are, as far as a sheet goes.
pub fn whole(bytes: &[u8]) -> usize {
    (bytes.len() / BLOCK).min(MOST)
}

/// Sound blocks, as the proved writer makes them: of samples, and of labels.
struct Sound {
    width: Width,
    samples: Vec<u8>,
    labels: Vec<u8>,
}

impl Sound {
    /// The block of this number, of a sheet that has so many.
    fn block(&mut self, number: usize, of_labels: bool, count: usize) -> &[u8] {
        let at = |sheet: &[u8]| sheet.get(number * BLOCK + 2) == Some(&OF_LABELS);
        if of_labels && !at(&self.labels) {
            self.labels = sheet_with_labels(number);
        }
        if !of_labels && self.samples.is_empty() {
            self.samples = sound_sheet(self.width, count.min(self.width.most()));
        }
        let sheet = if of_labels { &self.labels } else { &self.samples };
        &sheet[number * BLOCK..][..BLOCK]
    }
}

/// A sheet of at least so many blocks, each sound. A wide one has a trace.
fn sound_sheet(width: Width, blocks: usize) -> Vec<u8> {
    let traces = (blocks.saturating_sub(1) * width.samples()).div_ceil(256);
    written(width, 256, traces.clamp(width as usize, 4096), Label::default())
}

/// A sheet in which the block of this number, 2 at least, holds labels, which look the same in sheets of both widths. With as many samples a
/// trace as a block has, traces and their blocks are as many, and labels begin behind them; in a wide sheet of 4,096 traces they take 49
/// blocks, and a sample more a trace moves them by 33 at most.
fn sheet_with_labels(number: usize) -> Vec<u8> {
    const LONGEST: usize = 4096 + 4096usize.div_ceil(LABELS);
    let label = Label { code: 1, serial: 0 };
    let (narrow, wide) = (Width::Narrow, Width::Wide);
    match number {
        0..=LONGEST => written(narrow, narrow.samples(), (number - 1).min(4096), label),
        _ => written(wide, ((number - 1) * wide.samples() / 4096).min(256), 4096, label),
    }
}

/// The sheet of so many traces of n samples, the first of which has this label; in a wide one no sample fits 16 bits.
fn written(width: Width, n: usize, traces: usize, label: Label) -> Vec<u8> {
    let mut library = TraceLibrary::open(n, 4096, 64).expect("these measures are in range");
    let first = if width == Width::Wide { 40_000 } else { 0 };
    for level in 0..traces {
        let label = if level == 0 { label } else { Label::default() };
        library.add_labelled(&vec![first + level as i32; n], label).expect("there is room");
    }
    library.write_sheet().expect("the tables are the library's own")
}

#[cfg(test)]
mod tests {
    use super::*;

    #[test]
    fn sound_at_every_size() {
        for (width, most) in [(Width::Narrow, 4146), (Width::Wide, 8324)] {
            assert_eq!(width.most(), most);
            for blocks in [1, 2, 3, 254, 255, 256, 257, 4145, most - 1, most].into_iter().filter(|blocks| *blocks <= most) {
                let sheet = sound_sheet(width, blocks);
                assert!(sheet.len() >= BLOCK * blocks);
                assert_eq!((sheet[2], Width::of(&sheet)), (width.kinds()[0], width), "{blocks}");
            }
        }
    }

    #[test]
    fn labels_at_every_number() {
        for number in [2, 3, 4, 85, 86, 87, 4096, 4097, 4098, 4145, 4146, 4194, 4195, 4196, 6000, 8323, 8324, 8371, 8372] {
            let sheet = sheet_with_labels(number);
            assert_eq!((sheet[BLOCK * number + 2], sheet[BLOCK * number]), (OF_LABELS, number as u8), "{number}");
        }
    }

    #[test]
    fn each_torn_block_of_labels_is_found() {
        // 200 traces of one sample: block 1 has samples, 2 to 4 have labels
        let sheet = written(Width::Narrow, 1, 200, Label { code: 7, serial: 8 });
        assert_eq!((sheet.len(), torn(&sheet)), (5 * BLOCK, vec![]));
        for places in [vec![2], vec![4], vec![1, 2, 3, 4], vec![0, 3], vec![2, 4]] {
            let mut damaged = sheet.clone();
            places.iter().for_each(|place| damaged[BLOCK * place + 40] ^= 4);
            assert_eq!(torn(&damaged), places);
        }
        // samples behind labels are torn
        let others = written(Width::Narrow, 256, 9, Label::default());
        let mixed = [&sheet[..5 * BLOCK], &others[5 * BLOCK..7 * BLOCK]].concat();
        assert_eq!(torn(&mixed), [5, 6]);
    }

    #[test]
    fn each_torn_block_is_found() {
        for width in [Width::Narrow, Width::Wide] {
            let sheet = sound_sheet(width, 300);
            let size = sheet.len() / BLOCK;
            assert_eq!(torn(&sheet), []);
            assert_eq!(torn(&sheet[..700]), []);
            let mut damaged = sheet.clone();
            let places = [0, 1, 17, 18, 200, size - 2, size - 1];
            for place in places {
                damaged[BLOCK * place + 40 + place] ^= 4;
            }
            assert_eq!(torn(&damaged), places);
            assert_eq!(torn(&damaged[..BLOCK * 100 + 9]), [0, 1, 17, 18]);
            damaged.iter_mut().for_each(|byte| *byte ^= 0x55);
            assert_eq!(torn(&damaged).len(), size);
        }
    }

    /// Blocks of another width are torn: those of samples by block 0, and block 0 by none.
    #[test]
    fn blocks_of_another_width() {
        let [narrow, wide] = [Width::Narrow, Width::Wide].map(|width| sound_sheet(width, 5));
        let mixed = [&narrow[..3 * BLOCK], &wide[3 * BLOCK..4 * BLOCK], &narrow[4 * BLOCK..5 * BLOCK]].concat();
        assert_eq!(torn(&mixed), [3]);
        let mixed = [&wide[..BLOCK], &narrow[BLOCK..3 * BLOCK]].concat();
        assert_eq!(torn(&mixed), [1, 2]);
        // block 0 with the other kind, and so a wrong check: the others say what the sheet is
        for (sheet, kind) in [(narrow, 3), (wide, 1)] {
            let mut damaged = sheet;
            damaged[2] = kind;
            assert_eq!(torn(&damaged), [0]);
        }
    }
}
