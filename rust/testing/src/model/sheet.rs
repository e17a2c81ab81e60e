//! Sheets, and the line that the program prints of one.

use super::{within, Label, Library, Measures, Refused, Trace, NARROW_LIMIT, SAMPLE_LIMIT};

/// How a sheet has its samples.
#[derive(Clone, Copy, Debug, PartialEq, Eq)]
pub enum Width {
    Narrow,
    Wide,
}

impl Width {
    /// Document 02, §9: "A library whose samples all fit 16 bits is written as before. Any other uses kind 3 for block 0 and kind 4 for
    /// samples, 126 per block, four bytes each in two's complement."
    pub fn of(traces: &[Trace]) -> Width {
        match traces.iter().all(|trace| within(NARROW_LIMIT, trace)) {
            true => Width::Narrow,
            false => Width::Wide,
        }
    }

    /// What a kind of block 0 says.
    fn said(kind: u8) -> Option<Width> {
        [Width::Narrow, Width::Wide].into_iter().find(|width| width.kinds()[0] == kind)
    }

    /// The kinds of block 0 and of a block of samples.
    pub fn kinds(self) -> [u8; 2] {
        match self {
            Width::Narrow => [1, 2],
            Width::Wide => [3, 4],
        }
    }

    /// Bytes a sample.
    pub fn bytes(self) -> usize {
        match self {
            Width::Narrow => 2,
            Width::Wide => 4,
        }
    }

    /// Samples a block.
    pub fn a_block(self) -> usize {
        match self {
            Width::Narrow => 253,
            Width::Wide => 126,
        }
    }

    fn written(self, sample: i32) -> Vec<u8> {
        sample.to_le_bytes()[..self.bytes()].to_vec()
    }

    /// The number that these bytes are "in two's complement".
    fn sample(self, bytes: &[u8]) -> i32 {
        match self {
            Width::Narrow => i16::from_le_bytes([bytes[0], bytes[1]]).into(),
            Width::Wide => i32::from_le_bytes([bytes[0], bytes[1], bytes[2], bytes[3]]),
        }
    }
}

/// "With k traces there are 1 + (k × n / 253 rounded up) blocks", or so many of 126. Those of labels come behind them.
pub fn blocks_needed(width: Width, k: u64, n: u64) -> usize {
    1 + ((k * n) as usize).div_ceil(width.a_block())
}

/// Document 02, §8: "84 labels of 6 bytes each". So many blocks have all labels of k traces.
pub fn all_label_blocks(k: u64) -> usize {
    k.div_ceil(84) as usize
}

/// "None are written when every label is zero".
pub fn label_blocks(labels: &[Label]) -> usize {
    if labels.iter().all(|label| *label == Label::default()) {
        return 0;
    }
    all_label_blocks(labels.len() as u64)
}

/// How many bytes a library's sheet has.
pub fn need(library: &Library) -> usize {
    let width = Width::of(&library.traces);
    512 * (blocks_needed(width, library.traces.len() as u64, library.measures.n) + label_blocks(&library.labels))
}

/// "total of (position + 1) × byte over positions 0 to 509, modulo 65,521"
pub fn check(block: &[u8]) -> u64 {
    block[..510].iter().enumerate().map(|(position, &byte)| (position as u64 + 1) * u64::from(byte)).sum::<u64>() % 65_521
}

/// Writes the check into a block's last two bytes.
pub fn seal(block: &mut [u8]) {
    let value = check(block) as u16;
    block[510..512].copy_from_slice(&value.to_le_bytes());
}

fn field(bytes: &[u8], at: usize) -> u64 {
    u64::from(bytes[at]) + 256 * u64::from(bytes[at + 1])
}

/// A block of a kind with these bytes from byte 4 on, sealed.
pub fn block(number: usize, kind: u8, bytes: &[u8]) -> [u8; 512] {
    let mut block = [0u8; 512];
    block[0..2].copy_from_slice(&(number as u16).to_le_bytes());
    block[2] = kind;
    block[4..4 + bytes.len()].copy_from_slice(bytes);
    seal(&mut block);
    block
}

/// The letters, the measures and the count, as block 0 has them from byte 4 on.
pub fn head(m: Measures, count: u64) -> Vec<u8> {
    let fields = [m.n, m.capacity, m.leaf_size, count].map(|value| (value as u16).to_le_bytes());
    [&b"TRCL"[..], &fields.concat()].concat()
}

/// A label's "6 bytes each .., code first".
pub fn label_bytes(label: Label) -> Vec<u8> {
    [&label.code.to_le_bytes()[..], &label.serial.to_le_bytes()].concat()
}

/// The sheet of traces with no label.
pub fn write(m: Measures, traces: &[Trace]) -> Vec<u8> {
    write_labelled(m, traces, &vec![Label::default(); traces.len()])
}

/// The sheet of a library: "labels follow the samples in blocks of kind 5, 84 labels of 6 bytes each from byte 4, code first".
pub fn write_labelled(m: Measures, traces: &[Trace], labels: &[Label]) -> Vec<u8> {
    write_as(Width::of(traces), m, traces, labels)
}

/// .. of a width, be it the wrong one.
pub fn write_as(width: Width, m: Measures, traces: &[Trace], labels: &[Label]) -> Vec<u8> {
    let [first, kind] = width.kinds();
    let samples: Vec<u8> = traces.concat().iter().flat_map(|&sample| width.written(sample)).collect();
    let told: Vec<u8> = labels.iter().flat_map(|&label| label_bytes(label)).collect();
    let sample_blocks = samples.chunks(width.bytes() * width.a_block()).map(|bytes| (kind, bytes.to_vec()));
    let label_blocks = told.chunks(6 * 84).take(label_blocks(labels)).map(|bytes| (5, bytes.to_vec()));
    let all = std::iter::once((first, head(m, traces.len() as u64))).chain(sample_blocks).chain(label_blocks);
    all.enumerate().flat_map(|(number, (kind, bytes))| block(number, kind, &bytes)).collect()
}

/// n, capacity and leaf size as a sheet's first block has them, if there are such bytes.
pub fn measures(bytes: &[u8]) -> Option<Measures> {
    (bytes.len() >= 14).then(|| Measures { n: field(bytes, 8), capacity: field(bytes, 10), leaf_size: field(bytes, 12) })
}

/// What a sheet holds.
#[derive(Clone, Debug, PartialEq, Eq)]
pub struct Sheet {
    pub measures: Measures,
    pub traces: Vec<Trace>,
    pub labels: Vec<Label>,
}

/// What a sheet holds, or the refusal: 8; 9 over all blocks; 10; 15.
pub fn read(bytes: &[u8]) -> Result<Sheet, Refused> {
    // "Number 8's limit is 8,373 blocks."
    if bytes.is_empty() || !bytes.len().is_multiple_of(512) || bytes.len() / 512 > 8373 {
        return Err((8, 0));
    }
    let blocks: Vec<&[u8]> = bytes.chunks(512).collect();
    for (number, block) in blocks.iter().enumerate() {
        if field(block, 510) != check(block) || field(block, 0) != number as u64 || !kind_fits(&blocks, number) {
            return Err((9, number as u64));
        }
    }
    let sheet = judge_blocks(&blocks).ok_or((10, 0))?;
    // "15 sample range, for an .. sheet with a sample outside the limits, .. on sheets after 10"
    match sheet.traces.iter().all(|trace| within(SAMPLE_LIMIT, trace)) {
        true => Ok(sheet),
        false => Err((15, 0)),
    }
}

/// Block 0 is of kind 1 or 3, the others are samples or labels (5). "A sample block after a label block is a wrong kind"; "A sample block
/// whose kind doesn't go with block 0's is a wrong kind."
fn kind_fits(blocks: &[&[u8]], number: usize) -> bool {
    let kind = blocks[number][2];
    let Some(width) = Width::said(blocks[0][2]) else { return number > 0 };
    match number {
        0 => true,
        _ if kind == 5 => true,
        _ => kind == width.kinds()[1] && blocks[..number].iter().all(|before| before[2] != 5),
    }
}

/// What blocks hold that are all sound, if they are a sheet.
fn judge_blocks(blocks: &[&[u8]]) -> Option<Sheet> {
    let of_kind = |kind: u8| blocks.iter().filter(|block| block[2] == kind).copied().collect::<Vec<&[u8]>>();
    let width = Width::said(blocks[0][2])?;
    let (head, samples, labels) = (blocks[0], of_kind(width.kinds()[1]), of_kind(5));
    let m = measures(head).expect("a block is longer than that");
    let count = field(head, 14);
    if &head[4..8] != b"TRCL" || !m.in_range() || count > m.capacity {
        return None;
    }
    // "how many there are of each is tested under 10": "all its label blocks or none"
    if 1 + samples.len() != blocks_needed(width, count, m.n) || (!labels.is_empty() && labels.len() != all_label_blocks(count)) {
        return None;
    }
    // "All else is 0."
    let told = if labels.is_empty() { 0 } else { 6 * count as usize };
    if blocks.iter().any(|block| block[3] != 0) || head[16..510].iter().any(|&byte| byte != 0) {
        return None;
    }
    let cells = filled(&samples, width.bytes() * width.a_block(), width.bytes() * (count * m.n) as usize)?;
    let label_cells = filled(&labels, 6 * 84, told)?;
    // "a sheet whose label blocks together hold only zero labels is refused as 10"
    if !labels.is_empty() && label_cells.iter().all(|&byte| byte == 0) {
        return None;
    }
    let samples: Vec<i32> = cells.chunks(width.bytes()).map(|c| width.sample(c)).collect();
    let traces: Vec<Trace> = samples.chunks(m.n as usize).map(<[i32]>::to_vec).collect();
    // "A wide sheet whose samples all fit 16 bits is refused as 10."
    if Width::of(&traces) != width {
        return None;
    }
    let mut list: Vec<Label> = label_cells.chunks(6).map(said).collect();
    list.resize(count as usize, Label::default());
    Some(Sheet { measures: m, traces, labels: list })
}

/// The label that six bytes say.
fn said(bytes: &[u8]) -> Label {
    Label { code: u16::from_le_bytes([bytes[0], bytes[1]]), serial: u32::from_le_bytes([bytes[2], bytes[3], bytes[4], bytes[5]]) }
}

/// The first `used` bytes of all cells of these blocks, each of which has `room` bytes for them from byte 4 on; nothing if any byte behind
/// them is not 0.
fn filled(blocks: &[&[u8]], room: usize, used: usize) -> Option<Vec<u8>> {
    let cells: Vec<u8> = blocks.iter().flat_map(|block| block[4..4 + room].to_vec()).collect();
    let behind = blocks.iter().flat_map(|block| &block[4 + room..510]);
    (cells[used..].iter().chain(behind).all(|&byte| byte == 0)).then(|| cells[..used].to_vec())
}

/// "It prints one line, in decimal with single spaces: trace, distance, leaves, traces read. .. A refusal prints `refused`, number, place."
pub fn program_line(input: &[u8]) -> String {
    match answer(input) {
        Ok([trace, distance, leaves, traces]) => format!("{trace} {distance} {leaves} {traces}"),
        Err((number, place)) => format!("refused {number} {place}"),
    }
}

fn answer(input: &[u8]) -> Result<[i128; 4], Refused> {
    // "one sheet of at most 65,536 bytes"; "a longer input is refusal 8, a larger n or capacity refusal 2"
    if input.len() > 65_536 {
        return Err((8, 0));
    }
    let Sheet { measures: m, mut traces, .. } = read(input)?;
    if m.n > 64 || m.capacity > 64 {
        return Err((2, 0));
    }
    // "Its last trace is the query, the earlier ones the library." "No earlier trace is refusal 6"
    let query = traces.pop().ok_or((6, 0))?;
    let found = Library::of(m, &traces).nearest(&query).ok_or((6, 0))?;
    Ok([found.trace as i128, found.distance, found.leaves as i128, found.traces as i128])
}

#[cfg(test)]
mod tests {
    use super::*;

    const SMALL: Measures = Measures { n: 1, capacity: 8, leaf_size: 2 };

    #[test]
    fn checks_of_the_example() {
        let sheet = write(SMALL, &[vec![-1]]);
        assert_eq!((check(&sheet[..512]), check(&sheet[512..])), (2130, 2812));
        assert_eq!(read(&sheet), Ok(Sheet { measures: SMALL, traces: vec![vec![-1]], labels: vec![Label::default()] }));
    }

    #[test]
    fn the_largest_sheet() {
        assert_eq!((blocks_needed(Width::Narrow, 4096, 256), all_label_blocks(4096)), (4146, 49));
        assert_eq!(blocks_needed(Width::Wide, 4096, 256) + all_label_blocks(4096), 8373);
    }

    #[test]
    fn samples_of_four_bytes() {
        let sheet = write(SMALL, &[vec![-1], vec![32_768], vec![-524_288]]);
        assert_eq!((sheet.len(), sheet[2], sheet[512 + 2]), (1024, 3, 4));
        assert_eq!(sheet[512 + 4..512 + 16], [255, 255, 255, 255, 0, 128, 0, 0, 0, 0, 248, 255]);
        assert_eq!(read(&sheet).map(|held| held.traces), Ok(vec![vec![-1], vec![32_768], vec![-524_288]]));
        assert_eq!(write(SMALL, &[vec![-1], vec![32_767]])[2], 1);
        let wide = |traces: &[Trace]| read(&write_as(Width::Wide, SMALL, traces, &vec![Label::default(); traces.len()]));
        assert_eq!([wide(&[]), wide(&[vec![32_767]]), wide(&[vec![524_288], vec![0]])], [Err((10, 0)), Err((10, 0)), Err((15, 0))]);
        assert_eq!(wide(&[vec![786_432]]), Err((15, 0)));
    }

    #[test]
    fn labels_behind_the_samples() {
        let label = Label { code: 0x0102, serial: 0x0304_0506 };
        let sheet = write_labelled(SMALL, &[vec![-1], vec![7]], &[Label::default(), label]);
        assert_eq!(sheet.len(), 3 * 512);
        assert_eq!(sheet[1024..1040], [2, 0, 5, 0, 0, 0, 0, 0, 0, 0, 2, 1, 6, 5, 4, 3]);
        assert_eq!(read(&sheet).map(|held| held.labels), Ok(vec![Label::default(), label]));
    }

    #[test]
    fn the_line_of_the_example() {
        let traces = [vec![0, 0, 0, 0], vec![4, 4, 4, 4], vec![0, 8, 0, 8], vec![1, 1, 1, 1]];
        let m = Measures { n: 4, capacity: 8, leaf_size: 2 };
        assert_eq!(program_line(&write(m, &traces)), "0 4 1 1");
        assert_eq!(program_line(&write_labelled(m, &traces, &[Label { code: 1, serial: 2 }; 4])), "0 4 1 1");
        assert_eq!(program_line(&[]), "refused 8 0");
        assert_eq!(program_line(&write(m, &[])), "refused 6 0");
    }
}
