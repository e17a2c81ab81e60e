//! What a torn sheet can't hide: one byte changed, and two unequal bytes of one block exchanged, at every place of a block of each kind.
//! The refusal is 9 with that block's number, from the calls, from the library and from the bench program.

mod bench;
mod common;

use bench::Folder;
use common::{check_write, junk, longer, measures, read_sheet};
use silkendoz::{Refusal, TraceLibrary};
use testing::model::sheet::{check, need};
use testing::model::tables::{needs, Lengths, Tables};
use testing::model::Library;
use testing::random::{label, traces, Random, Shape};

const BLOCK: usize = 512;
/// Where a block's check stands.
const CHECK: usize = 510;
const MODULUS: i64 = 65_521;

/// A sheet, and tables that it may be read into.
struct Written {
    sheet: Vec<u8>,
    lengths: Lengths,
}

/// What the calls write: block 0, samples that fill block 1, and labels in block 2 unless they are left out.
fn written(random: &mut Random, shape: Shape, n: usize, count: usize, labelled: bool) -> Written {
    let labels: Vec<_> = (0..count).map(|_| label(random)).collect();
    let plain = Library::of(measures(n, count + 3, 2), &traces(random, shape, n, count));
    let library = if labelled { plain.labelled(&labels) } else { plain };
    let tables = Tables::of(&library);
    let mut sheet = vec![0; need(&library)];
    check_write(&tables, tables.lengths(), &mut sheet).unwrap();
    Written { sheet, lengths: longer(needs(library.measures), 2) }
}

/// Kinds 1, 2 and 5 in the one sheet, 3, 4 and 5 in the other.
fn both_widths() -> [Written; 2] {
    let random = &mut Random::seeded(141);
    let both = [written(random, Shape::Uniform, 23, 11, true), written(random, Shape::Wide, 9, 14, true)];
    for (one, kinds) in both.iter().zip([[1, 2, 5], [3, 4, 5]]) {
        assert_eq!(one.sheet.chunks(BLOCK).map(|block| block[2]).collect::<Vec<_>>(), kinds);
        assert_eq!(read_sheet(&mut junk(one.lengths), one.lengths, &one.sheet), Ok(()), "as it was written it is read");
    }
    both
}

/// Five sheets: those, one of each width without labels, and the example's, which the bench program wrote.
fn five_sheets() -> Vec<Written> {
    let random = &mut Random::seeded(145);
    let plain = [written(random, Shape::Uniform, 23, 11, false), written(random, Shape::Wide, 9, 14, false)];
    assert_eq!(plain.each_ref().map(|one| one.sheet.chunks(BLOCK).map(|block| block[2]).collect::<Vec<_>>()), [vec![1, 2], vec![3, 4]]);
    let sheet = std::fs::read(concat!(env!("CARGO_MANIFEST_DIR"), "/../examples/faults.sheet")).unwrap();
    let library = TraceLibrary::read_sheet(&sheet).expect("as it was written it is read");
    let lengths = longer(needs(measures(library.n(), library.capacity(), library.leaf_size())), 2);
    both_widths().into_iter().chain(plain).chain([Written { sheet, lengths }]).collect()
}

/// Tries damaged sheets: each is refused with 9 and the block, and the tables that it was to be read into stay. How many there are is the
/// answer.
fn all_refused(one: &Written, block: usize, damages: impl Iterator<Item = [(usize, u8); 2]>) -> usize {
    let mut tables = junk(one.lengths);
    let mut damaged = one.sheet.clone();
    let mut tried = 0;
    for damage in damages {
        damage.iter().for_each(|&(place, byte)| damaged[block * BLOCK + place] = byte);
        assert_eq!(read_sheet(&mut tables, one.lengths, &damaged), Err((9, block as u64)), "{damage:?}");
        assert_eq!(TraceLibrary::read_sheet(&damaged).err(), Some(Refusal::TornBlock(block as u64)), "{damage:?}");
        damage.iter().for_each(|&(place, _)| damaged[block * BLOCK + place] = one.sheet[block * BLOCK + place]);
        tried += 1;
    }
    assert_eq!(damaged, one.sheet);
    assert_eq!(tables, junk(one.lengths), "a refused reading leaves everything");
    tried
}

/// Every other value of every byte of a block. (The damage says its one byte twice.)
fn single_bytes(block: &[u8]) -> impl Iterator<Item = [(usize, u8); 2]> + '_ {
    let others = move |place: usize| (0..=255).filter(move |&byte| byte != block[place]);
    (0..BLOCK).flat_map(move |place| others(place).map(move |byte| [(place, byte); 2]))
}

/// Every two unequal bytes of a block, each at the other's place.
fn exchanges(block: &[u8]) -> impl Iterator<Item = [(usize, u8); 2]> + '_ {
    let pairs = (0..BLOCK).flat_map(|p| (p + 1..BLOCK).map(move |q| (p, q)));
    pairs.filter(|&(p, q)| block[p] != block[q]).map(|(p, q)| [(p, block[q]), (q, block[p])])
}

#[test]
fn every_byte() {
    for one in five_sheets() {
        for (number, block) in one.sheet.chunks(BLOCK).enumerate() {
            assert_eq!(all_refused(&one, number, single_bytes(block)), BLOCK * 255);
        }
    }
}

#[test]
fn every_exchange() {
    for one in five_sheets() {
        for (number, block) in one.sheet.chunks(BLOCK).enumerate() {
            let mut times = [0; 256];
            block.iter().for_each(|&byte| times[usize::from(byte)] += 1);
            let equal: usize = times.iter().map(|many| many * (many - usize::from(*many > 0)) / 2).sum();
            assert_eq!(all_refused(&one, number, exchanges(block)), BLOCK * (BLOCK - 1) / 2 - equal);
        }
    }
}

/// A block of zeros, and a block in another's place, whatever then stands in its own.
#[test]
fn zeros_and_misplaced_blocks() {
    for one in both_widths() {
        let blocks: Vec<&[u8]> = one.sheet.chunks(BLOCK).collect();
        let refused = |blocks: &[&[u8]]| read_sheet(&mut junk(one.lengths), one.lengths, &blocks.concat()).unwrap_err();
        for to in 0..blocks.len() {
            let mut damaged = blocks.clone();
            damaged[to] = &[0; BLOCK];
            assert_eq!(refused(&damaged), (9, to as u64));
            for from in (0..blocks.len()).filter(|&from| from != to) {
                damaged[to] = blocks[from];
                assert_eq!(refused(&damaged), (9, to as u64));
                let mut exchanged = blocks.clone();
                exchanged.swap(from, to);
                assert_eq!(refused(&exchanged), (9, from.min(to) as u64));
            }
        }
    }
}

/// The number that times a number leaves 1, modulo the check's.
fn inverse(of: i64) -> i64 {
    // 65,521 is prime: the power that is two less
    let (mut power, mut square, mut left) = (1, of % MODULUS, MODULUS - 2);
    while left > 0 {
        if left % 2 == 1 {
            power = power * square % MODULUS;
        }
        square = square * square % MODULUS;
        left /= 2;
    }
    power
}

/// The changes of two bytes of a block, both to others, that leave its check right.
fn hidden(block: &[u8]) -> Vec<[(usize, u8); 2]> {
    let backs: Vec<i64> = (0..CHECK).map(|place| inverse(place as i64 + 1)).collect();
    let stated = check(block);
    let mut found = Vec::new();
    for p in 0..CHECK {
        for byte in (0..=255u8).filter(|&byte| byte != block[p]) {
            let moved = (p as i64 + 1) * (i64::from(byte) - i64::from(block[p]));
            // the other one before the check: it takes back what this one adds
            for q in p + 1..CHECK {
                let by = (-moved).rem_euclid(MODULUS) * backs[q] % MODULUS;
                let other = [by, by - MODULUS].into_iter().find_map(|by| u8::try_from(i64::from(block[q]) + by).ok());
                found.extend(other.map(|other| [(p, byte), (q, other)]));
            }
            // .. or of the check, whose other byte stays
            let right = ((stated as i64 + moved).rem_euclid(MODULUS) as u16).to_le_bytes();
            let differ: Vec<usize> = (0..2).filter(|&at| right[at] != block[CHECK + at]).collect();
            if let [at] = differ[..] {
                found.push([(p, byte), (CHECK + at, right[at])]);
            }
        }
    }
    found
}

/// Beyond the request: two changed bytes may leave the check right. The guide says how many of a block's such changes do.
#[test]
fn two_changed_bytes() {
    let [one, _] = both_widths();
    let found = hidden(&one.sheet[BLOCK..2 * BLOCK]);
    let all = BLOCK * (BLOCK - 1) / 2 * 255 * 255;
    assert_eq!((found.len(), all), (286_449, 8_506_310_400));
    let neighbours = found.iter().filter(|[(p, _), (q, _)]| p + 1 == *q).count();
    assert_eq!((neighbours, (BLOCK - 1) * 255 * 255), (642, 33_227_775));
    for damage in found.iter().filter(|damage| damage[0].0 >= 4).step_by(997) {
        let mut damaged = one.sheet.clone();
        damage.iter().for_each(|&(place, byte)| damaged[BLOCK + place] = byte);
        let read = TraceLibrary::read_sheet(&damaged).expect("the check does not see it");
        assert_eq!(read.write_sheet().unwrap(), damaged, "{damage:?}");
    }
}

/// `check` names the block: of every second place, changed; and of some, exchanged with the next byte that is not equal or with those of
/// the check.
#[test]
fn at_the_bench() {
    let folder = Folder::new("torn");
    for (at, one) in both_widths().iter().enumerate() {
        for (number, block) in one.sheet.chunks(BLOCK).enumerate() {
            let next = |p: usize| (p + 1..BLOCK).find(|&q| block[q] != block[p]);
            let pairs = (0..BLOCK).step_by(10).flat_map(|p| next(p).into_iter().chain([510, 511]).map(move |q| (p, q)));
            let exchanged = pairs.filter(|&(p, q)| block[p] != block[q]).map(|(p, q)| [(p, block[q]), (q, block[p])]);
            let changed = (0..BLOCK).filter(|&p| p % 2 == at || p >= CHECK).map(|p| [(p, block[p] ^ 1 << (p % 8)); 2]);
            let damages: Vec<_> = changed.chain(exchanged).collect();
            let mut words = vec!["check".to_string(), "--json".to_string()];
            for (i, damage) in damages.iter().enumerate() {
                let mut damaged = one.sheet.clone();
                damage.iter().for_each(|&(place, byte)| damaged[number * BLOCK + place] = byte);
                words.push(format!("{at}-{number}-{i}.sheet"));
                folder.write(&words[i + 2], damaged);
            }
            let ran = folder.run(&words);
            assert_eq!((ran.status, ran.err.as_str()), (1, ""));
            let named = format!("\"refusal\": 9, \"torn_blocks\": [{number}],");
            assert_eq!(ran.out.matches(&named).count(), damages.len(), "sheet {at}, block {number}");
        }
    }
}
