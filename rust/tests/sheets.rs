//! Sheets written, read, and damaged at every byte, with labels and without: the calls against the model.

mod common;

use common::{check_add, check_label, check_nearest, check_open, check_read, check_write, junk, longer, measures, sheet_vectors};
use silkendoz::{Label as Given, Refusal, StoredSample, TraceLibrary};
use testing::model::sheet::{block, blocks_needed, check, head, label_bytes, need, seal, write, write_as, write_labelled, Width};
use testing::model::tables::{needs, Lengths, Tables};
use testing::model::{Label, Library, Measures, Trace};
use testing::random::{label, labels, query, traces, Random, Shape, SHAPES};

fn made(random: &mut Random, shape: Shape, m: Measures, count: usize) -> (Library, Tables) {
    let library = Library::of(m, &traces(random, shape, m.n as usize, count)).labelled(&labels(random, count));
    let tables = Tables::of(&library);
    (library, tables)
}

/// A library's sheet by the model.
fn sheet_of(library: &Library) -> Vec<u8> {
    write_labelled(library.measures, &library.traces, &library.labels)
}

/// Small sheets of both widths: none, one and several traces, samples that run on across blocks, and a last block that is just full; with labels, and with
/// none.
fn small(random: &mut Random) -> Vec<(Library, Vec<u8>)> {
    let narrow = [(1, 8, 2, 1), (4, 8, 2, 0), (4, 8, 2, 3), (100, 9, 1, 6), (253, 3, 1, 2), (23, 11, 3, 11), (256, 2, 64, 2)];
    let wide = [(1, 8, 2, 1), (4, 8, 2, 3), (126, 3, 1, 2), (50, 9, 1, 6), (9, 2, 64, 2)];
    let both = narrow.map(|sizes| (Shape::Uniform, sizes)).into_iter().chain(wide.map(|sizes| (Shape::Wide, sizes)));
    both.flat_map(|(shape, (n, capacity, leaf_size, count))| {
        let plain = Library::of(measures(n, capacity, leaf_size), &traces(random, shape, n, count));
        let any: Vec<Label> = (0..count).map(|_| label(random)).collect();
        [plain.clone().labelled(&any), plain]
    })
    .map(|library| (library.clone(), sheet_of(&library)))
    .collect()
}

/// Tables for any of the small sheets, and longer.
fn room() -> Lengths {
    longer(needs(measures(256, 12, 1)), 5)
}

#[test]
fn written_and_read() {
    let random = &mut Random::seeded(41);
    for shape in SHAPES {
        for (n, capacity, leaf_size, count) in [(1, 9, 1, 9), (5, 20, 3, 17), (64, 12, 2, 12), (256, 6, 64, 5), (8, 1, 1, 1), (8, 3, 1, 0)] {
            let (library, t) = made(random, shape, measures(n, capacity, leaf_size), count);
            let need = need(&library);
            for size in [0, 1, need - 512, need - 1, need, need + 1, need + 700] {
                let mut sheet = vec![0xc3; size];
                let answer = check_write(&t, t.lengths(), &mut sheet);
                assert_eq!(answer.is_ok(), size >= need);
                if size == need {
                    let l = longer(needs(library.measures), 2);
                    let mut again = junk(longer(l, 1));
                    assert_eq!(check_read(&mut again, l, &sheet).as_ref(), Ok(&library));
                    let q: Trace = query(random, shape, n, &library.traces);
                    let mut trail = vec![0; capacity];
                    let _ = check_nearest(&mut again, l, &mut trail, &q);
                    let _ = check_add(&mut again, l, &q);
                }
            }
        }
    }
}

/// The verdict on any bytes is the model's, with the check as it was and with the check put right.
fn judged(t: &mut Tables, damaged: &mut [u8], block: usize) {
    let l = room();
    let before = t.clone();
    if check_read(t, l, damaged).is_ok() {
        t.clone_from(&before);
    }
    seal(&mut damaged[512 * block..512 * (block + 1)]);
    if check_read(t, l, damaged).is_ok() {
        t.clone_from(&before);
    }
}

#[test]
fn damaged_at_every_byte() {
    let random = &mut Random::seeded(42);
    let mut t = junk(room());
    for (_, sheet) in small(random) {
        for at in 0..sheet.len() {
            for value in [sheet[at] ^ 1, sheet[at] ^ 0x80, !sheet[at], 0, 1, 2, 0xff] {
                if value == sheet[at] {
                    continue;
                }
                let mut damaged = sheet.clone();
                damaged[at] = value;
                judged(&mut t, &mut damaged, at / 512);
            }
        }
    }
}

#[test]
fn damaged_in_several_places() {
    let random = &mut Random::seeded(43);
    let mut t = junk(room());
    for (_, sheet) in small(random) {
        for _ in 0..400 {
            let mut damaged = sheet.clone();
            let blocks = damaged.len() / 512;
            for _ in 0..1 + random.below(3) {
                let head = random.once_in(2);
                let at = if head { random.below(20) } else { random.below(damaged.len()) };
                damaged[at] = *random.pick(&[0, 1, 2, 4, 16, 64, 65, 255]);
            }
            let block = random.below(blocks);
            if random.once_in(3) {
                (0..blocks).for_each(|b| seal(&mut damaged[512 * b..512 * (b + 1)]));
            }
            judged(&mut t, &mut damaged, block);
        }
        // blocks that change places, come twice or are left out
        let blocks: Vec<&[u8]> = sheet.chunks(512).collect();
        for a in 0..blocks.len() {
            for b in 0..blocks.len() {
                let mut other = blocks.clone();
                other.swap(a, b);
                let _ = check_read(&mut junk(room()), room(), &other.concat());
                other.push(blocks[a]);
                let _ = check_read(&mut junk(room()), room(), &other.concat());
                other.remove(b);
                let _ = check_read(&mut junk(room()), room(), &other.concat());
            }
        }
    }
}

/// The value plus 65,521, which two bytes can hold for values below 15, is wrong too.
#[test]
fn the_check_itself() {
    for (sample, value) in [(0, 7), (1, 12), (256, 13)] {
        let mut sheet = write(measures(1, 9, 1), &[vec![sample]]);
        assert_eq!(check(&sheet[512..]), value);
        assert!(check_read(&mut junk(room()), room(), &sheet).is_ok());
        sheet[1022..1024].copy_from_slice(&((value + 65_521) as u16).to_le_bytes());
        assert_eq!(check_read(&mut junk(room()), room(), &sheet), Err((9, 1)));
    }
}

#[test]
fn lengths_of_sheets() {
    let random = &mut Random::seeded(45);
    let mut t = junk(room());
    for (_, sheet) in small(random) {
        for size in 0..sheet.len() {
            let _ = check_read(&mut t, room(), &sheet[..size]).map(|_| t = junk(room()));
        }
        for more in [1, 511, 512, 513, 1024] {
            let longer = [&sheet[..], &vec![0; more]].concat();
            assert!(check_read(&mut t, room(), &longer).is_err());
        }
    }
    assert_eq!(check_read(&mut t, room(), &vec![0; 512 * 8374]), Err((8, 0)));
    assert_eq!(check_read(&mut t, room(), &vec![0; 512 * 8373]), Err((9, 0)));
    // sound blocks, more than any narrow sheet has: 8's limit is that of wide ones, and so they are 10
    let mut many = block(0, 1, &head(measures(256, 4096, 64), 4096)).to_vec();
    many.extend((1..8374).flat_map(|number| block(number, 2, &[])));
    for (blocks, refusal) in [(4147, 10), (4195, 10), (4196, 10), (8373, 10), (8374, 8)] {
        assert_eq!(check_read(&mut t, room(), &many[..512 * blocks]), Err((refusal, 0)));
    }
}

#[test]
fn short_tables() {
    let random = &mut Random::seeded(46);
    for (library, sheet) in small(random) {
        let need = needs(library.measures);
        for table in 0..6 {
            let mut l = need;
            *l.each()[table] -= 1;
            assert_eq!(check_read(&mut junk(need), l, &sheet), Err((2, 0)));
            // a torn or a bad sheet comes first
            let mut torn = sheet.clone();
            torn[5] ^= 1;
            assert_eq!(check_read(&mut junk(need), l, &torn), Err((9, 0)));
            seal(&mut torn[..512]);
            assert_eq!(check_read(&mut junk(need), l, &torn), Err((10, 0)));
        }
        assert!(check_read(&mut junk(need), need, &sheet).is_ok());
    }
}

/// Tables that no call made, and spoiled ones.
#[test]
fn writing_other_tables() {
    let random = &mut Random::seeded(47);
    let (library, t) = made(random, Shape::Walk, measures(9, 12, 2), 11);
    let need = need(&library);
    for place in 0..usize::from(t.control[4]) * 87 {
        for value in [-1, 0, 1, 2, 3, 9, 1 << 40] {
            let mut altered = t.clone();
            altered.nodes[place] = value;
            let mut sheet = vec![1; need];
            let _ = check_write(&altered, altered.lengths(), &mut sheet);
        }
    }
    let mut t = t;
    let l = t.lengths();
    assert_eq!(check_open(&mut t, l, library.measures), Ok(()));
    assert_eq!(check_write(&t, l, &mut [0; 512]), Ok(1));
}

#[test]
fn the_largest_sheet() {
    let random = &mut Random::seeded(48);
    let labels: Vec<Label> = (0..4096).map(|_| label(random)).collect();
    for (shape, labelled, blocks) in [(Shape::Walk, false, 4146), (Shape::Walk, true, 4195), (Shape::WideClusters, true, 8373)] {
        let stored = traces(random, shape, 256, 4096);
        let mut library = TraceLibrary::open(256, 4096, 64).unwrap();
        for (trace, &Label { code, serial }) in stored.iter().zip(&labels) {
            let number = if labelled { library.add_labelled(trace, Given { code, serial }) } else { library.add(trace) };
            number.unwrap();
        }
        let sheet = library.write_sheet().unwrap();
        let labels = if labelled { labels.clone() } else { vec![Label::default(); 4096] };
        assert_eq!(sheet.len(), 512 * blocks);
        assert!(sheet == write_labelled(measures(256, 4096, 64), &stored, &labels));
        assert!(TraceLibrary::read_sheet(&sheet).unwrap() == library);
    }
}

// ---- blocks of labels

/// Tables for so many traces of one sample.
fn room_for(count: usize) -> Lengths {
    needs(measures(1, count.max(1), 9))
}

/// Counts of labels about a block's 84: written, read back, and each label told. A label anywhere makes all blocks.
#[test]
fn labels_about_a_block() {
    let random = &mut Random::seeded(51);
    for count in [1, 2, 83, 84, 85, 167, 168, 169] {
        let l = room_for(count);
        for at in [None, Some(0), Some(count / 2), Some(count - 1)] {
            let mut told = vec![Label::default(); count];
            if let Some(at) = at {
                told[at] = *random.pick(&[Label { code: 1, serial: 0 }, Label { code: 0, serial: 1 << 31 }]);
            }
            let stored: Vec<Trace> = (0..count).map(|t| vec![t as i32]).collect();
            let library = Library::of(measures(1, count, 9), &stored).labelled(&told);
            let mut sheet = vec![0xc3; need(&library)];
            let blocks = blocks_needed(Width::Narrow, count as u64, 1) + if at.is_some() { count.div_ceil(84) } else { 0 };
            assert_eq!(check_write(&Tables::of(&library), l, &mut sheet), Ok(blocks as u64));
            let mut t = junk(l);
            assert_eq!(check_read(&mut t, l, &sheet).as_ref(), Ok(&library));
            for (number, &label) in told.iter().enumerate() {
                assert_eq!(check_label(&t, l, number as u64), Ok(label));
            }
        }
    }
}

/// Bytes about the ends of labels, sealed again: the last label's, those behind it, 508 and 509, and those of a block that are no label's.
#[test]
fn bytes_of_label_blocks() {
    let random = &mut Random::seeded(52);
    let (mut accepted, mut bad) = (0, 0);
    for count in [1, 83, 84, 85, 169] {
        let l = room_for(count);
        let told: Vec<Label> = (0..count).map(|_| label(random)).collect();
        let stored = vec![vec![7]; count];
        let sheet = write_labelled(measures(1, count, 9), &stored, &told);
        for first in (512 * blocks_needed(Width::Narrow, count as u64, 1)..sheet.len()).step_by(512) {
            let last = (count * 6) % (84 * 6);
            for at in [2, 3, 4, 9, 4 + last - 6.min(last), 4 + last, 5 + last, 507, 508, 509] {
                let mut other = sheet.clone();
                other[first + at] ^= 1;
                seal(&mut other[first..first + 512]);
                match check_read(&mut junk(l), l, &other) {
                    Ok(_) => accepted += 1,
                    Err(why) => bad += usize::from(why == (10, 0)),
                }
            }
        }
    }
    assert!(accepted > 15 && bad > 30, "{accepted} accepted, {bad} bad");
}

/// A block of a kind for traces of one sample, 7 or in four bytes 40,000, the `at`-th of its kind: samples, or labels that are zero or not.
fn piece(count: usize, number: usize, kind: u8, at: usize, zero: bool) -> [u8; 512] {
    let label = if zero { Label::default() } else { Label { code: 3, serial: 9 } };
    let part = |room: usize| count.saturating_sub(room * at).min(room);
    match kind {
        2 => block(number, 2, &[7, 0].repeat(part(253))),
        4 => block(number, 4, &40_000i32.to_le_bytes().repeat(part(126))),
        5 => block(number, 5, &label_bytes(label).repeat(part(84))),
        _ => block(number, kind, &[]),
    }
}

/// Every order of up to four blocks behind block 0, of kinds that there are and that there are not: wrong kinds are 9, wrong numbers of
/// blocks 10.
#[test]
fn kinds_and_numbers_of_blocks() {
    const KINDS: [u8; 6] = [2, 5, 1, 3, 4, 0];
    let mut told = [0; 3];
    for count in [0, 1, 84, 85, 254] {
        let (m, l) = (measures(1, 254, 9), room_for(254));
        for order in 0..KINDS.len().pow(4) + 1 {
            // digits of a number in base 6; a kind 0 ends the list
            let kinds: Vec<u8> = (0..4).map(|place| KINDS[order / KINDS.len().pow(place) % KINDS.len()]).take_while(|&kind| kind != 0).collect();
            for (first, zero) in [(1, false), (1, true), (3, false), (3, true)] {
                let mut sheet = block(0, first, &head(m, count as u64)).to_vec();
                for (before, &kind) in kinds.iter().enumerate() {
                    let at = kinds[..before].iter().filter(|&&other| other == kind).count();
                    sheet.extend(piece(count, before + 1, kind, at, zero));
                }
                match check_read(&mut junk(l), l, &sheet) {
                    Ok(library) => {
                        assert_eq!(sheet, sheet_of(&library), "an accepted sheet is the one that is written");
                        told[0] += 1;
                    }
                    Err((number, _)) => told[number as usize - 8] += 1,
                }
            }
        }
    }
    assert!(told[0] > 8 && told[1] > 1000 && told[2] > 300, "{told:?} accepted, 9 and 10");
}

// ---- wide sheets

/// A wide sheet of these traces, whatever they are, with no label.
fn wide(m: Measures, stored: &[Trace]) -> Vec<u8> {
    write_as(Width::Wide, m, stored, &vec![Label::default(); stored.len()])
}

/// One sample decides: within 16 bits the sheet is narrow, and a wide one of it is 10; beyond, it is wide; outside the limits it is 15.
#[test]
fn the_sample_that_decides() {
    let l = room();
    for (n, count) in [(1, 1), (3, 4), (126, 2), (64, 4)] {
        let m = measures(n, 5, 1);
        for place in [0, n * count / 2, n * count - 1] {
            for sample in [0, 1, -1, 32_767, -32_768, 32_768, -32_769, 65_536, 524_287, -524_288, 524_288, -524_289, i32::MAX, i32::MIN] {
                let mut samples = vec![-7; n * count];
                samples[place] = sample;
                let stored: Vec<Trace> = samples.chunks(n).map(<[i32]>::to_vec).collect();
                let fits = (-32_768..=32_767).contains(&sample);
                let inside = (-524_288..=524_287).contains(&sample);
                let mut t = junk(l);
                let read = check_read(&mut t, l, &wide(m, &stored)).map(|library| library.traces);
                let expected = if fits {
                    Err((10, 0))
                } else if inside {
                    Ok(stored.clone())
                } else {
                    Err((15, 0))
                };
                assert_eq!(read, expected, "{n} {count} {place} {sample}");
                if inside {
                    let library = Library::of(m, &stored);
                    let mut sheet = vec![0xc3; need(&library)];
                    assert!(check_write(&Tables::of(&library), l_of(&library), &mut sheet).is_ok());
                    assert_eq!(sheet[2], if fits { 1 } else { 3 });
                    assert_eq!(check_read(&mut t, l, &sheet), Ok(library));
                }
            }
        }
    }
}

fn l_of(library: &Library) -> Lengths {
    needs(library.measures)
}

/// 9, 10, 15 and 2 in this order, on one sheet with all of them.
#[test]
fn the_order_on_wide_sheets() {
    let m = measures(2, 3, 1);
    let mut sheet = wide(m, &[vec![0, 524_288], vec![40_000, 1]]);
    let need = needs(m);
    let short = Lengths { nodes: need.nodes - 1, ..need };
    assert_eq!(check_read(&mut junk(need), need, &sheet), Err((15, 0)));
    assert_eq!(check_read(&mut junk(need), short, &sheet), Err((15, 0)));
    // bytes behind the last sample, and behind the room for 126 of them
    for at in [4 + 16, 507, 508, 509] {
        let mut bad = sheet.clone();
        bad[512 + at] = 1;
        assert_eq!(check_read(&mut junk(need), short, &bad), Err((9, 1)));
        seal(&mut bad[512..]);
        assert_eq!(check_read(&mut junk(need), short, &bad), Err((10, 0)));
    }
    // the kinds of a narrow sheet among these
    sheet[512 + 2] = 2;
    seal(&mut sheet[512..]);
    assert_eq!(check_read(&mut junk(need), short, &sheet), Err((9, 1)));
    sheet[2] = 1;
    seal(&mut sheet[..512]);
    assert_eq!(check_read(&mut junk(need), short, &sheet).map(|_| ()), Err((10, 0)), "one block of samples, with bytes behind four of them");
}

/// No trace: the one sheet is narrow.
#[test]
fn an_empty_wide_sheet() {
    let m = measures(4, 8, 2);
    assert_eq!(check_read(&mut junk(room()), room(), &wide(m, &[])), Err((10, 0)));
    assert_eq!(check_read(&mut junk(room()), room(), &write(m, &[])), Ok(Library::open(m)));
}

/// The line that the program prints, by the wrapper.
fn line(sheet: &[u8]) -> String {
    match answer(sheet) {
        Ok([a, b, c, d]) => format!("{a} {b} {c} {d}"),
        Err(why) => format!("refused {} {}", why.number(), why.place()),
    }
}

fn answer(sheet: &[u8]) -> Result<[u64; 4], Refusal> {
    if sheet.len() > 65_536 {
        return Err(Refusal::SheetLength);
    }
    let all = TraceLibrary::read_sheet(sheet)?;
    if all.n() > 64 || all.capacity() > 64 {
        return Err(Refusal::ShortTable);
    }
    let last = all.len().checked_sub(1).ok_or(Refusal::Empty)?;
    let mut library = TraceLibrary::open(all.n(), all.capacity(), all.leaf_size())?;
    for number in 0..last {
        library.add(&StoredSample::values(all.trace(number).expect("it is stored")))?;
    }
    let found = library.nearest(&StoredSample::values(all.trace(last).expect("it is stored")))?;
    Ok([found.trace as u64, found.distance, found.leaves as u64, found.traces as u64])
}

#[test]
fn the_vectors_through_the_wrapper() {
    for (name, printed, sheet) in sheet_vectors() {
        assert_eq!(line(&sheet), printed, "{name}");
    }
}
