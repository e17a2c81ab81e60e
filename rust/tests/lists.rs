//! Random lists of calls on one memory, refused ones included, with the lengths that each call is lent: every answer is judged by arguments and book, and
//! after every call the tables hold the book's library.

mod common;

use common::{
    check_add, check_add_labelled, check_bands, check_batch, check_both, check_checked, check_export, check_import, check_k_nearest, check_label,
    check_list,
};
use common::{check_clipped, check_nearest, check_open, check_remote, check_within, junk, longer, measures, narrowed};
use common::{some_edges, some_ranges, with_no_sample};
use testing::model::tables::{judge_opening, needs, Lengths, Tables};
use testing::model::{recording, Library, Measures, Refused, Trace};
use testing::random::{label, labels, query, traces, uniform, Random, Shape, SHAPES};

/// What is stored, by the calls' arguments alone; and how often each refusal was told, 0 for none.
struct Book(Option<Library>, [usize; 20]);

impl Book {
    /// Counts what was judged.
    fn tell<A>(&mut self, judged: &Result<A, Refused>) {
        self.1[judged.as_ref().map_or_else(|why| why.0 as usize, |_| 0)] += 1;
    }

    fn library(&mut self) -> &mut Library {
        self.0.as_mut().expect("an opening has succeeded")
    }

    /// 2 by the book's measures: 3 never arises.
    fn short(&self, l: Lengths) -> Result<&Library, Refused> {
        let library = self.0.as_ref().expect("an opening has succeeded");
        judge_opening(l, library.measures).map(|_| library)
    }

    fn judge_adding(&self, l: Lengths, trace: &[i32]) -> Result<(), Refused> {
        let library = self.short(l)?;
        match () {
            _ if trace.len() as u64 != library.measures.n => Err((4, 0)),
            _ if trace.iter().any(|x| !(-524_288..524_288).contains(x)) => Err((15, 0)),
            _ if library.traces.len() as u64 == library.measures.capacity => Err((5, 0)),
            _ => Ok(()),
        }
    }

    fn judge_match(&self, l: Lengths, query: &[i32], trail: usize) -> Result<(), Refused> {
        self.short(l)?.judge_query(query, trail)
    }

    fn judge_batch(&self, l: Lengths, run: &[i32], many: usize, trail: usize, list: usize) -> Result<(), Refused> {
        self.short(l)?.judge_queries(run, many, trail, list)
    }

    fn judge_bands(&self, l: Lengths, query: &[i32], edges: &[u64], list: usize) -> Result<(), Refused> {
        self.short(l)?.judge_edges(query, edges, list)
    }

    fn judge_within(&self, l: Lengths, query: &[i32], most: u64, trail: usize) -> Result<(), Refused> {
        self.short(l)?.judge_limit(query, most, trail)
    }

    fn judge_clipped(&self, l: Lengths, lows: &[i32], highs: &[i32], list: usize) -> Result<(), Refused> {
        self.short(l)?.judge_ranges(lows, highs, list)
    }

    fn judge_k_nearest(&self, l: Lengths, query: &[i32], k: u64, trail: usize, list: usize) -> Result<(), Refused> {
        self.short(l)?.judge_k(query, k, trail, list)
    }
}

/// All of the memory, or now and then less of one table.
fn lengths(random: &mut Random, t: &Tables) -> Lengths {
    let mut l = t.lengths();
    if random.once_in(6) {
        let length = &mut *l.each()[random.below(6)];
        *length = random.below(*length + 1);
    }
    l
}

fn some_measures(random: &mut Random) -> Measures {
    let mut m = measures(1 + random.below(9), 1 + random.below(14), 1 + random.below(4));
    if random.once_in(8) {
        match random.below(3) {
            0 => m.n = *random.pick(&[0, 257, 65_536 + 4, u64::MAX]),
            1 => m.capacity = *random.pick(&[0, 4097, 65_536 + 4, 1 << 63]),
            _ => m.leaf_size = *random.pick(&[0, 65, 65_536 + 4, u64::MAX]),
        }
    }
    m
}

const K_NEAREST_CALLS: usize = 4;
const SHEET_CALLS: usize = 4;
const RECORDING_CALLS: usize = 4;
const CHECK_CALLS: usize = 2;
const BATCH_CALLS: usize = 4;
const LABEL_CALLS: usize = 3;
const REMOTE_CALLS: usize = 4;
const BAND_CALLS: usize = 4;
const LIMIT_CALLS: usize = 4;
const CLIPPED_CALLS: usize = 5;

/// A writing, whose sheet is as the book's; or a reading of a sheet, sound or damaged.
fn sheet_step(random: &mut Random, shape: Shape, t: &mut Tables, book: &mut Book, l: Lengths) {
    use testing::model::sheet::{need, read, write_as, write_labelled, Sheet, Width};
    let library = book.library().clone();
    if random.once_in(2) {
        let need = need(&library);
        let mut sheet = vec![0x77; if random.once_in(4) { random.below(need) } else { need + random.below(600) }];
        let judged = match book.short(l) {
            Ok(_) if sheet.len() < need => Err((8, 0)),
            other => other.map(|_| ()),
        };
        book.tell(&judged);
        assert_eq!(common::check_write(t, l, &mut sheet).map(|_| ()), judged);
        if judged.is_ok() {
            assert_eq!(sheet[..need], write_labelled(library.measures, &library.traces, &library.labels));
        }
        return;
    }
    let m = measures(1 + random.below(9), 1 + random.below(14), 1 + random.below(4));
    let count = random.below(m.capacity as usize + 1);
    let (stored, told) = (traces(random, shape, m.n as usize, count), labels(random, count));
    // now and then a wide sheet of samples that may all fit 16 bits, or one with a sample outside the limits
    let stored = if random.once_in(12) { stored.iter().map(|trace| with_no_sample(random, trace)).collect() } else { stored };
    let mut sheet = if random.once_in(8) { write_as(Width::Wide, m, &stored, &told) } else { write_labelled(m, &stored, &told) };
    damage(random, &mut sheet);
    let opened = |held: Sheet| judge_opening(l, held.measures).map(|_| Library::of(held.measures, &held.traces).labelled(&held.labels));
    let judged = read(&sheet).and_then(opened);
    book.tell(&judged);
    assert_eq!(common::check_read(t, l, &sheet), judged);
    if let Ok(library) = judged {
        book.0 = Some(library);
    }
}

/// Now and then a measure or the count, a block's kind, or any byte is another one, well sealed or not.
fn damage(random: &mut Random, sheet: &mut [u8]) {
    use testing::model::sheet::seal;
    let blocks = sheet.len() / 512;
    let mut put = |at: usize, value: u8, sealed: bool| {
        sheet[at] = value;
        if sealed {
            seal(&mut sheet[at / 512 * 512..at / 512 * 512 + 512]);
        }
    };
    match random.below(6) {
        0 => put(8 + 2 * random.below(4), *random.pick(&[0, 1, 2, 65, 255]), true),
        1 => put(512 * random.below(blocks) + 2, *random.pick(&[1, 2, 3, 4, 5]), true),
        2 => put(random.below(512 * blocks), random.word() as u8, random.once_in(2)),
        _ => {}
    }
}

/// A query, of n samples within the limits or now and then not, and a trail, long enough or now and then not.
fn some_query(random: &mut Random, shape: Shape, library: &Library) -> (Trace, Vec<u16>) {
    let n = library.measures.n as usize;
    let size = if random.once_in(10) { random.below(12) } else { n };
    let q = if size == n { query(random, shape, n, &library.traces) } else { uniform(random, size, -9, 9) };
    let q = if random.once_in(12) { with_no_sample(random, &q) } else { q };
    (q, vec![0xabcd; if random.once_in(4) { random.below(4) } else { 14 }])
}

/// The k nearest, of a k in range or not, in a list that is long enough or not.
fn k_nearest_step(random: &mut Random, shape: Shape, t: &mut Tables, book: &mut Book, l: Lengths) {
    let (q, mut trail) = some_query(random, shape, book.library());
    let k = if random.once_in(6) { *random.pick(&[0, 17, 100, 65_536 + 1, u64::MAX]) } else { 1 + random.below(16) as u64 };
    let mut list = vec![0xabcd; if random.once_in(6) { random.below(2 * k.min(16) as usize + 2) } else { 2 * k.min(16) as usize + random.below(3) }];
    let judged = book.judge_k_nearest(l, &q, k, trail.len(), list.len());
    book.tell(&judged);
    let answer = check_k_nearest(t, l, &mut trail, &mut list, &q, k);
    assert_eq!(answer.as_ref().map(|_| ()).map_err(|&e| e), judged);
    if let Ok(found) = answer {
        check_list(book.library(), &q, k as usize, &found);
    }
}

/// An import of a file, sound or damaged, that fits or not; or an export, of a stored trace or not, into a buffer that is long enough or not.
fn recording_step(random: &mut Random, shape: Shape, t: &mut Tables, book: &mut Book, l: Lengths) {
    let library = book.library().clone();
    let n = library.measures.n as usize;
    let rate = *random.pick(&[0, 1, 8000, 44_100, (1 << 31) - 1]);
    if random.once_in(2) {
        let rate = if random.once_in(6) { *random.pick(&[1 << 31, u64::from(u32::MAX), 1 << 32, u64::MAX]) } else { rate };
        let number = if random.once_in(6) { *random.pick(&[65_536, 1 << 32, u64::MAX]) } else { random.below(library.traces.len() + 2) as u64 };
        let need = recording::size(library.measures.n);
        let mut buffer = vec![0x77; if random.once_in(4) { random.below(need) } else { need + random.below(9) }];
        let judged = book.short(l).and_then(|library| library.judge_one(number, rate, buffer.len()));
        book.tell(&judged);
        assert_eq!(check_export(t, l, &mut buffer, number, rate).map(|_| ()), judged);
        if judged.is_ok() {
            let held = recording::read(library.measures.n, &buffer[..need]);
            assert_eq!(held, Some((rate, vec![library.traces[number as usize].clone()])), "what is exported can be imported");
        }
        return;
    }
    let count = random.below(5);
    let mut samples = narrowed(&traces(random, shape, n, count).concat());
    if random.once_in(6) {
        samples.push(7);
    }
    let mut file = recording::write(rate, &samples);
    match random.below(6) {
        0 => {
            let at = random.below(44.min(file.len()));
            file[at] ^= 1 << random.below(8);
        }
        1 => file.truncate(random.below(file.len())),
        2 => file.push(0),
        _ => {}
    }
    let judged = book.short(l).and_then(|library| library.judge_file(&file));
    book.tell(&judged);
    let answer = check_import(t, l, &file);
    assert_eq!(answer.as_ref().map(|_| ()).map_err(|&e| e), judged.as_ref().map(|_| ()).map_err(|&e| e));
    for trace in judged.unwrap_or_default() {
        book.library().add(&trace);
    }
}

/// A batch, of a number of queries in range or not, in a run that is as long or not, with a list that is as long or not.
fn batch_step(random: &mut Random, shape: Shape, t: &mut Tables, book: &mut Book, l: Lengths) {
    let many = if random.once_in(8) { *random.pick(&[0, 17, 65_536 + 1, usize::MAX]) } else { 1 + random.below(16) };
    let (mut run, mut trail) = some_query(random, shape, book.library());
    for _ in 1..many.min(17) {
        run.extend(query(random, shape, book.library().measures.n as usize, &book.library().traces));
    }
    let list = if random.once_in(6) { random.below(19) } else { many.min(17) };
    let judged = book.judge_batch(l, &run, many, trail.len(), list);
    book.tell(&judged);
    let answer = check_batch(t, l, &mut trail, &run, many, list);
    assert_eq!(answer.map(|_| ()), judged);
}

/// A report of bands, of edges that rise or not, as many as may be or not, in a list that is long enough or not.
fn bands_step(random: &mut Random, shape: Shape, t: &mut Tables, book: &mut Book, l: Lengths) {
    let (q, _) = some_query(random, shape, book.library());
    let many = if random.once_in(8) { *random.pick(&[0, 1, 17, 40]) } else { 2 + random.below(15) };
    let mut edges = some_edges(random, book.library(), &q, many);
    if many > 1 && random.once_in(8) {
        let at = random.below(many - 1);
        edges[at + 1] = edges[at] - random.below(2).min(edges[at] as usize) as u64;
    }
    let need = 2 * many.saturating_sub(1);
    let mut list = vec![0xabcd; if random.once_in(6) { random.below(need + 1) } else { need + random.below(3) }];
    let judged = book.judge_bands(l, &q, &edges, list.len());
    book.tell(&judged);
    let answer = check_bands(t, l, &mut list, &q, &edges);
    assert_eq!(answer.as_ref().map(|_| ()).map_err(|&e| e), judged);
    if let Ok(bands) = answer {
        assert_eq!(bands, book.library().bands(&q, &edges));
    }
}

/// A match with a limit, of no leaf or of some, as many as there are or more.
fn limit_step(random: &mut Random, shape: Shape, t: &mut Tables, book: &mut Book, l: Lengths) {
    let (q, mut trail) = some_query(random, shape, book.library());
    let most = match random.below(8) {
        0 => 0,
        1 => *random.pick(&[15, 65_536, 1 << 32, u64::MAX]),
        _ => 1 + random.below(5) as u64,
    };
    let judged = book.judge_within(l, &q, most, trail.len());
    book.tell(&judged);
    let answer = check_within(t, l, &mut trail, &q, most);
    assert_eq!(answer.as_ref().map(|_| ()).map_err(|&e| e), judged);
    if let Ok(found) = answer {
        assert_eq!(Some(found), book.library().match_within(&q, most));
    }
}

/// A clipped sweep, whose figures are those of a query, of n samples or not, within the limits or not; now and then a low and its high change places,
/// or highs are another query's, in a list that is long enough or not.
fn clipped_step(random: &mut Random, shape: Shape, t: &mut Tables, book: &mut Book, l: Lengths) {
    let (q, _) = some_query(random, shape, book.library());
    let (mut lows, mut highs) = some_ranges(random, &q);
    match random.below(8) {
        0 => highs = some_query(random, shape, book.library()).0,
        1 => std::mem::swap(&mut lows, &mut highs),
        2 => highs.clone_from(&lows),
        _ => {}
    }
    let stored = book.library().traces.len();
    let mut list = vec![0xabcd; if random.once_in(4) { random.below(stored + 1) } else { stored + random.below(3) }];
    let judged = book.judge_clipped(l, &lows, &highs, list.len());
    book.tell(&judged);
    let answer = check_clipped(t, l, &mut list, &lows, &highs);
    assert_eq!(answer.as_ref().map(|_| ()).map_err(|&e| e), judged);
    if let Ok(listed) = answer {
        assert_eq!(Some(listed), book.library().match_clipped(&lows, &highs));
    }
}

/// An adding, of a trace of n samples or now and then not; with a label, or by the call that gives none.
fn add_step(random: &mut Random, shape: Shape, t: &mut Tables, book: &mut Book, l: Lengths) {
    let n = book.library().measures.n as usize;
    let size = if random.once_in(10) { random.below(12) } else { n };
    let trace = if size == n { traces(random, shape, n, 1).remove(0) } else { uniform(random, size, -9, 9) };
    let trace = if random.once_in(12) { with_no_sample(random, &trace) } else { trace };
    let judged = book.judge_adding(l, &trace);
    book.tell(&judged);
    let given = random.once_in(2).then(|| label(random));
    let answer = match given {
        Some(label) => check_add_labelled(t, l, &trace, label),
        None => check_add(t, l, &trace),
    };
    assert_eq!(answer.as_ref().map(|_| ()).map_err(|&e| e), judged);
    if judged.is_ok() {
        book.library().add_labelled(&trace, given.unwrap_or_default());
    }
}

/// The label of a trace that is stored, or not.
fn label_step(random: &mut Random, t: &Tables, book: &mut Book, l: Lengths) {
    let count = book.library().traces.len();
    let number = if random.once_in(6) { *random.pick(&[65_536, 1 << 32, u64::MAX]) } else { random.below(count + 2) as u64 };
    let judged = book.short(l).and_then(|library| library.judge_number(number).map(|()| library.labels[number as usize]));
    book.tell(&judged);
    assert_eq!(check_label(t, l, number), judged);
}

fn remote_step(random: &mut Random, shape: Shape, t: &mut Tables, book: &mut Book, l: Lengths) {
    let (q, mut trail) = some_query(random, shape, book.library());
    let judged = book.judge_match(l, &q, trail.len());
    book.tell(&judged);
    let answer = check_remote(t, l, &mut trail, &q);
    assert_eq!(answer.as_ref().map(|_| ()).map_err(|&e| e), judged);
    if let Ok(found) = answer {
        assert_eq!(Some(found), book.library().remote_match(&q));
    }
}

fn step(random: &mut Random, shape: Shape, t: &mut Tables, book: &mut Book) {
    let l = lengths(random, t);
    let searches = K_NEAREST_CALLS + BATCH_CALLS + REMOTE_CALLS + BAND_CALLS + LIMIT_CALLS + CLIPPED_CALLS;
    match random.below(12 + searches + SHEET_CALLS + RECORDING_CALLS + CHECK_CALLS + LABEL_CALLS) {
        0 => {
            let m = some_measures(random);
            let judged = judge_opening(l, m);
            book.tell(&judged);
            assert_eq!(check_open(t, l, m), judged.clone().map(|_| ()));
            if let Ok(empty) = judged {
                book.0 = Some(empty);
            }
        }
        1..=7 => add_step(random, shape, t, book, l),
        12..=15 => k_nearest_step(random, shape, t, book, l),
        16..=19 => sheet_step(random, shape, t, book, l),
        20..=23 => recording_step(random, shape, t, book, l),
        // a check accepts every library that calls made: 13 never arises
        24..=25 => assert_eq!(check_checked(t, l).map(|_| ()), book.short(l).map(|_| ())),
        26..=29 => batch_step(random, shape, t, book, l),
        30..=32 => label_step(random, t, book, l),
        33..=36 => remote_step(random, shape, t, book, l),
        37..=40 => bands_step(random, shape, t, book, l),
        41..=44 => limit_step(random, shape, t, book, l),
        45.. => clipped_step(random, shape, t, book, l),
        _ => {
            let (q, mut trail) = some_query(random, shape, book.library());
            let judged = book.judge_match(l, &q, trail.len());
            book.tell(&judged);
            let answer = check_nearest(t, l, &mut trail, &q);
            assert_eq!(answer.as_ref().map(|_| ()).map_err(|&e| e), judged);
            if let Ok(found) = answer {
                assert_eq!(Some(found), book.library().nearest(&q));
            }
        }
    }
    assert_eq!(t.library().as_ref(), book.0.as_ref(), "the tables hold the book's library");
}

#[test]
fn random_lists() {
    let random = &mut Random::seeded(11);
    let mut told = [0; 20];
    for round in 0..180 {
        let shape = *random.pick(&SHAPES);
        let mut t = junk(longer(needs(measures(9, 14, 1)), 3));
        let l = t.lengths();
        let first = measures(1 + random.below(9), 1 + random.below(14), 1 + random.below(4));
        assert_eq!(check_open(&mut t, l, first), Ok(()), "round {round}");
        let mut book = Book(Some(Library::open(first)), told);
        for _ in 0..60 {
            step(random, shape, &mut t, &mut book);
        }
        told = book.1;
    }
    // each of them, but for 3 and 13, which never arise, and 17, which one library does not give
    let seldom: Vec<usize> = (0..20).filter(|number| ![3, 13, 17].contains(number) && told[*number] < 20).collect();
    assert!(seldom.is_empty() && told[3] + told[13] + told[17] == 0, "{told:?}");
}

/// What a match over two libraries refuses by the books alone: 2 of the factory's tables, then of the bench's; 3 never arises.
fn judge_both(books: &[Book; 2], l: [Lengths; 2], query: &[i32], trails: [usize; 2]) -> Result<(), Refused> {
    let factory = books[0].short(l[0])?;
    let bench = books[1].short(l[1])?;
    factory.judge_both(bench, query, trails)
}

/// A match over both libraries, in which either of the two memories is the factory's. It is a call of both lists.
fn pair_step(random: &mut Random, shape: Shape, memories: &mut [Tables; 2], books: &mut [Book; 2], told: &mut [usize; 20]) {
    if random.once_in(2) {
        memories.reverse();
        books.reverse();
    }
    let l = [lengths(random, &memories[0]), lengths(random, &memories[1])];
    // a query of one of them, with trails as they are for either
    let asked = random.below(2);
    let (q, mut trail) = some_query(random, shape, books[asked].library());
    let (_, mut bench_trail) = some_query(random, shape, books[1 - asked].library());
    let judged = judge_both(books, l, &q, [trail.len(), bench_trail.len()]);
    told[judged.map_or_else(|why| why.0 as usize, |()| 0)] += 1;
    let [factory, bench] = memories;
    let answer = check_both([factory, bench], l, [&mut trail, &mut bench_trail], &q);
    assert_eq!(answer.as_ref().map(|_| ()).map_err(|&e| e), judged);
    if let Ok(found) = answer {
        let [factory, bench] = books;
        assert_eq!(Some(found), testing::model::pair([factory.library(), bench.library()], &q));
    }
}

/// Two libraries with a list of calls each, which have the matches over both in common: after every call each memory holds its book's library.
#[test]
fn lists_of_two_libraries() {
    let random = &mut Random::seeded(12);
    let mut told = [0; 20];
    for round in 0..90 {
        let shape = *random.pick(&SHAPES);
        let n = 1 + random.below(9);
        let mut memories = [junk(longer(needs(measures(9, 14, 1)), 3)), junk(longer(needs(measures(9, 14, 1)), 2))];
        let mut books = [0, 1].map(|at: usize| {
            let (t, m) = (&mut memories[at], measures(n, 1 + random.below(14), 1 + random.below(4)));
            let l = t.lengths();
            assert_eq!(check_open(t, l, m), Ok(()), "round {round}");
            Book(Some(Library::open(m)), [0; 20])
        });
        for _ in 0..80 {
            match random.below(5) {
                0..=1 => pair_step(random, shape, &mut memories, &mut books, &mut told),
                // mostly traces that are added, so that n seldom becomes another
                2..=3 => {
                    let at = random.below(2);
                    let l = lengths(random, &memories[at]);
                    add_step(random, shape, &mut memories[at], &mut books[at], l);
                }
                _ if random.once_in(3) => {
                    let at = random.below(2);
                    step(random, shape, &mut memories[at], &mut books[at]);
                }
                _ => {}
            }
            for (t, book) in memories.iter().zip(&books) {
                assert_eq!(t.library().as_ref(), book.0.as_ref(), "each memory holds its book's library");
            }
        }
    }
    let seldom: Vec<usize> = [0, 2, 4, 6, 7, 15, 17].into_iter().filter(|&number| told[number] < 20).collect();
    assert!(seldom.is_empty() && told[3] == 0, "{told:?}");
}
