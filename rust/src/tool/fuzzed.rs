//! Files of any bytes: each is taken or refused with words for a terminal, and nothing panics.

use super::labels::{self, Codes};
use super::names::Lines;
use super::reading::Wanted;
use super::{convert, csv, plain, recordings};
use silkendoz::{TraceLibrary, SAMPLES};
use std::path::Path;
use testing::random::Random;

const ROUNDS: usize = 20_000;

/// A file with some bytes changed, taken out, put in or cut off.
fn altered(random: &mut Random, file: &[u8]) -> Vec<u8> {
    let mut bytes = file.to_vec();
    for _ in 0..=random.below(6) {
        let at = random.below(bytes.len() + 1);
        match random.below(5) {
            0 => bytes.truncate(at),
            1 => bytes.insert(at, random.word() as u8),
            2 if at < bytes.len() => drop(bytes.remove(at)),
            3 if at < bytes.len() => bytes[at] = *random.pick(b"\t\n,;.\"# 0-9x\xff\x00\x1b"),
            _ if at < bytes.len() => bytes[at] ^= 1 << random.below(8),
            _ => (),
        }
    }
    bytes
}

/// Words that may go to a terminal.
fn fine(words: &str) {
    assert!(words.len() < 2000 && !plain::for_terminal(words).contains('\x1b'), "{words:?}");
}

#[test]
fn recordings_of_any_bytes() {
    let random = &mut Random::seeded(1);
    let data: Vec<u8> = (0..48).collect();
    let mut extensible = b"RIFF\x74\0\0\0WAVEfmt \x28\0\0\0\xfe\xff\x02\0\x11\x2b\0\0\x66\x02\x01\0\x06\0\x18\0\x16\0\x18\0\0\0\0\0\x01\0".to_vec();
    extensible.extend(b"\0\0\0\0\x10\0\x80\0\0\xaa\0\x38\x9b\x71fact\x04\0\0\0\x08\0\0\0data\x30\0\0\0");
    extensible.extend(&data);
    assert!(convert::made(&extensible, 20).is_ok_and(|made| made.is_some()));
    for file in [recordings::plain(8000, &data), extensible] {
        for _ in 0..ROUNDS {
            let bytes = altered(random, &file);
            let bits = *random.pick(&[16, 20]);
            let wanted = Wanted { n: 1 + random.below(9), cut: random.once_in(2), convert: random.once_in(2), bits, narrow: false, spare: 0 };
            match recordings::take(&bytes, &wanted) {
                Ok(taken) => assert!(taken.traces.iter().all(|trace| trace.len() == wanted.n && trace.iter().all(|x| SAMPLES.contains(x)))),
                Err(why) => fine(&why),
            }
        }
    }
}

#[test]
fn text_of_any_bytes() {
    let random = &mut Random::seeded(2);
    let file = b"# a heading\n\"dry rail, right\",1,-2,3\nworn,4.0,5,6\n7;8;9,0\n1 2 3\n";
    for _ in 0..ROUNDS {
        match plain::text_of(altered(random, file)) {
            Err(why) => fine(&why),
            Ok(text) => match csv::lines(&text, 3, 4) {
                Ok(lines) => assert!(lines.len() <= 4 && lines.iter().all(|line| line.samples.len() == 3)),
                Err(wrong) => fine(&wrong.what),
            },
        }
    }
}

#[test]
fn names_of_any_bytes() {
    let random = &mut Random::seeded(3);
    let mut library = TraceLibrary::open(2, 4, 2).unwrap();
    for level in 0..3 {
        library.add(&[level; 2]).unwrap();
    }
    let mut file = b"0\tdry\ta.csv\n1\tloose\tb.wav\t8000\t".to_vec();
    file.extend(super::hash::of_trace(&[1; 2]).bytes().chain(*b"\n2\tworn\n"));
    for _ in 0..ROUNDS {
        let fitted = Lines::of(Path::new("l.names"), altered(random, &file)).and_then(|lines| lines.fit(&library));
        match fitted {
            Ok(names) => (0..4).for_each(|number| fine(names.shown(number))),
            Err(super::Failure::Refused(why) | super::Failure::Usage(why)) => fine(&why),
        }
    }
}

#[test]
fn labels_and_codes_of_any_bytes() {
    let random = &mut Random::seeded(4);
    let told = |failure: super::Failure| match failure {
        super::Failure::Refused(why) | super::Failure::Usage(why) => fine(&why),
    };
    for _ in 0..ROUNDS {
        let file = altered(random, b"file,code,serial\n\"dry, right\",0x11,4119\n# no\nworn;1;2\na\t65535\t4294967295\n");
        labels::lines(Path::new("l.csv"), file).map_or_else(told, |lines| assert!(lines.len() < 12));
        let file = altered(random, b"0x0011 dry rail, right\n1\thealthy\n# no\n65535,worn\n");
        Codes::of(Path::new("l.codes"), file).map_or_else(told, |codes| fine(&codes.fault(17)));
    }
}
