//! The program that reads a sheet from standard input and prints the nearest trace: the vectors, the examples, and sheets at its limits.

mod common;

use common::sheet_vectors;
use testing::model::sheet::{program_line, write, write_labelled};
use testing::model::Measures;
use testing::program::{self, repository};
use testing::random::{label, query, traces, Random, SHAPES};

/// What the program prints of these bytes.
fn printed(input: &[u8]) -> String {
    program::printed(input).expect(BUILT)
}

const BUILT: &str = "tools/archive builds target/bin/match_sheet";

#[test]
fn the_vectors() {
    for (name, line, sheet) in sheet_vectors() {
        assert_eq!(printed(&sheet), format!("{line}\n"), "{name}");
    }
}

#[test]
fn sheets_of_every_shape() {
    let random = &mut Random::seeded(51);
    for shape in SHAPES {
        for (n, capacity, leaf_size, count) in
            [(64, 64, 64, 64), (64, 64, 1, 63), (1, 64, 2, 40), (17, 30, 4, 29), (3, 2, 1, 1), (65, 4, 1, 3), (8, 65, 1, 20)]
        {
            let mut stored = traces(random, shape, n, count - 1);
            let last = query(random, shape, n, &stored);
            stored.push(last);
            let m = Measures { n: n as u64, capacity, leaf_size };
            let sheet = write(m, &stored);
            assert_eq!(printed(&sheet), format!("{}\n", program_line(&sheet)), "{shape:?} {m:?}");
            let labels: Vec<_> = (0..count).map(|_| label(random)).collect();
            assert_eq!(printed(&write_labelled(m, &stored, &labels)), printed(&sheet), "the program ignores labels");
        }
    }
}

#[test]
fn limits_of_the_input() {
    let m = Measures { n: 256, capacity: 200, leaf_size: 1 };
    let stored = vec![vec![1; 256]; 125];
    let sheet = write(m, &stored);
    assert_eq!(sheet.len(), 65_536);
    assert_eq!(printed(&sheet), "refused 2 0\n");
    assert_eq!(printed(&[&sheet[..], &[0]].concat()), "refused 8 0\n");
    assert_eq!(printed(&[&sheet[..], &sheet[..512]].concat()), "refused 8 0\n");
    assert_eq!(printed(&vec![0; 300_000]), "refused 8 0\n");
    assert_eq!(printed(&sheet[..65_535]), "refused 8 0\n");
    assert_eq!(printed(&[]), "refused 8 0\n");
}

/// The example sheet under examples/.
#[test]
fn the_example() {
    let sheet = std::fs::read(repository().join("examples/faults.sheet")).unwrap();
    assert_eq!(printed(&sheet), format!("{}\n", program_line(&sheet)));
}

/// Input that arrives in small pieces is read to its end.
#[test]
fn in_small_pieces() {
    let sheet = std::fs::read(repository().join("examples/faults.sheet")).unwrap();
    for size in [7, 512, 4099] {
        assert_eq!(program::printed_in_pieces(&sheet, size).expect(BUILT), format!("{}\n", program_line(&sheet)), "in pieces of {size}");
    }
}
