//! The example sheet under `examples/` is the one that `make_example` makes, and the calls find in it what its text says.

mod common;

use silkendoz::TraceLibrary;
use std::path::PathBuf;
use testing::example;
use testing::model::Trace;

#[test]
fn the_files_are_as_made() {
    let folder = PathBuf::from(env!("CARGO_MANIFEST_DIR")).join("../examples");
    assert!(std::fs::read(folder.join("faults.sheet")).unwrap() == example::sheet());
    assert_eq!(std::fs::read_to_string(folder.join("faults.txt")).unwrap(), example::text());
    assert_eq!(std::fs::read_to_string(folder.join("faults.names")).unwrap(), example::names());
    let recordings = example::recordings();
    assert_eq!(std::fs::read_dir(folder.join("faults")).unwrap().count() + 1, recordings.len());
    for (name, bytes) in recordings {
        assert!(std::fs::read(folder.join(&name)).unwrap() == bytes, "{name}");
    }
}

#[test]
fn the_dry_rail_is_found() {
    let (names, traces): (Vec<String>, Vec<Trace>) = example::traces().into_iter().unzip();
    let (query, stored) = traces.split_last().unwrap();
    let m = example::MEASURES;
    let mut library = TraceLibrary::open(m.n as usize, m.capacity as usize, m.leaf_size as usize).unwrap();
    for trace in stored {
        library.add(trace).unwrap();
    }
    let found = library.nearest(query).unwrap();
    assert_eq!(names[found.trace], "dry rail, right, machine 4119");
    assert!(found.traces < stored.len());
}
