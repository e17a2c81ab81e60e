//! Writes the example sheet, the names of its traces and the recordings that it was made of to `examples/`, or to the folder that is given.

use std::path::PathBuf;
use testing::example;
use testing::program::repository;

fn main() -> std::io::Result<()> {
    let folder = std::env::args_os().nth(1).map_or_else(|| repository().join("examples"), PathBuf::from);
    std::fs::create_dir_all(folder.join("faults"))?;
    std::fs::write(folder.join("faults.sheet"), example::sheet())?;
    std::fs::write(folder.join("faults.txt"), example::text())?;
    std::fs::write(folder.join("faults.names"), example::names())?;
    for (name, bytes) in example::recordings() {
        std::fs::write(folder.join(name), bytes)?;
    }
    Ok(())
}
