//! What the tests, the benchmark and the programs beside them use, and no part of what the library promises: `model` is documents 01 and 02 in
//! plain Rust, which tests hold the calls to; `random` makes test data, `example` the files under `examples/`; `script` plays scripts of calls,
//! over `lending` or over `by_model`; `program` runs the program that reads a sheet.

pub mod by_model;
pub mod example;
pub mod lending;
pub mod model;
pub mod program;
pub mod random;
pub mod script;
