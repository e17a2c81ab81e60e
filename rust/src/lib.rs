//! The nearest stored trace, exactly.
//!
//! A trace is a run of samples, such as the drive current of a machine's standard sweep: whole numbers of up to 20 bits ([`SAMPLES`]). A [`TraceLibrary`] keeps traces and finds the stored one
//! that is nearest to a new one: the least sum of squared differences, the lowest number among equals, just as reading every stored trace would find it.
//! The work is done by a library that is proved to do exactly this (the crates beside this folder); here it gets tables of the right sizes, and its
//! refusals a type. [`TraceLibrary::k_nearest`] lists the k nearest in the same way; [`TraceLibrary::import_recording`] takes the traces of a WAV file;
//! [`TraceLibrary::from_tables`] takes tables from elsewhere, once they are checked. A trace may have a [`Label`]: a fault code, which
//! [`TraceLibrary::remote_match`] tells, and a machine's serial, which it does not. [`TraceLibrary::count_bands`] says how many traces lie within
//! which distances, without reading one. [`TraceLibrary::match_both`] finds the nearest trace of two libraries, one that every machine carries
//! and one of your own. [`TraceLibrary::match_within`] reads so many leaves and no more; if that is too few, it says how far off its answer
//! may be. [`TraceLibrary::match_clipped`] takes a sweep whose samples are known only as lying between two figures, and lists every trace that
//! could be its match.
//!
//! ```
//! use silkendoz::TraceLibrary;
//!
//! let mut library = TraceLibrary::open(4, 8, 2)?;
//! library.add(&[0, 0, 0, 0])?;
//! library.add(&[4, 4, 4, 4])?;
//! library.add(&[0, 8, 0, 8])?;
//! let found = library.nearest(&[1, 1, 1, 1])?;
//! assert_eq!((found.trace, found.distance), (0, 4));
//! assert_eq!((found.leaves, found.traces), (1, 1));
//! assert_eq!(found.trail, [1]);
//! # Ok::<(), silkendoz::Refusal>(())
//! ```
//!
//! [`calls`] has the calls themselves, over slices that the caller lends; [`scan`] reads every trace, which is as good for few of them.

#![deny(missing_docs)]

pub mod calls;
mod label;
mod library;
mod refusal;
mod sample;
pub mod scan;
mod shape;
mod tables;

pub use calls::Band;
pub use label::Label;
pub use library::{Batch, BestSoFar, KNearest, Library, LimitedMatch, Nearest, Neighbour, PairMatch, RemoteMatch, TraceLibrary};
pub use refusal::{Lengths, Refusal};
pub use sample::{StoredSample, SAMPLES};
pub use shape::Leaf;
pub use tables::Tables;

/// The Rust program of `docs/GUIDE.md`, as a test.
#[cfg(doctest)]
#[doc = include_str!("../../docs/GUIDE.md")]
struct Guide;
