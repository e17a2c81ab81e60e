//! A sheet of faults with names, as a service bench would keep it: made by rule, so that the file under `examples/` can be made again.

use crate::model::{recording, sheet, Measures, Trace};

/// n, capacity and leaf size of the example: it fits the program's tables.
pub const MEASURES: Measures = Measures { n: 64, capacity: 64, leaf_size: 4 };

/// What was wrong with the machine, and how the drive current of its sweep looks then.
type Fault = (&'static str, fn(f64) -> f64);

/// What each fault adds to the current over one sweep, x from 0 to 1. By name: files of these names are taken in this order.
const FAULTS: [Fault; 12] = [
    ("bearing pitted", |x| if (x * 16.0).fract() < 0.1 { 1900.0 } else { 0.0 }),
    ("belt tensioner loose", |x| 900.0 * wave(2.0 * x) * (1.0 - x)),
    ("belt tensioner seized", |x| 1400.0 + 300.0 * x),
    ("belt tooth missing", |x| if (x * 8.0).fract() < 0.12 { -2600.0 } else { 0.0 }),
    ("cable chain caught", |x| if x > 0.62 { 2400.0 * (x - 0.62) * 2.6 } else { 0.0 }),
    ("dry rail, left", |x| 2200.0 * (0.35 - (x - 0.2).abs()).max(0.0)),
    ("dry rail, right", |x| 2200.0 * (0.35 - (x - 0.8).abs()).max(0.0)),
    ("encoder wheel dirty", |x| if (x * 23.0).fract() < 0.25 { 700.0 } else { -150.0 }),
    ("encoder wheel slipping", |x| 1800.0 * x * x),
    ("healthy", |_| 0.0),
    ("motor brush worn", |x| 500.0 * wave(14.0 * x) + 350.0 * wave(7.5 * x)),
    ("rail bent in the middle", |x| 3100.0 * (0.18 - (x - 0.5).abs()).max(0.0) * 4.0),
];

/// The fault of the machine whose sweep is the query.
const TODAY: usize = 6;

/// How the machines of one fault differ: by gain and offset of their current, and by a little noise.
type Machine = (f64, f64);

const MACHINES: [Machine; 3] = [(0.98, -20.0), (1.0, 0.0), (1.02, 30.0)];

/// The number of the first machine; the others follow.
const FIRST_MACHINE: usize = 4100;

fn noise(seed: usize) -> f64 {
    let mut random = crate::random::Random::seeded(seed as u64);
    random.within(-60, 60) as f64
}

/// Up and down between -1 and 1, once in each 1 of x. Straight lines only: a sine would differ from machine to machine in its last digits.
fn wave(x: f64) -> f64 {
    4.0 * (x.fract() - 0.5).abs() - 1.0
}

/// The current of a sound machine: the bed runs up, keeps its speed, and brakes.
fn sound(x: f64) -> f64 {
    if x < 0.15 {
        5200.0 * x / 0.15
    } else if x < 0.25 {
        5200.0 - 3600.0 * (x - 0.15) / 0.1
    } else if x < 0.85 {
        1600.0
    } else {
        1600.0 - 5000.0 * (x - 0.85) / 0.15
    }
}

fn trace((_, shape): Fault, (gain, offset): Machine, seed: usize) -> Trace {
    (0..MEASURES.n as usize)
        .map(|i| {
            let x = i as f64 / (MEASURES.n - 1) as f64;
            let current = (sound(x) + shape(x)) * gain + offset + noise(seed * 1000 + i);
            current.round() as i32
        })
        .collect()
}

/// The stored traces with their names, then the query: a sweep of a machine whose right rail has run dry.
pub fn traces() -> Vec<(String, Trace)> {
    let mut list = Vec::new();
    for fault in FAULTS {
        for machine in MACHINES {
            list.push((format!("{}, machine {}", fault.0, FIRST_MACHINE + list.len()), trace(fault, machine, list.len())));
        }
    }
    list.push(("the query: a sweep of today".to_string(), trace(FAULTS[TODAY], (1.01, 10.0), 999)));
    list
}

/// The sheet: the last trace is the query.
pub fn sheet() -> Vec<u8> {
    let list: Vec<Trace> = traces().into_iter().map(|(_, trace)| trace).collect();
    sheet::write(MEASURES, &list)
}

/// Samples a second of the recordings.
pub const RATE: u32 = 2000;

/// The stored traces as recordings, each called by its trace's name, and the query as `today.wav`: paths under `examples/`, with the bytes.
pub fn recordings() -> Vec<(String, Vec<u8>)> {
    let mut list = traces();
    let query = list.pop();
    let mut files: Vec<(String, Vec<u8>)> =
        list.iter().map(|(name, trace)| (format!("faults/{name}.wav"), recording::write(RATE.into(), trace))).collect();
    files.extend(query.map(|(_, trace)| ("today.wav".to_string(), recording::write(RATE.into(), &trace))));
    files
}

/// The names of the sheet's traces as the bench program keeps them: a line a trace, its number, its name, its file.
pub fn names() -> String {
    let named = |(number, (name, _)): (usize, (String, Trace))| match number {
        number if number < FAULTS.len() * MACHINES.len() => format!("{number}\t{name}\tfaults/{name}.wav\n"),
        _ => format!("{number}\ttoday\ttoday.wav\n"),
    };
    traces().into_iter().enumerate().map(named).collect()
}

/// The text beside it, which names each trace.
pub fn text() -> String {
    let Measures { n, capacity, leaf_size } = MEASURES;
    let mut text = String::from(
        "The traces of faults.sheet, by number. The last one is the query; the program prints the number of the nearest of the others.\n",
    );
    text.push_str("Made by `cargo run --release --bin make_example` in rust/.\n\n");
    text.push_str(&format!("n {n}, capacity {capacity}, leaf size {leaf_size}\n"));
    for (number, (name, _)) in traces().iter().enumerate() {
        text.push_str(&format!("{number:>3}  {name}\n"));
    }
    text.push_str(&format!("\nThe program prints: {}\n", sheet::program_line(&sheet())));
    text
}
