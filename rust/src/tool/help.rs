//! `help`, and the table of commands.

use super::arguments::Arguments;
use super::{
    add, advise, bands, build, check, constants, done, export, info, limits, list, matching, pages, plain, plot, remote, rename, repair, report,
    salvage, wrong, Answer, Command, Failure,
};
use std::path::Path;

pub const COMMANDS: [Command; 20] = [
    Command {
        name: "build",
        usage: "OUT.sheet --samples N [--capacity C] [--leaf-size S] [--code C] [--serial S] [--labels L] [--cut] [--convert [--bits B]] \
                [--without N,M] [--force] FILE..",
        about: "recordings into a library",
        text: "\
Makes a library of all traces in the FILEs, in their order: the sheet OUT.sheet, and OUT.names beside it, a line a trace: its number, its
name, its file, its rate in samples a second, and a hash of its samples, by which a name is only ever shown beside its own trace.

  --samples N     samples a trace, 1 to 256. Every trace has to have just as many
  --capacity C    room for so many traces, 1 to 4096; unless said, for as many again as there are, 64 at least
  --leaf-size S   traces a leaf of the tree holds before it splits, 1 to 64; 16 unless said. `silkendoz advise` tries others
  --cut           a recording may end in the midst of a trace: its whole traces are taken, and what is left over is named
  --convert       a WAV of several channels, of 8, 24 or 32 bits, of floating point or with tags is brought to samples that can be taken:
                  the first channel; 8 bits times 256, 16 as they are, 24 and 32 shifted to the right to 20 bits. What was done is said,
                  and by how many bits it was shifted
  --bits B        with --convert: bring what has more than 16 bits to so many, 16 or 20; 20 unless said. Traces of one library have to be
                  brought to the same: from 16 to 20 bits they differ by a factor of 16
  --without N,M   leave out these traces, counted from 0 through all FILEs: of one sheet alone, by their numbers there
  --code C        the fault code of all these traces, 0 to 65535, in decimal or as 0x0412: the remote is told it
  --serial S      the serial of the machine that they are of, 0 to 4294967295: the remote is not told it
  --labels L      a file with a label for each: a line a trace, its name or its file, its code and its serial, with commas, semicolons or
                  tabs between them; lines that begin with # are passed over. Each line has to fit a trace
  --force         overwrite OUT.sheet and OUT.names; never a FILE that is read
  --no-wait       if another run is writing there, refuse; unless said, wait for it

A FILE is a WAV recording (16-bit PCM, one channel, the usual header of 44 bytes), of one trace or of many, one behind another; or text, a
trace a line, whole numbers of 20 bits (-524288 to 524287) with commas or spaces between them, with or without a name in the first column
(in double quotes, if it has separators or looks like a number; lines that begin with # are passed over); or the sheet of another library,
whose names come along; or a folder, for all files in it that end in .wav, .csv, .tsv or .txt; or -, for standard input. A trace without a
name is called by its file.

Labels are part of the sheet, and those of another library come along, unless others are given here. A stored label cannot be changed:
build a new library of the old one, with `--labels`. Words for codes stand in OUT.codes, if you write such a file: a code and its word a
line.
",
        values: &["--samples", "--capacity", "--leaf-size", "--without", "--code", "--serial", "--labels", "--bits"],
        flags: &["--force", "--cut", "--convert", "--no-wait"],
        run: build::run,
    },
    Command {
        name: "add",
        usage: "LIBRARY [--code C] [--serial S] [--labels L] [--again] [--cut] [--convert [--bits B]] [--no-wait] FILE..",
        about: "more recordings into a library, all or none",
        text: "\
Adds all traces in the FILEs to the library, in their order, with their names. If one of them cannot be taken, or there is no room for all,
nothing is added; nor if one of them is stored already, sample by sample, or comes twice. FILEs are those of `silkendoz help build`.

  --code C, --serial S, --labels L   labels, as for `build`
  --again     add traces that are stored already or come twice, too
  --cut       whole traces of a recording that ends in the midst of one
  --convert, --bits B   recordings of other forms, as for `build`; to the bits that the library's traces were brought to
  --no-wait   if another run is writing the library, refuse; unless said, wait for it
",
        values: &["--code", "--serial", "--labels", "--bits"],
        flags: &["--again", "--cut", "--convert", "--no-wait"],
        run: add::run,
    },
    Command {
        name: "match",
        usage: "LIBRARY FILE.. [[-k K | --clipped --beyond V [--at LOW,HIGH]] [--factory F] | --leaves L] [--json | --tsv] [--cut] \
                [--convert [--bits B]]",
        about: "the nearest stored traces, with their names, and what fits",
        text: "\
Finds the stored traces that are nearest to the sweep in FILE: exactly those that reading every stored trace would find. If there are
several sweeps, each gets a line. A FILE may be a folder; `-` is standard input.

  -k K        list so many, 1 to 16; 5 unless said
  --factory F the library that every machine carries: the nearest of both are found, F's first where distances are equal. F is only read
  --leaves L  read so many leaves at most, 1 or more, as a controller does that has no time for more. It finds one trace of one library, so
              that it goes with no `--factory`, and with no `-k` but 1
  --clipped   list every trace that could be the match of a sweep with clipped samples; goes with no `-k` and no `--leaves`
  --beyond V  with --clipped: a clipped sample may truly have been up to V beyond the limit, 1 or more. It is never guessed
  --at LOW,HIGH   with --clipped: samples at these limits or past them are clipped; one of the two may be left out, as in `,4000`. Unless
              said, they are the converter's, by the recording: -32768 and 32767 of 16 bits, -524288 and 524287 of 20 (with `--convert`
              from 24 or more), -32768 and 32512 of 8. Text does not say it: 16 bits are taken, or 20, if any sample of it is beyond 16
  --json      one object for programs
  --tsv       a line a sweep, with tabs between the columns, the headings first
  --cut       leave out what is left over behind the last whole trace of a recording
  --convert   bring recordings of other forms to samples that can be taken, as for `build`
  --bits B    with --convert: the bits that the library's traces were brought to, 16 or 20; 20 unless said

Each line has the trace's number and name, its distance (the sum of squared sample differences), and how far a sample is off, which is the
root of the mean square. Below them stands the verdict, with its figures:

  fits                  no farther from the nearest than stored traces of one fault are from the nearest of their own, and every other
                        fault is farther than that
  between two faults    another fault is that near too; or none is, but a mixture of the two nearest
  like nothing stored   the nearest is farther than that

The fault is a trace's code, with its word if LIBRARY's .codes has one; of a trace without a code it is what its name says before its last
comma. A library with labels shows code and serial of each trace. If all K nearest are of one fault, twice as many are looked at, up to 16,
to find another; with `-k 1` no other is looked for. If no fault is stored twice, nothing is judged. Then comes what else is to be known:
that the sweep is stored already, samples at the converter's limit, another rate than the library's; and how much of the library was read.

With --factory each line says whose the trace is, factory or bench, which is LIBRARY, and its number there. Faults are those of both: what
is stored once in each is stored twice, and a code is one fault, with F's word for it if there is one. Both have to have as many samples a
trace; either may be empty. With `-k 1` one call searches both, and reads of each no more than the nearest of both needs; of a longer list
each is searched for K. How much was read is told of each. Nothing is ever written to F. A sheet that is write-protected (`chmod a-w`) is
changed by no command: keep F so.

With --leaves the first L leaves are read of those that a match reads, or all of them if they are no more. If these are all, the answer is
settled: it is the match, and is shown as with `-k 1`. If not, it is open: the best so far, which a leaf that was not read may still beat.
Then two distances are told that the true one lies between: the bound of the first unread leaf, below which no stored trace lies, and that
of the best so far. If they are the same, the distance is known, but a trace with a lower number may have it too. The verdict of an open
answer holds whatever the unread leaves hold, so that it never is that a sweep fits:

  like nothing stored   no stored trace is as near as traces of one fault are to each other, read or unread
  not judged            the best so far is as near as that, and another may be nearer; or no fault is stored twice
  open                  whether any stored trace is as near as that is not known

Where each sweep has a line, it says whether it is settled or the best so far, and what the true distance is at least. The exit status is 0
for both.

With --clipped a clipped sample lies anywhere from its limit to V beyond it, upward at HIGH and downward at LOW, and every other sample is
what it is. Each stored trace then has a least and a greatest possible distance. Listed is every trace whose least is no more than the
smallest greatest of all: whatever the clipped samples were within these ranges, the match is in the list. A listed trace need not be the
match of any sweep. They stand by fault, each with a bar from least to greatest. If all are of one fault, it is certain within the ranges;
below that stands where the match's distance lies. Of a sweep without a clipped sample all traces at the match's distance are listed. A range
that goes beyond what samples can be, -524288 to 524287, is refused and never cut. With --factory the list is of both libraries.

The object has `library` (`file`, `samples`, `traces`, `leaves`, `rates`), `factory` likewise, `sweeps`, a list, and `notes`. Of each sweep:
`name`, `file`, `rate`; `nearest`, a list of K (`library`, `number`, `name`, `distance`, `a_sample`, `code`, `serial`); `verdict` (`word`,
`text`, `fault`, `a_sample`, `other_fault`, `other_fault_library`, `other_fault_trace`, `other_fault_a_sample`, `other_fault_times_as_far`,
`between_share`, `between_a_sample`, `all_of_one_fault`, `stored_apart_least`, `stored_apart_greatest`); `clipped_samples`,
`stored_already_in`, `stored_already_as`, `remarks`, `nearest_looked_at`, `leaves_read` and `traces_read`, over both, `factory_leaves_read`
and `factory_traces_read`. What there is none of is null. With --leaves each sweep has `settled` and `leaves_limit` too. An open one has
`name`, `file`, `rate`; `best_so_far` (as one of a list), `bound`, `bound_a_sample`; `verdict` (`word`, `text`, `fault_so_far`, `a_sample`,
`stored_apart_least`, `stored_apart_greatest`); `clipped_samples`, `stored_already_as`, `remarks`, `leaves_read`, `traces_read`, and no
others. So a program that asks for `nearest`, or for the verdict's `fault`, is never given those of an open answer. With --clipped a sweep
has `name`, `file`, `rate`; `clipped_samples`, `clipped` (`limit_low`, `limit_high`, `beyond`, and `samples`, a list of `sample`, counted
from 1, `recorded`, `low`, `high`); `could_be_the_match`, a list by number (`library`, `number`, `name`, `fault`, `least`, `greatest`,
`least_a_sample`, `greatest_a_sample`, `code`, `serial`); `faults`, a list (`fault`, `traces`, `least`, `smallest_greatest`); `least`,
`least_a_sample`, `smallest_greatest`, `smallest_greatest_a_sample`; `verdict` (`word`, `text`, `fault_is_certain`, `fault`,
`stored_apart_least`, `stored_apart_greatest`); `remarks`, and no others.
",
        values: &["-k", "--factory", "--leaves", "--beyond", "--at", "--bits"],
        flags: &["--clipped", "--json", "--tsv", "--cut", "--convert"],
        run: matching::run,
    },
    Command {
        name: "remote",
        usage: "LIBRARY FILE.. [--json] [--cut] [--convert [--bits B]]",
        about: "what the jog remote is told of a sweep, and no more",
        text: "\
Shows what the remote's one call tells of the sweeps in the FILEs, a line each: the nearest trace's number, its fault code, its distance,
and how much was read. Nothing of serials, and no names, which may say which machine a trace is of. The word for a code is from LIBRARY's
.codes, which a remote may have too.

  --json      one object for programs: `sweeps`, a list (`name`, `file`, `number`, `distance`, `code`, `leaves_read`, `traces_read`)
  --cut, --convert, --bits B   as for `match`
",
        values: &["--bits"],
        flags: &["--json", "--cut", "--convert"],
        run: remote::run,
    },
    Command {
        name: "plot",
        usage: "LIBRARY FILE [-k K] [--sweep S] [--factory F] [--clipped --beyond V [--at LOW,HIGH]] [-o OUT.svg] [--force] [--cut] \
                [--convert [--bits B]]",
        about: "the sweep and the nearest faults as a picture",
        text: "\
Draws the sweep in FILE and the nearest trace of each of the nearest faults one over the other; below, in a row a fault, the differences.
Across stand milliseconds, if a rate is known.

  -k K         draw so many faults, 1 to 6; 3 unless said
  --sweep S    if FILE holds several sweeps, which one, counted from 1; the first unless said
  --factory F  the traces of this library too, as for `match`
  --clipped --beyond V, --at LOW,HIGH   as for `match`: faults that could be the match are drawn, of each the trace with the smallest
               least distance, and what the clipped samples may truly have been is shaded
  -o OUT.svg   where the picture goes; unless said, beside FILE, with the ending .svg; `-` is standard output
  --force      overwrite it
  --cut, --convert, --bits B   as for `match`
",
        values: &["-k", "--sweep", "--factory", "--beyond", "--at", "-o", "--bits"],
        flags: &["--clipped", "--force", "--cut", "--convert"],
        run: plot::run,
    },
    Command {
        name: "report",
        usage: "LIBRARY FILE [-k K] [--sweep S] [--factory F] [--edges A,B,.. | --off A,B,.. | --clipped --beyond V [--at LOW,HIGH]] \
                [-o OUT.html] [--force] [--cut] [--convert [--bits B]]",
        about: "the verdict and the picture as a page to mail and print",
        text: "\
Writes one page about the sweep in FILE: the verdict of `match`, the picture of `plot`, the 16 nearest traces by fault, and what they were
found by: the library's hash, how much of it was read, the program's version and the date. The page stands for itself: it has no script and
asks for nothing from elsewhere.

  -k K          draw so many faults, 1 to 6; 3 unless said
  --sweep S     if FILE holds several sweeps, which one, counted from 1; the first unless said
  --factory F   the traces of this library too, as for `match`
  --edges A,B,.., --off A,B,..   show how many traces lie in each of these bands, too, as `bands` does; they print on a second page. They
                go with no `--factory`
  --clipped --beyond V, --at LOW,HIGH   as for `match`: the page has what could be the match, with bars from least to greatest, and what
                the clipped samples may truly have been is shaded
  -o OUT.html   where the page goes; unless said, beside FILE, with the ending .html; `-` is standard output
  --force       overwrite it
  --cut, --convert, --bits B   as for `match`

The date is today's, by UTC, or that of SOURCE_DATE_EPOCH if it is set.
",
        values: &["-k", "--sweep", "--factory", "--edges", "--off", "--beyond", "--at", "-o", "--bits"],
        flags: &["--clipped", "--force", "--cut", "--convert"],
        run: report::run,
    },
    Command {
        name: "bands",
        usage: "LIBRARY FILE [--edges A,B,.. | --off A,B,..] [--sweep S] [--json | -o OUT.svg [--force]] [--cut] [--convert [--bits B]]",
        about: "how many traces lie how far from a sweep, to choose an alarm distance",
        text: "\
Shows, for each band of distances from the sweep in FILE, how many stored traces surely lie in it and how many at most: a row a band, from
one edge up to but not including the next. The true number lies between. No trace is read: both come from the ranges that the tree records,
and may be far apart. Below stands for how many traces it is sure in which band they lie.

  --edges A,B,..   2 to 16 distances, each above the last, as `match` shows them: sums of squared sample differences
  --off A,B,..     the same by how far a sample is off, the root of the mean square, 0 to 2000000 with up to 6 digits behind a point. An edge
                   is its square times the samples of a trace, rounded up to a whole distance. Distances are whole, so that nothing is lost:
                   just those traces are below the edge that are off by less than was said
  --sweep S        if FILE holds several sweeps, which one, counted from 1; the first unless said
  --json           one object for programs: `name`, `file`, `traces`, `band_is_sure`, and `bands`, a list (`from`, `below`,
                   `from_a_sample`, `below_a_sample`, `surely`, `at_most`, `all_below_surely`, `all_below_at_most`)
  -o OUT.svg       a picture instead: a bar for surely, an outline for at most; `-` is standard output
  --force          overwrite it
  --cut, --convert, --bits B   as for `match`

In text a bar has `#` for a trace that surely lies in the band, and `.` for one that may besides; if they are many, each stands for several.
`all below` is of everything nearer than the band's end, which is what an alarm at that distance would find; it is not the sum of the bands,
since a leaf of the tree that reaches over several is possible in each of them and sure in none. Unless edges are said, there are 15 bands
from 0 to all there is, and those at the ends that hold nothing are left out.
",
        values: &["--edges", "--off", "--sweep", "-o", "--bits"],
        flags: &["--json", "--force", "--cut", "--convert"],
        run: bands::run,
    },
    Command {
        name: "limits",
        usage: "LIBRARY FILE [--all] [--sweep S] [--json | -o OUT.svg [--force]] [--cut] [--convert [--bits B]]",
        about: "what a limit on leaves gives for a sweep, to choose one",
        text: "\
Shows what `match --leaves` finds for the sweep in FILE with a limit of 1 leaf, of 2 and so on, until it is settled: a row a limit, with the
best so far, its distance, and what the true distance is at least. The first never rises and the second never falls, and they meet where it
is settled, or before. Below stands from which limit on the best is the one that is settled in the end. A larger limit reads no more.

  --all         every row. Unless said, of more than 24 rows those with 1, 2, 4, 8 and so on leaves, those at which the best changes, and the
                last one are shown
  --sweep S     if FILE holds several sweeps, which one, counted from 1; the first unless said
  --json        one object for programs: `name`, `file`, `rate`, `leaves` and `traces` of the library, `found_with`, `settled_with`, and
                `limits`, a list of all rows (`limit`, `settled`, `best_so_far`, `bound`, `bound_a_sample`, `leaves_read`, `traces_read`). In
                the settled one the bound is null
  -o OUT.svg    a picture instead: the two distances as steps, and the room between them, which closes; `-` is standard output. Of more than
                256 limits as many are drawn as can be told apart, and those at which the best changes
  --force       overwrite it
  --cut, --convert, --bits B   as for `match`
",
        values: &["--sweep", "-o", "--bits"],
        flags: &["--all", "--json", "--force", "--cut", "--convert"],
        run: limits::run,
    },
    Command {
        name: "info",
        usage: "LIBRARY [--json]",
        about: "what a library holds, and the memory it needs",
        text: "\
Shows the measures of a library, how many traces, names and labels it holds, how many of its traces need a wide sheet, since a sample of
theirs does not fit 16 bits, what its tree looks like, and how much memory a controller needs.

  --json   one object for programs, with the SHA-256 of the sheet
",
        values: &[],
        flags: &["--json"],
        run: info::run,
    },
    Command {
        name: "list",
        usage: "LIBRARY [--json]",
        about: "the traces of a library with their names",
        text: "\
Lists the traces of a library: number, name, file, and the rate in samples a second, as far as these are known; code and serial, if it has
labels.

  --json   one object for programs: `file`, `samples`, and `traces`, a list: of each its `number`, `name`, `file`, `rate`, `code`, `serial`
           and `hash`
",
        values: &[],
        flags: &["--json"],
        run: list::run,
    },
    Command {
        name: "rename",
        usage: "LIBRARY NUMBER NAME [--no-wait]",
        about: "another name for a trace",
        text: "\
Gives the trace of this NUMBER another NAME. The sheet stays as it is.

  --no-wait   if another run is writing the library, refuse; unless said, wait for it
",
        values: &[],
        flags: &["--no-wait"],
        run: rename::run,
    },
    Command {
        name: "check",
        usage: "[--json] FILE..",
        about: "whether sheets are sound, and every torn block",
        text: "\
Says of each sheet whether it is sound. Of one that is not, every torn block is shown with the traces whose samples or labels stand there,
and what is wrong with a sheet whose blocks are sound. Exit status 1 if one of them is not sound, or has names that do not fit.

  --json   a list for programs: of each file `file`, `sound`, `names_fit`, `refusal`, `torn_blocks`, `samples`, `traces`, and `lines`
",
        values: &[],
        flags: &["--json"],
        run: check::run,
    },
    Command {
        name: "repair",
        usage: "A B -o OUT [--force] [--no-wait]",
        about: "a sheet from the sound blocks of two copies",
        text: "\
Puts a sheet together from the sound blocks of two copies of one writing. A block that is sound in both has to be the same in both; one
that is sound in neither cannot be had. Nothing is written unless the whole is sound. OUT gets the names of A, and where A has none, those
of B.

  -o OUT      where the sheet goes; never A or B. `-` is standard output, without names
  --force     overwrite it, and its names
  --no-wait   if another run is writing there, refuse; unless said, wait for it
",
        values: &["-o"],
        flags: &["--force", "--no-wait"],
        run: repair::run,
    },
    Command {
        name: "salvage",
        usage: "TORN -o OUT [--samples N] [--force] [--no-wait]",
        about: "the traces of a torn sheet's sound blocks",
        text: "\
Makes a library of those traces whose samples stand in sound blocks of a torn sheet, with their names, and with their labels if these stand
in sound blocks too; says which traces are lost, and how many labels. The numbers of those behind a lost one change. With a second copy of
the same writing take `silkendoz repair`, which loses nothing.

  -o OUT        where the library goes; `-` is standard output, without names
  --samples N   samples a trace, 1 to 256, if block 0, which says it, is torn
  --force       overwrite OUT and its names
  --no-wait     if another run is writing there, refuse; unless said, wait for it
",
        values: &["-o", "--samples"],
        flags: &["--force", "--no-wait"],
        run: salvage::run,
    },
    Command {
        name: "advise",
        usage: "LIBRARY",
        about: "which leaf size suits the traces",
        text: "\
Tries leaf sizes 4 to 64 on the library's own traces: each is left out and looked up, as a sweep that is like none stored, and so is a
noisy copy of each, as one that is like a stored one. It shows the part of leaves that a match reads and what it takes, beside scans: a
plain one, by AVX2 where the processor has it (over samples of two bytes, where all fit them), and one that leaves a trace early. It says
which leaf size to take, for each kind of sweep what a match is worth beside the faster scan, and whether the traces look normalised.
",
        values: &[],
        flags: &[],
        run: advise::run,
    },
    Command {
        name: "export",
        usage: "LIBRARY NUMBER -o OUT [--csv | --rate R] [--force]",
        about: "a stored trace as a WAV file or as text",
        text: "\
Writes one stored trace as a WAV recording of 16 bits. A trace with a sample beyond these is refused: it goes into text.

  -o OUT       where it goes; `-` is standard output
  --csv        as text: a line with the trace's name, if it has one, and its samples, commas between them, as `build` and `add` read it
  --rate R     samples a second that the file says, 0 to 2147483647; unless said, those of the recording, and if nobody knows them, 8000
  --force      overwrite it
",
        values: &["-o", "--rate"],
        flags: &["--force", "--csv"],
        run: export::run,
    },
    Command {
        name: "tables",
        usage: "LIBRARY -o OUT.h [--name NAME] [--force]",
        about: "a library as constant tables for a program in C",
        text: "\
Writes the tables of a library as constants in C, to lie in memory that is never written, such as a controller's flash: a library that every
machine carries. They have room for the traces that it has and no more. Include OUT.h in one file of the program: it declares NAME, a
`struct silkendoz_tables`, and search work for it, the one table that a search writes; NAME_n and NAME_capacity are numbers of it.

  -o OUT.h      where they go; `-` is standard output
  --name NAME   what the library is called there; factory unless said
  --force       overwrite it
",
        values: &["-o", "--name"],
        flags: &["--force"],
        run: constants::run,
    },
    Command {
        name: "completions",
        usage: "",
        about: "what bash needs to complete commands and options",
        text: "\
Prints a script for bash. `source <(silkendoz completions)` takes it at once; in a file of its own, as bash-completion has them, for good.
",
        values: &[],
        flags: &[],
        run: pages::completions,
    },
    Command {
        name: "man",
        usage: "",
        about: "all of this as a manual page",
        text: "\
Prints a manual page: `silkendoz man > silkendoz.1` and `man ./silkendoz.1`.
",
        values: &[],
        flags: &[],
        run: pages::manual,
    },
    Command {
        name: "help",
        usage: "[COMMAND]",
        about: "this, or all about a command",
        text: "\
Lists the commands, or says all about one.
",
        values: &[],
        flags: &[],
        run,
    },
];

pub fn command(name: &str) -> Option<&'static Command> {
    static ALL: [Command; COMMANDS.len()] = COMMANDS;
    ALL.iter().find(|command| command.name == name)
}

fn run(a: &Arguments) -> Answer {
    let Some(word) = a.at_most_one()? else {
        return done(overview());
    };
    match word.to_str().and_then(command) {
        Some(command) => done(about(command)),
        None => refuse_command(&plain::path(Path::new(word))),
    }
}

/// There is no such command; what there is, in a line.
fn refuse_command<T>(word: &str) -> Result<T, Failure> {
    let names: Vec<&str> = COMMANDS.iter().map(|command| command.name).collect();
    wrong(format!("there is no command `{word}`. There are {}.", names.join(", ")))
}

/// All about a command.
pub fn about(command: &Command) -> String {
    format!("silkendoz {} {}\n\n{}", command.name, command.usage, command.text)
}

fn overview() -> String {
    let mut text = String::from("silkendoz: the nearest stored trace, exactly\n\n");
    for command in &COMMANDS {
        text.push_str(&format!("  {:<12} {}\n", command.name, command.about));
    }
    format!("{text}\n{}", FOOT)
}

/// What holds for every command.
pub const FOOT: &str = "\
`silkendoz help COMMAND` or `silkendoz COMMAND --help` says all about one. A LIBRARY is a sheet, the names of its traces in a file beside it.
Exit status: 0 done; 1 refused, not found or not sound; 2 wrong usage; 3 done, but then something failed, which is said. Files are written
beside their place, synced and renamed; a device or a FIFO is written to as it is.
";
