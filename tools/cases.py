#!/usr/bin/env python3
"""Write the table of compared libraries, an antt file, from a file of vectors.

    tools/cases.py LIBRARIES CHOSEN > CASES

LIBRARIES (vectors/libraries.txt) has small libraries with what another implementation of
documents 01 and 02 makes of them: the tree, and, of most, each node's bound for one query and the
match with its trail. A library begins with a line `== NAME`.

CHOSEN (vectors/cases.txt) says which of them the table holds, in which order: a line is a name,
a colon and what that library shows, in plain words, which becomes the comment in front of its
case. Empty lines and lines that begin with `#` are skipped.

CASES (crates/worked/proofs/Cases.antt) has them as two tables, those with a query and those
without, each with its theorem: the definitions, computed, give the same. Nothing is computed
here; figures are carried over as they stand. Behind it `rt fmt` lays the file out.
"""
import re
import sys

HEAD = """\
-- Small libraries with what another implementation of documents 01 and 02 makes of them, as two tables, with a query and without; and the
-- definitions give the same, by computation. These few have each kind of split (by sum and scatter, whole and cut segments), ties in gain
-- and in distance, leaves over size, gains and sums below zero. The calls, which are proved equal to the definitions, are run on all of
-- `vectors/` (`rust/tests/vectors.rs`).
-- Written by `tools/cases.py` from `vectors/libraries.txt`, the libraries that `vectors/cases.txt` names.
use Prim.Native.Nat.{ℕ}
use mathlib.Core.Path.{◌≡◌, refl}
use mathlib.Core.Bool.{Bool, true}
use mathlib.Core.Option.{Option, some}
use mathlib.Core.List.{List, [], ◌∷◌, map}
use lib.ListN.{length}
use Rattle.integer.specs.Words.{counting}
use Rattle.dstree.specs.Measures.{Trace, Measures, measures, sample_limit, is_library}
use Rattle.dstree.specs.Node.{by_sum, by_scatter, leaf, inner, node, Tree}
use Rattle.dstree.specs.Adding.{tree_of}
use Rattle.dstree.specs.Matching.{bound, Match, match_by_steps, match_of}
use Rattle.dstree.specs.WellFormed.{well_formed_tree}
use Rattle.dstree.specs.Sheet.{Judged}
use Rattle.dstree.specs.SheetWidths.{judge_sheet}
use Rattle.dstree.specs.Examples.{match_with}
use Rattle.dstree.proofs.Notation.{+, −, seg, test, plain_sheet, holds_plain}
use Rattle.dstree.proofs.Everything.{everything}

-- ---- what is compared

-- a library and a query; then what the other implementation says: the tree, the bound of every node, the match with its trail
pub record Case : Type 0 where
  pub measures : Measures
  pub traces : List Trace
  pub query : Trace
  pub tree : Tree
  pub bounds : List ℕ
  pub match : Match

-- what the definitions say of a library and a query
pub record CaseOutcome : Type 0 where
  pub tree : Tree
  pub bounds : List ℕ
  pub match : Match
  pub steps : Option Match
  pub sound : Bool
  pub library : Bool
  pub sheet : Judged

-- computed: the tree from the traces alone, all else on the tree that is given
abbrev pub computed : Case → CaseOutcome
computed c = record {
  tree = tree_of c.measures c.traces;
  bounds = map (bound c.tree c.query) (counting (length c.tree) 0);
  match = match_of c.traces c.tree c.query;
  steps = match_by_steps c.traces c.tree c.query;
  sound = well_formed_tree sample_limit c.measures (length c.traces) c.tree;
  library = is_library sample_limit c.measures c.traces;
  sheet = judge_sheet (plain_sheet c.measures c.traces);
}

-- expected: the given tree, bounds and match, the match by its steps too; well-formed tables of a library, whose sheet reads back
abbrev pub expected : Case → CaseOutcome
expected c = record {
  tree = c.tree;
  bounds = c.bounds;
  match = c.match;
  steps = some c.match;
  sound = true;
  library = true;
  sheet = holds_plain c.measures c.traces;
}

-- ---- the table

abbrev pub cases : List Case
cases =
"""

BETWEEN = """\
    ∷ []

pub cases_agree : map computed cases ≡ map expected cases
unfolding everything
cases_agree = refl

-- ---- without a query: a library, and the tree that the other implementation makes of it

pub record GrownCase : Type 0 where
  pub measures : Measures
  pub traces : List Trace
  pub tree : Tree

abbrev pub grown_cases : List GrownCase
grown_cases =
"""

TAIL = """\
    ∷ []

pub grown_agree : map (λ (c : GrownCase). tree_of c.measures c.traces) grown_cases ≡ map (λ (c : GrownCase). c.tree) grown_cases
unfolding everything
grown_agree = refl

pub grown_formed : map (λ (c : GrownCase). well_formed_tree sample_limit c.measures (length c.traces) c.tree) grown_cases ≡ map (λ (c : GrownCase). true) grown_cases
unfolding everything
grown_formed = refl
"""


def libraries(text):
    """The libraries of a vectors file, by name: the lines of each."""
    found = {}
    for part in re.split(r"^== ", text, flags=re.M)[1:]:
        lines = part.rstrip().splitlines()
        name = lines[0]
        if name in found:
            raise SystemExit(f"two libraries are called {name}")
        found[name] = [line for line in lines[1:] if not line.startswith("#")]
    return found


def chosen(text):
    """The chosen names with what each shows, in order."""
    for line in text.splitlines():
        if line.strip() and not line.startswith("#"):
            name, colon, shows = line.partition(":")
            if not colon:
                raise SystemExit(f"no colon: {line}")
            yield name.strip(), shows.strip()


def numbers(text):
    """The numbers of a bracketed list."""
    return [int(x) for x in text.strip("[] ").split(",") if x.strip()]


def listed(items):
    return "".join(f"{item} ∷ " for item in items) + "[]"


def broken(text, indent, most=132):
    """A term over several lines, none longer than `most`: broken in front of a cons, each later line indented."""
    lines, line = [], ""
    for piece in re.split(r" (?=∷ )", text):
        if line and len(indent) + len(line) + 1 + len(piece) > most:
            lines.append(line)
            line = piece
        else:
            line = f"{line} {piece}" if line else piece
    return f"\n    {indent}".join(lines + [line])


def signed(x):
    return f"− {-x}" if x < 0 else f"+ {x}"


def signed_list(xs):
    return listed(signed(x) for x in xs)


SEGMENT = re.compile(r"    segment \d+ to (\d+): sum (-?\d+) to (-?\d+), scatter (\d+) to (\d+)(?:;|$)")
LEAF = re.compile(r"node \d+ leaf(?: over size)?(?:, made by trace \d+)?: traces (\[.*\])$")
INNER = re.compile(r"node \d+ inner(?:, made by trace \d+)?: (Sum|Scatter) of samples (\d+) to (\d+), twice at most T = (-?\d+): left (\d+) right (\d+)$")
BOUND = re.compile(r"    own bound \d+ bound (\d+)$")
MATCH = re.compile(r"match: trace (\d+) distance (\d+) leaves (\d+) traces (\d+) trail (\[.*\])$")
HEADING = re.compile(r"n (\d+) capacity (\d+) leaf size (\d+) traces (\d+) nodes (\d+) leaves (\d+)$")


def case(name, lines):
    """One library as a term."""
    n, capacity, leaf_size, trace_count, node_count, _ = map(int, HEADING.match(lines[0]).groups())
    traces, query, kinds, segments, bounds, match = [], None, [], [], [], None
    for line in lines[1:]:
        if line.startswith("trace "):
            traces.append(numbers(line[line.index("["):]))
        elif line.startswith("query: "):
            query = numbers(line[line.index("["):])
        elif LEAF.match(line):
            kinds.append(f"leaf ({listed(numbers(LEAF.match(line).group(1)))})")
            segments.append([])
        elif INNER.match(line):
            figure, first, last, threshold, left, right = INNER.match(line).groups()
            kinds.append(f"inner (test {first} {last} by_{figure.lower()} ({signed(int(threshold))})) {left} {right}")
            segments.append([])
        elif SEGMENT.match(line):
            end, least, greatest, low, high = SEGMENT.match(line).groups()
            segments[-1].append(f"seg {end} ({signed(int(least))}) ({signed(int(greatest))}) {low} {high}")
        elif BOUND.match(line):
            bounds.append(BOUND.match(line).group(1))
        elif MATCH.match(line):
            match = MATCH.match(line).groups()
        elif line.strip():
            raise SystemExit(f"{name}: not understood: {line}")
    if len(traces) != trace_count or len(kinds) != node_count:
        raise SystemExit(f"{name}: traces or nodes missing")
    if query is not None and (len(bounds) != node_count or match is None):
        raise SystemExit(f"{name}: bounds or match missing")
    nodes = [f"node ({listed(s)}) ({k})" for s, k in zip(segments, kinds)]
    yield "record {"
    yield f"  measures = measures {n} {capacity} {leaf_size};"
    yield f"  traces = {broken(listed(f'({signed_list(x)})' for x in traces), '      ')};"
    if query is not None:
        yield f"  query = {broken(signed_list(query), '      ')};"
    yield f"  tree ="
    yield f"      {broken(nodes[0], '          ')}"
    for each in nodes[1:]:
        yield f"      {broken(f'∷ {each}', '          ')}"
    yield f"      ∷ [];"
    if query is not None:
        yield f"  bounds = {listed(bounds)};"
        yield f"  match = match_with {' '.join(match[:4])} ({listed(numbers(match[4]))});"
    yield "}"


def table(names, known):
    """The lines of a table."""
    for number, (name, shows) in enumerate(names):
        lines = list(case(name, known[name]))
        if number:
            lines[0] = "∷ " + lines[0]
        yield f"    -- {name}: {shows}\n"
        yield from (f"    {line}\n" for line in lines)


def main(words):
    if len(words) != 2:
        raise SystemExit(__doc__)
    with open(words[0], encoding="utf-8") as file:
        known = libraries(file.read())
    with open(words[1], encoding="utf-8") as file:
        names = list(chosen(file.read()))
    for name, _ in names:
        if name not in known:
            raise SystemExit(f"no library is called {name}")
    asked = lambda name: any(line.startswith("query: ") for line in known[name])
    sys.stdout.write(HEAD)
    sys.stdout.writelines(table([each for each in names if asked(each[0])], known))
    sys.stdout.write(BETWEEN)
    sys.stdout.writelines(table([each for each in names if not asked(each[0])], known))
    sys.stdout.write(TAIL)


main(sys.argv[1:])
