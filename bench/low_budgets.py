#!/usr/bin/env python3
"""Builds the program as plain Rust with budgets set so low that functions of a few inputs take each way to an answer.

usage: bench/low_budgets.py FOLDER [BUILD ..]     writes FOLDER/BUILD (none named: all that are listed below)

No budget and no hint changes an answer, so that each of these programs is to answer what the definitions say; they are
run by tests/random_functions.py. FOLDER/crates has the sources of the last one. Each text that is changed has to stand
once in its file, so that a list that no longer fits the sources is noticed.
"""
import os
import shutil
import sys

sys.dont_write_bytecode = True

import as_rust  # noqa: E402

WAYS, NEEDED = "minimum/way_hints", "minimum/as_needed"
POINTS, SOURCE, ROUNDS = "minimum/points", "minimum/points/source", "minimum/points/rounds"
ROUND_HINTS = "minimum/points/round_hints"
COLUMNS = "growth/columns"
NEAR, MERGING = "growth/near_rows", "cover/merging"

# Changes: a file of a crate, a text that stands there, and what stands there in its place.
POINTS_OF_FEW_INPUTS = [
    (WAYS, "shape.inputs() > 12", "shape.inputs() > 0"),
    (WAYS, "uses_points(shape) && shape.outputs() > 1\n", "uses_points(shape)\n"),
    (WAYS, "const FEW_INPUTS: usize = 16", "const FEW_INPUTS: usize = 0"),
]
GROWTH = [(WAYS, "inputs <= 12 {", "inputs < 1 {"), (WAYS, "if sets.on().shape().outputs() > 1 {", "if sets.on().shape().outputs() > 0 {")]
NO_GROWTH = [(WAYS, "inputs <= 12 {", "inputs < 2000 {"), (WAYS, "return Ok(rows < 100);", "return Ok(false);")]
NO_CUBES_OUTSIDE = [
    (WAYS, "MOST_OF_AN_OUTPUT: usize = 250", "MOST_OF_AN_OUTPUT: usize = 0"),
    (WAYS, "MOST_ROWS_OF_AN_OUTPUT: usize = 8_000_000", "MOST_ROWS_OF_AN_OUTPUT: usize = 0"),
]
FEW_CUBES_OUTSIDE = [
    (WAYS, "MOST_OF_AN_OUTPUT: usize = 250", "MOST_OF_AN_OUTPUT: usize = 6"),
    (WAYS, "MOST_OUTSIDE: usize = 40000", "MOST_OUTSIDE: usize = 12"),
    (WAYS, "MOST_ROWS_OF_AN_OUTPUT: usize = 8_000_000", "MOST_ROWS_OF_AN_OUTPUT: usize = 100"),
]
AS_NEEDED = """if !uses_points(sets.on().shape()) {
        return Ok(false);
    }
    has_many_primes(sets)"""
ALWAYS_AS_NEEDED = [(WAYS, AS_NEEDED, "Ok(uses_points(sets.on().shape()))")]
NEVER_AS_NEEDED = [(WAYS, AS_NEEDED, "Ok(false)")]
POINTS_OF_PRIMES = [(WAYS, "on.shape().inputs() > 20", "on.shape().inputs() > 0")]
NO_POINTS_OF_PRIMES = [(WAYS, "on.shape().inputs() > 20", "on.shape().inputs() > 2000")]
SHORT_COVERS = [(ROUND_HINTS, "FEW_LEFT_OUT: usize = 20", "FEW_LEFT_OUT: usize = 0"),
                (ROUND_HINTS, "MOST_POINTS_FOR_LEAST: usize = 1_200", "MOST_POINTS_FOR_LEAST: usize = 2"),
                (ROUND_HINTS, "MOST_TABLES_FOR_LEAST: u64 = 60", "MOST_TABLES_FOR_LEAST: u64 = 0")]
FEW_ROUNDS = [(ROUNDS, "MOST_ROUNDS: usize = 500", "MOST_ROUNDS: usize = 2")]
NO_FEW_PRIMES = [(SOURCE, "FEW_PRIMES: usize = 40", "FEW_PRIMES: usize = 0")]
FEW_LOOKS = [(POINTS, "[200_000, 1_600_000, 200_000_000, 4_000_000_000]", "[15, 30, 45, 60]"),
             (POINTS, "= [200_000_000, 4_000_000_000]", "= [15, 60]")]
FEW_PRIMES_OF_A_POINT = [(SOURCE, "MOST_PRIMES: usize = 30_000", "MOST_PRIMES: usize = 3")]
FEW_NEEDED_ROUNDS = [(NEEDED, "MOST_ROUNDS: usize = 2_000", "MOST_ROUNDS: usize = 3"),
                     (NEEDED, "MOST_TIMES: usize = 2_000", "MOST_TIMES: usize = 2")]
ROWS_AROUND = [(COLUMNS, "LEAST_ROWS_AROUND: usize = 200", "LEAST_ROWS_AROUND: usize = 0"),
               (COLUMNS, "LEAST_POINTS_AROUND: usize = 100", "LEAST_POINTS_AROUND: usize = 0")]
FEW_WORDS = [(NEEDED, "MOST_WORDS: usize = 4_000_000_000", "MOST_WORDS: usize = 300")]
NO_CUBES_OF_OFF = [(WAYS, "MOST_OF_OFF: usize = 200_000", "MOST_OF_OFF: usize = 0")]
FEW_CUBES_OF_OFF = [(WAYS, "MOST_OF_OFF: usize = 200_000", "MOST_OF_OFF: usize = 2"),
                    (WAYS, "MOST_ROWS_OF_OFF: usize = 4_000_000", "MOST_ROWS_OF_OFF: usize = 4")]
MERGED = [
    (MERGING, "LEAST_ROWS: usize = 8", "LEAST_ROWS: usize = 2"),
    ("minimum/fewer_rows", "LONG_LIST: usize = 2_000", "LONG_LIST: usize = 0"),
    ("minimum/fewer_rows", "row.literals().saturating_mul(4) < inputs.saturating_mul(3)", "inputs > 2000"),
    ("cover/merging/input_order", "count.saturating_mul(4).saturating_mul(step) >= rows.len()",
     "count.saturating_add(step) > 0"),
    ("cover/full_list_hint", "may_have_enough_points(list) &&", "true ||"),
]
NEVER_NEAR = [(NEAR, "near <= far", "near <= far && near == usize::MAX")]
ALWAYS_NEAR = [(NEAR, "near <= far", "near <= far || near > 0")]
SEARCH_AT_ONCE = [("regions/region/passes", "root / 2 + 1", "root / 1000"),
                  ("regions/region/passes", "root.saturating_mul(4)", "root / 1000")]
SHORT_LISTS = [
    ("regions/region/nearest_first", "FEW: usize = 64", "FEW: usize = 1"),
    ("cover/outside_within_budget", "FEW: usize = 16", "FEW: usize = 1"),
    ("regions/meets_within", "FEW: usize = 16", "FEW: usize = 1"),
    ("cover/containment", "SMALL: usize = 8", "SMALL: usize = 1"),
    ("regions/pairwise", "SMALL: usize = 8", "SMALL: usize = 1"),
    ("sums/meets", "FEW: usize = 64", "FEW: usize = 2"),
    ("sums/meets", "FEWER: usize = 16", "FEWER: usize = 1"),
    ("sums/absorb", "MANY: usize = 32", "MANY: usize = 2"),
    ("sums/dependent_outputs", "FEW: usize = 64", "FEW: usize = 2"),
    ("sums/containing", "MANY: u32 = 6", "MANY: u32 = 3"),
    ("sums/computed_table", "WORDS: usize = 1 << 24", "WORDS: usize = 1 << 11"),
    ("sums/computed_table", "FIRST_SLOTS: usize = 1024", "FIRST_SLOTS: usize = 4"),
    ("sums/computed_table", "const SLOTS: usize = 1 << 17", "const SLOTS: usize = 16"),
    ("minimum/prime_table/halving_input", "FEW: usize = 16", "FEW: usize = 1"),
    ("covering/partition", "FEW: usize = 8", "FEW: usize = 1"),
    ("covering/partition", "QUARTERS: usize = 3", "QUARTERS: usize = 4"),
    ("covering/questions", "BATCH_TABLES: u64 = 600", "BATCH_TABLES: u64 = 2"),
    ("covering/questions", "TIMES_THE_LAST_NO: u64 = 10", "TIMES_THE_LAST_NO: u64 = 0"),
    ("covering/questions", "HARD_LENGTH: u64 = 400", "HARD_LENGTH: u64 = 1"),
    ("covering/questions", "HARD_NO: u64 = 100", "HARD_NO: u64 = 1"),
]
PRIMAL_DUAL = [
    ("warm_start/warm_start", "MANY_ROWS: usize = 1_000", "MANY_ROWS: usize = 1"),
    ("warm_start/warm_start", "SPANS: u32 = 20", "SPANS: u32 = 2"),
    ("covering/search", "SUPPORT_TABLES: u64 = 500", "SUPPORT_TABLES: u64 = 2"),
]
# The same also where there are cuts of a few rows; cuts are used that are hardly violated.
CUTS = [
    *PRIMAL_DUAL,
    ("warm_start/warm_start", "MANY_ROWS_WITH_CUTS: usize = 250", "MANY_ROWS_WITH_CUTS: usize = 1"),
    ("heuristics/separation", "LEAST_VIOLATION: i64 = LIKELIEST * 15 / 100", "LEAST_VIOLATION: i64 = LIKELIEST / 100"),
]
# Questions come to the linear relaxation, with its cuts, at once.
RELAXED = [
    ("warm_start/warm_start/relaxing", "QUICK_TABLES: u64 = 200", "QUICK_TABLES: u64 = 2"),
    ("warm_start/warm_start/relaxing", "QUICK_TABLES_ONCE_HARD: u64 = 2", "QUICK_TABLES_ONCE_HARD: u64 = 1"),
    ("covering/search", "BRIEF_TABLES: u64 = 400", "BRIEF_TABLES: u64 = 2"),
]
# A local search looks at a few of the chosen columns for one to drop.
FEW_LOOKS_TO_DROP = [
    ("heuristics/swaps", "LONG_LIST: usize = 2_000", "LONG_LIST: usize = 2"),
    ("heuristics/swaps", "LOOKS: usize = 100", "LOOKS: usize = 2"),
]
FEW_PROPOSALS = [
    ("signature_search/proposer", "FEW_PLACES: usize = 2_000", "FEW_PLACES: usize = 8"),
    ("signature_search/search", "MOST_REGIONS_OF_LEFT_OUT: u64 = 1 << 16", "MOST_REGIONS_OF_LEFT_OUT: u64 = 2"),
    ("signature_search/search", "MOST_SIGNATURES: usize = 20000", "MOST_SIGNATURES: usize = 3"),
    ("signature_search/function", "MOST_WORDS_OF_COMPLEMENT: usize = 1 << 18", "MOST_WORDS_OF_COMPLEMENT: usize = 2"),
    ("signature_search/finder", "MOST_REGIONS_OF_OWN: u64 = 300", "MOST_REGIONS_OF_OWN: u64 = 2"),
    ("signature_search/finder", "MOST_REGIONS_OF_OWN.max(64u64.saturating_mul(self.function.width as u64))", "MOST_REGIONS_OF_OWN"),
]

BUILDS = {
    # Points outside a list; the columns of a point are those that dominate, or, where literals count, all primes.
    "points": [*POINTS_OF_FEW_INPUTS, *GROWTH, *NO_FEW_PRIMES, *ROWS_AROUND, *SHORT_COVERS, *SHORT_LISTS],
    # The same within budgets that are spent now and then: by cubes outside, looks, primes of a point, rounds.
    "points-spent": [*POINTS_OF_FEW_INPUTS, *GROWTH, *NO_FEW_PRIMES, *FEW_CUBES_OUTSIDE, *FEW_LOOKS, *FEW_PRIMES_OF_A_POINT,
                     *FEW_ROUNDS, *ALWAYS_AS_NEEDED, *FEW_PROPOSALS, *NEVER_NEAR, *PRIMAL_DUAL],
    # Places outside as they are needed.
    "needed": [*POINTS_OF_FEW_INPUTS, *GROWTH, *ROWS_AROUND, *NO_CUBES_OUTSIDE, *ALWAYS_AS_NEEDED, *NO_CUBES_OF_OFF, *ALWAYS_NEAR],
    # The same until rounds or looks are spent; then points that are picked by all primes.
    "needed-spent": [*POINTS_OF_FEW_INPUTS, *NO_GROWTH, *NO_CUBES_OUTSIDE, *ALWAYS_AS_NEEDED, *FEW_NEEDED_ROUNDS, *FEW_WORDS,
                     *POINTS_OF_PRIMES, *FEW_CUBES_OF_OFF, *SEARCH_AT_ONCE],
    # Points that are picked by all primes, until rounds are spent; then the table of all primes.
    "primes": [*POINTS_OF_FEW_INPUTS, *NO_GROWTH, *NO_CUBES_OUTSIDE, *NEVER_AS_NEEDED, *POINTS_OF_PRIMES, *SHORT_COVERS,
               *SHORT_LISTS, *RELAXED, *FEW_PROPOSALS],
    "primes-spent": [*POINTS_OF_FEW_INPUTS, *GROWTH, *NO_CUBES_OUTSIDE, *NEVER_AS_NEEDED, *POINTS_OF_PRIMES, *FEW_ROUNDS,
                     *NO_CUBES_OF_OFF, *NEVER_NEAR, *SEARCH_AT_ONCE],
    # The table of all primes, also of many inputs.
    "table": [*NO_GROWTH, *POINTS_OF_FEW_INPUTS, *NO_CUBES_OUTSIDE, *NEVER_AS_NEEDED, *NO_POINTS_OF_PRIMES, *NO_CUBES_OF_OFF,
              *SHORT_LISTS, *CUTS, *RELAXED, *FEW_LOOKS_TO_DROP],
    # Rows of all lists are merged, whatever they are; then points, or places outside as they are needed.
    "merged": [*MERGED, *POINTS_OF_FEW_INPUTS, *GROWTH, *FEW_CUBES_OUTSIDE, *ALWAYS_AS_NEEDED, *ALWAYS_NEAR, *SEARCH_AT_ONCE],
}


def changed_by(changes, used):
    """What as_rust writes in place of a file's text; the changes that are made are added to `used`."""
    def changed(path, text):
        for file, old, new in changes:
            if file == path:
                if text.count(old) != 1:
                    sys.exit(f"bench/low_budgets.py: {path} has not once: {old}")
                text = text.replace(old, new)
                used.add((file, old))
        return text
    return changed


def build(target, name):
    folder, used = os.path.join(target, "crates"), set()
    as_rust.write_all(folder, [as_rust.MAIN], changed_by(BUILDS[name], used))
    lost = [change for change in BUILDS[name] if change[:2] not in used]
    if lost:
        sys.exit(f"bench/low_budgets.py: no such file: {lost[0][0]}")
    as_rust.build(folder, [as_rust.MAIN], "release")
    shutil.copy2(os.path.join(folder, "target/release", as_rust.MAIN), os.path.join(target, name))


def main():
    words = sys.argv[1:]
    if not words or words[0].startswith("-") or not set(words[1:]) <= set(BUILDS):
        sys.exit(__doc__)
    for name in words[1:] or BUILDS:
        build(os.path.realpath(words[0]), name)


if __name__ == "__main__":
    main()
