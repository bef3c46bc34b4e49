#!/bin/sh
# Times how long constraints take to be lowered to plans, shortened and given choices, over a release. The first word is
# a file of queries, one a line, behind a class and a tab; the second the folder of a release; give another folder as the
# third to keep what was made for the next run.
set -eu
here=$(cd "$(dirname "$0")" && pwd)
queries=$(realpath "$1")
release=$2
work=${3:-$(mktemp -d)}
cat "$queries" > "$work/queries.txt"
exec "$here/timed.sh" plan_bench plans_main.rt.in \
    "number_lists text_parts numerals release_model sctid hierarchy rf2_rows release_files idset key_interner ecl_lexer constraint_tree ecl_parser set_algebra rewrites row_lists held_release release_rows snapshot ancestor_index postings plan_bounds planner" \
    "$release" "$work"
