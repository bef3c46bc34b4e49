#!/bin/sh
# Refuses each allocation of each call of the libraries in turn that can answer want of memory (refusals_main.rt.in), and
# tells how each call went. Give a folder to keep what was made for the next run.
set -eu
here=$(cd "$(dirname "$0")" && pwd)
work=${1:-$(mktemp -d)}
"$here/timed.sh" refusals refusals_main.rt.in \
    "number_lists text_parts numerals release_model sctid hierarchy key_interner rf2_rows release_files idset ecl_lexer constraint_tree ecl_parser set_algebra rewrites row_lists held_release release_rows snapshot ancestor_index postings sample_release reading candidates pair_sets walks plan_bounds planner executor concept_printer answer_printer command_line streams query_run session_line query_service query_tool" \
    "$here/../examples/SnomedCT_SampleEdition_20240101" "$work" > "$work/unrefused.txt"
gcc -O2 -shared -fPIC -o "$work/refuse.so" "$here/refuse.c"
LD_PRELOAD="$work/refuse.so" "$work/refusals"
