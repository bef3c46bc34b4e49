#!/bin/sh
# Times how long the hierarchy of a release takes to be closed, and how long all its indexes take, and tells how much
# memory they take. The first word is the folder of a release; give another folder as the second to keep what was made
# for the next run.
set -eu
exec "$(dirname "$0")/timed.sh" index_bench indexes_main.rt.in \
    "number_lists text_parts numerals release_model sctid hierarchy rf2_rows release_files idset key_interner row_lists held_release release_rows snapshot ancestor_index postings" "$@"
