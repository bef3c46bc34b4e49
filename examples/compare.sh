#!/usr/bin/env bash
# What a query gains and loses from one release to another: a line for each concept, with + or -.
#
#     compare.sh QUERY OLD [OLD ..] -- NEW [NEW ..]
set -euo pipefail
program=${HOSECRAG:-$(dirname "${BASH_SOURCE[0]}")/../hosecrag}
query=$1
shift
old=()
while [ "$1" != -- ]; do
    old+=("$1")
    shift
done
shift

# The concepts of the query, a line each, in the order of their texts.
concepts() {
    local answer
    answer=$(printf '%s\n' "$query" | "$program" query "$@")
    if [ "${answer%% *}" != OK ]; then
        echo "compare.sh: the query was refused: $answer" >&2
        return 1
    fi
    tail -n +2 <<<"$answer" | LC_ALL=C sort
}

before=$(concepts "${old[@]}")
after=$(concepts "$@")
LC_ALL=C comm -3 <(printf '%s' "$before${before:+$'\n'}") <(printf '%s' "$after${after:+$'\n'}") |
    sed -e 's/^\t/+ /' -e t -e 's/^/- /'
