#!/bin/sh
# Times the operations of `idset` (idset_main.rt.in, the text of main.rt) beside plain loops built by `rustc -O`
# (idset_plain.rs). Give a folder to keep what was made for the next run.
set -eu
here=$(cd "$(dirname "$0")" && pwd)
work=${1:-$(mktemp -d)}
"$here/timed.sh" idset_bench idset_main.rt.in "number_lists idset" - "$work"
rustc -O -o "$work/plain" "$here/idset_plain.rs"
echo
echo "plain loops"
"$work/plain"
