#!/usr/bin/env bash
# Proves, builds and runs a program that times a library over a release, in a folder of its own. The words are the
# program's name, the file that is its `main.rt`, the crates that it stands on, the folder of a release (or - where it
# needs none), and, to keep what was made for the next run, another folder. The crates are those that ./hosecrag has
# proved.
set -euo pipefail
here=$(cd "$(dirname "$0")" && pwd)
name=$1
main=$2
crates=$3
release=$4
if [ "$release" != - ]; then release=$(cd "$release" && pwd); fi
work=${5:-$(mktemp -d)}
mkdir -p "$work"
work=$(cd "$work" && pwd)
list=$work/crates.txt
sources=$work/crates
libraries=$work/libraries
source "$here/../make_crate.sh"

rm -rf "$sources" "$libraries"
mkdir -p "$sources/$name/src" "$libraries"
for crate in $crates; do
    if ! tar -xf "$here/../out/$crate-"*.tar -C "$libraries"; then
        echo "$crate is not proved: run ./hosecrag first" >&2
        exit 1
    fi
    mkdir "$sources/$crate"
done
echo "$name: $crates anyhow" >"$list"
# what stands beside `X_main.rt.in` as `X_part.rt.in` is a part of the program
for file in "$here/${main%main.rt.in}"*.rt.in; do
    part=${file#"$here/${main%main.rt.in}"}
    cp "$file" "$sources/$name/src/${part%.in}"
done
# and its proofs, where it has some that are not found by search, in a folder `X_proofs`
proofs=${main%main.rt.in}proofs
if [ -d "$here/$proofs" ]; then
    (cd "$here/$proofs" && find . -name '*.in') | while read -r file; do
        install -D -m 644 "$here/$proofs/$file" "$sources/$name/proofs/${file%.in}"
    done
fi
of=$(cat "$sources/$name/src/"*.rt | sha256sum; ls "$here/../out")
if [ ! -x "$work/$name" ] || [ "$of" != "$(cat "$work/$name.of")" ]; then
    (make_program_of "$name" "$(nproc)" "$work/$name") >"$work/$name.log" 2>&1 || { cat "$work/$name.log" >&2 && exit 1; }
    echo "$of" >"$work/$name.of"
fi
cd "$work"
if [ "$release" = - ]; then exec "./$name"; fi
find "$release" -name 'sct2_Concept_*.txt' -exec cp {} concepts.txt \;
find "$release" -name 'sct2_Relationship_*.txt' -exec cp {} relationships.txt \;
find "$release" -name 'sct2_RelationshipConcreteValues_*.txt' -exec cp {} values.txt \;
find "$release" -name 'der2_Refset_Simple*.txt' -exec cp {} members.txt \;
"./$name"
