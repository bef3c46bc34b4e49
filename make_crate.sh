# shellcheck shell=bash
# How a crate is proved and built by the toolchain's rattle itself, with the words by which rt's gate has libraries
# proved: from nothing, and of the crates below it takes what they state and not their proofs.
# ./hosecrag and bench/timed.sh read it, and set
#   list       the file that says which crates a crate stands on (crates.txt)
#   sources    the folder of the crates
#   libraries  the folder of what was made of those below, NAME.rlib for each
toolchain=$(dirname "$(rt doc)")

# Proves a crate by so many processes, and makes what the words behind them say of it. Where memory is so short that
# the system ends it, it is tried once more by one process.
make_of() {
    local name words=() source=src/lib.rt jobs status=0
    if [ ! -e "$sources/$1/$source" ]; then source=src/main.rt; fi
    for name in std $(sed -n "s/^$1://p" "$list"); do
        if [ -d "$sources/$name" ]; then
            words+=(--extern "$name=$libraries/$name.rlib")
        else
            words+=(--extern "$name=$toolchain/rlibs/$name.rlib")
        fi
    done
    cd "$sources/$1" || return
    for jobs in "$2" 1; do
        status=0
        "$toolchain/bin/rattle" build --crate-name "$1" "$source" --jobs "$jobs" "${words[@]}" --links "$1=" \
            -L "dependency=$toolchain/rlibs" -L "dependency=$libraries" --logic-built "$toolchain/logic_built" \
            --antt-project "$toolchain/rattle/logic/antt-project.json" "${@:3}" || status=$?
        if [ "$status" -ne 137 ]; then break; fi
    done
    return "$status"
}

# Proves the crate of a program by so many processes and builds the program, at a path.
make_program_of() {
    make_of "$1" "$2" --toolchain "$toolchain/toolchain" --backend llvm -o "$3.o" || return
    "$toolchain/bin/rattle-link" --target x86_64-unknown-linux-gnu --toolchain "$toolchain/toolchain" -o "$3" \
        "$3.o" "$toolchain/c/libos_c.a" "$toolchain/c/liblibc_c.a"
}
