#!/bin/sh
# Makes crates/p2p_simulated_c/out/libp2p_simulated_c.a, which is proved before. `rt lib` first proves
# the libraries below it, where they have changed.
#
# With the word `gate` the archive is proved over the libraries that a gate left in out/rlib, and none
# of them is proved anew. They have no stamp: `rt lib` would not take them. Where a crate was changed
# after it, or where `rt check` or `rt lib` left libraries with stamps, which a gate puts back, the
# archive is made by `rt lib` all the same.
set -eu
cd "$(dirname "$0")/../crates/p2p_simulated_c"
mkdir -p out
kit=$(dirname "$(dirname "$(readlink -f "$(command -v rt)")")")
libraries=$(sed -n 's/^p2p_simulated_c staticlib: *//p' ../../crates.txt)

# the path of a library that the archive uses: of this repository, or of the kit
rlib_of() { # NAME
    if [ -d ../"$1" ]; then echo ../"$1"/out/rlib/"$1".rlib; else echo "$kit/rlibs/$1.rlib"; fi
}

has_libraries_of_a_gate() {
    for library in $libraries; do
        [ -d "$(rlib_of "$library")" ] || return 1
    done
    for rlib in ../*/out/rlib/*.rlib; do
        crate=${rlib%/out/rlib/*}
        [ ! -e "$crate/out/rlib/stamp" ] || return 1
        ! find "$crate/src" "$crate/specs" "$crate/proofs" -newer "$rlib/format" 2> /dev/null | grep -q . || return 1
    done
}

build_over_these() {
    set -- -L dependency="$kit/rlibs"
    for library in std $libraries; do
        set -- "$@" --extern "$library=$(rlib_of "$library")"
    done
    for folder in ../*/out/rlib; do
        set -- "$@" -L dependency="$folder"
    done
    "$kit/bin/rattle" build --crate-name p2p_simulated_c src/lib.rt --crate-type staticlib "$@" \
        --links p2p_simulated_c= --antt-project "$kit/rattle/logic/antt-project.json" \
        --logic-built "$kit/logic_built" --toolchain "$kit/toolchain" --jobs 4 -o out/libp2p_simulated_c.a
}

if [ "${1:-}" = gate ] && has_libraries_of_a_gate; then
    if build_over_these > out/gate.log 2>&1; then
        exit 0
    fi
    echo "bindings: the archive was not made over the libraries of the gate, so they are proved once more:"
    tail -n 4 out/gate.log
fi
if ! rt lib > out/archive.log 2>&1; then
    tail -n 40 out/archive.log
    exit 1
fi
