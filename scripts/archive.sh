#!/bin/bash
# Makes the archive for C, FOLDER/libniranbok.a, of the static libraries of crates.txt, and holds it to the C header. Each is compiled by itself,
# and exports the functions of its own crate alone. It is for every x86-64, since the header says nothing of a processor; rt's default asks for
# a later one.
#   scripts/archive.sh FOLDER [FLAG..]         proves what has changed since the last check; the flags go to `rt lib`, in the place of that
#   scripts/archive.sh --since FILE FOLDER     the same where `rt ci` has passed since FILE was made: what it proved is not proved again
set -euo pipefail
cd "$(dirname "$0")/.."
since=''
if [ "$1" = --since ]; then
    since=$2
    shift 2
fi
folder=$1
shift
[ $# -gt 0 ] || set -- --cpu x86-64
log=$(mktemp)
parts=$(mktemp -d)
trap 'rm -rf "$log" "$parts"' EXIT
rm -f "$folder/libniranbok.a"
mkdir -p "$folder"

# Whether each library that is there was made since: in a checkout with kept work `rt ci` ends by putting that in the place of its own.
are_new() {
    local rlib found=''
    for rlib in crates/*/out/rlib/*.rlib; do
        [ "$rlib" -nt "$since" ] || return 1
        found=1
    done
    [ -n "$found" ]
}

# What `rt lib` has rattle do, over the libraries that are there, which it does not take without a check of its own: the calls are proved
# over what those state, and compiled.
build() { # CRATE FLAG..
    local crate=$1 kit words=() named below
    shift
    kit=$(cd "$(dirname "$(readlink -f "$(command -v rt)")")/.." && pwd -P)
    cd "crates/$crate"
    read -r -a named < <(sed -n "s/^$crate staticlib: *//p" ../../crates.txt)
    for below in "${named[@]}"; do words+=(--extern "$below=../$below/out/rlib/$below.rlib"); done
    for below in ../*/out/rlib; do words+=(-L "dependency=$below"); done
    "$kit/bin/rattle" build --crate-name "$crate" src/lib.rt --crate-type staticlib --backend llvm "$@" "${words[@]}" \
        --extern "std=$kit/rlibs/std.rlib" -L "dependency=$kit/rlibs" --antt-project "$kit/rattle/logic/antt-project.json" \
        --logic-built "$kit/logic_built" --toolchain "$kit/toolchain" -o "out/lib$crate.a"
}

for crate in $(sed -n -E 's/^(niranbok_[a-z_]+) staticlib:.*/\1/p' crates.txt); do
    made=crates/$crate/out/lib$crate.a
    rm -f "$made"
    mkdir -p "$(dirname "$made")" "$parts/$crate"
    if [ -n "$since" ] && are_new && (build "$crate" "$@") >"$log" 2>&1; then
        :
    elif (cd "crates/$crate" && rt lib "$@") >"$log" 2>&1; then
        :
    else
        cat "$log"
        echo "FAILED: the archive for C is not made: $crate"
        exit 1
    fi
    (cd "$parts/$crate" && ar x "$OLDPWD/$made" && for object in *.o; do mv "$object" "../$crate-$object"; done)
done
ar rcs "$folder/libniranbok.a" "$parts"/*.o
scripts/exports.sh "$folder/libniranbok.a"
