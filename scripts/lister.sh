#!/bin/bash
# The lister's rate on a recording of 100 MB in the page cache, best of five, beside the reference's and `cat`'s.
#   scripts/lister.sh LISTER
set -euo pipefail
cd "$(dirname "$0")/.."
work=$(mktemp -d)
trap 'rm -rf "$work"' EXIT
(cd compare && cargo build --quiet --release)
compare/target/release/recording 531915 "$work/recording"
compare/target/release/list <"$work/recording" >"$work/expected"
"$1" <"$work/recording" | cmp - "$work/expected"
rate() { # NAME COMMAND..
    name=$1
    shift
    best=
    for _ in 1 2 3 4 5; do
        start=$(date +%s%N)
        "$@" <"$work/recording" >/dev/null
        took=$(($(date +%s%N) - start))
        if [ -z "$best" ] || [ "$took" -lt "$best" ]; then best=$took; fi
    done
    echo "$name: $((100000020000 / best)) MB/s"
}
rate 'lister' "$1"
rate 'reference' compare/target/release/list
rate 'cat' cat
