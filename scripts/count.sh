#!/bin/bash
# Counts the instructions that the archive and the Rust need for the rows of the benchmark, under an emulator: the same on every machine,
# whatever else it does. A row's count is the difference between 200 and 100 times, by 100.
#   scripts/count.sh BENCH    the benchmark's program for x86-64
set -euo pipefail
cd "$(dirname "$0")/.."
# One processor everywhere: what a copy of the C library does hangs on it.
export QEMU_CPU=Nehalem
work=$(mktemp -d)
trap 'rm -rf "$work"' EXIT
cc -std=c11 -Wall -Wextra -Werror -O2 -shared -fPIC scripts/count.c -o "$work/count.so"
# The plugin writes to standard error, and that alone is wanted.
# shellcheck disable=SC2069
sum() { qemu-x86_64 -plugin "$work/count.so" "$1" --count "$2" "$3" "$4" 2>&1 >/dev/null; }
printf '| instructions | archive | Rust | archive / Rust |\n|---|---:|---:|---:|\n'
qemu-x86_64 "$1" --count none none 0 | while read -r row; do
    for side in archive rust; do
        echo $(( ($(sum "$1" "$row" "$side" 200) - $(sum "$1" "$row" "$side" 100)) / 100 ))
    done | paste -s | awk -v row="$row" '{ printf "| %s | %d | %d | %.2f |\n", row, $1, $2, $1 / $2 }'
done
