#!/bin/bash
# The rates of mux, demux, bond and unbond on a gigabyte in the page cache, best of three, and their memory, beside `cat`'s of what they
# read. Bond writes files, and the `cat` beside it does. Needs 4 GB in $TMPDIR, else in /tmp.
#   scripts/tools.sh TOOLS
set -euo pipefail
tools=$(realpath "$1")
cd "$(dirname "$0")/../compare"
work=$(mktemp -d)
trap 'rm -rf "$work"' EXIT
packets=5319149
room=$(df -Pk "$work" | awk 'NR == 2 { print int($4 * 1024 / 188 / 4) }')
if [ "$room" -lt "$packets" ]; then
    packets=$((room * 9 / 10))
    echo "too little room in $work for a gigabyte: measured on $((packets * 188 / 1000000)) MB"
fi
cargo build --quiet --release
target/release/recording "$packets" "$work/stream"
cd "$work"

# A recording's own headers bear another PID: it is a stream like any.
mux=(mux 0x1FFE 52 1 1 stream)
demux=(demux 0x1FFE 1 frames)
short_mux=(mux --short 0x1FFE 40 1 1 stream)
short_demux=(demux --short 0x1FFE 1 frames)
bond=(bond 0x1FFE 1 1 1 stream 3 52 carrier1 4 52 carrier2)
unbond=(unbond 0x1FFE 1 1 carrier1 carrier2)
"$tools" "${mux[@]}" >frames 2>said
"$tools" "${demux[@]}" 2>said | cmp - stream
"$tools" "${bond[@]}" 2>said
# The last super frame is filled up, so more comes back than was sent; a pipe that stops reading there would fail unbond.
"$tools" "${unbond[@]}" >copy 2>said
cmp -n "$((packets * 188))" copy stream
rm copy

rate() { # OUTPUT BYTES NAME COMMAND..
    output=$1
    bytes=$2
    name=$3
    shift 3
    best=
    for _ in 1 2 3; do
        start=$(date +%s%N)
        /usr/bin/time -f %M -o memory "$@" >"$output" 2>said
        took=$(($(date +%s%N) - start))
        if [ -z "$best" ] || [ "$took" -lt "$best" ]; then best=$took; fi
    done
    echo "$name: $((bytes * 1000 / best)) MB/s, $(cat memory) kB"
}
size() { cat "$@" | wc -c; }
rate /dev/null "$(size stream)" 'mux' "$tools" "${mux[@]}"
rate /dev/null "$(size stream)" 'cat of the stream' cat stream
rate /dev/null "$(size frames)" 'demux' "$tools" "${demux[@]}"
rate /dev/null "$(size frames)" 'cat of the frames' cat frames
rate /dev/null "$(size stream)" 'bond, two carriers' "$tools" "${bond[@]}"
rate copy "$(size stream)" 'cat of the stream to a file' cat stream
rm copy
rate /dev/null "$(size carrier1 carrier2)" 'unbond, two carriers' "$tools" "${unbond[@]}"
rate /dev/null "$(size carrier1 carrier2)" 'cat of the carriers' cat carrier1 carrier2
# Short frames in the place of the others, for there is room for one of them.
"$tools" "${short_mux[@]}" >frames 2>said
"$tools" "${short_demux[@]}" 2>said | cmp - stream
rate /dev/null "$(size stream)" 'mux --short' "$tools" "${short_mux[@]}"
rate /dev/null "$(size frames)" 'demux --short' "$tools" "${short_demux[@]}"
