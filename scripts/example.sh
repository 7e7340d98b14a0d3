#!/bin/bash
# The scope document's example of the lister, in its form: without arguments, on standard input, as a file and as a pipe. What goes in and
# what must come out, whole, stand here as the document has them.
#   scripts/example.sh LISTER, or the command that starts it
set -euo pipefail
work=$(mktemp -d)
trap 'rm -rf "$work"' EXIT
fill() { head -c "$1" /dev/zero | tr '\0' "$2"; } # COUNT BYTE
{
    fill 188 '\0'
    printf '\x47\x1F\xFF\x10' # a null packet
    fill 184 '\377'
    fill 1 '\0'
} >"$work/packets"
cat >"$work/expected" <<'LINES'
0 refused 3
1 refused 4
tail 1
LINES
"$@" <"$work/packets" >"$work/from_file" 2>"$work/errors"
head -c 377 "$work/packets" | "$@" >"$work/from_pipe" 2>>"$work/errors"
cmp "$work/from_file" "$work/expected"
cmp "$work/from_pipe" "$work/expected"
cmp "$work/errors" /dev/null
echo 'the lister prints the three lines of the example, from a file and from a pipe'
