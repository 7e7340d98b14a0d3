#!/bin/bash
# Holds the constants of include/niranbok.h to what the program `limits` prints: each line of it becomes
# an assertion that the C compiler checks, and each range, refusal, length and place of the header must
# have such a line.
#   scripts/limits.sh LIMITS, or the command that starts it
set -euo pipefail
cd "$(dirname "$0")/.."
work=$(mktemp -d)
trap 'rm -rf "$work"' EXIT
"$@" >"$work/limits"
awk -F '\t' '
    function same(name, n) { print "_Static_assert(NIRANBOK_" toupper(name) " == " n ", \"" name "\");" }
    BEGIN { print "#include \"niranbok.h\"" }
    function range(name, first, last) { same(name "_FIRST", first); same(name "_LAST", last) }
    function absent(first, last) { return first == "-" || first == 0 && last == 0 }
    # plain and extended headers: one range where they agree or only one has the field, else one for each kind
    # short headers: one more, where they have the field and not the plain range
    $1 == "field" && NF == 13 {
        if (absent($3, $4)) range($2, $6, $7)
        else if (absent($6, $7) || $3 == $6 && $4 == $7) range($2, $3, $4)
        else { range($2 "_PLAIN", $3, $4); range($2 "_EXTENDED", $6, $7) }
        if (!absent($9, $10) && !($9 == $3 && $10 == $4)) range($2 "_SHORT", $9, $10)
        next
    }
    $1 == "refusal" && NF == 3 { same("REFUSED_" $3, $2); next }
    $1 == "length" && NF == 3 { same($2 "_BYTES", $3); next }
    $1 == "place" && NF == 4 { same($2, $3); next }
    { print "#error a line of limits that is none: " $0 }
' "$work/limits" >"$work/limits.c"
cc -std=c11 -Wall -Wextra -Werror -Iinclude -fsyntax-only "$work/limits.c"
# kinds and events are the interface's own and have no line; the stack is held by stack.sh
grep -o '^#define NIRANBOK_[A-Z_]* [0-9]' include/niranbok.h | awk '{ print $2 }' |
    grep -v -x -e 'NIRANBOK_PLAIN' -e 'NIRANBOK_EXTENDED' -e 'NIRANBOK_SHORT_FRAME' -e 'NIRANBOK_NOTHING' -e 'NIRANBOK_OPENED' -e 'NIRANBOK_STORED' \
        -e 'NIRANBOK_READY' -e 'NIRANBOK_SHORT' -e 'NIRANBOK_JUMP' -e 'NIRANBOK_LONG' -e 'NIRANBOK_BROKEN' -e 'NIRANBOK_STACK_BYTES' |
    while read -r name; do
        grep -q "($name ==" "$work/limits.c" || { echo "limits prints nothing for $name"; exit 1; }
    done
echo "niranbok.h: $(grep -c _Static_assert "$work/limits.c") constants are as limits prints them"
