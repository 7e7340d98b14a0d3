#!/bin/bash
# How much stack each call of niranbok.h takes, in the archive for x86-64 that is there: the comparison with the independent program, with
# every call made on a painted stack (stack/painted.c). Prints the most bytes that each call took, where it was accepted and with
# each refusal; and fails where a call was never accepted or took more than its limit in stack/limits.
#   scripts/stack.sh ARCHIVE CC CARGO...    the archive; the C compiler and cargo for x86-64
set -euo pipefail
cd "$(dirname "$0")/.."
archive=$1 cc=$2
shift 2
folder=$PWD/target/stack
rm -rf "$folder/taken"
mkdir -p "$folder"

# The functions of the header, numbered: whether each answers a refusal's number, and its name without what all begin with. In the archive
# they get other names, and painted.c takes theirs.
declared='^[a-z0-9_]+ niranbok_[a-z_]+[(]'
awk -F'[ (]' -v declared="$declared" '$0 ~ declared { sub("niranbok_", "", $2); printf "CALL(%d, %d, %s)\n", n++, $1 == "uint8_t", $2 }' \
    include/niranbok.h >"$folder/calls.inc"
sed -E 's/CALL\(.*, (.*)\)/niranbok_\1 renamed_\1/' "$folder/calls.inc" >"$folder/names"
"${cc%gcc}objcopy" --redefine-syms="$folder/names" "$archive" "$folder/libniranbok.a"
"$cc" -std=gnu11 -O1 -Wall -Wextra -Werror -I"$folder" -c stack/painted.c -o "$folder/painted.o"
ar rcs "$folder/libniranbok.a" "$folder/painted.o"
(cd compare && NIRANBOK_LIB=$folder NIRANBOK_STACK=$folder/taken CARGO_TARGET_DIR=$folder/compare \
    "$@" test --quiet -p board --test compare) >"$folder/log" || { cat "$folder/log"; exit 1; }

most=$(sed -n -E 's/^#define NIRANBOK_STACK_BYTES ([0-9]+).*/\1/p' include/niranbok.h)
awk -v most="${most:-0}" '
    /^#/ { next }
    FILENAME ~ /calls.inc$/ { sub(/.*, /, ""); sub(/\).*/, ""); call[n++] = $0; next }
    FILENAME ~ /limits$/ { limit[$1] = $2; if ($2 > largest) largest = $2; next }
    $3 > deepest[$1] { deepest[$1] = $3 }
    $2 == 0 { accepted[$1] = $3; next }
    !(($1, $3) in with) { depths[$1] = depths[$1] " " $3 }
    { with[$1, $3] = with[$1, $3] ", " $2 }
    # The depths of a call that was refused, each with the numbers of its refusals.
    function refused(c, d, text, i, k) {
        k = split(depths[c], d, " ")
        for (i = 1; i <= k; i++) text = text "; " d[i] " with " substr(with[c, d[i]], 3)
        return k ? substr(text, 3) : "–"
    }
    END {
        print "| Call | Limit | Accepted | Refused |"
        print "|---|---|---|---|"
        for (i = 0; i < n; i++) {
            c = call[i]
            printf "| %s | %s | %s | %s |\n", c, limit[c], accepted[c], refused(c)
            if (!(c in limit)) wrong = wrong "\n" c " has no limit in stack/limits"
            if (!(c in accepted)) wrong = wrong "\n" c " was never accepted"
            if (deepest[c] > limit[c]) wrong = wrong "\n" c " takes " deepest[c] " bytes, and its limit is " limit[c]
        }
        if (largest != most) wrong = wrong "\nthe largest limit is " largest ", and NIRANBOK_STACK_BYTES in niranbok.h " most
        if (wrong) { print "FAILED:" wrong; exit 1 }
    }' "$folder/calls.inc" stack/limits "$folder/taken"
echo "bytes of stack on x86-64; $(grep ' calls in ' "$folder/log" | tail -n 1 | sed 's/ in .*//') made"
