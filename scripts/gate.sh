#!/bin/bash
# The gate: `rt ci` over the checkout as it stands, and all other tests. Where all is well the last line printed is rt's own,
# 'N passed, 0 failed'; else it says FAILED and names what failed.
#   scripts/gate.sh
set -uo pipefail
cd "$(dirname "$0")/.." || exit
logs=$(mktemp -d) || exit
trap 'rm -rf "$logs"' EXIT
touch "$logs/began"

# Runs one of the Makefile's tests, and leaves a word on how it ended.
tests='map-test setup rust-test archive archive-test stack-test lister-test tools-test limits-test'
try() { # TEST [WORDS..]
    local began=$SECONDS how=passed
    echo "--- $1"
    nice -n 19 make --no-print-directory "$@" || how=failed
    echo "$1 $how ($((SECONDS - began)) s)"
    echo "$how" >"$logs/$1"
    [ "$how" = passed ]
}

# What needs nothing proved goes first, or beside the proofs on what they leave.
try map-test
try setup
try rust-test >"$logs/beside" 2>&1 &
beside=$!

# rt's last line is held back, since others may still fail.
tally='^[0-9]+ passed, [0-9]+ failed$'
rt ci 2>&1 | tee "$logs/proofs" | sed -u -E "/$tally/d"
status=${PIPESTATUS[0]}
last=$(tail -n 1 "$logs/proofs")
# An edit that could not be tried is no failure to rt, and shows nothing.
bad=$(sed -n -E 's/^rt: ok.*, ([0-9]+) bad.*/\1/p' "$logs/proofs")
failed=''
if [ "$status" -ne 0 ] || ! [[ $last =~ $tally ]] || [[ $last != *' 0 failed' ]]; then
    case $last in *' 0 failed') ;; *' failed') echo "$last" ;; esac
    # rt's own list, of which the first few are enough here.
    names=$(sed -n 's/^rt: FAILED: //p' "$logs/proofs" | awk '{ for (i = 1; i <= NF && i <= 5; i++) printf "%s%s", (i > 1 ? " " : ""), $i
        if (NF > 5) printf " and %d more", NF - 5 }')
    failed=", rt ci (${names:-it ended with status $status and without its count})"
elif [ "${bad:-0}" -gt 0 ]; then
    failed=", rt ci ($bad must-fail edits are bad)"
fi
wait "$beside"
cat "$logs/beside"

# rt leaves the programs that it built, and no archive. One test after another: each takes the processors that it can use.
if [ "$(cat "$logs/setup")" = passed ]; then
    [ "$status" -ne 0 ] || { try archive SINCE="$logs/began" && try archive-test && try stack-test; }
    [ ! -e crates/lister/out/lister ] || try lister-test
    [ ! -e crates/tools/out/tools ] || try tools-test
    [ ! -e crates/limits/out/limits ] || [ "$(cat "$logs/archive" 2>/dev/null)" != passed ] || try limits-test
fi

# A test that did not run, since rt ended without what it needs, or one before it failed, is not passed.
unrun=''
for test in $tests; do
    case $(cat "$logs/$test" 2>/dev/null) in
    passed) ;;
    failed) failed="$failed, $test" ;;
    *) unrun="$unrun, $test" ;;
    esac
done
echo "the gate took $((SECONDS / 60)) min $((SECONDS % 60)) s"
if [ -z "$failed$unrun" ]; then
    echo "$last"
    exit 0
fi
verdict="FAILED:${failed#,}"
[ -z "$unrun" ] || verdict="$verdict${failed:+;} not run: ${unrun#, }"
echo "$verdict (see above)"
exit 1
