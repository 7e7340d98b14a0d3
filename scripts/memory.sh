#!/bin/bash
# A part of the comparison under valgrind, with every lent buffer a heap block of its own: any access outside of what is lent is an
# error.
set -euo pipefail
cd "$(dirname "$0")/../compare"
# Of the builds that are there the newest.
test=''
for build in target/debug/deps/compare-*; do
    if [ -x "$build" ] && { [ -z "$test" ] || [ "$build" -nt "$test" ]; }; then test=$build; fi
done
NIRANBOK_PART=${NIRANBOK_PART:-20} NIRANBOK_BARE=1 valgrind --quiet --error-exitcode=1 "$test"
echo "valgrind saw no access outside of what was lent"
