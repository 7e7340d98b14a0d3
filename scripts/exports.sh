#!/bin/bash
# Holds an archive to include/niranbok.h: it exports each function that the header declares, once, and nothing else. Holds the crate unique
# to the same list: it shows of the library's function behind each of these that its outcome is unique. And holds the archive's source to
# the libraries: each export calls the function of its own name, and stands over the same parameters and clauses, word for word.
#   scripts/exports.sh ARCHIVE
set -euo pipefail
root=$(dirname "$0")/..
header=$root/include/niranbok.h
declared=$(sed -n -E 's/^[a-z0-9_]+ (niranbok_[a-z_]+)\(.*/\1/p' "$header" | sort)
exported=$(nm -g --defined-only "$1" | awk 'NF == 3 { print $3 }' | sort)
diff <(echo "$declared") <(echo "$exported") |
    sed -n -e 's/^< /declared in niranbok.h and not exported: /p' -e 's/^> /exported, and not declared or not for the first time: /p' || true
[ "$declared" = "$exported" ] || { echo "FAILED: $1 does not have what niranbok.h says"; exit 1; }
shown=$(sed -n -E 's/^use .*\.proofs\.(niranbok_[a-z_]+) as .*/\1/p' "$root/crates/unique/specs/Calls.antt" | sort)
diff <(echo "$declared") <(echo "$shown") | sed -n -e 's/^< /without a line in crates\/unique: /p' -e 's/^> /in crates\/unique and not in niranbok.h: /p' || true
[ "$declared" = "$shown" ] || { echo "FAILED: crates/unique does not have the functions of niranbok.h"; exit 1; }

# A line for each of these functions in the sources given: its crate, and all that stands in front of its body. Of an export the crate is
# the one that it calls.
heads() { # FILE..
    awk '
        /^pub (extern "C" )?fn niranbok_/ { name = $0; sub(/.*fn /, "", name); sub(/\(.*/, "", name); head = body = ""; part = "head" }
        part == "head" && /[{]$/ { sub(/ ?[{]$/, ""); if ($0) head = head " " $0; part = "body"; next }
        part == "head" { head = head " " $0 }
        part == "body" { body = body $0 }
        part && /^[}]$/ {
            crate = FILENAME; sub(/.*crates\//, "", crate); sub(/\/.*/, "", crate)
            if (crate ~ /^niranbok_/) { crate = body; sub(/^ */, "", crate); if (!sub("::" name "[(].*", "", crate)) crate = "nothing of its name" }
            sub(/extern "C" /, "", head); gsub(/ +/, " ", head); gsub(/\( /, "(", head); gsub(/, \)/, ")", head)
            print crate ":" head
            part = ""
        }' "$@" | sort
}
calls=$(heads "$root"/crates/niranbok_*/src/*.rt)
mapfile -t libraries < <(grep -l -E '^pub (extern "C" )?fn niranbok_' "$root"/crates/*/src/*.rt | grep -v /crates/niranbok_)
called=$(heads "${libraries[@]}")
diff <(echo "$called") <(echo "$calls") | sed -n -e 's/^< /without its export: /p' -e 's/^> /exported otherwise than the library has it: /p' || true
[ "$called" = "$calls" ] || { echo "FAILED: the crates niranbok_* do not have the libraries' parameters and clauses"; exit 1; }
echo "$1 exports the $(echo "$exported" | wc -l) functions of niranbok.h, each once, with the libraries' clauses"
