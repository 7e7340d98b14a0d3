#!/bin/sh
# Writes the lister's inputs and expected outputs, which come from the independent program of compare/, and the sample.
# Run by hand, with cargo. The files are the same in every run.
set -eu
cd "$(dirname "$0")/.."
made=$(mktemp -d)
trap 'rm -r "$made"' EXIT
(cd compare && cargo build --release)
compare/target/release/lister_cases "$made"

# The lister runs once: the example on its standard input, the other cases by name, and all outputs one behind another.
lister=crates/lister
cases='many tail1 empty'
mkdir -p "$lister/data"
cp "$made/example.in" "$lister/stdin"
cp "$made/example.out" "$lister/stdout"
echo - > "$lister/args"
for case in $cases; do
    cp "$made/$case.in" "$lister/data/$case"
    cat "$made/$case.out" >> "$lister/stdout"
    echo "$case" >> "$lister/args"
done

# The sample that ships: a few packets of the many, one of each refusal among them, and a cut one.
for k in 0 1 2 3 36 142 170 184 198 212 226 240 254; do
    dd if="$made/many.in" bs=188 skip="$k" count=1 status=none
done > samples/recording.ts
head -c 60 "$made/many.in" >> samples/recording.ts
