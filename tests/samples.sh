#!/bin/sh
# The sample folders are what samples/make.py writes, and the program prints for each what stands in its file 'stdout'.
set -eu
cd "$(dirname "$0")/.."
made=$(mktemp -d)
trap 'rm -rf "$made"' EXIT
python3 samples/make.py "$made"
for folder in book-a shift; do
    cmp "$made/$folder/rules.bk" "samples/$folder/rules.bk"
    cmp "$made/$folder/steps.bk" "samples/$folder/steps.bk"
    ./desk "samples/$folder" >"$made/out"
    cmp "$made/out" "samples/$folder/stdout"
done
echo "2 sample folders as they should be"
