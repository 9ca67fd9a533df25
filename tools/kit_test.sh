#!/bin/sh
# kit_test.sh: builds the program `kit`, compares what it prints for each sample sheet with the sample's .kit file, and then tests it on no bytes at all
# and on a sheet with bytes after it. The samples dihedron-8192, dihedron-8193 and polygon-420 are whole sheets of 8,192 bytes, of 8,193 and of
# more. The last line counts how many were as expected.
set -u
cd "$(dirname "$0")/.." || exit 1
mkdir -p target
sh tools/build.sh kit > target/kit.log 2>&1 || { cat target/kit.log; exit 1; }
alike=0 failed=0
# hold NAME EXPECTED: tests that what `kit` prints for standard input is what the file EXPECTED holds.
hold() {
    if target/bin/kit | diff "$2" - > target/kit.diff; then
        alike=$((alike + 1))
    else
        echo "kit_test: $1:"; cat target/kit.diff
        failed=$((failed + 1))
    fi
}
for sheet in samples/*.sheet; do
    hold "$sheet" "${sheet%.sheet}.kit" < "$sheet"
done
echo "refused 1" > target/kit.refused
hold "no bytes" target/kit.refused < /dev/null
for size in 86 8192 8193; do
    { cat samples/trial-square.sheet; head -c $((size - 85)) /dev/zero; } > target/kit.sheet
    hold "the square, $size bytes in all" target/kit.refused < target/kit.sheet
done
echo "kit_test: $alike alike, $failed not"
[ "$failed" -eq 0 ]
