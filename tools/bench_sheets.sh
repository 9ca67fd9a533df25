#!/bin/sh
# bench_sheets.sh: prints the milliseconds of processor time that refusals 1 to 7, storing included, take on large sheets
# (tools/make_largest.py says which). Each sheet is judged 64 times, and the best of five runs counts. It needs `rt` and python3.
set -e
cd "$(dirname "$0")/.."
sh tools/build.sh bench > /dev/null
work=$(mktemp -d)
python3 tools/make_largest.py "$work"
python3 - "$work" <<'END'
import resource, subprocess, sys
def seconds(sheet, often):
    best = 1e9
    for _ in range(5):
        t = resource.getrusage(resource.RUSAGE_CHILDREN).ru_utime
        subprocess.run(["target/bin/bench", "s", often], stdin=open(sheet, "rb"), stdout=subprocess.DEVNULL, check=True)
        best = min(best, resource.getrusage(resource.RUSAGE_CHILDREN).ru_utime - t)
    return best
for name in ("full", "cubes", "cells", "wide", "split", "squares", "pentagons", "ridges", "longest"):
    sheet = f"{sys.argv[1]}/{name}.sheet"
    print(f"{name}: {(seconds(sheet, '2') - seconds(sheet, '0')) / 63 * 1e3:.2f} ms")
END
rm -r "$work"
