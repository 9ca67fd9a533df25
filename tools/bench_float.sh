#!/bin/sh
# bench_float.sh: prints the nanoseconds of processor time that each operation of crates `float` and `matrix` takes, and those of the machine's own square
# root beside them. It needs `rt`, gcc and python3.
set -e
cd "$(dirname "$0")/.."
sh tools/build.sh bench > /dev/null
work=$(mktemp -d)
cat > "$work/sqrt.c" <<'END'
#include <math.h>
#include <stdio.h>
int main(void) {
    volatile double start = 0.3;
    double x = start;
    for (long i = 0; i < 16777216; i++) { double y = x * x; x = sqrt(3.99 * y * (1.0 - y)); }
    printf("%a\n", x);
}
END
gcc -O2 -fno-math-errno -o "$work/sqrt" "$work/sqrt.c" -lm
python3 - "$work/sqrt" <<'END'
import resource, subprocess, sys
def seconds(command):
    best = 1e9
    for _ in range(5):
        t = resource.getrusage(resource.RUSAGE_CHILDREN).ru_utime
        subprocess.run(command, stdout=subprocess.DEVNULL, check=True)
        best = min(best, resource.getrusage(resource.RUSAGE_CHILDREN).ru_utime - t)
    return best
for name, kind in (("root", "r"), ("inverse 4x4", "i"), ("determinant 4x4", "d"), ("product 4x4", "p")):
    t = seconds(["target/bin/bench", kind, "7"]) - seconds(["target/bin/bench", kind, "0"])
    print(f"{name}: {t / 8 ** 7 * 1e9:.0f} ns")
print(f"the machine's square root: {seconds([sys.argv[1]]) / 16777216 * 1e9:.0f} ns")
END
rm -r "$work"
