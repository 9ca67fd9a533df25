#!/bin/sh
# make_floats.sh ORACLE: makes crates/replay/data/floats.in and floats.out anew. It needs rustc and python3. ORACLE is the folder of the
# oracle (the Rust over stand-ins for its crates), whose stand-in for nalgebra answers for the matrices; the roots are the machine's own
# (make_roots.py). It is run once, and the files are kept.
set -e
oracle=$(cd "$1" && pwd -P)
top=$(cd "$(dirname "$0")/.." && pwd -P)
work=$(mktemp -d)
for name in approx nalgebra; do
    extern=""
    [ "$name" = nalgebra ] && extern="--extern approx=$work/libapprox.rlib"
    rustc --edition 2018 -O --crate-type rlib --crate-name "$name" -L "$work" $extern -o "$work/lib$name.rlib" "$oracle/standins/$name.rs"
done
rustc --edition 2021 -O -L "$work" --extern "nalgebra=$work/libnalgebra.rlib" -o "$work/matrices" "$top/tools/make_matrices.rs"
python3 "$top/tools/make_roots.py"
"$work/matrices" >> "$top/crates/replay/data/floats.in" 2>> "$top/crates/replay/data/floats.out"
rm -r "$work"
