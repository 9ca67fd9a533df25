#!/bin/sh
# build.sh: builds target/compare/compare from the static library, the oracle and this folder, with rt and rustc alone.
set -e
cd "$(dirname "$0")/.."
work=target/compare
mkdir -p "$work/oracle"
sh tools/build.sh archive > "$work/staticlib.log" 2>&1 || { cat "$work/staticlib.log"; exit 1; }
lib() {
    name=$1 source=$2; shift 2
    rustc --edition 2018 -C opt-level=3 --crate-type rlib --crate-name "$name" -L "$work" "$@" -o "$work/lib$name.rlib" "$source"
}
ext() { echo "--extern $1=$work/lib$1.rlib"; }
lib approx oracle/standins/approx.rs
lib ordered_float oracle/standins/ordered_float.rs
lib vec_like oracle/standins/vec_like.rs
lib nalgebra oracle/standins/nalgebra.rs $(ext approx)
cp -r oracle/src/. "$work/oracle"
cat oracle/src/main.rs compare/oracle.rs > "$work/oracle/lib.rs"
lib oracle "$work/oracle/lib.rs" $(ext approx) $(ext ordered_float) $(ext vec_like) $(ext nalgebra)
rustc --edition 2021 -D warnings -C opt-level=3 -L "$work" -L target/staticlib -l static=jidwaleb $(ext oracle) -o "$work/compare" compare/main.rs
