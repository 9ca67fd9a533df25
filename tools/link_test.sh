#!/bin/sh
# link_test.sh links the static library from C (include/) and from Rust (rust/), and holds what both print for the sample sheets to the samples'
# .kit files; sheets of 8,192 bytes and more are among them. Where g++ and cargo are at hand it links from C++ too, and runs the tests and the doc
# examples of rust/. It needs rt, cc and rustc. The last line counts what was held.
set -e
cd "$(dirname "$0")/.."
work=target/link
unset JIDWALEB_LIB_DIR
mkdir -p "$work"
sh tools/build.sh archive > "$work/staticlib.log" 2>&1 || { cat "$work/staticlib.log"; exit 1; }
# Where the compiler can test for undefined behaviour, the program in C stops at it.
checks="-fsanitize=undefined -fno-sanitize-recover=all"
echo 'int main(void) { return 0; }' > "$work/empty.c"
cc $checks -o "$work/empty" "$work/empty.c" > "$work/got" 2>&1 || checks=
cc -std=c99 -Wall -Wextra -Werror $checks -I include -o "$work/from_c" tools/link_test.c target/staticlib/libjidwaleb.a
rustc --edition 2021 -D warnings -O --crate-type rlib --crate-name jidwaleb -L target/staticlib -o "$work/libjidwaleb.rlib" rust/src/lib.rs
rustc --edition 2021 -D warnings -O --extern jidwaleb="$work/libjidwaleb.rlib" -o "$work/from_rust" rust/examples/kit.rs
alike=0 failed=0
# hold NAME WORDS.. counts whether what both programs print, given the words, is what is expected.
hold() {
    name=$1; shift
    for side in from_c from_rust; do
        if "$work/$side" "$@" > "$work/got" && cmp -s "$work/expected" "$work/got"; then
            alike=$((alike + 1))
        else
            echo "link_test: $side, $name:"; diff "$work/expected" "$work/got" || true
            failed=$((failed + 1))
        fi
    done
}
# passes NAME COMMAND.. counts whether the command ends well; where it does not, what it wrote is shown.
passes() {
    name=$1; shift
    if "$@" > "$work/got" 2>&1; then
        alike=$((alike + 1))
    else
        echo "link_test: $name:"; cat "$work/got"
        failed=$((failed + 1))
    fi
}
for sheet in samples/*.sheet; do
    cp "${sheet%.sheet}.kit" "$work/expected"
    hold "$sheet" "$sheet"
done
echo "refused 1" > "$work/expected"
: > "$work/empty.sheet"
hold "no bytes" "$work/empty.sheet"
printf 'copies 4\nquarter turn 1 2 3 0\nrefused 14: open\n' > "$work/expected"
hold copying
cc -std=c99 -O2 -Wall -Wextra -Werror -I include -o "$work/stack" tools/stack.c target/staticlib/libjidwaleb.a
passes "the stack that a call takes" "$work/stack" samples/*.sheet
# README.md and the header say which of C's functions the archive uses.
nm -u target/staticlib/libjidwaleb.a | sed -n 's/^ *U //p' | sort -u > "$work/got_names"
printf 'memcpy\nmemset\n' > "$work/names"
passes "what the archive needs of C" diff "$work/names" "$work/got_names"
version=$(sed -n 's/^version = //p' rust/Cargo.toml)
passes "the version of rust/Cargo.toml in the header" grep -qx "#define JIDWALEB_VERSION_STRING $version" include/jidwaleb.h
if command -v g++ > /dev/null; then
    passes "C++" g++ -std=c++11 -Wall -Wextra -Werror -Wold-style-cast -I include -o "$work/from_cpp" tools/link_test.cpp target/staticlib/libjidwaleb.a
    passes "what C++ links" "$work/from_cpp" samples/cube.sheet
else
    echo "link_test: C++ is left out, there is no g++"
fi
if command -v cargo > /dev/null; then
    in_rust="--quiet --offline --locked --manifest-path rust/Cargo.toml --target-dir $work/cargo"
    passes "cargo test" cargo test $in_rust
    passes "cargo run --example kit" cargo run $in_rust --example kit
    # Where there is no archive, the build script says so.
    passes "no archive" sh -c "! JIDWALEB_LIB_DIR=/nowhere cargo build $in_rust > $work/no_archive 2>&1 && grep -q 'there is no /nowhere/libjidwaleb.a' $work/no_archive"
else
    echo "link_test: the tests of rust/ are left out, there is no cargo"
fi
echo "link_test: $alike alike, $failed not"
[ "$failed" -eq 0 ]
