#!/bin/sh
# build.sh NAME..: proves and builds what the names say. `archive` is the static library of crate `jidwaleb_c`, which goes to
# target/staticlib/libjidwaleb.a; any other name is that of a program's crate, and the program goes to target/bin/NAME. What has not changed since the
# last time is only copied. It needs rt.
set -e
cd "$(dirname "$0")/.."
for name in "$@"; do
    if [ "$name" = archive ]; then
        mkdir -p target/staticlib
        (cd crates/jidwaleb_c && rt lib)
        cp crates/jidwaleb_c/out/libjidwaleb_c.a target/staticlib/libjidwaleb.a
    else
        mkdir -p target/bin
        (cd "crates/$name" && rt run < /dev/null)
        cp "crates/$name/out/$name" "target/bin/$name"
    fi
done
