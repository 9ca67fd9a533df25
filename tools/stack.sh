#!/bin/sh
# stack.sh prints how many bytes of stack each call of the static library takes, on the samples and on the largest sheets. tools/stack.c says how it is
# measured. It needs rt, cc and python3.
set -e
cd "$(dirname "$0")/.."
work=target/stack
mkdir -p "$work"
sh tools/build.sh archive > "$work/staticlib.log" 2>&1 || { cat "$work/staticlib.log"; exit 1; }
cc -std=c99 -O2 -Wall -Wextra -Werror -I include -o "$work/stack" tools/stack.c target/staticlib/libjidwaleb.a
python3 tools/make_largest.py "$work"
"$work/stack" samples/*.sheet "$work"/*.sheet
