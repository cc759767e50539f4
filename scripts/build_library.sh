#!/usr/bin/env bash
# Makes the library for C: librstar.a, librstar.so, rstar.h and rstar.pc in a folder, which may be moved.
#
#   scripts/build_library.sh [OUT]     OUT is out/library unless it is given
#
# It proves and builds the crate rstar_c, unless RSTAR_ARCHIVE names its archive. Both libraries have the functions over malloc
# inside (bindings/c/heap.c) and show the names of rstar.h alone.
set -euo pipefail
top=$(cd "$(dirname "$0")/.." && pwd)
out=${1:-$top/out/library}
archive=${RSTAR_ARCHIVE:-$top/crates/rstar_c/out/librstar_c.a}
if [[ -z ${RSTAR_ARCHIVE:-} ]]; then
  (cd "$top/crates/rstar_c" && rt lib)
fi
mkdir -p "$out"
work=$(mktemp -d)
trap 'rm -rf "$work"' EXIT

cc=${CC:-cc}
"$cc" -std=c11 -O2 -fPIC -c "$top/bindings/c/heap.c" -o "$work/heap.o"
ld -r -o "$work/rstar.o" --whole-archive "$archive" --no-whole-archive "$work/heap.o"
objcopy --wildcard --keep-global-symbol='rstar_*' "$work/rstar.o"
rm -f "$out/librstar.a"
ar rcs "$out/librstar.a" "$work/rstar.o"
"$cc" -shared -Wl,-soname,librstar.so -Wl,-z,defs -o "$out/librstar.so" "$work/rstar.o"
cp "$top/bindings/c/rstar.h" "$out/rstar.h"
cat >"$out/rstar.pc" <<'PC'
prefix=${pcfiledir}

Name: rstar
Description: An R*-tree over rectangles with 64-bit IDs, whose answers are proved
Version: 0.14.0
Cflags: -I${prefix}
Libs: -L${prefix} -lrstar
PC
echo "$out: librstar.a $(stat -c %s "$out/librstar.a") bytes, librstar.so $(stat -c %s "$out/librstar.so") bytes"
