#!/usr/bin/env bash
# Draws docs/inserted.svg and docs/loaded.svg: the same 2,000 places, inserted one after the other and loaded at once.
#
# The program packs loads alone. So the inserted tree is that of a copy of the repository in which `packed` inserts its
# points; `rt try` compiles and runs either, and proves nothing. It takes two minutes.
set -euo pipefail
cd "$(dirname "$0")/.."
room=$(mktemp -d)
trap 'rm -rf "$room"' EXIT
cp -r crates crates.txt HANDLES "$room"
scripts/picture.py --places 2000 > "$room/places"

draw() {
    (cd "$1/crates/rstar_run" && rt try -- pack < "$room/places" 2> "$room/said") > "$room/tree"
    scripts/picture.py < "$room/tree" > "docs/$2.svg"
}

draw . loaded
python3 - "$room/crates/rstar_run/src/stored.rt" <<'PY'
import sys

path = sys.argv[1]
text = open(path).read()
load = "    let tree = RTree::<[i64; 2]>::bulk_load(points)?;\n"
insert = """    let mut tree = RTree::<[i64; 2]>::new(alloc);
    for point in points {
        if tree.insert(point).is_err() {
            return Err(Fault::Stop(Stop::Memory));
        }
    }
"""
assert text.count(load) == 1
open(path, "w").write(text.replace(load, insert))
PY
draw "$room" inserted
