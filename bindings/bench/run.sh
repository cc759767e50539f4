#!/usr/bin/env bash
# Prints a table of times: the library from C, the same in Rust by the crate vaikrone, and rstar itself. Each runs alone,
# and takes the best of three rounds. Where PYTHON is given, the table of python.py stands below.
#
#   bindings/bench/run.sh [BOXES]
#
#   BOXES              a file with 100,000 boxes: the `load` that scripts/speed.py keeps. Without it they lie at random.
#   RSTAR_LIB_DIR      the folder of librstar.a, out/library unless it is given
#   RSTAR_CRATE        the folder of rstar's crate, where cargo cannot get it from its registry
#   RSTAR_WORKSPACE    the folder of the workspace of that crate, whose .cargo/config.toml says where its dependencies are
#   PYTHON             a Python that has numpy, rtree and shapely, as Debian's /usr/bin/python3 with these packages
set -euo pipefail
here=$(cd "$(dirname "$0")" && pwd)
folder=${RSTAR_LIB_DIR:-$here/../../out/library}
work=$(mktemp -d)
trap 'rm -rf "$work"' EXIT

# build NAME FOLDER WORD..
build() {
  CARGO_TARGET_DIR=$work/target cargo build --release --quiet --manifest-path "$2/Cargo.toml" "${@:3}"
  cp "$work/target/release/$1" "$work/$1"
}
options=()
[[ -n ${RSTAR_CRATE:-} ]] && options+=(--offline --config "patch.crates-io.rstar.path='$RSTAR_CRATE'")
[[ -n ${RSTAR_WORKSPACE:-} ]] && options+=(--config "$RSTAR_WORKSPACE/.cargo/config.toml")
cp -r "$here/rstar_bench" "$work/copy" # which gets a Cargo.lock
build rstar_bench "$work/copy" "${options[@]}"
build vaikrone_bench "$here/vaikrone_bench" --offline
cc -std=gnu11 -O2 -Wall -Wextra -I"$folder" "$here/bench.c" "$folder/librstar.a" -o "$work/bench"

# Fifteen times in turn, so that other work on the machine falls on all of them; the best time of each counts.
for _ in {1..15}; do
  for program in bench vaikrone_bench rstar_bench; do
    "$work/$program" "$@" | sed "s/^/$program\t/" >>"$work/times"
  done
done
[[ $(awk -F'\t' '$2 == "answers" { print $3 }' "$work/times" | sort -u | wc -l) == 1 ]] || { echo 'the answers differ' >&2; exit 1; }
echo '| | C | Rust, vaikrone | Rust, rstar |'
echo '|---|---|---|---|'
awk -F'\t' '
  $2 == "answers" { next }
  !($2 in named) { named[$2]; names[++count] = $2 }
  !(($1, $2) in best) || $3 < best[$1, $2] { best[$1, $2] = $3 }
  function cell(program, name) { return (program, name) in best ? best[program, name] : "–" }
  END { for (i = 1; i <= count; i++) print "| " names[i] " | " cell("bench", names[i]) " | " \
    cell("vaikrone_bench", names[i]) " | " cell("rstar_bench", names[i]) " |" }' "$work/times"
if [[ -n ${PYTHON:-} ]]; then
  PYTHONPATH=$here/../python VAIKRONE_LIBRARY=$folder/librstar.so "$PYTHON" -W ignore "$here/python.py" 5
fi
