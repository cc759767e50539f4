#!/usr/bin/env bash
# Runs what tests the program and the pages from outside Rattle: the clients, the examples with an answer beside them, stored
# bytes that are damaged, the pages, and the bindings.
#
# It takes the program that VAIKRONE names, or the proved one that `rt ci` and `rt run` leave, and else lets `rt run` prove and
# build it.
set -euo pipefail
cd "$(dirname "$0")/.."
out=$PWD/crates/rstar_run/out/rstar_run
if [[ -z ${VAIKRONE:-} && ! -x $out ]]; then
    (cd crates/rstar_run && rt run < ../../examples/first.txt)
fi
VAIKRONE=$(realpath "${VAIKRONE:-$out}")
export VAIKRONE

failed=()
try() {
    printf '== %s\n' "$*"
    "$@" || failed+=("$*")
}
as_beside() {
    "$VAIKRONE" < "$1" | diff - "${1%.txt}.out"
}

try scripts/api.py --check
for answers in examples/*.out; do
    try as_beside "${answers%.out}.txt"
done
try scripts/damage_stored.py --cases 1000 --program "$VAIKRONE"
for tests in examples/*/test_*.py; do
    try python3 "$tests"
done
# `rt ci` proves the library for C and leaves no archive of it; where one was built, what is made of it is tested.
archive=$PWD/crates/rstar_c/out/librstar_c.a
if [[ -e $archive ]]; then
    try env RSTAR_ARCHIVE="$archive" scripts/test_bindings.sh quick
else
    echo "the bindings were not tested: scripts/test_bindings.sh builds their library"
fi
if ((${#failed[@]})); then
    printf 'FAILED: %s\n' "${failed[@]}"
    exit 1
fi
echo "the clients, examples and pages passed"
