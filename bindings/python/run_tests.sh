#!/usr/bin/env bash
# Installs the package in a scratch folder and tests what is installed there: with numpy, if Python has it, and without.
#     PYTHON=/usr/bin/python3 bindings/python/run_tests.sh [quick]
# The library is that of RSTAR_LIB_DIR, or else of out/library. `quick` makes a tenth of the 100,000 calls.
set -euo pipefail
cd "$(dirname "$0")"
python=${PYTHON:-python3}
export STEPS=100000
[ "${1-}" != quick ] || STEPS=10000
unset VAIKRONE_LIBRARY PYTHONPATH
scratch=$(mktemp -d)
trap 'rm -rf "$scratch"' EXIT
"$python" -m pip install --quiet --no-index --target "$scratch/with" . 2> "$scratch/log" || { cat "$scratch/log"; exit 1; }
mkdir "$scratch/without"
echo 'raise ImportError("this run goes without numpy")' > "$scratch/without/numpy.py"
if "$python" -c 'import mypy, numpy' 2> /dev/null; then
    MYPYPATH=$scratch/with "$python" -m mypy --strict --cache-dir=/dev/null "$scratch/with/vaikrone" tests/typed.py
fi
cd tests
if "$python" -c 'import numpy' 2> /dev/null; then
    echo "with numpy, $STEPS calls beside a scan"
    PYTHONPATH=$scratch/with "$python" -m unittest
fi
echo "without numpy, $STEPS calls beside a scan"
PYTHONPATH=$scratch/without:$scratch/with "$python" -m unittest
