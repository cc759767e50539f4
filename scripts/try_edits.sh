#!/usr/bin/env bash
# Tries the wrong bodies of crates/NAME/edits/, of every crate or of those named, or single ones: a check must refuse each.
#
#     scripts/try_edits.sh [NAME..]        JOBS=2 scripts/try_edits.sh rstar        scripts/try_edits.sh NAME/EDIT..
#
# The gate tries those of must-fail/ alone; these are run when what they speak of changes: see try_edits.py.
exec python3 "$(dirname "$0")/try_edits.py" "$@"
