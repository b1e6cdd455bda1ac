#!/bin/sh
# Builds the Python module and runs its tests. Exit status: 0 they pass, or there is no python3, which is then said; 1 a test fails;
# 2 the module could not be built. Needs the archive of `tools/archive`.
cd "$(dirname "$0")/../.." || exit 2
if ! command -v python3 >/dev/null 2>&1; then
    echo "python3 is not there: the Python module is not tested"
    exit 0
fi
work=$(mktemp -d) || exit 2
trap 'rm -rf "$work"' EXIT
sh examples/python/build.sh "$work" || exit 2
PYTHONDONTWRITEBYTECODE=1 PYTHONPATH=$work python3 examples/python/tests/test_koelchair.py || exit 1
