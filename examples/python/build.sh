#!/bin/sh
# Makes a folder with the Python module koelchair and the shared library that it calls:
#
#     tools/archive
#     sh examples/python/build.sh              # the folder is target/python; another may be named
#     PYTHONPATH=target/python python3
#
# Needs the archive of `tools/archive`. CC may name another compiler.
folder=$(realpath -m "${1:-$(dirname "$0")/../../target/python}") || exit 2
cd "$(dirname "$0")/../.." || exit 2
archive=target/staticlib/libexports.a
if [ ! -f "$archive" ]; then
    echo "no $archive: run 'tools/archive' first" >&2
    exit 2
fi
mkdir -p "$folder" || exit 2
${CC:-cc} -std=c99 -O2 -Wall -Wextra -Werror -fPIC -shared -Iinclude examples/python/header.c \
    -Wl,--whole-archive "$archive" -Wl,--no-whole-archive -o "$folder/libkoelchair.so" || exit 2
cp examples/python/koelchair.py "$folder/" || exit 2
