#!/bin/sh
# Makes target/python/libflorinhado.so from the archive, for florinhado.py.
set -eu
cd "$(dirname "$0")/../.."
archive=target/staticlib/libflorinhado.a
if [ ! -f "$archive" ]; then
    echo "$archive is missing: run ./test (or ./library) first" >&2
    exit 1
fi
mkdir -p target/python
gcc -shared -o target/python/libflorinhado.so \
    -Wl,--whole-archive "$archive" -Wl,--no-whole-archive
