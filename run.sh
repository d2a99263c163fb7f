#!/bin/sh
# Answers each line of a file, or of standard input. Builds the book first if it is not built.
#   ./run.sh [FILE]
set -eu
root=$(cd "$(dirname "$0")" && pwd)
book=$root/crates/book/out/book
if [ ! -x "$book" ]; then
    (cd "$root/crates/book" && rt run </dev/null) >&2
fi
if [ $# -gt 0 ]; then
    exec "$book" <"$1"
fi
exec "$book"
