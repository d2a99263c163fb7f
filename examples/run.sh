#!/bin/sh
# Runs the book on a delivery year and tells in words what was done.
set -eu
here=$(cd "$(dirname "$0")" && pwd)
answers=$(mktemp)
trap 'rm -f "$answers"' EXIT
"$here/../run.sh" "$here/year.txt" >"$answers"
python3 -B "$here/words.py" "$here/year.txt" "$answers"
