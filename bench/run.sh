#!/bin/bash
# Measures the program, and prints the tables of docs/speed.md. --quick makes each run a tenth as long.
# It takes $MAXPRESSURE where that is set, else ./maxpressure, else what `rt run` left in crates/maxpressure/out.
set -eu
here=$(cd "$(dirname "$0")" && pwd)
program=${MAXPRESSURE:-$here/../maxpressure}
if [ -z "${MAXPRESSURE:-}" ] && [ ! -x "$program" ]; then
    program=$here/../crates/maxpressure/out/maxpressure
fi
if [ ! -x "$program" ]; then
    echo "bench: there is no program to measure: run \`make build\`, or name one in MAXPRESSURE" >&2
    exit 1
fi
mkdir -p "$here/out"
rm -f "$here/out/plain"
if command -v rustc > /dev/null; then
    rustc --edition 2021 -O -o "$here/out/plain" "$here/plain.rs"
fi
exec python3 "$here/measure.py" "$(realpath "$program")" "$@"
