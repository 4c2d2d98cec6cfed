#!/bin/bash
# Runs two examples with ./maxpressure, or as an unproved trial where it is not built.
set -eu
cd "$(dirname "$0")/.."
names="two-links corridor"

if [ -x maxpressure ]; then
    echo "The built program, ./maxpressure:"
    for name in $names; do
        echo "== $name"
        ./maxpressure run "examples/$name.toml" < "examples/$name.stream"
    done
    if [ -n "$(find crates -newer maxpressure \( -name '*.rt' -o -name '*.antt' \) -print -quit)" ]; then
        echo "Sources have changed since ./maxpressure was built: 'make build' proves and builds them."
    fi
    exit
fi

command -v rt > /dev/null || { echo "run: rt, the command of the Rattle kit, is not on the path (README.md, \"Two commands\")" >&2; exit 2; }
echo "./maxpressure is not built, so this is a trial without proofs; it takes about a minute."
cases=$(mktemp -d)
trap 'rm -rf "$cases"' EXIT
data=()
for name in $names; do
    cp "examples/$name.stream" "$cases/$name"
    printf '%s\n' run "$name.toml" > "$cases/$name.args"
    data+=(--data "$name.toml=../../examples/$name.toml")
done
(cd crates/maxpressure && rt try "${data[@]}" --cases "$cases")
echo "'make build' proves the program, so that what README.md promises holds of it, and leaves it as ./maxpressure."
