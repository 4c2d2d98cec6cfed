#!/bin/bash
# The tests of the tools. What needs a package or the built program is skipped, with the reason. The last line: N passed, M failed.
cd "$(dirname "$0")" || exit 1
for python in /usr/bin/python3 python3; do
  $python -c 'import tomllib' 2>/dev/null && exec $python -B test_tools.py 2>&1
done
printf 'skipped: Python 3.11 or later is not installed\n0 passed, 0 failed\n'
