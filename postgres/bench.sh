#!/bin/sh
# Compares the time and memory of the extension and pgRouting on a server of its own: bench.sh [TURNS [TABLE..]]
exec python3 "$(dirname "$0")/tests/bench.py" "$@"
