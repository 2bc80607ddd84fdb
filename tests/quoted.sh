#!/bin/sh
# Checks what the guides quote: each ```rust block to the examples,
# the report of the sample to the program, and the sample to how it is made.
cd "$(dirname "$0")/.." || exit 1
exec python3 tests/quoted.py "$@"
