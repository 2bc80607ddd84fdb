#!/bin/sh
# Compares lists that the world owns with exiftool's tables: the names of IPTC datasets.
cd "$(dirname "$0")/.." || exit 1
if ! command -v exiftool >/dev/null; then
    echo "skipped: exiftool is not installed"
    echo "0 passed, 0 failed"
    exit 0
fi
exec python3 tests/iptc_names.py
