#!/bin/sh
# Compares the lists of what can hold a location with exiftool's tables: XMP, IPTC and Exif.
cd "$(dirname "$0")/.." || exit 1
if ! command -v exiftool >/dev/null; then
    echo "skipped: exiftool is not installed"
    echo "0 passed, 0 failed"
    exit 0
fi
exec python3 tests/location_names.py
