"""Pass randomly changed pictures to the C library: python3 fuzz.py DRIVER SEED COUNT.

DRIVER is bindings/c/out/fuzz. It is built with the address sanitizer and stops at the first invalid
access. The same seed makes the same files.
"""

import importlib.util
import pathlib
import random
import struct
import subprocess
import sys
import tempfile

ROOT = pathlib.Path(__file__).resolve().parents[1]
NUMBERS = [0, 1, 2, 4, 8, 12, 0x7F, 0x80, 0xFF, 0x100, 0x7FFF, 0x8000, 0xFFFF, 0x7FFFFFFF, 0x80000000, 0xFFFFFFFF]


def pictures():
    spec = importlib.util.spec_from_file_location("make_files", ROOT / "tests" / "make_files.py")
    made = importlib.util.module_from_spec(spec)
    spec.loader.exec_module(made)
    with tempfile.TemporaryDirectory() as folder:
        made.main(folder)
        return [path.read_bytes() for path in sorted(pathlib.Path(folder).iterdir())]


def overwritten(by, data):
    """Overwrite a few bytes with random values."""
    for _ in range(by.randint(1, 6)):
        data[by.randrange(len(data))] = by.randrange(256)


def numbered(by, data):
    """Write a boundary number of two or four bytes, in either byte order."""
    kind = by.choice("<H >H <I >I".split())
    place = by.randrange(len(data))
    limit = 0xFFFF if kind.endswith("H") else 0xFFFFFFFF
    text = struct.pack(kind, by.choice([it for it in NUMBERS if it <= limit]))
    data[place : place + len(text)] = text


def cut(by, data):
    """Keep only a prefix."""
    del data[by.randrange(len(data)) :]


def moved(by, data):
    """Insert a copy of a piece at another offset."""
    place, length = by.randrange(len(data)), by.randint(1, 40)
    target = by.randrange(len(data))
    data[target:target] = data[place : place + length]


def dropped(by, data):
    """Remove a piece."""
    place = by.randrange(len(data))
    del data[place : place + by.randint(1, 40)]


CHANGES = [overwritten, overwritten, numbered, numbered, numbered, cut, moved, dropped]


def changed(by, given):
    data = bytearray(given)
    for _ in range(by.randint(1, 4)):
        if data:
            by.choice(CHANGES)(by, data)
    return bytes(data)


def main(driver, seed, count):
    by, given = random.Random(seed), pictures()
    with subprocess.Popen([driver], stdin=subprocess.PIPE) as run:
        try:
            for _ in range(int(count)):
                data = changed(by, by.choice(given))
                run.stdin.write(struct.pack("<I", len(data)) + data)
            run.stdin.close()
        except BrokenPipeError:
            pass
    return run.returncode


if __name__ == "__main__":
    sys.exit(main(*sys.argv[1:]))
