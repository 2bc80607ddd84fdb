#!/usr/bin/env python3
"""scrubbed.py PROGRAM: what is left of the secrets of tests/location_files.py and secret_files.py by this program and by the
tools that are installed (exiftool, exiv2, mat2). Prints a table: files changed without a word that still hold the secret, files
with the secret where the tool said so by its status or a message, files refused, and JPEG and WebP files whose pixels differ."""
import os
import shutil
import subprocess
import sys
import tempfile

ROOT = os.path.dirname(os.path.dirname(os.path.abspath(__file__)))
SECRET = b"Zzyzx47"
DECODERS = {".jpg": "djpeg", ".webp": "dwebp"}


def run(*words):
    """The status and the messages of a command."""
    done = subprocess.run(words, capture_output=True, timeout=60, check=False)
    return done.returncode, done.stderr


def exiftool(*tags):
    return "exiftool", lambda old, new: run("exiftool", *tags, "-o", new, old)


def exiv2(old, new):
    shutil.copy(old, new)
    return run("exiv2", "-f", "-d", "a", new)


def mat2(old, new):
    """mat2 writes its result beside the old file, as NAME.cleaned.EXTENSION."""
    stem, extension = os.path.splitext(old)
    status, messages = run("mat2", old)
    if os.path.exists(f"{stem}.cleaned{extension}"):
        os.rename(f"{stem}.cleaned{extension}", new)
    return status, messages


def pixels(path):
    """The pixels of a picture, where a decoder is there and takes it."""
    decoder = DECODERS.get(os.path.splitext(path)[1])
    if not decoder or not shutil.which(decoder):
        return None
    words = [decoder, path] if decoder == "djpeg" else [decoder, path, "-ppm", "-o", "-"]
    return subprocess.run(words, capture_output=True, check=False).stdout or None


def row(name, scrub, files):
    """A row of the table: how one tool did on all files."""
    silent, told, refused, clean, others = [], [], [], [], []
    for old in files:
        with tempfile.TemporaryDirectory() as folder:
            copy, new = (os.path.join(folder, kind + os.path.splitext(old)[1]) for kind in ("old", "new"))
            shutil.copy(old, copy)
            status, messages = scrub(copy, new)
            if not os.path.exists(new):
                refused.append(old)
                continue
            left = SECRET in open(new, "rb").read()
            (clean if not left else told if status or messages else silent).append(old)
            if pixels(copy) not in (None, pixels(new)):
                others.append(old)
    print(f"| {name} | {len(clean)} | {len(silent)} | {len(told)} | {len(refused)} | {len(others)} |")
    for kind, paths in (("silent", silent), ("told", told), ("refused", refused), ("other pixels", others)):
        print(f"  {name}, {kind}: {' '.join(map(os.path.basename, paths))}", file=sys.stderr)


def main():
    program = os.path.abspath(sys.argv[1])
    with tempfile.TemporaryDirectory() as folder:
        for script in ("make_files.py", "secret_files.py"):
            subprocess.run([sys.executable, f"{ROOT}/tests/{script}", folder], check=True)
        paths = [os.path.join(folder, name) for name in sorted(os.listdir(folder))]
        files = [path for path in paths if os.path.isfile(path) and SECRET in open(path, "rb").read()]
        listed = open(os.path.join(folder, "locations.list"), encoding="utf-8").read().split()
        places = [path for path in files if os.path.basename(path) in listed or "secret_" not in os.path.basename(path)]
        tools = [
            ("`mexaldor scrub`", files, program, lambda old, new: run(program, "scrub", old, new)),
            ("`exiftool -all=`", files, *exiftool("-all=")),
            ("`exiv2 -d a`", files, "exiv2", exiv2),
            ("`mat2`", files, "mat2", mat2),
            ("`mexaldor scrub --locations-only`", places, program, lambda old, new: run(program, "scrub", "--locations-only", old, new)),
            ("`exiftool -gps:all= -xmp:all= -iptc:all=`", places, *exiftool("-gps:all=", "-xmp:all=", "-iptc:all=")),
        ]
        print(f"Of {len(files)} files with a secret, of which {len(places)} hold a location, or may hold one:\n")
        print("| Tool | Clean | Left, without a word | Left, and told | Refused | Other pixels |\n|-|-|-|-|-|-|")
        for name, chosen, needed, scrub in tools:
            if shutil.which(needed):
                row(name, scrub, chosen)
            else:
                print(f"  {name}: not installed", file=sys.stderr)


main()
