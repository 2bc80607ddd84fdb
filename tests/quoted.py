"""Checks what the guides quote: python3 tests/quoted.py, from the root.

Each block of Rust in a guide, or in a comment of a public item, is a run of lines of one file of
crates/exif_tests/src/examples, except for its indentation. README's program (the block with `fn main`) is run by `rt try`
in a copy of the crates. What follows `$ ./exif_show` and `$ mexaldor` in README is what the programs print. docs/sample.jpg
is what make_sample.py makes, and the picture of the examples' tests. Each part has the version of CHANGELOG.md.
"""

import ast
import glob
import os
import re
import shlex
import shutil
import subprocess
import sys
import tempfile
import textwrap

sys.path.insert(0, os.path.dirname(__file__))
from make_sample import sample

GUIDES = ["README.md", "docs/CALLING.md"]
SOURCES = "crates/*/src/**/*.rt"
EXAMPLES = "crates/exif_tests/src/examples"
PICTURES = "crates/exif_tests*/src/**/examples/picture.rt"
VERSIONS = {
    "README.md": r"The version is ([\d.]+),",
    "crates/exif_arguments/src/arguments.rt": r'\.version\("([\d.]+)"\)',
    "docs/man/exif_show.1": r"version ([\d.]+)\.$",
    "docs/man/mexaldor.1": r'"mexaldor ([\d.]+)"',
    "bindings/c/Makefile": r"^version := ([\d.]+)$",
    "bindings/python/mexaldor/__init__.py": r'^__version__ = "([\d.]+)"',
    "bindings/rust/mexaldor/Cargo.toml": r'^version = "([\d.]+)"',
    "bindings/rust/mexaldor-sys/Cargo.toml": r'^version = "([\d.]+)"',
}
PROGRAM = os.environ.get("EXIF_SHOW", "crates/exif_show/out/exif_show")
MEXALDOR = os.environ.get("MEXALDOR", "crates/mexaldor/out/mexaldor")

counts = {True: 0, False: 0}


def check(name, holds, why=""):
    counts[holds] += 1
    if not holds:
        print(f"FAILED: {name}{why and ': ' + why}")


def read(path):
    with open(path, encoding="utf-8") as file:
        return file.read()


def lines_of(text):
    """The lines of a text, without common indentation and blank ends."""
    return textwrap.dedent(text).strip("\n").split("\n")


def documentation(text):
    """The text of a file's `//!` and `///` lines, each on its own line; other lines are blank."""
    comments = [re.match(r"\s*//[/!] ?(.*)", line) for line in text.split("\n")]
    return "\n".join(line.group(1) if line else "" for line in comments) + "\n"


def blocks(text, kind):
    """The fenced blocks of a kind, each with its first line's number."""
    found = re.finditer(rf"^```{kind}\n(.*?)^```$", text, re.M | re.S)
    return [(text.count("\n", 0, it.start()) + 1, it.group(1)) for it in found]


def is_in(quoted, files):
    """Whether the lines are consecutive in a file, all of them indented by the same amount."""
    for text in files:
        for start in range(len(text) - len(quoted) + 1):
            if text[start].strip() == quoted[0].strip():
                if lines_of("\n".join(text[start : start + len(quoted)])) == quoted:
                    return True
    return False


def is_program(block):
    return "fn main(" in block


def check_program():
    """README's program of one's own, run without a proof over a copy of the crates."""
    programs = [it for _, it in blocks(read("README.md"), "rust") if is_program(it)]
    check("README has one program of one's own", len(programs) == 1)
    if not shutil.which("rt"):
        print("skipped, rt is not installed: README's program")
        return
    with tempfile.TemporaryDirectory() as folder:
        shutil.copytree("crates", f"{folder}/crates", ignore=shutil.ignore_patterns("out"))
        shutil.copy("crates.txt", folder)
        with open(f"{folder}/crates.txt", "a", encoding="utf-8") as file:
            file.write("photos: exif\n")
        os.makedirs(f"{folder}/crates/photos/src")
        with open(f"{folder}/crates/photos/src/main.rt", "w", encoding="utf-8") as file:
            file.write(programs[0])
        picture = os.path.abspath("docs/sample.jpg")
        ran = subprocess.run(["rt", "try", "--", picture], cwd=f"{folder}/crates/photos", capture_output=True, text=True)
        wanted = f"{picture}: row 0 at right and column 0 at top\n"
        check("README's program prints the orientation", ran.stdout == wanted, ran.stderr[-500:])


def check_rust():
    names = [os.path.join(EXAMPLES, name) for name in sorted(os.listdir(EXAMPLES)) if name.endswith(".rt")]
    files = [read(name).split("\n") for name in names if not name.endswith("/tests.rt")]
    guides = [(name, [it for it in blocks(read(name), "rust") if not is_program(it[1])]) for name in GUIDES]
    sources = [name for name in sorted(glob.glob(SOURCES, recursive=True)) if not name.startswith(EXAMPLES)]
    comments = [(name, blocks(documentation(read(name)), "(?:rust)?")) for name in sources]
    for name, found in guides + comments:
        for line, block in found:
            quoted = lines_of(block)
            check(f"{name}: the block of line {line} is quoted", is_in(quoted, files), quoted[0])
    check("docs/CALLING.md quotes examples", any(found for _, found in guides))
    check("comments quote examples", any(found for _, found in comments))


def check_reports():
    for line, block in blocks(read("README.md"), ""):
        report = re.match(r"\$ \./exif_show (docs/\S+) \| head -n (\d+)\n(.*)", block, re.S)
        if report and not os.access(PROGRAM, os.X_OK):
            print(f"skipped, {PROGRAM} is not built: README's report of line {line}")
        elif report:
            printed = subprocess.run([PROGRAM, report.group(1)], capture_output=True, text=True).stdout
            first = "".join(printed.splitlines(keepends=True)[: int(report.group(2))])
            check(f"README's report of line {line} is the program's", first == report.group(3))


def check_commands():
    """README's commands, run one after the other in a folder with the sample, as if it were /home/me."""
    found = [it for it in blocks(read("README.md"), "") if re.search(r"^\$ mexaldor ", it[1], re.M)]
    check("README shows commands with what they print", found != [])
    if not os.access(MEXALDOR, os.X_OK):
        print(f"skipped, {MEXALDOR} is not built: README's commands")
        return
    program = os.path.abspath(MEXALDOR)
    with tempfile.TemporaryDirectory() as folder:
        folder = os.path.realpath(folder)
        os.mkdir(f"{folder}/photos")
        shutil.copy("docs/sample.jpg", f"{folder}/photos/one.jpg")
        for line, block in found:
            for command, wanted in re.findall(r"^\$ mexaldor (.*)\n((?:[^$].*\n)*)", block, re.M):
                how = {"cwd": folder, "stdout": subprocess.PIPE, "stderr": subprocess.STDOUT, "text": True}
                printed = subprocess.run([program, *shlex.split(command)], **how).stdout
                name = f"README's command `{command}` of line {line} prints this"
                check(name, printed.replace(folder, "/home/me") == wanted, printed)


def check_sample():
    with open("docs/sample.jpg", "rb") as file:
        picture = file.read()
    check("the sample is what make_sample.py makes", picture == sample())
    (place,) = glob.glob(PICTURES, recursive=True)
    literal = re.search(r'= (b"(?:[^"\\]|\\.)*");', read(place), re.S).group(1)
    embedded = ast.literal_eval("b" + '"' + re.sub(r"\\0", r"\\x00", re.sub(r"\\\n\s*", "", literal[2:])))
    check("the examples' tests read the sample", embedded == picture)


def check_versions():
    wanted = re.search(r"^## ([\d.]+)", read("CHANGELOG.md"), re.M).group(1)
    for path, form in VERSIONS.items():
        version = re.search(form, read(path), re.M)
        check(f"{path} is of version {wanted}", version is not None and version.group(1) == wanted)


if __name__ == "__main__":
    check_rust()
    check_program()
    check_reports()
    check_commands()
    check_sample()
    check_versions()
    print(f"{counts[True]} passed, {counts[False]} failed")
    sys.exit(counts[False] > 0)
