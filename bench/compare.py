#!/usr/bin/env python3
"""compare.py [ORIGINAL_BENCH]: times exif_bench on the files of files.py, and prints a table of the times, how they grow with
the number of fields, and the peak memory of exif_show. Where the program ORIGINAL_BENCH is handed over (called as
`PROGRAM FILE N`, with a line `NAME bytes B fields F read BEST MEAN decoded BEST MEAN report BEST MEAN write BEST MEAN`),
it runs on the same files, and the table has the ratios ours / original."""
import os
import subprocess
import sys
import tempfile

from files import CASES

ROOT = os.path.dirname(os.path.dirname(os.path.abspath(__file__)))
BENCH = f"{ROOT}/crates/exif_bench"
WORKS = ("read", "whole", "report", "write")


def built(crate):
    """The program of a crate, built anew where it has changed."""
    folder = f"{ROOT}/crates/{crate}"
    subprocess.run(["rt", "run"], cwd=folder, stdout=subprocess.DEVNULL, stderr=subprocess.DEVNULL, check=False)
    return f"{folder}/out/{crate}"


def times(program, path, calls):
    """The best times of a program on a file, by the names of what it timed."""
    words = subprocess.run([program, path, str(calls)], stdout=subprocess.PIPE, text=True, check=True).stdout.split()
    found = {name: int(best) for name, best in zip(words, words[1:]) if name in ("decoded", *WORKS)}
    # What reads values later has read them all only once it has decoded them.
    found["read"] = found.get("decoded", found.get("read"))
    # What reads by need hands on a front of TIFF data; the original hands on all of them.
    found.setdefault("whole", found["read"])
    found["fields"] = int(words[words.index("fields") + 1])
    return found


def peak(program, path):
    """The peak memory of a program on a file, in KB, and its processor time in ms. GNU time starts it: what is started from here
    would count the memory of this process as its own."""
    words = ["/usr/bin/time", "-f", "%M %U %S", program, path]
    printed = subprocess.run(words, stdout=subprocess.DEVNULL, stderr=subprocess.PIPE, text=True, check=False).stderr
    memory, user, system = printed.splitlines()[-1].split()
    return int(memory), 1000 * (float(user) + float(system))


def main():
    original = sys.argv[1] if len(sys.argv) > 1 else None
    bench, show = built("exif_bench"), built("exif_show")
    print("load average %.1f; ns a call: read (by need), read whole, report, write; KB: peak memory of exif_show; ms: its processor time" % os.getloadavg()[0])
    print("%-26s %10s %10s %10s %10s %8s %6s%s" % ("", *WORKS, "KB", "ms", "   ratios" if original else ""))
    growth = {}
    with tempfile.TemporaryDirectory() as scratch:
        for name, calls, make in CASES:
            path = f"{scratch}/{name}"
            with open(path, "wb") as file:
                file.write(make())
            ours = times(bench, path, calls)
            memory, spent = peak(show, path)
            ratios = ""
            if original:
                theirs = times(original, path, calls)
                ratios = "  " + " ".join("%6.2f" % (ours[work] / max(theirs[work], 1)) for work in WORKS)
            print("%-26s %10d %10d %10d %10d %8d %6.1f%s" % (name, *(ours[work] for work in WORKS), memory, spent, ratios), flush=True)
            kind, _, count = name.rpartition("-")
            if count.isdigit() and kind.startswith("numbers"):
                growth.setdefault(kind, []).append((int(count), ours))
    print("growth, ns a field:")
    for kind, rows in growth.items():
        for work in WORKS:
            each = [(count, ours[work] / count) for count, ours in rows]
            print("  %-20s %-7s" % (kind, work), " ".join("%d: %.0f" % it for it in each), " spread %.2f" % (max(e for _, e in each) / min(e for _, e in each)))


main()
