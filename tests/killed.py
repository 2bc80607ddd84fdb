"""Kills a program at random moments, and runs it side by side, over a folder of pictures.

killed.py PROGRAM SAMPLE TRACK KILLS: writes a line for each thing that was tried, `passed NAME` or
`failed NAME: WHY`.
"""

import hashlib
import os
import random
import shutil
import signal
import subprocess
import sys
import time

PROGRAM, SAMPLE, TRACK = (os.path.abspath(path) for path in sys.argv[1:4])
KILLS = int(sys.argv[4])
COUNT = 60
NAMES = [f"p{number:03}.jpg" for number in range(COUNT)]


def digest(path):
    with open(path, "rb") as file:
        return hashlib.sha256(file.read()).hexdigest()


def commented(name):
    """The sample with a comment, so that no two pictures have the same bytes."""
    with open(SAMPLE, "rb") as file:
        data = file.read()
    return data[:2] + b"\xff\xfe" + (len(name) + 2).to_bytes(2, "big") + name.encode() + data[2:]


PICTURES = {name: commented(name) for name in NAMES}
OLD = {name: hashlib.sha256(data).hexdigest() for name, data in PICTURES.items()}


def fresh():
    """A folder with the pictures."""
    shutil.rmtree("run", ignore_errors=True)
    os.mkdir("run")
    for name, data in PICTURES.items():
        with open(f"run/{name}", "wb") as file:
            file.write(data)


def paths():
    return [f"run/{name}" for name in NAMES]


def run(arguments):
    return subprocess.run([PROGRAM, *arguments], stdout=subprocess.DEVNULL,
                          stderr=subprocess.DEVNULL, stdin=subprocess.DEVNULL).returncode


def begin(arguments):
    return subprocess.Popen([PROGRAM, *arguments], stdout=subprocess.DEVNULL,
                            stderr=subprocess.DEVNULL, stdin=subprocess.DEVNULL)


def kill_after(arguments, seconds):
    """Whether the program was still running when it was killed."""
    process = begin(arguments)
    time.sleep(seconds)
    running = process.poll() is None
    process.send_signal(signal.SIGKILL)
    process.wait()
    return running


def found(folder="run"):
    """The digests of the files below a folder, by path; and what else is there."""
    files, others = {}, []
    for where, _, names in os.walk(folder):
        for name in names:
            path = os.path.join(where, name)
            if name.startswith(".mexaldor-"):
                others.append(path)
            else:
                files[os.path.relpath(path, folder)] = digest(path)
    return files, others


def report(name, why):
    print(f"passed {name}" if why is None else f"failed {name}: {why}", flush=True)


def in_place(name, words, repeats=True):
    """A command that replaces each file: each is the old or the new one, whole. The next run over
    the folder ends what was begun, and takes away what was left more than two seconds before."""
    arguments = [*words, *paths()]
    fresh()
    began = time.monotonic()
    run(arguments)
    lasts = time.monotonic() - began
    new, _ = found()
    why, tries, killed = None, 0, 0
    # a run that ended before it was to be killed shows that the runs are faster than the first one
    while tries < KILLS or killed == 0 and tries < 40:
        tries += 1
        fresh()
        if kill_after(arguments, random.uniform(0, lasts)):
            killed += 1
        else:
            lasts *= 0.8
        left, _ = found()
        if sorted(left) != NAMES:
            why = f"a file is gone: {len(left)} of {COUNT}"
        elif any(left[path] not in (OLD[path], new[path]) for path in left):
            why = "a file is neither the old nor the new one"
        if repeats and why is None:
            run([*words, "-r", "run"])
            if found()[0] != new:
                why = "the next run does not end it"
    if repeats and why is None:
        time.sleep(3.5)
        run([*words, "-r", "run"])
        others = found()[1]
        why = f"{others[0]} is left" if others else None
    report(f"{name}, killed at {KILLS} moments or more", why)
    report(f"{name}: one of them was in the middle", None if killed else "none was")


def moved(name, arguments, folder="run"):
    """A command that moves files: each is there under one name, after the next run."""
    why = None
    old = sorted(OLD.values())
    fresh()
    began = time.monotonic()
    run(arguments)
    lasts = time.monotonic() - began
    for _ in range(KILLS):
        fresh()
        kill_after(arguments, random.uniform(0, lasts))
        inodes = {os.stat(os.path.join(where, file)).st_ino
                  for where, _, files in os.walk(folder) for file in files}
        if len(inodes) != COUNT:
            why = f"{len(inodes)} files of {COUNT}"
        run(arguments)
        files, others = found(folder)
        if sorted(files.values()) != old:
            why = f"the next run leaves {len(files)} files of {COUNT}"
        elif others:
            why = f"{others[0]} is left"
        elif set(files) & set(NAMES):
            why = "the next run does not end it"
    report(f"{name}, killed at {KILLS} moments", why)


def written(name, arguments, into, new):
    """A command that writes files into a folder: each is whole, or not there."""
    why = None
    for _ in range(KILLS):
        fresh()
        shutil.rmtree(into, ignore_errors=True)
        os.mkdir(into)
        began = time.monotonic()
        run(arguments)
        lasts = time.monotonic() - began
        whole, _ = found(into)
        shutil.rmtree(into)
        os.mkdir(into)
        kill_after(arguments, random.uniform(0, lasts))
        left, _ = found(into)
        if set(left.values()) - set(whole.values()):
            why = "a file is not whole"
        elif new is not None and len(whole) != new:
            why = f"{len(whole)} files"
        elif sorted(found()[0]) != NAMES:
            why = "a picture is gone"
    report(f"{name}, killed at {KILLS} moments", why)


def catalogue():
    """A run over a catalogue: its rows are as before, or all are there."""
    why = None
    arguments = ["catalog", "-q", "-r", "db", "run"]

    def rows():
        out = subprocess.run([PROGRAM, "query", "db", "SELECT count(*) FROM picture WHERE removed = 0"],
                             capture_output=True, text=True)
        return out.stdout.split()[-1] if out.returncode == 0 else out.stderr

    for _ in range(KILLS):
        fresh()
        for name in ("db", "db-wal", "db-shm"):
            if os.path.exists(name):
                os.remove(name)
        began = time.monotonic()
        run(arguments)
        lasts = time.monotonic() - began
        os.utime("run/p000.jpg", (1, 1))
        os.remove("run/p001.jpg")
        kill_after(arguments, random.uniform(0, lasts))
        if rows() not in (str(COUNT), str(COUNT - 1)):
            why = f"{rows()} rows"
        run(arguments)
        if rows() != str(COUNT - 1):
            why = f"{rows()} rows after the next run"
    report(f"a catalogue, killed at {KILLS} moments", why)


def beside(name, commands, check):
    """Runs side by side, three times."""
    why = None
    for _ in range(3):
        fresh()
        processes = [begin(arguments) for arguments in commands]
        for process in processes:
            process.wait()
        why = why or check([process.returncode for process in processes])
    report(name, why)


def each_once(_):
    files, others = found()
    inodes = {os.stat(os.path.join("run", path)).st_ino for path in files}
    if len(files) != COUNT or len(inodes) != COUNT:
        return f"{len(files)} names of {len(inodes)} files, of {COUNT}"
    return f"{others[0]} is left" if others else None


def texts(path):
    out = subprocess.run([PROGRAM, "json", path], capture_output=True, text=True).stdout
    return "First" in out, "Second" in out


def both_or_said(statuses):
    """Two changes of the same files: where one is not there, a run said so."""
    files, others = found()
    if sorted(files) != NAMES:
        return "a file is gone"
    if others:
        return f"{others[0]} is left"
    lost = sum(1 for path in paths() if texts(path) != (True, True))
    if lost and all(status == 0 for status in statuses):
        return f"{lost} changes are lost, and each run ended with 0"
    return None


def main():
    random.seed(int(os.environ.get("SEED", "1")))
    in_place("set", ["set", "-i", "Artist=Somebody"])
    in_place("scrub", ["scrub", "-i"])
    in_place("scrub of locations", ["scrub", "-i", "--locations-only"])
    in_place("shift", ["shift", "+1:00"], repeats=False)
    in_place("copy", ["copy", SAMPLE])
    in_place("geotag", ["geotag", "--overwrite", TRACK])
    in_place("touch", ["touch"])
    moved("rename", ["rename", "%Y-%m-%d", *paths()])
    moved("rename into folders", ["rename", "--into", "run/new", "%Y/%m/%d", *paths()])
    written("copies of rename", ["rename", "--copy", "--into", "copies", "%Y-%m-%d", *paths()],
            "copies", COUNT)
    written("thumbnails", ["thumbnail", "--into", "thumbs", *paths()], "thumbs", COUNT)
    catalogue()
    beside("two runs of rename", [["rename", "%Y-%m-%d", *paths()]] * 2, each_once)
    beside("three runs of rename", [["rename", "%Y-%m-%d", *paths()]] * 3, each_once)
    beside("two runs of set", [["set", "-i", "Artist=First", *paths()],
                               ["set", "-i", "Copyright=Second", *paths()]], both_or_said)


main()
