"""Runs check, scrub and scrub --locations-only over files that were changed at random: hostile.py PROGRAM [COUNT [SEED]].

The files are those that the scripts of tests make, each with some bytes changed, taken out, put in or cut off. No
run may crash, hang, or take much more memory than its largest file; what was scrubbed stays as it is when it is scrubbed again; and
check finds nothing in a file that scrub changed or passed without a word."""
import hashlib, os, random, resource, shutil, subprocess, sys, tempfile, time

root = os.path.dirname(os.path.dirname(os.path.abspath(__file__)))
BATCH = 200
# the statuses of a run: done, a file refused, something left
STATUSES = (0, 1, 3)


def changed(data, rng):
    """The bytes with one to four changes."""
    data = bytearray(data)
    for _ in range(rng.randint(1, 4)):
        at = rng.randrange(len(data) + 1)
        kind = rng.randrange(6)
        if kind == 0 and data:
            data[at % len(data)] = rng.choice((0, 1, 0x7F, 0x80, 0xFF, rng.randrange(256)))
        elif kind == 1 and data:
            data[at % len(data)] ^= 1 << rng.randrange(8)
        elif kind == 2:
            del data[at : at + rng.randint(1, 16)]
        elif kind == 3:
            data[at:at] = bytes(rng.randrange(256) for _ in range(rng.randint(1, 16)))
        elif kind == 4:
            data[at:at] = data[rng.randrange(len(data) + 1) :][: rng.randint(1, 64)]
        else:
            del data[at:]
    return bytes(data)


def run(words, problems):
    """Runs the program and answers its status and what it wrote on standard error."""
    begin = time.monotonic()
    try:
        done = subprocess.run(words, capture_output=True, timeout=600)
    except subprocess.TimeoutExpired:
        problems.append(f"hangs: {words[:4]}")
        return 0, b""
    if done.returncode not in STATUSES:
        problems.append(f"status {done.returncode}: {words[:4]}: {done.stderr[-300:]}")
    run.slowest = max(run.slowest, time.monotonic() - begin)
    return done.returncode, done.stderr


run.slowest = 0.0


def sums(names):
    return [hashlib.sha256(open(name, "rb").read()).digest() for name in names]


def batch(program, folder, files, problems):
    """All runs over the files of one folder."""
    run([program, "check", *files], problems)
    for options in ([], ["--locations-only"]):
        names = []
        for file in files:
            name = os.path.join(folder, f"{len(options)}-" + os.path.basename(file))
            shutil.copyfile(file, name)
            names.append(name)
        _, told = run([program, "scrub", "--in-place", *options, *names], problems)
        once = sums(names)
        run([program, "scrub", "--in-place", *options, *names], problems)
        for name, old, new in zip(names, once, sums(names)):
            if old != new:
                problems.append(f"scrubbed again, it changes: {name}")
        quiet = [name for name in names if os.fsencode(name) not in told]
        if quiet and run([program, "check", *quiet], problems)[0] != 0:
            for name in quiet:
                if run([program, "check", name], problems)[0] != 0:
                    problems.append(f"check finds what scrub {' '.join(options)} left without a word: {name}")


def main():
    program = os.path.abspath(sys.argv[1])
    count = int(sys.argv[2]) if len(sys.argv) > 2 else 20_000
    rng = random.Random(int(sys.argv[3]) if len(sys.argv) > 3 else 1)
    problems, largest, kept = [], 0, tempfile.mkdtemp()
    with tempfile.TemporaryDirectory() as home:
        os.chdir(home)
        for script in ("make_files.py", "location_files.py", "secret_files.py"):
            subprocess.run([sys.executable, os.path.join(root, "tests", script), "files"], check=True)
        seeds = [name for name in sorted(os.listdir("files")) if not name.endswith(".list")]
        done = 0
        while done < count:
            folder = os.path.join(home, "batch")
            os.mkdir(folder)
            files = []
            for number in range(min(BATCH, count - done)):
                seed = rng.choice(seeds)
                data = changed(open(os.path.join("files", seed), "rb").read(), rng)
                largest = max(largest, len(data))
                files.append(os.path.join(folder, f"{done + number}-{seed}"))
                open(files[-1], "wb").write(data)
            found = len(problems)
            batch(program, folder, files, problems)
            if len(problems) > found:
                shutil.copytree(folder, os.path.join(kept, str(done)))
            shutil.rmtree(folder)
            done += len(files)
    memory = resource.getrusage(resource.RUSAGE_CHILDREN).ru_maxrss
    for problem in problems:
        print(problem)
    print(f"{count} files of at most {largest} bytes; the slowest run over {BATCH} took {run.slowest:.1f} s; memory at most {memory} KB")
    print(f"problems: {len(problems)}" + (f", files in {kept}" if problems else ""))
    return 1 if problems else 0


if __name__ == "__main__":
    sys.exit(main())
