#!/bin/sh
# The Python package on Dask: a scheduler and two workers, which are processes of their own, read the
# summaries of some pictures. What is not installed is skipped, with a message.
root=$(cd "$(dirname "$0")/.." && pwd)
scratch=$(mktemp -d)
processes=
trap 'for it in $processes; do kill "$it" 2>/dev/null; done; rm -rf "$scratch"' EXIT
passed=0
failed=0
copies=${COPIES:-20}
python=${PYTHON:-/usr/bin/python3}
library=$root/bindings/c/out/libmexaldor.so.0

# check NAME COMMAND..: a command ends well.
check() {
    name=$1
    shift
    if "$@" >"$scratch/output" 2>&1; then
        passed=$((passed + 1))
    else
        failed=$((failed + 1))
        cat "$scratch/output"
        echo "FAILED: $name"
    fi
}

# dask COMMAND ARGUMENT..: starts a process of Dask.
dask() {
    "$python" -m "distributed.cli.dask_$1" $2 $3 $4 $5 $6 $7 $8 $9 >>"$scratch/dask" 2>&1 &
    processes="$processes $!"
}

if [ ! -f "$library" ]; then
    echo "skipped, without $library, which make -C bindings/c builds: the package on Dask"
elif ! "$python" -c 'import distributed' 2>/dev/null; then
    echo "skipped, without distributed (Debian's python3-distributed): the package on Dask"
else
    "$python" "$root/bindings/python/wheel.py" "$library" "$scratch/wheel" >/dev/null
    mkdir "$scratch/installed" "$scratch/pictures"
    (cd "$scratch/installed" && "$python" -m zipfile -e "$scratch"/wheel/*.whl .)
    export PYTHONPATH=$scratch/installed
    "$python" "$root/tests/make_files.py" "$scratch/files"
    for copy in $(seq "$copies"); do
        cp -r "$scratch/files" "$scratch/pictures/$copy"
    done
    cd "$scratch" || exit 1
    dask scheduler --host 127.0.0.1 --port 0 --no-dashboard --scheduler-file "$scratch/scheduler"
    for wait in $(seq 100); do
        [ -s scheduler ] || sleep 0.2
    done
    for name in one two; do
        dask worker --scheduler-file "$scratch/scheduler" --nthreads 1 --no-dashboard --no-nanny --name "$name"
    done
    began=$(date +%s.%N)
    check "Dask reads all pictures" timeout 300 \
        "$python" "$root/bindings/python/examples/dask_summaries.py" scheduler pictures lines
    echo "two workers, with their start: $(echo "$(date +%s.%N) - $began" | bc 2>/dev/null) s"
    began=$(date +%s.%N)
    check "one process reads them" "$python" - "$root" <<'EOT'
import json
import pathlib
import sys

sys.path.insert(0, f"{sys.argv[1]}/bindings/python/examples")
import types

sys.modules["distributed"] = types.SimpleNamespace(Client=None)
import dask_summaries

paths = sorted(str(it) for it in pathlib.Path("pictures").rglob("*") if it.is_file())
with open("alone", "w", encoding="utf-8") as lines:
    for line in dask_summaries.summaries(paths):
        print(line, file=lines)
EOT
    echo "one process: $(echo "$(date +%s.%N) - $began" | bc 2>/dev/null) s"
    check "the answers are the same" cmp lines alone
    check "for each file" test "$(wc -l <lines)" = "$(find pictures -type f | wc -l)"
    check "both workers have had a part" sh -c 'grep -c "Registered to" dask | grep -qx 2'
fi
echo "$passed passed, $failed failed"
[ "$failed" = 0 ]
