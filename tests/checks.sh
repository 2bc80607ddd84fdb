# What the scripts beside this one share: a folder of pictures, counts of checks, and the programs.
# A script sources it, calls `check`, `gives` and `refuses`, and ends with `ends`.

root=$(cd "$(dirname "$0")/.." && pwd)
mexaldor=${MEXALDOR:-$root/crates/mexaldor/out/mexaldor}
passed=0
failed=0

if [ ! -x "$mexaldor" ]; then
    echo "no program at $mexaldor: run tools/build mexaldor, or set MEXALDOR" >&2
    exit 1
fi

scratch=$(mktemp -d)
trap 'chmod -R u+w "$scratch" 2>/dev/null; rm -rf "$scratch"' EXIT
cd "$scratch" || exit 1
python3 "$root/tests/make_files.py" files || exit 1

# passes NAME STATUS: counts a check whose status is 0 as passed.
passes() {
    if [ "$2" = 0 ]; then
        passed=$((passed + 1))
    else
        failed=$((failed + 1))
        echo "FAILED: $1"
    fi
}

# check NAME COMMAND..: a command ends well. What an earlier one wrote stays in out and err.
check() {
    name=$1
    shift
    "$@" >output 2>&1
    status=$?
    [ "$status" = 0 ] || cat output
    passes "$name" "$status"
}

# gives NAME STATUS COMMAND..: a command ends with a status; what it wrote is in out and err.
gives() {
    name=$1
    expected=$2
    shift 2
    "$@" >out 2>err
    status=$?
    [ "$status" = "$expected" ]
    passes "$name (status $status)" $?
}

# says NAME TEXT: the last command wrote this on standard error.
says() {
    grep -qF -- "$2" err
    passes "$1: $(head -c 200 err)" $?
}

# holds NAME TEXT: the last command wrote this on standard output.
holds() {
    grep -qF -- "$2" out
    passes "$1" $?
}

# fresh: the files as they were made.
fresh() {
    rm -rf work
    cp -r files work
}

# boxes FILE: the types of the boxes in a JPEG XL file, with their bytes but for Exif data.
boxes() {
    python3 -c '
import struct, sys

data = open(sys.argv[1], "rb").read()
at = 0
while at < len(data):
    (size,) = struct.unpack_from(">I", data, at)
    end = at + size if size else len(data)
    name = data[at + 4 : at + 8].decode()
    print(name, "" if name == "Exif" else data[at:end].hex())
    at = end
assert at == len(data)' "$1"
}

# nothing_beside: no hidden file is left beside those that were made.
nothing_beside() {
    left=$(find work -name '.*mexaldor*')
    [ -z "$left" ]
    passes "$1: nothing is left beside ($left)" $?
}

# has COMMAND..: whether the tools are there, with a word where one is not.
has() {
    for tool in "$@"; do
        if ! command -v "$tool" >/dev/null; then
            echo "skipped, $tool is not installed: $(basename "$0")"
            return 1
        fi
    done
}

ends() {
    echo "$passed passed, $failed failed"
    [ "$failed" = 0 ]
}

# find_nobody: nobody runs a command as a user who owns no file here; it is empty where that can't be.
find_nobody() {
    if [ "$(id -u)" = 0 ]; then
        chmod 755 "$scratch"
        nobody="setpriv --reuid=65534 --regid=65534 --clear-groups"
        $nobody "$mexaldor" --version >out 2>err || nobody=
    else
        nobody=env
    fi
}
