#!/bin/sh
# The library for C, Python and Rust, called as their users do. The archive is built over the libraries
# that rt ci left, or was by make -C bindings/c. What is not installed is skipped, with a message.
root=$(cd "$(dirname "$0")/.." && pwd)
scratch=$(mktemp -d)
trap 'rm -rf "$scratch"' EXIT
passed=0
failed=0

# counts NAME PASSED FAILED: adds what a part counted.
counts() {
    echo "$1: $2 passed, $3 failed"
    passed=$((passed + $2))
    failed=$((failed + $3))
}

# has NAME: whether a tool is there; says so where it isn't.
has() {
    command -v "$1" >/dev/null && return
    echo "skipped, without $1: $2"
    return 1
}

# c NAME COMMAND..: a C program whose last line counts.
c() {
    name=$1
    shift
    "$@" "$scratch/files" >"$scratch/output" 2>&1
    status=$?
    last=$(tail -n 1 "$scratch/output")
    case "$status $last" in
        "0 "*" passed, 0 failed") counts "$name" "${last%% *}" 0 ;;
        *)
            cat "$scratch/output"
            counts "$name" 0 1
            ;;
    esac
}

# one NAME COMMAND..: a command that ends well.
one() {
    name=$1
    shift
    if "$@" >"$scratch/output" 2>&1; then
        counts "$name" 1 0
    else
        cat "$scratch/output"
        counts "$name" 0 1
    fi
}

out=$root/bindings/c/out
archive=$root/crates/exif_c/out/libexif_c.a
[ -f "$archive" ] || [ ! -d "$root/crates/exif_base/out/rlib" ] || one "the archive is built" "$root/tools/archive" exif_c
if [ ! -f "$archive" ]; then
    echo "skipped, without $archive, which make -C bindings/c builds: the libraries for C, Python and Rust"
elif has cc "the libraries for C, Python and Rust" && has make "the same" && has python3 "the same"; then
    touch "$archive"
    python3 "$root/tests/make_files.py" "$scratch/files" || exit 1
    one "the archive and the shared library are built" make -s -C "$root/bindings/c" all test out/fuzz
    c "C" "$out/test"
    c "C, shared library" "$out/test_shared"
    c "C, address sanitizer" "$out/test_address"
    has valgrind "C under valgrind" &&
        c "C, valgrind" valgrind -q --error-exitcode=9 --leak-check=full "$out/test"
    one "changed files, address sanitizer" \
        python3 "$root/bindings/fuzz.py" "$out/fuzz" 1 "${FUZZ:-100000}"
    one "the wheel is made" \
        python3 "$root/bindings/python/wheel.py" "$out/libmexaldor.so.0" "$scratch/wheel"
    mkdir "$scratch/installed"
    (cd "$scratch/installed" && python3 -m zipfile -e "$scratch"/wheel/*.whl .)
    PYTHONPATH=$scratch/installed python3 -m unittest discover -s "$root/bindings/python/tests" \
        >"$scratch/output" 2>&1
    if [ $? = 0 ]; then
        counts "Python" "$(sed -n 's/^Ran \([0-9]*\) tests.*/\1/p' "$scratch/output")" 0
    else
        cat "$scratch/output"
        counts "Python" 0 1
    fi
    if has cargo "the crate for Rust"; then
        MEXALDOR_LIB_DIR=$out MEXALDOR_PICTURES=$scratch/files CARGO_TARGET_DIR=$scratch/target \
            cargo test --offline --quiet --manifest-path "$root/bindings/rust/Cargo.toml" \
            >"$scratch/output" 2>&1
        if [ $? = 0 ]; then
            counts "Rust" "$(sed -n 's/^test result: ok. \([0-9]*\) passed.*/\1/p' "$scratch/output" |
                awk '{ sum += $1 } END { print sum }')" 0
        else
            cat "$scratch/output"
            counts "Rust" 0 1
        fi
    fi
fi
echo "$passed passed, $failed failed"
[ "$failed" = 0 ]
