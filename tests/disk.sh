#!/bin/sh
# Replaces files where the disk fails: a file that is too long for it, a folder that can't be
# written, a process that is killed. Each time the old or the new file is there, whole.
. "$(dirname "$0")/checks.sh"

python3 - <<'P'
# a picture of 3 MB: a comment of 64 KB fifty times
data = open("files/whole.jpg", "rb").read()
comment = b"\xff\xfe" + (65535).to_bytes(2, "big") + b"c" * 65533
open("files/long.jpg", "wb").write(data[:2] + comment * 50 + data[2:])
P
"$mexaldor" set files/long.jpg turned.jpg Orientation=1
"$mexaldor" set files/whole.jpg turned.small Orientation=1

# a disk that takes 1 MB of a file and then no more
fresh
gives "a full disk is reported" 1 sh -c 'trap "" XFSZ; ulimit -f 2048; exec "$1" set -i work/long.jpg Orientation=1' sh "$mexaldor"
says "by its name" "work/long.jpg:"
check "the old file stays" cmp files/long.jpg work/long.jpg
nothing_beside "a full disk"
gives "an OUT on a full disk is reported" 1 sh -c 'trap "" XFSZ; ulimit -f 2048; exec "$1" set work/long.jpg work/new.jpg Orientation=1' sh "$mexaldor"
check "no half file is left" test ! -e work/new.jpg
nothing_beside "an OUT on a full disk"

# a real file system of 4 MB, where one may be mounted
mkdir small
if mount -t tmpfs -o size=4m none small 2>/dev/null; then
    cp files/long.jpg small/
    gives "a small disk is reported" 1 "$mexaldor" set -i small/long.jpg Orientation=1
    check "the old file stays there" cmp files/long.jpg small/long.jpg
    check "nothing is left beside it" test "$(ls -A small)" = long.jpg
    umount small
else
    echo "skipped, nothing may be mounted here: a small disk"
fi

# a read-only folder
fresh
find_nobody
[ "$(id -u)" != 0 ] || chown -R 65534:65534 work
if [ -n "$nobody" ]; then
    chmod a-w work
    gives "a read-only folder is reported" 1 $nobody "$mexaldor" set -i work/whole.jpg Orientation=1
    check "the file stays" cmp files/whole.jpg work/whole.jpg
    gives "an OUT there is reported" 1 $nobody "$mexaldor" scrub work/whole.jpg work/new.jpg
    chmod u+w work
    chmod a-r work/whole.jpg
    gives "an unreadable file is reported" 1 $nobody "$mexaldor" set -i work/whole.jpg Orientation=1
    nothing_beside "a read-only folder"
else
    echo "skipped, the program can't be run as nobody: a read-only folder"
fi

# what is no file, and what is none any more
gives "a device is not replaced" 1 "$mexaldor" thumbnail files/whole.jpg /dev/null
check "it is a device still" test -c /dev/null
gives "a folder is not replaced" 1 "$mexaldor" thumbnail files/whole.jpg work
gives "a missing folder is reported" 1 "$mexaldor" thumbnail files/whole.jpg none/thumbnail.jpg

# permissions, times, links, backups
fresh
chmod 640 work/whole.jpg
touch -d "2001-02-03 04:05:06" work/whole.jpg
ln -s whole.jpg work/link.jpg
gives "a link is followed" 0 "$mexaldor" set -i --keep-time --backup work/link.jpg Orientation=1
check "it is a link still" test -L work/link.jpg
check "permissions stay" test "$(stat -c %a work/whole.jpg)" = 640
check "times stay" test "$(stat -c %Y work/whole.jpg)" = "$(date -d "2001-02-03 04:05:06" +%s)"
check "the backup is the old file" cmp files/whole.jpg work/whole.jpg.orig
gives "a backup is not replaced" 1 "$mexaldor" set -i --backup work/whole.jpg Orientation=3
says "the message names the backup" "/whole.jpg.orig exists"
"$mexaldor" show work/whole.jpg >out
holds "the file stays then" "row 0 at top and column 0 at left"
gives "a change that changes nothing" 0 "$mexaldor" set -i work/whole.jpg Orientation=1
check "does not replace the file" test "$(stat -c %Y work/whole.jpg)" = "$(date -d "2001-02-03 04:05:06" +%s)"
nothing_beside links

# what was removed stays in backups, and under other names
fresh
ln work/whole.jpg work/second.jpg
gives "a file with another name is scrubbed" 0 "$mexaldor" scrub -i --backup work/whole.jpg
says "its backup is named" "mexaldor: 1 backup (.orig) holds what was removed"
says "and its other name" "mexaldor: 1 file has another name (a hard link), under which what was removed stays"
check "which holds the old file" cmp files/whole.jpg work/second.jpg
gives "a quiet run" 0 "$mexaldor" scrub -q -i work/second.jpg
check "says neither" test ! -s err
cp files/whole.jpg work/IMG_20240501_123000.jpg
cp files/whole.jpg work/2024-05-01.jpg
cp files/whole.jpg work/DSC_0042.jpg
gives "files whose names say a day are scrubbed" 0 "$mexaldor" scrub -i --keep-time work/IMG_20240501_123000.jpg work/2024-05-01.jpg work/DSC_0042.jpg
says "their names are counted" "mexaldor: 2 files have a date in their names, which stay"
says "and their times" "mexaldor: 3 files keep their times of modification (--keep-time), which may say when they were taken"
cp files/whole.jpg work/2024-05-01.jpg
gives "where locations alone go" 3 "$mexaldor" scrub -i --locations-only --keep-time work/2024-05-01.jpg
check "a day is not what was asked for" sh -c '! grep -q "date in\|keep-time" err'
cp files/whole.jpg work/third.jpg
gives "set says neither" 0 "$mexaldor" set -i --backup work/third.jpg Orientation=1
check "since it removes nothing" test ! -s err

# a name as long as names can be
fresh
long=$(printf %0250d 0).jpg
cp files/whole.jpg "work/$long"
gives "a file with a long name is replaced" 0 "$mexaldor" set -i "work/$long" Orientation=1
check "it is another now" sh -c '! cmp -s files/whole.jpg "$1"' sh "work/$long"
nothing_beside "a long name"

# a process that is killed before each of its calls that change files: strace counts each kind of call alone
if has strace; then
    calls=0
    for call in openat write fchown fchmod utimensat fsync link linkat rename renameat renameat2 unlink unlinkat; do
        step=0
        killed=137
        while [ "$killed" = 137 ]; do
            step=$((step + 1))
            fresh
            strace -f -o trace -e "inject=$call:signal=KILL:when=$step" \
                "$mexaldor" set -i --backup --keep-time work/whole.jpg Orientation=1 >out 2>err
            killed=$?
            [ "$killed" = 137 ] && calls=$((calls + 1))
            cmp -s files/whole.jpg work/whole.jpg || cmp -s turned.small work/whole.jpg || passes "killed at $call $step" 1
            [ ! -e work/whole.jpg.orig ] || cmp -s files/whole.jpg work/whole.jpg.orig || passes "the backup at $call $step" 1
        done
    done
    check "the program was killed at its steps" test "$calls" -ge 11
fi

# two runs on one file: what the second one read is compared just before it replaces it
if has strace; then
    fresh
    strace -f -o trace -e inject=fsync:delay_enter=300000 "$mexaldor" set -i work/whole.jpg Orientation=1 >out 2>err &
    sleep 0.1
    "$mexaldor" set -i work/whole.jpg Orientation=3 >out.other 2>err.other
    other=$?
    wait $!
    one=$?
    check "one of two runs refuses" test "$one$other" = 10 -o "$one$other" = 01
    check "it says why" grep -q 'another program has changed it' err err.other
fi

# a process that is killed: at each time the old or the new file
fresh
halves=0
for step in $(seq 1 60); do
    cp files/long.jpg work/long.jpg
    timeout -s KILL "0.0$(printf %02d $((step % 40)))" "$mexaldor" set -i work/long.jpg Orientation=1 >out 2>err
    cmp -s files/long.jpg work/long.jpg || cmp -s turned.jpg work/long.jpg || halves=$((halves + 1))
done
check "a killed process leaves no half file" test "$halves" = 0

ends
