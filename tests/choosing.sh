#!/bin/sh
# Pictures chosen by date, camera and location, and the times of files.
. "$(dirname "$0")/checks.sh"

# The sample was taken at 2024-05-01 12:30:00.25, ten hours east of UTC, by an Example Pinhole 2, at a known location.
mkdir many
cp "$root/docs/sample.jpg" many/sample.jpg
cp files/plain.jpg many/plain.jpg
"$mexaldor" scrub --locations-only many/sample.jpg many/nowhere.jpg

# chosen NAMES OPTION..: these files are shown, and no other one.
chosen() {
    names=$1
    shift
    "$mexaldor" json -q -r "$@" many >out 2>err
    status=$?
    found=$(python3 -c 'import json, os, sys; print(*sorted(os.path.basename(json.loads(l)["path"]) for l in sys.stdin))' <out)
    [ "$status $found" = "0 $names" ]
    passes "$*: $status $found" $?
}

all="nowhere.jpg plain.jpg sample.jpg"
dated="nowhere.jpg sample.jpg"
chosen "$all"
chosen "$dated" --after 2024
chosen "$dated" --after 2024-05
chosen "$dated" --after 2024-05-01
chosen "$dated" --after 2024-05-01T12:30
chosen "$dated" --after 2024-05-01T12:30:00
chosen "" --after 2024-05-01T12:30:01
chosen "" --after 2024-06
chosen "" --before 2024
chosen "" --before 2024-05-01T12:30
chosen "$dated" --before 2024-05-01T12:31
chosen "$dated" --before 2024-06
chosen "$dated" --after 2024-05 --before 2024-06
chosen "$dated" --camera pinhole
chosen "$dated" --camera EXAMPLE
chosen "" --camera leica
chosen "$dated" --where date
chosen "plain.jpg" --without date
chosen "sample.jpg" --where location
chosen "nowhere.jpg plain.jpg" --without location
chosen "nowhere.jpg" --where date --without location
chosen "sample.jpg" --where date --where location

for date in 24 2024-13 2024-5 2024-00 2024-05-32 2024-05-01T24:00 2024/05 yesterday ''; do
    gives "the date '$date' is refused" 2 "$mexaldor" show --after "$date" many/sample.jpg
done
gives "an unknown fact is refused" 2 "$mexaldor" show --where copyright many/sample.jpg
gives "standard input can't be chosen" 2 "$mexaldor" show --after 2024 -
gives "nor can a file that is written to another one" 2 "$mexaldor" scrub --after 2024 many/sample.jpg new.jpg
printf 'no picture' >many/broken.jpg
gives "a file that can't be read is reported" 1 "$mexaldor" show --after 2024 many/broken.jpg
says "by name" "many/broken.jpg: "
rm many/broken.jpg
gives "only those that are chosen are changed" 0 "$mexaldor" set --in-place -r --where location many Orientation=1
check "the others stay" cmp many/plain.jpg files/plain.jpg
gives "one of them" 0 "$mexaldor" show many/nowhere.jpg
holds "stays too" "Orientation primary row 0 at right and column 0 at top"

# times
touch -d '2001-01-01 00:00:00' many/sample.jpg
gives "the time of a file is set" 3 "$mexaldor" touch -q -r many
says "unless it has no date" "many/plain.jpg: modification time unchanged: it has no date, or one before 1970"
check "to when it was taken, in UTC" test "$(date -u -r many/sample.jpg +%Y-%m-%dT%H:%M:%S)" = 2024-05-01T02:30:00
check "with its fraction" test "$(stat -c %y many/sample.jpg | cut -c20-23)" = .250
gives "dates without an offset" 0 "$mexaldor" scrub "$root/docs/sample.jpg" bare.jpg
gives "are those of the clock" 0 "$mexaldor" set --in-place bare.jpg 'DateTimeOriginal=2024-05-01T12:30:00'
gives "in UTC" 0 "$mexaldor" touch bare.jpg
check "so" test "$(date -u -r bare.jpg +%H:%M)" = 12:30
gives "or in another zone" 0 "$mexaldor" touch --offset -02:00 bare.jpg
check "which is west" test "$(date -u -r bare.jpg +%H:%M)" = 14:30
gives "an invalid offset is refused" 2 "$mexaldor" touch --offset 2 bare.jpg

ends
