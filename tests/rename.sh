#!/bin/sh
# Files renamed by date and camera, and thumbnails written to a folder.
. "$(dirname "$0")/checks.sh"

taken=$("$mexaldor" json --summary files/whole.jpg | python3 -c 'import json, sys; print(json.load(sys.stdin)["date_taken"])')
day=$(echo "$taken" | cut -c1-10)
stamp=$(echo "$taken" | tr -d ':-' | cut -c1-15 | tr T _)
year=${day%%-*}
month=$(echo "$day" | cut -d- -f2)

fresh
cp work/whole.jpg work/twin.jpg
printf '<x/>' >work/whole.xmp
printf '<y/>' >work/whole.jpg.xmp
gives "a dry run prints the names" 0 "$mexaldor" rename --dry-run '%Y%m%d_%H%M%S' work/whole.jpg
holds "the old and the new one" "work/whole.jpg -> "
holds "by the date" "/$stamp.jpg"
holds "the sidecar goes along" "/$stamp.xmp"
holds "the other one too" "/$stamp.jpg.xmp"
check "nothing was renamed" test -e work/whole.jpg
gives "files are renamed" 0 "$mexaldor" rename '%Y%m%d_%H%M%S' work/whole.jpg work/twin.jpg
check "the first" cmp files/whole.jpg "work/$stamp.jpg"
check "the second gets a number" cmp files/whole.jpg "work/${stamp}_1.jpg"
check "the sidecars are there, with the number of their picture" test -e "work/${stamp}_1.xmp" -a -e "work/${stamp}_1.jpg.xmp"
check "the old ones are gone" test ! -e work/whole.jpg -a ! -e work/twin.jpg -a ! -e work/whole.xmp
gives "a second run changes nothing" 0 "$mexaldor" rename '%Y%m%d_%H%M%S' "work/$stamp.jpg" "work/${stamp}_1.jpg"
check "indeed" test -e "work/$stamp.jpg" -a -e "work/${stamp}_1.jpg"

fresh
gives "folders are made" 0 "$mexaldor" rename --into sorted '%Y/%m/{Make}_%d' work/whole.jpg
check "by year and month" test "$(find "sorted/$year/$month" -name '*.jpg' | wc -l)" = 1
check "the old file is gone" test ! -e work/whole.jpg

fresh
gives "files are copied" 0 "$mexaldor" rename --copy --into copies '%Y-%m-%d' work/whole.jpg work/big.tif
check "the copy is there" cmp work/whole.jpg "copies/$day.jpg"
check "and the old file" test -e work/whole.jpg

fresh
mkdir taken
printf 'precious' >"work/$stamp.jpg"
gives "no file is overwritten" 0 "$mexaldor" rename '%Y%m%d_%H%M%S' work/whole.jpg
check "the one that was there stays" test "$(cat "work/$stamp.jpg")" = precious
check "the other gets a number" cmp files/whole.jpg "work/${stamp}_1.jpg"

# files of one stem: two shots of one second, each as raw file, JPEG and sidecars, and a video
fresh
mkdir burst
"$mexaldor" set -q work/whole.jpg burst/IMG_1.JPG DateTimeOriginal='2021-03-04 05:06:07' SubSecTimeOriginal=80 2>/dev/null
"$mexaldor" set -q work/whole.tif burst/IMG_1.NEF DateTimeOriginal='2021-03-04 05:06:07' 2>/dev/null
"$mexaldor" set -q work/whole.jpg burst/IMG_2.JPG DateTimeOriginal='2021-03-04 05:06:07' SubSecTimeOriginal=20 2>/dev/null
"$mexaldor" set -q work/whole.tif burst/IMG_2.NEF DateTimeOriginal='2021-03-04 05:06:07' 2>/dev/null
for stem in IMG_1 IMG_2; do
    printf "%s" "$stem xmp" >"burst/$stem.xmp"
    printf "%s" "$stem jpg.xmp" >"burst/$stem.JPG.xmp"
    printf "%s" "$stem aae" >"burst/$stem.AAE"
    printf '\0\0\0\024ftypqt  \0\0\0\0qt  %s' "$stem" >"burst/$stem.MOV"
done
printf '\0\0\0\024ftypqt  \0\0\0\0qt  alone' >burst/IMG_3.MOV
gives "a burst is renamed" 3 "$mexaldor" rename -r '%Y%m%d_%H%M%S' burst
says "a video without a picture is named" "burst/IMG_3.MOV: not read: video"
check "the earlier shot comes first" test "$(cat burst/20210304_050607.xmp)" = 'IMG_2 xmp'
check "with all its files" test "$(cat burst/20210304_050607.JPG.xmp)" = 'IMG_2 jpg.xmp' -a "$(cat burst/20210304_050607.AAE)" = 'IMG_2 aae'
check "and its video" grep -q IMG_2 burst/20210304_050607.MOV
check "the other one gets a number" test "$(cat burst/20210304_050607_1.xmp)" = 'IMG_1 xmp'
check "with all its files, too" test -e burst/20210304_050607_1.JPG -a -e burst/20210304_050607_1.NEF -a -e burst/20210304_050607_1.MOV
ls burst >before
gives "a second run" 3 "$mexaldor" rename -r '%Y%m%d_%H%M%S' burst
ls burst >after
check "changes nothing" cmp before after
says "and says so" "0 renamed, 2 already so, 0 refused, 1 skipped"

# folders are not nested
fresh
mkdir tree && cp files/whole.jpg tree/a.jpg
gives "folders by date are made" 0 "$mexaldor" rename -q -r '%Y/%m/%d' tree
find tree -type f >before
gives "once" 0 "$mexaldor" rename -q -r '%Y/%m/%d' tree
find tree -type f >after
check "not within each other" cmp before after

# a picture that has only a date of another kind
fresh
"$mexaldor" set -q work/plain.jpg dated.jpg DateTimeDigitized='2019-01-02 03:04:05' 2>/dev/null
gives "the date of digitizing serves" 0 "$mexaldor" rename '%Y-%m-%d' dated.jpg
check "as a name" test -e 2019-01-02.jpg
holds "the run writes what it did" "/dated.jpg -> "

# the date that is chosen
fresh
"$mexaldor" set -q work/whole.jpg dates.jpg DateTimeOriginal='2011-01-02 03:04:05' DateTimeDigitized='2012-01-02 03:04:05' DateTime='2013-01-02 03:04:05' 2>/dev/null
for chosen in DateTimeOriginal=2011 DateTimeDigitized=2012 CreateDate=2012 DateTime=2013 ModifyDate=2013; do
    gives "a name by ${chosen%=*}" 0 "$mexaldor" rename --dry-run --date "${chosen%=*}" '%Y' dates.jpg
    holds "has its year" "/${chosen#*=}.jpg"
done
gives "if none is chosen" 0 "$mexaldor" rename --dry-run '%Y' dates.jpg
holds "the best one serves" "/2011.jpg"
"$mexaldor" set -q work/plain.jpg digitized.jpg DateTimeDigitized='2019-01-02 03:04:05' 2>/dev/null
gives "a chosen date has no substitute" 3 "$mexaldor" rename --date DateTimeOriginal '%Y' digitized.jpg
says "the file is left" "digitized.jpg: no date"
check "indeed" test -e digitized.jpg
gives "an unknown date is refused" 2 "$mexaldor" rename --date Taken '%Y' work/whole.jpg
says "with those that there are" "expected DateTimeOriginal, DateTimeDigitized (or CreateDate) or DateTime (or ModifyDate)"

# a run is taken back by its lines, whatever the names are
fresh
mkdir back
cp files/whole.jpg 'back/a b.jpg'
printf '<x/>' >'back/a b.xmp'
cp files/whole.jpg 'back/c -> d.jpg'
cp files/whole.jpg "back/e
f.jpg"
ls back >before
gives "files with odd names are renamed" 0 "$mexaldor" rename -r '%Y%m%d_%H%M%S' back
cp out run.txt
check "a line for each" test "$(wc -l <run.txt)" = 4
holds "with its old name" "/back/a b.jpg -> "
holds "in which an arrow is no arrow" '/back/c -\x3e d.jpg -> '
holds "and a line feed ends no line" '/back/e\x0af.jpg -> '
gives "a dry run prints what would be taken back" 0 "$mexaldor" rename --dry-run --undo run.txt
check "a line for each" test "$(wc -l <out)" = 4
holds "the other way round" "/$stamp.xmp -> "
check "and changes nothing" test -e "back/$stamp.jpg"
gives "the run is taken back" 0 "$mexaldor" rename --undo run.txt
ls back >after
check "each has its old name" cmp before after
check "and its bytes" cmp files/whole.jpg 'back/c -> d.jpg'
gives "there is nothing more to take back" 1 "$mexaldor" rename --undo run.txt
says "which is said" "/$stamp.jpg: it is not there any more"
gives "they are renamed again" 0 "$mexaldor" rename -r '%Y%m%d_%H%M%S' back
cp out run.txt
printf 'precious' >'back/a b.jpg'
gives "no file is overwritten" 1 "$mexaldor" rename --undo run.txt
says "one of that name is reported" "/$stamp.jpg: its old name is taken: "
check "it stays" test "$(cat 'back/a b.jpg')" = precious
check "the others are back" test -e 'back/c -> d.jpg' -a -e 'back/a b.xmp'

fresh
gives "a file is renamed" 0 "$mexaldor" rename '%Y%m%d_%H%M%S' work/whole.jpg
cp out run.txt
{ cat run.txt; echo 'nonsense'; } >bad.txt
gives "a line of no run is refused" 1 "$mexaldor" rename --undo bad.txt
says "by its number" "bad.txt: line 2 is no line of rename"
check "and nothing is taken back" test ! -e work/whole.jpg
gives "the lines are read from standard input" 0 "$mexaldor" rename --undo - <run.txt
check "the file is back" cmp files/whole.jpg work/whole.jpg
gives "a file is copied" 0 "$mexaldor" rename --copy --into undone '%Y%m%d_%H%M%S' work/whole.jpg
holds "which its line says" "/whole.jpg => "
cp out run.txt
gives "a copy is not taken back" 1 "$mexaldor" rename --undo run.txt
says "but reported" "/$stamp.jpg: a copy, which is not taken back; remove it by rm"
check "both are there" cmp work/whole.jpg "undone/$stamp.jpg"
gives "--undo takes no pattern" 2 "$mexaldor" rename --undo run.txt '%Y' work/whole.jpg
gives "and a pattern is required without it" 2 "$mexaldor" rename
says "which is said" "expected PATTERN PATH..., or --undo FILE"

# files whose bytes are there already
fresh
mkdir card
cp files/whole.jpg card/a.jpg
printf '<x/>' >card/a.xmp
"$mexaldor" set -q work/whole.jpg card/b.jpg DateTimeOriginal='2021-03-04 05:06:07' SubSecTimeOriginal=20 2>/dev/null
"$mexaldor" set -q work/whole.jpg card/c.jpg DateTimeOriginal='2021-03-04 05:06:07' SubSecTimeOriginal=40 2>/dev/null
gives "a card is copied" 0 "$mexaldor" rename -r --copy --into archive '%Y%m%d_%H%M%S' card
check "each file" test "$(find archive -type f | wc -l)" = 4
gives "and copied again" 0 "$mexaldor" rename -r --copy --into archive '%Y%m%d_%H%M%S' card
says "what is there is reported" "card/a.jpg: already there: "
says "and counted" "0 copied, 3 already so, 0 refused"
check "there is no further file" test "$(find archive -type f | wc -l)" = 4
gives "a quiet run" 0 "$mexaldor" rename -q -r --copy --into archive '%Y%m%d_%H%M%S' card
check "says nothing" test ! -s err
"$mexaldor" set -q work/whole.jpg card/d.jpg DateTimeOriginal='2021-03-04 05:06:07' SubSecTimeOriginal=90 2>/dev/null
gives "a new shot of the same second is copied" 0 "$mexaldor" rename -q -r --copy --into archive '%Y%m%d_%H%M%S' card
check "with a number" cmp card/d.jpg archive/20210304_050607_2.jpg
check "and no other" test "$(find archive -type f | wc -l)" = 5
printf '<other/>' >card/a.xmp
gives "a sidecar that differs" 3 "$mexaldor" rename -q -r --copy --into archive '%Y%m%d_%H%M%S' card
says "is reported" "card/a.xmp: left, as its picture is there already; it differs from "
check "and not copied" test "$(cat "archive/$stamp.xmp")" = '<x/>' -a "$(find archive -type f | wc -l)" = 5
gives "what is there is not moved" 3 "$mexaldor" rename -r --into archive '%Y%m%d_%H%M%S' card
says "but reported" "card/b.jpg: already there: "
check "all files stay" test "$(find card -type f | wc -l)" = 5 -a "$(find archive -type f | wc -l)" = 5
gives "nor would it be" 3 "$mexaldor" rename --dry-run --into archive '%Y%m%d_%H%M%S' card/b.jpg
check "no line is printed" test ! -s out
mkdir same && cp files/whole.jpg same/a.jpg && cp files/whole.jpg same/b.jpg
gives "two pictures of the same bytes are both moved" 0 "$mexaldor" rename -r --into sames '%Y' same
gives "and keep their names" 0 "$mexaldor" rename -r --into sames '%Y' sames
says "as those that have them already" "0 renamed, 2 already so"

# two runs side by side
fresh
rm -rf many && mkdir many
for number in $(seq 1 20); do
    cp files/whole.jpg "many/a$number.jpg"
    cp files/whole.jpg "many/b$number.jpg"
done
"$mexaldor" rename '%Y%m%d_%H%M%S' many/a*.jpg >out.a 2>err.a &
"$mexaldor" rename '%Y%m%d_%H%M%S' many/b*.jpg >out.b 2>err.b
wait
check "two runs side by side lose no file" test "$(ls many | wc -l)" = 40

# a file system in which no file can have two names
if has strace; then
    fresh
    printf 'precious' >"work/$stamp.jpg"
    strace -f -o trace -e inject=link,linkat:error=EPERM "$mexaldor" rename '%Y%m%d_%H%M%S' work/whole.jpg >out 2>err
    check "without hard links a file is renamed too" cmp files/whole.jpg "work/${stamp}_1.jpg"
    check "its old name is gone" test ! -e work/whole.jpg
    check "nothing is overwritten" test "$(cat "work/$stamp.jpg")" = precious
fi

fresh
gives "a file without a date is left" 3 "$mexaldor" rename '%Y' work/plain.jpg
says "and reported" "work/plain.jpg: "
check "indeed" cmp files/plain.jpg work/plain.jpg
gives "the old name is a fact too" 0 "$mexaldor" rename 'old_{Name}' work/plain.jpg
check "which is there" cmp files/plain.jpg work/old_plain.jpg

for pattern in '' '%' '%Q' '{' '{What}' 'a//b' '/a' '../a' '}'; do
    gives "the pattern '$pattern' is refused" 2 "$mexaldor" rename "$pattern" work/whole.jpg
done

# what a file has besides its bytes goes with it
fresh
if python3 -c 'import os; os.setxattr("work/whole.jpg", "user.note", b"kept")' 2>/dev/null; then
    gives "a file with an attribute is renamed" 0 "$mexaldor" rename moved work/whole.jpg
    check "it has it still" python3 -c 'import os; assert os.getxattr("work/moved.jpg", "user.note") == b"kept"'
else
    echo "skipped, files have no attributes here: $(basename "$0")"
fi

# a sidecar that is named besides its picture is moved once; where it can't be moved, its picture stays
fresh
printf "one" >work/whole.xmp
gives "a picture and its sidecar are named" 0 "$mexaldor" rename once work/whole.jpg work/whole.xmp work/whole.jpg
check "each has one line" test "$(wc -l <out)" = 2
check "and its new name" test -e work/once.jpg -a "$(cat work/once.xmp)" = one
if has flock; then
    fresh
    printf "one" >work/whole.xmp
    flock work/whole.xmp sh -c 'touch work/held; sleep 3' &
    until [ -e work/held ]; do sleep 0.05; done
    gives "a sidecar that another program has locked" 1 "$mexaldor" rename once work/whole.jpg
    says "is refused" "another program has it locked"
    check "so both stay" test -e work/whole.jpg -a -e work/whole.xmp -a ! -e work/once.jpg -a ! -e work/once.xmp
    wait
fi

# another file system
if [ "$(stat -c %d /dev/shm 2>/dev/null)" != "$(stat -c %d .)" ] && other=$(mktemp -d -p /dev/shm 2>/dev/null); then
    fresh
    touch -d '2020-01-02 03:04:05' work/whole.jpg
    chmod 640 work/whole.jpg
    [ "$(id -u)" != 0 ] || chown 1234:2345 work/whole.jpg
    owner=$(stat -c '%u %g' work/whole.jpg)
    gives "a file is moved to another file system" 0 "$mexaldor" rename --into "$other" '{Name}' work/whole.jpg
    check "it is there" cmp files/whole.jpg "$other/whole.jpg"
    check "with its mode and time" test "$(stat -c '%a %Y' "$other/whole.jpg")" = "640 $(date -d '2020-01-02 03:04:05' +%s)"
    check "and its owner" test "$(stat -c '%u %g' "$other/whole.jpg")" = "$owner"
    check "and no more here" test ! -e work/whole.jpg
    rm -r "$other"
else
    echo "skipped, there is no other file system: $(basename "$0")"
fi

# a run of many, stopped at any moment
fresh
rm -rf many && mkdir many
for n in $(seq 300); do cp files/whole.jpg "many/$n.jpg"; done
"$mexaldor" rename -q -r '%Y%m%d_%H%M%S' many &
sleep 0.05
kill -9 $! 2>/dev/null
wait 2>/dev/null
check "no file is lost where the run is killed" test "$(find many -name '*.jpg' -printf '%i\n' | sort -u | wc -l)" = 300
gives "the run is done again" 0 "$mexaldor" rename -r '%Y%m%d_%H%M%S' many
check "all are there" test "$(find many -name "$stamp*.jpg" | wc -l)" = 300
check "and nothing else" test "$(ls many | wc -l)" = 300

# a run that was killed between the two calls of a move leaves a file with both names
fresh
rm -rf begun && mkdir begun
cp files/whole.jpg begun/IMG_1.jpg
cp files/whole.jpg begun/IMG_2.jpg
echo one >begun/IMG_1.xmp
ln begun/IMG_1.jpg "begun/$stamp.jpg"
cp -a begun killed
gives "a move that was begun is shown by a dry run" 0 "$mexaldor" rename --dry-run -r '%Y%m%d_%H%M%S' begun
check "which changes nothing" diff -r begun killed
check "nor the names" test -e begun/IMG_1.jpg -a -e "begun/$stamp.jpg" -a "$(ls begun | wc -l)" = 4
gives "a move that was begun is finished" 0 "$mexaldor" rename -r '%Y%m%d_%H%M%S' begun
check "the old name is gone" test ! -e begun/IMG_1.jpg
check "the new one has the file" cmp files/whole.jpg "begun/$stamp.jpg"
check "its sidecar goes with it" test "$(cat "begun/$stamp.xmp")" = one
check "another file gets a number" cmp files/whole.jpg "begun/${stamp}_1.jpg"
check "there is no fourth" test "$(ls begun | wc -l)" = 3
rm -rf begun && mkdir begun
cp files/whole.jpg begun/IMG_1.jpg
echo one >begun/IMG_1.xmp
ln begun/IMG_1.xmp "begun/$stamp.xmp"
gives "so is one of which the sidecar was moved, which was found alone" 3 "$mexaldor" rename -r '%Y%m%d_%H%M%S' begun
check "both have the new name" test "$(ls begun | tr '\n' ' ')" = "$stamp.jpg $stamp.xmp "
gives "the next run finds them together" 0 "$mexaldor" rename -r '%Y%m%d_%H%M%S' begun
rm -rf begun sorted && mkdir begun sorted
cp files/whole.jpg begun/IMG_1.jpg
ln begun/IMG_1.jpg "sorted/$stamp.jpg"
gives "so is one into a folder" 0 "$mexaldor" rename -r --into sorted '%Y%m%d_%H%M%S' begun
check "the file is there" cmp files/whole.jpg "sorted/$stamp.jpg"
check "and only there" test "$(ls begun | wc -l)" = 0
cp "sorted/$stamp.jpg" begun/IMG_1.jpg
gives "another file of the same bytes stays" 3 "$mexaldor" rename -r --into sorted '%Y%m%d_%H%M%S' begun
check "where it is" test -e begun/IMG_1.jpg
rm -rf sorted real && mkdir sorted real
cp files/whole.jpg "real/$stamp.jpg"
ln "real/$stamp.jpg" spare.jpg
ln -s ../real "sorted/$year"
gives "two paths of one name are one name" 3 "$mexaldor" rename --into sorted '%Y/%Y%m%d_%H%M%S' "real/$stamp.jpg"
check "the file has it still" cmp files/whole.jpg "real/$stamp.jpg"
rm -rf begun killed sorted real spare.jpg

# thumbnails
fresh
gives "thumbnails are written to a folder" 0 "$mexaldor" thumbnail --into small work/whole.jpg work/big.tif
check "each by its name" test -e small/whole.jpg.jpg -a -e small/big.tif.jpg
gives "they are not overwritten" 1 "$mexaldor" thumbnail --into small work/whole.jpg
says "by name" "small/whole.jpg.jpg exists"
gives "unless that is forced" 0 "$mexaldor" thumbnail --force --into small work/whole.jpg
mkdir -p twins/a twins/b twins/c
cp files/whole.jpg twins/a/one.jpg
cp "$root/docs/sample.jpg" twins/b/one.jpg
cp files/plain.jpg twins/c/one.jpg
gives "pictures of one name are three" 1 "$mexaldor" thumbnail -r --into small twins
says "one without a thumbnail is reported" "twins/c/one.jpg: "
"$mexaldor" thumbnail twins/b/one.jpg second.jpg
check "the first has its name" cmp small/one.jpg.jpg small/whole.jpg.jpg
check "the second has a number" cmp small/one.jpg_1.jpg second.jpg
gives "by force they are written again" 1 "$mexaldor" thumbnail -r --force --into small twins
check "the first is that of the first picture" cmp small/one.jpg.jpg small/whole.jpg.jpg
check "the second that of the second" cmp small/one.jpg_1.jpg second.jpg
check "and there is no third" test ! -e small/one.jpg_2.jpg

ends
