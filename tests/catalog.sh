#!/bin/sh
# A catalogue of pictures, queries, and its page.
. "$(dirname "$0")/checks.sh"

mkdir -p many/inner
cp "$root/docs/sample.jpg" many/sample.jpg
cp files/plain.jpg many/plain.jpg
cp files/whole.webp many/inner/whole.webp

# answer SQL: the answer of the catalogue, without the line with the names.
answer() {
    "$mexaldor" query db "$1" | tail -n +2
}

# is NAME SQL TEXT: the answer is this.
is() {
    found=$(answer "$2")
    [ "$found" = "$3" ]
    passes "$1: $found" $?
}

gives "a catalogue is made" 0 "$mexaldor" catalog -r db many
says "with a row for each picture" "3 added, 0 changed, 0 unchanged, 0 removed, 0 restored"
here=$(pwd -P)
is "the paths begin at the root" 'SELECT path FROM picture ORDER BY path' "$here/many/inner/whole.webp
$here/many/plain.jpg
$here/many/sample.jpg"
is "the sample has its date and camera" "SELECT model, date_taken, orientation FROM picture WHERE path = '$here/many/sample.jpg'" "Pinhole 2	2024-05-01T12:30:00.25+10:00	6"
gives "again nothing has changed" 0 "$mexaldor" catalog -r db many
says "and nothing is read" "0 added, 0 changed, 3 unchanged, 0 removed, 0 restored"
if has strace; then
    strace -f -o trace -e trace=open,openat,openat2 "$mexaldor" catalog -r db many >out 2>err
    check "the folders are looked through" grep -qF many/inner trace
    check "files with the stamps of their rows are not opened" sh -c '! grep -qE "(sample|plain)[.]jpg|whole[.]webp" trace'
fi
"$mexaldor" set -q -i many/sample.jpg Artist=Somebody 2>/dev/null
touch -d '2030-01-01' many/sample.jpg
rm many/plain.jpg
gives "a file changed and one is gone" 0 "$mexaldor" catalog -r db many
says "which is counted" "0 added, 1 changed, 1 unchanged, 1 removed, 0 restored"
is "the row has the new value" "SELECT artist FROM picture WHERE path = '$here/many/sample.jpg'" "Somebody"
is "the row of the other is marked" "SELECT path FROM picture WHERE removed = 1" "$here/many/plain.jpg"
cp files/plain.jpg many/plain.jpg
touch -d '2030-01-02' many/plain.jpg
gives "it is there again" 0 "$mexaldor" catalog -r db many
is "and no longer marked" "SELECT count(*) FROM picture WHERE removed = 1" "0"
# a file that was changed and has its old length and time, another one in its place, other paths to it
cp -p many/sample.jpg kept.jpg
python3 - many/sample.jpg <<'P'
import os, sys
found = os.stat(sys.argv[1])
data = open(sys.argv[1], "rb").read()
with open(sys.argv[1], "r+b") as file:
    file.write(data.replace(b"Pinhole 2", b"Pinhole 3"))
os.utime(sys.argv[1], ns=(found.st_atime_ns, found.st_mtime_ns))
P
gives "a change that sets the time back is noticed" 0 "$mexaldor" catalog -r db many
says "as one change" "0 added, 1 changed, 2 unchanged, 0 removed, 0 restored"
is "the row has the new value" "SELECT model FROM picture WHERE path = '$here/many/sample.jpg'" "Pinhole 3"
cp -p kept.jpg many/other && mv many/other many/sample.jpg
gives "another file in its place is noticed" 0 "$mexaldor" catalog -r db many
says "as one change, too" "0 added, 1 changed, 2 unchanged, 0 removed, 0 restored"
ln -s many link
for path in ./many many/ "$here/many" many/inner/.. link; do
    gives "$path leads to the same pictures" 0 "$mexaldor" catalog -r db "$path"
    says "which have their rows" "0 added, 0 changed, 3 unchanged, 0 removed, 0 restored"
done
(cd many && "$mexaldor" catalog -r ../db . 2>../err)
says "and so does another folder" "0 added, 0 changed, 3 unchanged, 0 removed, 0 restored"
gives "a picture that is named twice is read once" 0 "$mexaldor" catalog -r db many many/sample.jpg ./many/sample.jpg
says "and counted once" "0 added, 0 changed, 3 unchanged, 0 removed, 0 restored"
# a folder and a picture that can't be read
find_nobody
if [ -n "$nobody" ]; then
    mkdir -p guarded/inner && cp files/plain.jpg guarded/a.jpg && cp files/plain.jpg guarded/inner/b.jpg
    [ "$(id -u)" != 0 ] || chown -R 65534:65534 guarded
    gives "a folder has rows" 0 $nobody "$mexaldor" catalog -q -r guarded/rows guarded
    chmod 0 guarded/inner
    gives "a folder that can't be read is reported" 1 $nobody "$mexaldor" catalog -r guarded/rows guarded
    check "and none of its rows is marked" test "$($nobody "$mexaldor" query guarded/rows 'SELECT count(*) FROM picture WHERE removed = 1' | tail -n +2)" = 0
    for command in 'show -r' 'json -r' 'check -r' 'set -r -i' 'rename -r {Name}'; do
        words=
        [ "$command" != 'set -r -i' ] || words=Orientation=1
        gives "no success of $command" 1 $nobody "$mexaldor" $command guarded $words
    done
    chmod 755 guarded/inner
    chmod 0 guarded/a.jpg
    gives "a picture that can't be read is not renamed" 1 $nobody "$mexaldor" rename 'x_{Name}' guarded/a.jpg
    check "it stays" test -e guarded/a.jpg
    rm -r guarded
else
    echo "skipped, the program can't be run as nobody: a folder that can't be read"
fi
gives "a part of the folder is looked through" 0 "$mexaldor" catalog -q -r db many/inner
is "the rows of others stay" "SELECT count(*) FROM picture WHERE removed = 0" "3"
"$mexaldor" catalog -q -r hashed many
gives "hashes are asked for, of rows that have none" 0 "$mexaldor" catalog -r --hash hashed many
says "so they are read again" "0 added, 3 changed, 0 unchanged, 0 removed, 0 restored"
gives "and once more" 0 "$mexaldor" catalog -r --hash hashed many
says "then they are not" "0 added, 0 changed, 3 unchanged, 0 removed, 0 restored"
"$mexaldor" query hashed 'SELECT hash, path FROM picture ORDER BY path' | tail -n +2 | sed 's/	/  /' >sums
check "they are those of sha256sum" sha256sum --quiet -c sums
# files that move between folders
mkdir -p album/old album/new
cp many/sample.jpg album/old/one.jpg
cp files/plain.jpg album/old/two.jpg
cp files/whole.webp album/old/three.webp
"$mexaldor" catalog -q -r --hash moves album
mv album/old/one.jpg album/new/uno.jpg
mv album/old/three.webp album/new/three.webp
gives "two files were moved" 0 "$mexaldor" catalog -r --hash moves album
says "which is said of one" "moves: moved: $here/album/old/one.jpg -> $here/album/new/uno.jpg"
says "and of the other" "moves: moved: $here/album/old/three.webp -> $here/album/new/three.webp"
says "and counted" "0 added, 0 changed, 1 unchanged, 0 removed, 0 restored, 2 moved"
check "there is one row for each" test "$("$mexaldor" query moves 'SELECT path, removed FROM picture ORDER BY path' | tail -n +2)" = "$here/album/new/three.webp	0
$here/album/new/uno.jpg	0
$here/album/old/two.jpg	0"
gives "the next run" 0 "$mexaldor" catalog -r --hash moves album
says "finds nothing to do" "0 added, 0 changed, 3 unchanged, 0 removed, 0 restored, 0 moved"
mv album/new/uno.jpg album/new/due.jpg
gives "a file is moved, and its old folder is not looked through" 0 "$mexaldor" catalog --hash moves album/new/due.jpg
says "so it is new" "1 added, 0 changed, 0 unchanged, 0 removed, 0 restored, 0 moved"
cp album/new/due.jpg album/new/tre.jpg
rm album/new/due.jpg
gives "two rows had its bytes" 0 "$mexaldor" catalog -r --hash moves album
says "so it is not said which was moved" "1 added, 0 changed, 2 unchanged, 2 removed, 0 restored, 0 moved"
mv album/old/two.jpg album/new/two.jpg
cp album/new/two.jpg album/new/quattro.jpg
gives "one has two copies" 0 "$mexaldor" catalog -r --hash moves album
says "so neither was moved" "2 added, 0 changed, 2 unchanged, 1 removed, 0 restored, 0 moved"
mv album/new/three.webp album/old/three.webp
gives "without --hash" 0 "$mexaldor" catalog -r moves album
says "a moved file is new" "1 added, 0 changed, 3 unchanged, 1 removed, 0 restored"
gives "pictures without a date get rows" 0 "$mexaldor" catalog -q -r --without date some many
check "only they" test "$("$mexaldor" query some 'SELECT path FROM picture' | tail -n +2)" = "$here/many/plain.jpg"
gives "then those with one" 0 "$mexaldor" catalog -q -r --where date some many
check "and none is marked" test "$("$mexaldor" query some 'SELECT count(*), sum(removed) FROM picture' | tail -n +2)" = "3	0"
printf 'no picture' >broken.jpg
gives "a file that can't be read is reported" 1 "$mexaldor" catalog db broken.jpg
says "by name" "broken.jpg: "
is "and has no row" "SELECT count(*) FROM picture WHERE path LIKE '%broken.jpg'" "0"

gives "a query prints the names of its columns" 0 "$mexaldor" query db 'SELECT count(*) AS pictures FROM picture'
check "and its rows" sh -c 'printf "pictures\n3\n" | cmp - out'
for sql in 'DELETE FROM picture' 'DROP TABLE picture' "UPDATE picture SET path = 'x'" 'nothing' ''; do
    gives "'$sql' is refused" 1 "$mexaldor" query db "$sql"
done
is "and nothing is lost" "SELECT count(*) FROM picture" "3"
gives "a query of no catalogue is refused" 1 "$mexaldor" query nothing 'SELECT 1'
check "and makes none" test ! -e nothing
says "and why is said" "no such catalogue: \`catalog\` makes one"
gives "nor is there a catalogue in a folder that is missing" 1 "$mexaldor" catalog missing/db many/sample.jpg
says "which is said" "its folder is missing, or can't be written"
mkdir folder
gives "a folder is no catalogue" 1 "$mexaldor" query folder 'SELECT 1'
says "which is said, too" "not a regular file"
cp files/plain.jpg picture
gives "a file that is no catalogue is refused" 1 "$mexaldor" catalog picture many/sample.jpg
check "and stays" cmp files/plain.jpg picture
if has sqlite3; then
    check "sqlite3 finds the database sound" test "$(sqlite3 db 'PRAGMA integrity_check')" = ok
    check "and reads it" test "$(sqlite3 db 'SELECT count(*) FROM picture')" = 3
    sqlite3 other 'CREATE TABLE picture (path TEXT)'
    cp other kept
    gives "a table that others made is refused" 1 "$mexaldor" catalog other many/sample.jpg
    check "and stays" cmp kept other
    cp db newer
    sqlite3 newer 'UPDATE catalog SET version = 3'
    gives "a newer version is refused" 1 "$mexaldor" page newer -
    says "by its number" "a catalogue of version 3, by a newer program; this one reads version 2"
fi

# a catalogue that can be read and not written
find_nobody
if [ -n "$nobody" ]; then
    mkdir shelf
    cp db shelf/db
    chmod 644 shelf/db
    chmod 555 shelf
    gives "a catalogue in a read-only folder is queried" 0 $nobody "$mexaldor" query shelf/db 'SELECT count(*) AS pictures FROM picture'
    check "and answers" sh -c 'printf "pictures\n3\n" | cmp - out'
    gives "it has a page" 0 $nobody "$mexaldor" page shelf/db -
    check "with its pictures" grep -q 'sample.jpg' out
    gives "it is not brought up to date" 1 $nobody "$mexaldor" catalog shelf/db many/sample.jpg
    says "and why is said" "it can't be changed: the file or its folder can't be written"
    check "it stays" cmp db shelf/db
    check "and no file is made beside it" test "$(ls -A shelf)" = db
    chmod 755 shelf
    chmod 444 shelf/db
    gives "a read-only file is queried" 0 $nobody "$mexaldor" query shelf/db 'SELECT count(*) AS pictures FROM picture'
    check "and answers, too" sh -c 'printf "pictures\n3\n" | cmp - out'
    chmod 000 shelf/db
    gives "a file that can't be read is refused" 1 $nobody "$mexaldor" query shelf/db 'SELECT 1'
    check "by its cause" grep -qi 'permission denied' err
    chmod 644 shelf/db
    # a change of another program that is in the log alone
    if python3 - shelf/db 2>/dev/null <<'P'
import os, sqlite3, sys
if sqlite3.sqlite_version_info < (3, 37):
    sys.exit(1)
db = sqlite3.connect(sys.argv[1])
db.execute("PRAGMA wal_autocheckpoint = 0")
db.execute("UPDATE picture SET artist = 'Logged'")
db.commit()
os._exit(0)
P
    then
        chmod 644 shelf/*
        chmod 555 shelf
        gives "a log beside a read-only catalogue is read" 0 $nobody "$mexaldor" query shelf/db 'SELECT DISTINCT artist FROM picture'
        check "with what is in it" sh -c 'printf "artist\nLogged\n" | cmp - out'
        chmod 755 shelf
    else
        echo "skipped, no SQLite of version 3.37 in python3: a log beside a read-only catalogue"
    fi
else
    echo "skipped, the program can't be run as nobody: a read-only catalogue"
fi
ln db name
gives "a catalogue with a second name is refused" 1 "$mexaldor" query db 'SELECT 1'
says "and why is said" "the database or its log has a second name, or is a link"
rm name

# the page
gives "a page is written" 0 "$mexaldor" page db page.html
check "with the picture of the sample" grep -q '^<script type="text/plain">/9j/' page.html
check "its day" grep -q '2024-05-01' page.html
check "and its name" grep -q 'sample.jpg' page.html
check "a click opens the file" grep -qF '<a class="open" href="many/sample.jpg">' page.html
check "its thumbnail is turned" grep -q 'data-path="[^"]*many/sample.jpg"[^>]* data-orientation="6"' page.html
mkdir -p pages
gives "a page in another folder is written" 0 "$mexaldor" page db pages/page.html
check "with links from there" grep -qF '<a class="open" href="../many/sample.jpg">' pages/page.html
check "it loads nothing from elsewhere" sh -c '! grep -qE "(src|href)=\"?(http|//)" page.html'
gives "an existing page stays" 1 "$mexaldor" page db page.html
says "unless it may be replaced" "page.html exists; use --force to replace it"
gives "which --force allows" 0 "$mexaldor" page --force db page.html
gives "a page is written to standard output" 0 "$mexaldor" page db -
check "the same" cmp page.html out
# the thumbnail in the Exif data of each format, whose four bytes are FF D8 FF D9
python3 "$root/tests/format_files.py" files || exit 1
mkdir kinds
for kind in jpg webp heic tif png jxl raf orf rw2; do
    cp "files/whole.$kind" kinds
done
for name in thumb.cr3 far.tif far.orf cut.tif long.tif hevc.heic av1.avif both.heic; do
    cp "files/$name" kinds
done
gives "pictures of each format have rows" 0 "$mexaldor" catalog -q -r kinds.db kinds
gives "and a page" 0 "$mexaldor" page kinds.db kinds.html
# card NAME LINE: the card of a picture has this line for its thumbnail
card() {
    check "the card of $1 has $2" sh -c 'grep -A2 "data-path=\"[^\"]*/$1\"" kinds.html | grep -qxF "$2"' sh "$1" "$2"
}
for name in whole.jpg whole.webp whole.heic whole.tif whole.png whole.jxl whole.raf whole.orf whole.rw2 thumb.cr3 far.tif far.orf both.heic; do
    card "$name" '<span class="thumb"></span>'
done
card cut.tif '<p class="none">Thumbnail not shown: cut off</p>'
card long.tif '<p class="none">Thumbnail not shown: longer than 1 MiB</p>'
card hevc.heic '<p class="none">Thumbnail not shown: HEVC</p>'
card av1.avif '<p class="none">Thumbnail not shown: AV1</p>'
check "each has its data, and no other has" test "$(grep -cxF '<script type="text/plain">/9j/2Q==</script>' kinds.html)" = 13
check "all behind the cards" sh -c 'sed "1,/^<div hidden>/d" kinds.html | grep -c "^<script type=.text/plain" | grep -qx 13'
rm many/plain.jpg
gives "a picture that is gone is reported" 3 "$mexaldor" page --force db other.html
says "by name" "many/plain.jpg: "
gives "a page of no catalogue is refused" 1 "$mexaldor" page nothing new.html
check "and not written" test ! -e new.html
gives "a file with a fault has a row" 3 "$mexaldor" catalog -q faults.db files/faulty.jpg
says "and the fault is reported" "files/faulty.jpg: 1 fault was skipped"
if has chromium; then
    chromium --headless --no-sandbox --disable-gpu --window-size=800,600 --screenshot="$PWD/page.png" "file://$PWD/page.html" >/dev/null 2>&1
    check "chromium shows the page" test -s page.png
    # the page makes thumbnails when chromium draws its cards; a busy machine may end a run before it has drawn one
    thumbnails_shown() {
        for _ in 1 2 3 4 5 6 7 8 9 10 11 12 13 14 15 16 17 18 19 20; do
            chromium --headless --no-sandbox --disable-gpu --virtual-time-budget=5000 --run-all-compositor-stages-before-draw \
                --dump-dom "file://$PWD/page.html" >dom 2>/dev/null
            grep -q '<span class="thumb"><img alt="sample.jpg" src="data:image/jpeg;base64,/9j/' dom && return
        done
        return 1
    }
    check "and their thumbnails" thumbnails_shown
    check "with its pictures" grep -q 'sample.jpg' dom
fi
ends
