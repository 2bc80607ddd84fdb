#!/bin/sh
# Tables and JSON of some tags, read by python3's csv and json.
. "$(dirname "$0")/checks.sh"

# The sample: an Example Pinhole 2, f/2.8, taken at 2024-05-01 12:30:00.25; see make_sample.py.
mkdir many
cp "$root/docs/sample.jpg" many/sample.jpg
cp files/plain.jpg many/plain.jpg

# row PYTHON: what python3 reads of the last output by its csv is this.
row() {
    python3 -c 'import csv, sys; rows = list(csv.reader(open("out", newline=""))); assert rows == eval(sys.argv[1]), rows' "$2"
    passes "$1" $?
}

gives "a table is written" 0 "$mexaldor" table --tags Model,FNumber,Orientation many/sample.jpg
row "its row has the values as they are shown" '[["many/sample.jpg", "\"Pinhole 2\"", "f/2.8", "row 0 at right and column 0 at top"]]'
gives "a table of numbers and texts" 0 "$mexaldor" table --header --raw --tags Model,FNumber,Orientation,DateTimeOriginal many/sample.jpg many/plain.jpg
row "has names and decimals, and empty cells where a picture says nothing" '[["path", "Model", "FNumber", "Orientation", "DateTimeOriginal"], ["many/sample.jpg", "Pinhole 2", "2.8", "6", "2024:05:01 12:30:00"], ["many/plain.jpg", "", "", "", ""]]'
gives "a table with tabs" 0 "$mexaldor" table --header --raw --tsv --tags Model,FNumber many/sample.jpg
check "has tabs between its cells" sh -c 'printf "path\tModel\tFNumber\nmany/sample.jpg\tPinhole 2\t2.8\n" | cmp - out'
cp many/sample.jpg 'many/a,"b.jpg'
gives "a name with a comma and a quote" 0 "$mexaldor" table --raw --tags Model 'many/a,"b.jpg'
row "is read back" '[["many/a,\"b.jpg", "Pinhole 2"]]'
"$mexaldor" set 'many/a,"b.jpg' many/text.jpg "Artist=One, \"Two\"
and \\Three" 2>/dev/null
gives "a value with a comma, quotes and a line feed" 0 "$mexaldor" table --raw --tags Artist many/text.jpg
row "is read back too" '[["many/text.jpg", "One, \"Two\"\nand \\Three"]]'
gives "and with tabs" 0 "$mexaldor" table --raw --tsv --tags Artist many/text.jpg
check "the line feed and the backslash are written as two characters" sh -c 'printf "many/text.jpg\tOne, \"Two\"\\\\nand \\\\\\\\Three\n" | cmp - out'
gives "an unknown tag is refused" 2 "$mexaldor" table --tags Modell many/sample.jpg
says "with the nearest one" "unknown tag 'Modell'; did you mean 'Model'?"
gives "a table without tags is refused" 2 "$mexaldor" table many/sample.jpg
printf 'no picture' >many/broken.jpg
gives "a file that can't be read is reported" 1 "$mexaldor" table --tags Model many/broken.jpg many/sample.jpg
says "by name" "many/broken.jpg: "
row "and the others have their rows" '[["many/sample.jpg", "\"Pinhole 2\""]]'
rm many/broken.jpg
gives "a file with a fault has a row" 3 "$mexaldor" table --tags Orientation files/faulty.jpg
says "and the fault is reported" "files/faulty.jpg: 1 fault was skipped"
gives "and a flat object" 3 "$mexaldor" json --summary files/faulty.jpg
says "with the same message" "files/faulty.jpg: 1 fault was skipped"
gives "pictures are chosen" 0 "$mexaldor" table -r -q --without date --tags Model many
row "by conditions" '[["many/plain.jpg", ""]]'

gives "JSON of some tags" 0 "$mexaldor" json --tags Model,FNumber many/sample.jpg
check "has these fields" python3 -c 'import json; found = json.load(open("out")); assert sorted(f["name"] for f in found["fields"]) == ["FNumber", "Model"], found'
gives "all of them" 0 "$mexaldor" json many/sample.jpg
check "are more" python3 -c 'import json; assert len(json.load(open("out"))["fields"]) > 10'
gives "JSON of an unknown tag is refused" 2 "$mexaldor" json --tags Nothing many/sample.jpg
gives "a summary has no tags" 2 "$mexaldor" json --summary --tags Model many/sample.jpg
ends
