"""The names and kinds of IPTC datasets in crates/exif_iptc/src/names.rt, against exiftool's table.

python3 iptc_names.py: prints each dataset of the records 1, 2, 3, 7, 8 and 9 that the two do not
have alike, and 'N passed, M failed' at the end. Its status is 1 if one failed.

exiftool has some datasets that IIM 4.2 does not define; of those each is listed here, and none may
be in names.rt.
"""

import os
import re
import subprocess
import sys

HERE = os.path.dirname(os.path.abspath(__file__))
NAMES = os.path.join(HERE, "..", "crates", "exif_iptc", "src", "names.rt")
TABLES = {
    1: ("EnvelopeRecord", "ENVELOPE"),
    2: ("ApplicationRecord", "APPLICATION"),
    3: ("NewsPhoto", "NEWS_PHOTO"),
    7: ("PreObjectData", "PRE_OBJECT_DATA"),
    8: ("ObjectData", "OBJECT_DATA"),
    9: ("PostObjectData", "POST_OBJECT_DATA"),
}
# datasets of programs, which IIM 4.2 does not define
OF_PROGRAMS = {(2, number) for number in (121, 184, 185, 186, 187, 188, 221, 225, 228, 230, 231, 232, 255)}
# the standard says two binary numbers, digits and a binary number, where exiftool says characters
OTHER_KINDS = {(3, 10): "Bytes"}
DUMP = """
use Image::ExifTool;
use Image::ExifTool::IPTC;
no strict 'refs';
for my $table (@ARGV) {
    my %rows = %{"Image::ExifTool::IPTC::$table"};
    for my $number (sort { $a <=> $b } grep { /^\\d+$/ } keys %rows) {
        my $row = $rows{$number};
        print join("\\t", $table, $number, $$row{Name}, $$row{Format} // '', $$row{ValueConv} // ''), "\\n";
    }
}
"""


def kind(form, conversion):
    """What a value is, by exiftool's format of it and by what it makes of it."""
    if "ExifDate" in conversion:
        return "Date"
    if "ExifTime" in conversion:
        return "Time"
    if form.startswith("int"):
        return "Number"
    return "Text" if form.startswith(("string", "digits")) else "Bytes"


def exiftool_rows():
    records = {table: record for record, (table, _) in TABLES.items()}
    run = subprocess.run(["perl", "-e", DUMP, *records], capture_output=True, text=True, check=True)
    rows = {}
    for line in run.stdout.splitlines():
        table, number, name, form, conversion = line.split("\t")
        key = records[table], int(number)
        rows[key] = name, OTHER_KINDS.get(key, kind(form, conversion))
    return rows


def code_rows():
    with open(NAMES, encoding="utf-8") as file:
        source = file.read()
    rows = {}
    for record, (_, static) in TABLES.items():
        count, body = re.search(rf"static {static}: \[Row; (\d+)\] = \[(.*?)\];", source, re.S).groups()
        found = re.findall(r'row!\((\d+) "([^"]*)" (\w+)\)', body)
        assert len(found) == int(count) == body.count("row!"), static
        rows.update({(record, int(number)): (name, kind) for number, name, kind in found})
    return rows


def main():
    ours, theirs = code_rows(), exiftool_rows()
    passed, failed = 0, 0
    for key in sorted(ours.keys() | theirs.keys()):
        record, number = key
        if key in OF_PROGRAMS:
            print(f"{record}:{number} {theirs.get(key, ('no dataset',))[0]}: not of the standard")
            good = key in theirs and key not in ours
        else:
            good = ours.get(key) == theirs.get(key)
        if not good:
            print(f"{record}:{number}: here {ours.get(key)}, exiftool {theirs.get(key)}")
        passed, failed = passed + good, failed + (not good)
    print(f"{passed} passed, {failed} failed")
    return failed != 0


sys.exit(main())
