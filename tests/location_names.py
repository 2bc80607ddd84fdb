"""The lists of what can hold a location, against exiftool's tables.

python3 location_names.py: takes each XMP property, IPTC dataset and Exif tag of exiftool whose name
or group speaks of a place, and looks for it in our tables. One that is in none of them needs a
reason below. It prints each that has none, each reason that no tag needs, and 'N passed, M failed'
at the end. Its status is 1 if one failed.

Our tables are read from the sources, so no program is built. IPTC and Exif are those of `exiftool
-listx`. It joins the names of XMP properties within structures, so these come from its library.
"""

import fnmatch
import os
import re
import subprocess
import sys
import xml.etree.ElementTree as xml

CRATES = os.path.join(os.path.dirname(os.path.abspath(__file__)), "..", "crates")
PLACES = re.compile(
    "gps|location|city|country|state|province|place|coordinate|latitude|longitude|address|region"
    "|(?-i:[gG]eo)",
    re.IGNORECASE,
)
RECORDS = {
    "IPTC::EnvelopeRecord": 1,
    "IPTC::ApplicationRecord": 2,
    "IPTC::NewsPhoto": 3,
    "IPTC::PreObjectData": 7,
    "IPTC::ObjectData": 8,
    "IPTC::PostObjectData": 9,
    "IPTC::FotoStation": 240,
}

# tags that are in no table: a pattern of their names, and why they need not be
REASONS = [
    ("XMP dwc:GeologicalContext*", "which layer of rock a specimen is from"),
    ("XMP dwc:Occurrence/georeferenceVerificationStatus", "whether a location is right, not where"),
    ("XMP drone-dji:*Degree", "an attitude of the drone or of its camera"),
    ("XMP drone-dji:Flight?Speed", "a speed"),
    ("XMP drone-dji:*Reverse", "how a camera is mounted"),
    ("XMP drone-dji:RtkFlag", "how precise a location is, not where"),
    ("XMP drone-dji:RtkStd*", "how precise a location is, not where"),
    ("XMP Device:*Pose/*", "where a camera or a plane is within the device"),
    ("XMP Device:EarthPos/Rotation?", "an attitude of the device"),
    ("XMP cell:r", "how a cell is known, which says nothing alone"),
    ("XMP mwg-rs:Regions*", "regions of the picture; names and codes in them are in the tables"),
    ("XMP MP:RegionInfo*", "regions of the picture; names in them are in the tables"),
    ("XMP iptcExt:ImageRegion*", "regions of the picture; names in them are in the tables"),
    ("XMP exif:SubjectLocation", "a point of the picture"),
    ("XMP exifEX:ISOSpeedLatitude???", "a range of exposure"),
    ("XMP crs:*", "a setting of a raw converter"),
    ("XMP crd:*", "a setting of a raw converter"),
    ("XMP plus:RegionConstraints", "where a licence holds"),
    ("XMP prl:geography", "where a licence holds"),
    ("XMP xmpDM:contributedMedia/webStatement", "a URL of a licence"),
    ("XMP xmpDM:speakerPlacement", "where loudspeakers stand"),
    ("XMP xmpMM:*laced*", "how large a part of a document is on its page"),
    ("XMP xmpRights:WebStatement", "a URL of a licence"),
    ("IPTC 2:225 ClassifyState", "a state of work"),
    ("EXIF 32954 RegionXformTackPoint", "a point of the picture"),
    ("EXIF 3486? ISOSpeedLatitude???", "a range of exposure"),
    ("EXIF 34909 FaxSubAddress", "an address within a fax machine"),
    ("EXIF 41492 SubjectLocation", "a point of the picture"),
]

DUMP = """
use Image::ExifTool;
use Image::ExifTool::XMP;
sub group { my ($row) = @_; return $$row{Groups} ? ($$row{Groups}{2} // '') : ''; }
sub rows {
    my ($space, $path, $rows, $depth) = @_;
    for my $key (sort keys %$rows) {
        my $row = $$rows{$key};
        next if ref $row ne 'HASH' or $key =~ /^(GROUPS|NAMESPACE|LANG_INFO)$/;
        print join("\\t", $space, "$path$key", $$row{Name} // '', group($row)), "\\n";
        next unless ref $$row{Struct} eq 'HASH' and $depth < 6;
        rows($space, "$path$key/", $$row{Struct}, $depth + 1);
    }
}
my $main = Image::ExifTool::GetTagTable('Image::ExifTool::XMP::Main');
for my $space (sort keys %$main) {
    my $entry = $$main{$space};
    next unless ref $entry eq 'HASH' and $$entry{SubDirectory};
    my $table = Image::ExifTool::GetTagTable($$entry{SubDirectory}{TagTable});
    my $whole = $$table{GROUPS} ? ($$table{GROUPS}{2} // '') : '';
    my %rows;
    for my $key (keys %$table) {
        my $row = $$table{$key};
        $row = $$row[0] if ref $row eq 'ARRAY';
        next if $Image::ExifTool::specialTags{$key} or ref $row ne 'HASH' or exists $$row{Flat};
        next if $$row{RootTagInfo};
        $rows{$key} = { %$row, Groups => { 2 => group($row) || $whole } };
    }
    my $name = $$table{GROUPS}{1} // $space;
    $name =~ s/^XMP-//;
    rows($name, '', \\%rows, 0);
}
"""


def table(path, name):
    """The words or numbers of a table in a source."""
    with open(os.path.join(CRATES, path), encoding="utf-8") as file:
        source = file.read()
    kind, count, body = re.search(
        rf"static {name}: \[(&str|u8|u16); (\d+)\] =\s*\[(.*?)\];", source, re.S
    ).groups()
    if kind == "&str":
        items = [text.replace('\\"', '"') for text in re.findall(r'"((?:[^"\\]|\\.)*)"', body)]
    else:
        items = [int(number) for number in re.findall(r"\d+", body)]
    assert len(items) == int(count), name
    return items


class Tables:
    """What our sources list."""

    def __init__(self):
        locations, data = "exif_locations/src/", "exif_data_locations/src/"
        self.names = table(locations + "xmp/location_names.rt", "LOCATION_NAMES")
        self.endings = table(locations + "xmp/location_names.rt", "LOCATION_ENDINGS")
        self.texts = table(locations + "text_names.rt", "TEXT_NAMES")
        self.datasets = table(locations + "iptc_numbers.rt", "LOCATION_NUMBERS")
        self.text_datasets = table(locations + "iptc_numbers.rt", "TEXT_NUMBERS")
        self.records = table(locations + "iptc_numbers.rt", "TEXT_RECORDS")
        self.geo_tags = table(data + "tags.rt", "GEO_TIFF_TAGS")
        self.text_tags = table(data + "tags.rt", "TEXT_TAGS")
        self.other_tags = table(data + "tags.rt", "OTHER_TAGS")

    def ordered(self):
        """The tables that are to be in order, by name."""
        return {
            "LOCATION_NAMES": self.names,
            "TEXT_NAMES": self.texts,
            "LOCATION_NUMBERS": self.datasets,
            "TEXT_NUMBERS": self.text_datasets,
            "TEXT_RECORDS": self.records,
            "GEO_TIFF_TAGS": self.geo_tags,
            "TEXT_TAGS": self.text_tags,
            "OTHER_TAGS": self.other_tags,
        }

    def has_property(self, path):
        """Whether a property, or a structure that it is in, is a location or a text."""
        return any(
            name.lower().startswith("gps")
            or name in self.names
            or name.endswith(tuple(self.endings))
            or name.startswith(tuple(self.texts))
            for name in path.split("/")
        )

    def has_dataset(self, record, number):
        if record == 2:
            return number in self.datasets + self.text_datasets
        return record in self.records

    def has_tag(self, number):
        return number in self.geo_tags + self.text_tags + self.other_tags


def speaks(*texts):
    return any(PLACES.search(text) for text in texts)


def listed(group):
    """The tags of a group: the table, the id, the name and the group of each."""
    run = subprocess.run(
        ["exiftool", "-listx", f"-{group}:all"], capture_output=True, text=True, check=True
    )
    for rows in xml.fromstring(run.stdout):
        for row in rows.findall("tag"):
            yield rows.get("name"), row.get("id"), row.get("name"), row.get("g2") or rows.get("g2")


def properties(tables):
    run = subprocess.run(["perl", "-e", DUMP], capture_output=True, text=True, check=True)
    for line in run.stdout.splitlines():
        space, path, name, group = line.split("\t")
        if speaks(path, name, group):
            yield f"XMP {space}:{path}", tables.has_property(path)


def datasets(tables):
    for rows, number, name, group in listed("IPTC"):
        if rows in RECORDS and speaks(name, group):
            record = RECORDS[rows]
            yield f"IPTC {record}:{number} {name}", tables.has_dataset(record, int(number))


def tags(tables):
    for rows, number, name, group in listed("EXIF"):
        if rows == "GPS::Main":
            yield f"GPS {number} {name}", True  # the directory is erased as a whole
        elif speaks(name, group):
            yield f"EXIF {number} {name}", tables.has_tag(int(number))


def main():
    tables = Tables()
    passed, failed = 0, 0

    def count(good, message):
        nonlocal passed, failed
        passed, failed = passed + good, failed + (not good)
        if not good:
            print(message)

    for name, items in tables.ordered().items():
        count(items == sorted(set(items)), f"{name} is not in order, or has a word twice")
    needed = set()
    found = [*properties(tables), *datasets(tables), *tags(tables)]
    for name, known in found:
        reasons = [pattern for pattern, _ in REASONS if fnmatch.fnmatchcase(name, pattern)]
        if not known:
            needed.update(reasons)
        count(known or bool(reasons), f"{name} is in no table")
    for pattern, reason in REASONS:
        count(pattern in needed, f"no tag needs the reason of {pattern}: {reason}")
    count(len(found) >= 300, f"exiftool lists only {len(found)} tags")
    print(f"{passed} passed, {failed} failed")
    return failed != 0


sys.exit(main())
