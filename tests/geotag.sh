#!/bin/sh
# Pictures that get their location from a track, and the summary of one picture.
. "$(dirname "$0")/checks.sh"

# point TIME LATITUDE LONGITUDE HEIGHT: a point of a track.
point() {
    printf '<trkpt lat="%s" lon="%s"><ele>%s</ele><time>%s</time></trkpt>\n' "$2" "$3" "$4" "$1"
}

# track FILE: a track of the points on standard input.
track() {
    {
        printf '<?xml version="1.0" encoding="UTF-8"?>\n<gpx version="1.1" creator="test"><trk><trkseg>\n'
        cat
        printf '</trkseg></trk></gpx>\n'
    } >"$1"
}

# The sample was taken at 2024-05-01 12:30:00.25, ten hours east of UTC.
sample="$root/docs/sample.jpg"
{
    point 2024-05-01T02:30:00Z 10.0 -20.0 100
    point 2024-05-01T02:30:01Z 10.4 -20.8 104
} | track near.gpx
{
    point 2024-05-01T02:00:00Z 10 20 0
    point 2024-05-01T02:40:00Z 11 21 0
} | track far.gpx

cp "$sample" a.jpg
gives "a location is set from a track" 0 "$mexaldor" geotag --overwrite near.gpx a.jpg
gives "it is read" 0 "$mexaldor" show a.jpg
holds "a quarter of the way: 10.1 degrees" "GPSLatitude primary 10 deg 6 min 0 sec N"
holds "and 20.2 degrees west" "GPSLongitude primary 20 deg 12 min 0 sec W"
holds "at 101 m" "GPSAltitude primary 101 meters above sea level"
holds "all else stays" 'Model primary "Pinhole 2"'
cp a.jpg again.jpg
cp "$sample" kept.jpg
gives "a location that is there is not replaced unasked" 3 "$mexaldor" geotag near.gpx kept.jpg
says "which is reported" "kept.jpg: no location is set: it has one; --overwrite replaces it"
check "the picture is as it was" cmp "$sample" kept.jpg
gives "so again" 0 "$mexaldor" geotag --overwrite near.gpx again.jpg
check "with the same location" cmp a.jpg again.jpg
gives "the summary has it" 0 "$mexaldor" json --summary a.jpg
holds "in degrees" '"latitude":10.1'
holds "signed" '"longitude":-20.2'

cp "$sample" b.jpg
gives "points too far apart tell nothing" 3 "$mexaldor" geotag --overwrite far.gpx b.jpg
says "which is reported" "b.jpg: no location is set: the track has none for its time"
check "the picture stays" cmp "$sample" b.jpg
cp files/plain.jpg plain.jpg
gives "nor does a picture without a date" 3 "$mexaldor" geotag --overwrite near.gpx plain.jpg
says "which is reported too" "plain.jpg: no location is set: it has no date"
check "it stays too" cmp files/plain.jpg plain.jpg
printf '<gpx><trk><trkseg><trkpt lat="1" lon="2"><time>2024-05-01T02:30:00Z' >cut.gpx
gives "a track that is cut off before its first point ends is refused" 1 "$mexaldor" geotag --overwrite cut.gpx b.jpg
says "by its name" "cut.gpx: XML ends too early"
gives "so is a picture" 1 "$mexaldor" geotag --overwrite a.jpg b.jpg
gives "and a track that is not there" 1 "$mexaldor" geotag --overwrite none.gpx b.jpg
check "the picture stays as it is" cmp "$sample" b.jpg

# how far two points may be apart: the sample is 1800.25 of 2400 seconds behind the first point
cp "$sample" wide.jpg
gives "a gap that is allowed is bridged" 0 "$mexaldor" geotag --overwrite --max-gap 2400 far.gpx wide.jpg
gives "it is read" 0 "$mexaldor" json --summary wide.jpg
holds "three quarters of the way" '"latitude":10.750'
cp "$sample" b.jpg
gives "one second less is too few" 3 "$mexaldor" geotag --overwrite --max-gap 2399 far.gpx b.jpg
says "which is reported" "b.jpg: no location is set: the track has none for its time"
check "the picture stays" cmp "$sample" b.jpg
gives "without a gap points are used at their times alone" 3 "$mexaldor" geotag --overwrite --max-gap 0 near.gpx b.jpg
for gap in -1 5m 864001; do
    gives "the gap '$gap' is refused" 2 "$mexaldor" geotag --overwrite "--max-gap=$gap" near.gpx b.jpg
    says "with what is expected" "invalid gap '$gap'; expected seconds from 0 to 864000, e.g. 300"
done

# the time of the location, in UTC
gives "the stamps are read" 0 "$mexaldor" show a.jpg
holds "the day of UTC" "GPSDateStamp primary 2024-05-01"
holds "the time of UTC" "GPSTimeStamp primary 02:30:00.25"
if has exiftool; then
    check "exiftool reads the day" sh -c '[ "$(exiftool -s3 -GPSDateStamp a.jpg)" = 2024:05:01 ]'
    check "exiftool reads the time" sh -c '[ "$(exiftool -s3 -GPSTimeStamp a.jpg)" = 02:30:00.25 ]'
fi
cp "$sample" night.jpg
gives "a picture of the night" 0 "$mexaldor" set --in-place night.jpg 'DateTimeOriginal=2024-05-01T09:59:59' \
    'GPSDateStamp=2024-05-01' 'GPSTimeStamp=9 59 59'
{
    point 2024-04-30T23:59:59Z 10.0 -20.0 100
    point 2024-05-01T00:00:00Z 10.0 -20.0 100
} | track night.gpx
gives "is located on the day before in UTC" 0 "$mexaldor" geotag --overwrite night.gpx night.jpg
gives "it is read" 0 "$mexaldor" show night.jpg
holds "the day is set anew" "GPSDateStamp primary 2024-04-30"
holds "and the time" "GPSTimeStamp primary 23:59:59.25"

# what is of the old location
cp "$sample" old.jpg
gives "a direction is set" 0 "$mexaldor" set --in-place old.jpg GPSImgDirectionRef=T GPSImgDirection=90.5 \
    GPSTrackRef=T GPSTrack=10 GPSSpeedRef=K GPSSpeed=5 GPSDestBearingRef=M GPSDestBearing=20 GPSAltitudeRef=0 GPSAltitude=8
gives "it is read" 0 "$mexaldor" show old.jpg
holds "as it was set" "GPSImgDirection primary 90.5"
gives "a location is replaced" 0 "$mexaldor" geotag --overwrite near.gpx old.jpg
gives "it is read" 0 "$mexaldor" show old.jpg
check "no direction, speed or destination is left" sh -c '! grep -qE "GPS(ImgDirection|Track|Speed|Dest)" out'
holds "the altitude is the new one" "GPSAltitude primary 101 meters above sea level"
holds "so is the latitude" "GPSLatitude primary 10 deg 6 min 0 sec N"
holds "all else stays" 'Model primary "Pinhole 2"'
{
    printf '<trkpt lat="10.0" lon="-20.0"><time>2024-05-01T02:30:00Z</time></trkpt>\n'
    printf '<trkpt lat="10.4" lon="-20.8"><time>2024-05-01T02:30:01Z</time></trkpt>\n'
} | track flat.gpx
gives "a track without elevations" 0 "$mexaldor" geotag --overwrite flat.gpx old.jpg
gives "it is read" 0 "$mexaldor" show old.jpg
check "leaves no altitude of another place" sh -c '! grep -q GPSAltitude out'
gives "a picture without a location" 0 "$mexaldor" scrub "$sample" compass.jpg
gives "but with a direction" 0 "$mexaldor" set --in-place compass.jpg GPSImgDirectionRef=T GPSImgDirection=90.5 \
    'DateTimeOriginal=2024-05-01T12:30:00' OffsetTimeOriginal=+10:00
gives "is located" 0 "$mexaldor" geotag near.gpx compass.jpg
gives "it is read" 0 "$mexaldor" show compass.jpg
holds "and keeps what its camera measured" "GPSImgDirection primary 90.5"
python3 - <<'END'
import struct, zlib
def chunk(kind, data):
    return struct.pack(">I", len(data)) + kind + data + struct.pack(">I", zlib.crc32(kind + data))
header = struct.pack(">IIBBBBB", 1, 1, 8, 0, 0, 0, 0)
with open("old.png", "wb") as out:
    out.write(b"\x89PNG\r\n\x1a\n" + chunk(b"IHDR", header) + chunk(b"IDAT", zlib.compress(b"\0\0")) + chunk(b"IEND", b""))
END
gives "a PNG file gets a location and a direction" 0 "$mexaldor" set --in-place old.png Location=1,2 \
    GPSImgDirectionRef=T GPSImgDirection=90.5 'DateTimeOriginal=2024-05-01T12:30:00' OffsetTimeOriginal=+10:00
gives "a field that can't be taken out is status 3" 3 "$mexaldor" geotag --overwrite near.gpx old.png
says "and is reported" "old.png: GPSImgDirection is of the old location, and stays: it cannot be taken out"

# a track that is cut off
{
    printf '<?xml version="1.0"?><gpx version="1.1"><trk><trkseg>\n'
    point 2024-05-01T02:30:00Z 10.0 -20.0 100
    point 2024-05-01T02:30:01Z 10.4 -20.8 104
} >whole_points
for rest in '' '<trkpt la' '<trkpt lat="1" lon="2"><time>2024-05' '<!-- 2 > 1'; do
    { cat whole_points && printf '%s' "$rest"; } >short.gpx
    cp "$sample" short.jpg
    gives "a track that is cut off at '$rest' is used up to there" 3 "$mexaldor" geotag --overwrite short.gpx short.jpg
    says "which is reported" "short.gpx: the file is cut off; the track is used up to 2024-05-01T02:30:01Z"
    check "the picture is located" cmp a.jpg short.jpg
done
{ cat whole_points && printf '<trkpt lat=1></trkpt></trkseg></trk></gpx>'; } >wrong.gpx
cp "$sample" b.jpg
gives "one that is not well formed is refused" 1 "$mexaldor" geotag --overwrite wrong.gpx b.jpg
says "with why" "wrong.gpx: XML is not well formed"

# other formats of tracks
printf '<?xml version="1.0"?>\n<kml xmlns="http://www.opengis.net/kml/2.2"><Document></Document></kml>\n' >walk.kml
printf '<?xml version="1.0"?>\n<TrainingCenterDatabase></TrainingCenterDatabase>\n' >walk.tcx
printf '$GPGGA,023000,1000.0,N,02000.0,W,1,8,1.0,100.0,M,,,,*00\r\n' >walk.nmea
printf '\016\020\124\010\001\000\000\000.FIT\000\000' >walk.fit
python3 -c 'import zipfile; zipfile.ZipFile("walk.kmz", "w").writestr("doc.kml", "<kml></kml>")'
for name in 'kml KML -i kml ' 'tcx TCX -i gtrnctr ' 'nmea NMEA -i nmea ' 'fit FIT -i garmin_fit ' 'kmz zip -i kml -f doc.kml '; do
    ending=${name%% *}
    rest=${name#* }
    gives "a file .$ending is refused" 1 "$mexaldor" geotag --overwrite "walk.$ending" b.jpg
    says "by what it is" "${rest%% *}"
    says "with what to do" "gpsbabel ${rest#* }"
done
check "no picture was changed" cmp "$sample" b.jpg

# points that tell nothing
{
    point 2024-05-01T02:30:00Z 10.0 -20.0 100
    printf '<trkpt lat="10.2" lon="-20.4"></trkpt>\n'
    point 2024-05-01T02:30:01Z 10.4 -20.8 104
} | track gap.gpx
cp "$sample" gap.jpg
gives "a point without a time is skipped" 3 "$mexaldor" geotag --overwrite gap.gpx gap.jpg
says "which is reported" "gap.gpx: 1 point without a time or a location was skipped"
check "the others locate the picture" cmp a.jpg gap.jpg

# the clock of a camera that writes no offset
gives "the offset is removed" 0 "$mexaldor" scrub "$sample" bare.jpg
gives "a date without an offset" 0 "$mexaldor" set --in-place bare.jpg 'DateTimeOriginal=2024-05-01T12:30:00'
cp bare.jpg utc.jpg
gives "it is of another time in UTC" 3 "$mexaldor" geotag --overwrite near.gpx utc.jpg
gives "with its offset it is found" 0 "$mexaldor" geotag --overwrite --offset +10:00 near.gpx bare.jpg
gives "at the first point" 0 "$mexaldor" json --summary bare.jpg
holds "of the track" '"latitude":10'

# the summary
gives "a summary is written" 0 "$mexaldor" json --summary "$sample"
python3 - out "$sample" <<'END'
import json, os, sys
told = json.load(open(sys.argv[1]))
expected = {
    "path": sys.argv[2], "format": "JPEG", "mime": "image/jpeg", "file_size": os.path.getsize(sys.argv[2]),
    "make": "Example", "model": "Pinhole 2", "orientation": 6, "width": 32, "height": 8,
    "date_taken": "2024-05-01T12:30:00.25+10:00", "exposure_time": 0.005, "f_number": 2.8,
}
wrong = {name: told.get(name) for name in expected if told.get(name) != expected[name]}
south, east = -(33 + 51 / 60 + 35.9 / 3600), 151 + 12 / 60 + 40 / 3600
if abs(told["latitude"] - south) > 1e-7 or abs(told["longitude"] - east) > 1e-7:
    wrong["location"] = (told["latitude"], told["longitude"])
sys.exit(f"{wrong} in {told}" if wrong else 0)
END
passes "with the columns of the picture" $?

ends
