#!/bin/sh
# Kills programs at random moments, and runs them side by side: each file is there, whole, and the
# next run ends what was begun. KILLS is how often each command is killed, 5 unless it is set.
. "$(dirname "$0")/checks.sh"

cp "$root/docs/sample.jpg" from.jpg
cat >track.gpx <<'G'
<?xml version="1.0" encoding="UTF-8"?>
<gpx version="1.1" creator="test"><trk><trkseg>
<trkpt lat="10.0" lon="-20.0"><ele>100</ele><time>2024-05-01T02:30:00Z</time></trkpt>
<trkpt lat="10.4" lon="-20.8"><ele>104</ele><time>2024-05-01T02:30:01Z</time></trkpt>
</trkseg></trk></gpx>
G
python3 "$root/tests/killed.py" "$mexaldor" from.jpg track.gpx "${KILLS:-5}" >lines
status=$?
while read -r word line; do
    if [ "$word" = passed ]; then passes "$line" 0; else passes "$line" 1; fi
done <lines
check "all were tried" test "$status" = 0
ends
