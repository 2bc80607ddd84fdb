#!/bin/bash
# Files with a secret in one place each, made by secret_files.py. What scrub leaves is named, or the file is refused: where it
# ends with status 0 and writes nothing on standard error, the secret is gone. So it is with scrub --locations-only where the
# place can hold a location, and check finds nothing in what scrub left without a word. The places where this does not hold
# are in secrets.kept, with why; one that is no longer so fails, too.
. "$(dirname "$0")/checks.sh"
python3 "$root/tests/secret_files.py" files || exit 1
secret=Zzyzx47
kept=$root/tests/secrets.kept

# is_known WHAT FILE: a file whose secret is known to stay without a word.
is_known() {
    grep -qx "$1 $(basename "$2")" "$kept"
}

# leaves_none WHAT FILE OPTION..: what is said of a file without its metadata or locations, if the secret is in it.
leaves_none() {
    what=$1
    old=$2
    shift 2
    new=new.${old##*.}
    rm -f "$new"
    "$mexaldor" scrub "$@" "$old" "$new" >out 2>err
    status=$?
    if [ "$status" != 0 ] || [ -s err ]; then
        says "$what: $old is named" "$old: "
        ! is_known "$what" "$old"
        passes "$what: $old is no longer silent: take it out of secrets.kept" $?
        return
    fi
    if is_known "$what" "$old"; then
        grep -qF "$secret" "$new"
        passes "$what: $old is clean: take it out of secrets.kept" $?
        return
    fi
    ! grep -qF "$secret" "$new"
    passes "$what: the secret of $old stays without a word" $?
    "$mexaldor" check "$new" >out 2>err
    passes "$what: check finds nothing in what is left of $old" $?
}

for old in files/secret_*; do
    leaves_none scrub "$old"
done
while read -r old; do
    leaves_none locations "files/$old" --locations-only
done <files/locations.list
echo "places that are known to stay without a word: $(grep -c '^scrub ' "$kept") of scrub, $(grep -c '^locations ' "$kept") of --locations-only"
ends
