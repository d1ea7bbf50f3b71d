#!/usr/bin/env bash
# gate.sh CCELL MACHINE OLD NEW: compares each bundle of the folder NEW with the one of that name in the folder OLD. Status 0 where each of
# them lets nothing through that its old one refuses, and has no flags and no listener but its old one's. Where flags or a listener fail it,
# the line may still say `same`: what they are stands below it. A bundle that one of the folders lacks fails: a profile that is gone may
# leave its container without a filter. Compare narrowed bundles with narrowed ones (`ccell adapt .. narrow`). Only files that end in .json
# are bundles. The status is 1 where one lets more through, is missing, or there is none, and 2 where the words are wrong. If `ccell
# compare` ends with more, as with 4 at a bundle that cannot be read, it is the highest of these.
set -u
shopt -s nullglob
usage() { echo 'usage: gate.sh CCELL MACHINE OLD NEW, where OLD and NEW are folders' >&2; exit 2; }
if [ $# -ne 4 ] || [ ! -d "$3" ] || [ ! -d "$4" ]; then usage; fi
command -v "$1" >/dev/null || { echo "gate.sh: no program: $1" >&2; exit 2; }
status=0
fail() { [ "$status" -ge "$1" ] || status=$1; }
olds=("$3"/*.json) news=("$4"/*.json)
if [ ${#olds[@]} -eq 0 ] && [ ${#news[@]} -eq 0 ]; then
    echo "gate.sh: no bundle in: $3 $4" >&2
    exit 1
fi
for new in "${news[@]}"; do
    old=$3/${new##*/}
    if [ ! -e "$old" ]; then
        echo "$new: no old one"
        fail 1
        continue
    fi
    told=$("$1" compare "$2" "$old" "$new" atmost) || fail $?
    echo "$new: $(tail -n 1 <<<"$told")"
    sed '$d; s/^/  /' <<<"$told"
done
for old in "${olds[@]}"; do
    if [ ! -e "$4/${old##*/}" ]; then
        echo "$old: no new one"
        fail 1
    fi
done
exit "$status"
