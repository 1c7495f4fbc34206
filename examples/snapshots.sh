#!/bin/sh
# Makes an image, runs snapshots.script on it and shows each command beside its reply: two snapshots are taken, a file is lost, and it
# is read back. Then reads a file of a snapshot behind a mount, and cuts the power within the take of another, before and behind its root.
set -u

here=$(dirname "$(readlink -f "$0")")
folder=$(mktemp -d) || exit 1
trap 'rm -rf "$folder"' EXIT
cp "$here/snapshots.script" "$folder" || exit 1
cd "$folder" || exit 1
wafl=$here/../wafl

"$wafl" make disk nvram --new --blocks 1024 --inodes 32 --half 131072 || exit 1
"$wafl" run disk nvram snapshots.script > replies || exit 1
grep -v '^#' snapshots.script | paste -d'\t' - replies | awk -F'\t' '{printf "%-32s %s\n", $1, $2}'

show() {
    echo "\$ wafl $*"
    "$wafl" "$@"
    status=$?
    [ "$status" -eq 0 ] || echo "(exit status $status)"
    echo
}

echo
show 'do' disk nvram in tuesday get /desk/notes 0 100
show get disk nvram /desk/notes - --in tuesday

# The tree is settled already, by the delete: write 4 is the root that has the new snapshot.
echo 'snap take wednesday' > take.script
echo 'snap list' > list.script
show run disk nvram take.script --cut 4 --keep none
show run disk nvram list.script
show run disk nvram take.script --cut 4 --keep all
show run disk nvram list.script
