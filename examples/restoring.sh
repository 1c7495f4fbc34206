#!/bin/sh
# Makes an image, runs restoring.script on it and shows each command beside its reply: a bad afternoon, and the way back to noon. Compares
# the replies with those of restoring.replies. Then goes on to the evening's tree, with the power cut before and behind the root that has
# it: the tree is the one or the other, and a check finds no fault.
set -u

here=$(dirname "$(readlink -f "$0")")
folder=$(mktemp -d) || exit 1
trap 'rm -rf "$folder"' EXIT
cp "$here/restoring.script" "$here/restoring.replies" "$folder" || exit 1
cd "$folder" || exit 1
wafl=$here/../wafl

"$wafl" make disk nvram --new --blocks 1024 --inodes 32 --half 131072 || exit 1
"$wafl" run disk nvram restoring.script > replies || exit 1
grep -v '^#' restoring.script | paste -d'\t' - replies | awk -F'\t' '{printf "%-32s %s\n", $1, $2}'
diff restoring.replies replies || exit 1

show() {
    echo "\$ wafl $*"
    "$wafl" "$@"
    status=$?
    [ "$status" -eq 0 ] || echo "(exit status $status)"
    echo
}

echo
# The tree is settled already: write 3 is the root that has the other one.
echo 'snap restore evening' > restore.script
show run disk nvram restore.script --cut 3 --keep none
show 'do' disk nvram list /
show run disk nvram restore.script --cut 3 --keep all
show 'do' disk nvram list /
show check disk nvram
