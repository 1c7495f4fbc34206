#!/bin/sh
# Makes an image, runs first.script on it, cuts the power within device write 5 with 0 and with 1 byte kept, and mounts
# what each cut left. Shows each command and its replies.
set -u

here=$(dirname "$(readlink -f "$0")")
folder=$(mktemp -d) || exit 1
trap 'rm -rf "$folder"' EXIT
cp "$here/first.script" "$folder" || exit 1
cd "$folder" || exit 1

show() {
    echo "\$ wafl $*"
    "$here/../wafl" "$@"
    status=$?
    [ "$status" -eq 0 ] || echo "(exit status $status)"
    echo
}

make_image() {
    rm -f disk nvram
    show make disk nvram --new --blocks 64 --inodes 32 --half 131072
}

echo 'mkdir /a' >mkdir.script
echo 'list /' >list.script

make_image
show run disk nvram first.script

# Write 5 is the one byte that puts the record of `mkdir /a` in force: without it the directory isn't there.
make_image
show run disk nvram mkdir.script --cut 5 --bytes 0
show run disk nvram list.script

make_image
show run disk nvram mkdir.script --cut 5 --bytes 1
show run disk nvram list.script
