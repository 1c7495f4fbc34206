#!/bin/sh
# Makes an image, runs files.script on it and shows each command beside its reply; then stores a file in the image and brings
# it back.
set -u

here=$(dirname "$(readlink -f "$0")")
folder=$(mktemp -d) || exit 1
trap 'rm -rf "$folder"' EXIT
cp "$here/files.script" "$folder" || exit 1
cd "$folder" || exit 1
wafl=$here/../wafl

"$wafl" make disk nvram --new --blocks 1024 --inodes 32 --half 131072 || exit 1
"$wafl" run disk nvram files.script > replies || exit 1
grep -v '^#' files.script | paste -d'\t' - replies | awk -F'\t' '{printf "%-24s %s\n", $1, $2}'

echo
echo '$ head -c 1000000 /dev/urandom > bytes'
head -c 1000000 /dev/urandom > bytes
for words in 'put disk nvram bytes /bytes' 'get disk nvram /bytes back'; do
    echo "\$ wafl $words"
    # shellcheck disable=SC2086
    "$wafl" $words || exit 1
done
echo '$ cmp bytes back'
cmp bytes back && echo 'the same bytes'
