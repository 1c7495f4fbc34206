#!/bin/sh
# Makes an image, runs numbers.script on it and shows each command beside its reply: paths that begin at a number, and a directory that is
# told in parts. Compares the replies with those of numbers.replies.
set -u

here=$(dirname "$(readlink -f "$0")")
folder=$(mktemp -d) || exit 1
trap 'rm -rf "$folder"' EXIT
cp "$here/numbers.script" "$here/numbers.replies" "$folder" || exit 1
cd "$folder" || exit 1
wafl=$here/../wafl

"$wafl" make disk nvram --new --blocks 1024 --inodes 32 --half 131072 || exit 1
"$wafl" run disk nvram numbers.script > replies || exit 1
grep -v '^#' numbers.script | paste -d'\t' - replies | awk -F'\t' '{printf "%-32s %s\n", $1, $2}'
diff numbers.replies replies
