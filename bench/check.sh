#!/bin/sh
# Checks a full image of 1,048,576 blocks, 4 GiB: 10,000 files of 400 KiB in 40 directories, and 20 snapshots, one behind each 500 files.
# Tells seconds and peak memory of `wafl check`; and beside it, where e2fsprogs is installed, those of `e2fsck -fn` on an ext4 image with
# the same files, which has one tree to walk and no snapshots. Before each both were run once, so what they read is in the host's memory.
#
#   WAFL=path sh bench/check.sh          over this program, which has to be a proved one: another takes hours
#   FILES=n BLOCKS=n                     other files than 10,000, a multiple of 20, and another disk
#
# Needs 9 GB in the folder of temporary files. TMPDIR=/dev/shm fills the image without waiting for a disk's syncs.
set -eu
here=$(cd "$(dirname "$0")/.." && pwd)
wafl=$(readlink -f "${WAFL:?WAFL has to name the program}")
count=${FILES:-10000}
blocks=${BLOCKS:-1048576}
folder=$(mktemp -d)
trap 'rm -rf "$folder"' EXIT
cd "$folder"
. "$here/bench/measure.sh"
again=true

# fill : the lines of a shell that makes the files and takes the snapshots.
fill() {
    awk -v count="$count" 'BEGIN {
        data = "5761666c"
        while (length(data) < 131072) data = data data
        rest = substr(data, 1, 2 * (409600 - 6 * 65536))
        for (i = 0; i < 40; i++) print "mkdir /d" i
        for (n = 0; n < count; n++) {
            printf "open /d%d/n%05d wct\n", n % 40, n
            for (i = 0; i < 6; i++) print "write 0 " data
            print "write 0 " rest
            print "close 0"
            if (n % (count / 20) == count / 20 - 1) print "snap take n" ++taken
        }
        print "sync"
    }'
}

# names : the commands of debugfs that make the same files.
names() {
    awk -v count="$count" 'BEGIN {
        for (i = 0; i < 40; i++) print "mkdir d" i
        for (n = 0; n < count; n++) printf "write one d%d/n%05d\n", n % 40, n
    }'
}

"$wafl" make disk nvram --blocks "$blocks" --inodes 16384 --half 8388608
fill | "$wafl" shell disk nvram > replies
refused '^(ok|fd 0|wrote [0-9]+)$'
"$wafl" df disk nvram
"$wafl" check disk nvram
measure 'wafl check' "$wafl" check disk nvram
rm disk nvram
command -v mke2fs > /dev/null && command -v e2fsck > /dev/null && command -v debugfs > /dev/null || exit 0
awk 'BEGIN {for (i = 0; i < 102400; i++) printf "Wafl"}' > one
mke2fs -q -t ext4 -b 4096 -N 16384 -m 0 -O ^has_journal ext4 "$blocks"
names > commands
debugfs -w -f commands ext4 > made 2> refusals
e2fsck -fn ext4 2> refusals
measure 'e2fsck -fn' e2fsck -fn ext4
