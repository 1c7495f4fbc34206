#!/bin/sh
# Takes 20 snapshots on an image of 1,048,576 blocks, 4 GiB, with 2,000 files of 64 KiB in twenty directories, and reads 2,000 parts of
# files in the running tree and then the same in a snapshot; goes back to each of the snapshots; deletes them; and takes 20 again on an
# image with no file. Tells seconds, writes and peak memory of each. Beside that a btrfs of the same files, where this machine can mount
# one: 20 times a snapshot of a subvolume is taken, whose name is swapped with that of the running one, and the one that ran is deleted.
#
#   sh bench/snapshots.sh          over ./wafl; WAFL=path takes another program; btrfs as root, where mkfs.btrfs is there
#
# A take costs a root block, a block of inodes and the 1,024 blocks of the map, each with the indirect block over them, and the root,
# whatever the tree holds: the line `floor` has the writes that this comes to. A way back costs the same without the root block. A run that
# only mounts, `wafl df`, stands first: it reads the map.
set -eu
here=$(cd "$(dirname "$0")/.." && pwd)
wafl=${WAFL:-$here/wafl}
folder=$(mktemp -d)
trap 'rm -rf "$folder"' EXIT
cd "$folder"
. "$here/bench/measure.sh"

snapshots() { awk -v what="$1" 'BEGIN {for (i = 1; i <= 20; i++) print "snap " what " n" i}'; }

# parts BEFORE : reads of 4,096 bytes, one of each file, with these words before each.
parts() {
    awk -v before="$1" 'BEGIN {for (n = 0; n < 2000; n++) printf "%sget /d%d/n%04d %d 4096\n", before, n % 20, n, n % 16 * 4096}'
}

files='disk nvram'
restore() { for file in $files; do cp --sparse=always "$file.before" "$file"; done; }
keep() { for file in $files; do cp --sparse=always "$file" "$file.before"; done; }
again=restore

snapshots take > take.script
snapshots restore > restore.script
snapshots delete > delete.script
parts '' > tree.script
parts 'in n1 ' > snapshot.script
awk 'BEGIN {
    data = "5761666c"
    while (length(data) < 131072) data = data data
    for (i = 0; i < 20; i++) print "mkdir /d" i
    for (n = 0; n < 2000; n++) printf "open /d%d/n%04d wct\nwrite 0 %s\nclose 0\n", n % 20, n, data
    print "sync"
}' > fill.script

"$wafl" make disk nvram --blocks 1048576 --inodes 4096 --half 8388608
keep
measure 'wafl take empty' "$wafl" run disk nvram take.script
refused '^ok$'
restore
"$wafl" run disk nvram fill.script > replies
refused '^(ok|fd 0|wrote 65536)$'
keep
measure 'wafl df' "$wafl" df disk nvram
measure 'wafl take' "$wafl" run disk nvram take.script
refused '^ok$'
printf '%-16s %9s   %9s writes\n' '  floor' '' "$((20 * (1 + 2 + 1025 + 1)))"
keep
measure 'wafl tree' "$wafl" run disk nvram tree.script
refused '^data (5761666c)+$'
measure 'wafl snapshot' "$wafl" run disk nvram snapshot.script
refused '^data (5761666c)+$'
keep
measure 'wafl restore' "$wafl" run disk nvram restore.script
refused '^ok$'
printf '%-16s %9s   %9s writes\n' '  floor' '' "$((20 * (2 + 1025 + 1)))"
restore
measure 'wafl delete' "$wafl" run disk nvram delete.script
refused '^ok$'

# A btrfs over a file of the same size, mounted in the folder.
rm -f disk nvram disk.before nvram.before
if [ "$(id -u)" != 0 ] || ! command -v mkfs.btrfs > /dev/null; then
    echo 'btrfs: not on this machine, or not as root'
    exit 0
fi
truncate -s 4G volume
mkfs.btrfs -q volume
mkdir there
if ! mount -o loop volume there; then
    echo 'btrfs: not mounted here'
    exit 0
fi
trap 'umount "$folder/there"; rm -rf "$folder"' EXIT
btrfs subvolume create there/run > replies
head -c 65536 /dev/urandom > bytes
for n in $(seq 0 1999); do
    mkdir -p "there/run/d$((n % 20))"
    cp bytes "there/run/d$((n % 20))/n$n"
done
btrfs subvolume snapshot -r there/run there/n1 > replies
sync -f there
cat > swap.sh <<'END'
for _ in $(seq 20); do
    btrfs subvolume snapshot there/n1 there/next
    mv there/run there/old
    mv there/next there/run
    btrfs filesystem sync there
    btrfs subvolume delete there/old
done
END
again=true
measure 'btrfs swap' sh swap.sh
