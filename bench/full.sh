#!/bin/sh
# Fills the host's file system under `run`, `shell` and `put`, on images with holes, and looks whether what was answered is there: the
# first write that the host refuses is answered EIO and all later commands FAILED, and behind a mount, which needs no room, the tree is
# the one after the answered commands, or one command further. A file that a `put` was to replace has its old bytes. Each of the three
# says which call of the host failed, in its words.
#
#   sh bench/full.sh        over ./wafl; WAFL=path takes another program
#
# Mounts a file system of 4 MiB in memory, in a namespace of its own: needs unshare, and root or namespaces of users. Ends with 1 where
# anything was lost.
set -eu
here=$(cd "$(dirname "$0")/.." && pwd)
wafl=${WAFL:-$here/wafl}
if [ "${1:-}" != inside ]; then
    # Builds the program where it isn't built, which the namespace may not.
    "$wafl" --version > /dev/null
    WAFL=$(readlink -f "$wafl") exec unshare --map-root-user --mount sh "$0" inside
fi
folder=$(mktemp -d)
cd "$folder"
mkdir host
trap 'umount host; cd /; rm -rf "$folder"' EXIT
mount -t tmpfs -o size=4m full host
disk=host/disk
nvram=host/nvram

lost() { echo "$1" >&2; exit 1; }

# refill : an image with holes, whose blocks don't fit into the host's file system.
refill() {
    rm -f "$disk" "$nvram"
    "$wafl" make "$disk" "$nvram" --new --blocks 4096 --inodes 1024 --half 1048576
}

# commands : turns of a directory and a part of a file, each turn 64 KiB, and a consistency point behind every fourth.
commands() {
    data=$(awk 'BEGIN {while (i++ < 65536) printf "61"}')
    echo 'open /file wc'
    for turn in $(seq 80); do
        echo "mkdir /d$turn"
        echo "write 0 $data"
        [ $((turn % 4)) -ne 0 ] || echo sync
    done
}

# kept NAME REPLIES : whether the tree is the one after the answered commands, or one further.
kept() {
    answered=$(grep -c -v '^err' "$2") || true
    [ "$answered" -lt "$(wc -l < "$2")" ] || lost "$1: nothing was refused"
    [ "$(sed -n "$((answered + 1))p" "$2")" = 'err EIO' ] || lost "$1: the first refusal isn't EIO"
    sed -n "$((answered + 2)),\$p" "$2" | grep -qv '^err FAILED$' && lost "$1: something was done behind EIO"
    printf 'list /\nstat /file\n' > look
    "$wafl" run "$disk" "$nvram" look > found || lost "$1: isn't mounted"
    for done in $answered $((answered + 1)); do
        commands | head -n "$done" > before
        directories=$(grep -c '^mkdir' before) || true
        size=$((65536 * $(grep -c '^write' before))) || true
        names=$(seq -f 'd%g' "$directories" | { cat; echo file; } | LC_ALL=C sort | tr '\n' ' ')
        if [ "names ${names% }" = "$(sed -n 1p found)" ] && grep -q " size $size\$" found; then
            echo "$1: $answered commands answered, $((done - answered)) done without an answer, then EIO; all are there"
            return
        fi
    done
    lost "$1: the tree isn't the one after $answered answered commands"
}

# told NAME : what the program said on standard error names the host's call.
told() {
    grep -q '^wafl: host/[a-z]*: [a-z]*: no space left on device$' told || lost "$1: the host's call isn't told: $(cat told)"
}

refill
commands > script
"$wafl" run "$disk" "$nvram" script > replies 2> told || lost "run ends with $?"
told run
kept run replies

refill
commands | "$wafl" shell "$disk" "$nvram" > replies 2> told || lost "shell ends with $?"
told shell
kept shell replies

refill
head -c 1000 /dev/urandom > old
"$wafl" put "$disk" "$nvram" old /file
dd if=/dev/zero of=host/filler bs=4096 2> /dev/null || true
head -c 2000000 /dev/urandom 2> /dev/null | "$wafl" put "$disk" "$nvram" - /file 2> told && lost 'put: nothing was refused'
told put
rm host/filler
"$wafl" get "$disk" "$nvram" /file now
cmp old now || lost 'put: neither the old file nor the new one is there'
echo "put: $(tail -n 1 told); the old file is there"
