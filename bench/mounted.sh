#!/bin/sh
# Times works in a served folder, beside other file systems where they can be mounted, as root.
#
#   sh bench/mounted.sh PROGRAM [DISK_FOLDER [RUNS]]
#
# PROGRAM is a build of the program. Images lie in memory (/dev/shm), and once more in DISK_FOLDER, which is on a disk. Prints a table of
# Markdown with seconds, medians of RUNS (5), and ratios to the served folder: the same served with --deferred, ext4 by a loop device, without
# and with -o sync, btrfs so, fuse2fs without and with it, and ntfs-3g. Then the round trips a second, and the server's greatest memory. The file systems take turns, run by run.
# shellcheck disable=SC2317 # Works are called by their names.
set -u
if [ "$#" -lt 1 ]; then
    echo 'usage: sh bench/mounted.sh PROGRAM [DISK_FOLDER [RUNS]]' >&2
    exit 1
fi
here=$(dirname "$(dirname "$(readlink -f "$0")")")
. "$here/tests/placing.sh"
program=$(readlink -f "$1")
disk_folder=${2:-}
runs=${3:-5}
room=$(mktemp -d /dev/shm/wafl-bench.XXXXXX) || exit 1
bases=$room
[ -z "$disk_folder" ] || bases="$bases $(mktemp -d "$(readlink -f "$disk_folder")/wafl-bench.XXXXXX")" || exit 1
place_program "$program" "$room/prefix" || exit 1
wafl=$room/prefix/bin/wafl

# end_all : leaves nothing behind.
end_all() {
    cd / || exit
    for base in $bases; do
        grep -F " $base/" /proc/self/mountinfo | cut -d ' ' -f 5 | while read -r place; do umount "$place" || umount -l "$place"; done
        rm -rf "$base"
    done
}
trap end_all EXIT
trap 'exit 130' INT
trap 'exit 143' TERM HUP

# What the works take: a tree of 1,000 files of many sizes, and bytes that don't compress.
mkdir "$room/tree"
python3 - "$room/tree" <<'END'
import os, random, sys

rng = random.Random(1)
for at in range(1000):
    folder = f'{sys.argv[1]}/part{at % 40}'
    os.makedirs(folder, exist_ok=True)
    with open(f'{folder}/file{at}', 'wb') as file:
        file.write(rng.randbytes(int(rng.paretovariate(0.8) * 600) % 60000))
END
tar -cf "$room/tree.tar" -C "$room" tree
rm -r "$room/tree"
head -c 64M /dev/urandom >"$room/random"

# The works, in this order: each finds what those before it made.
works='untar find_sizes copy remove git_commit git_status write_1m write_64k write_4k read_again sqlite mkdirs renames creates'

# title WORK : its name in the table.
title() {
    case $1 in
        untar) echo 'untar of 1,000 files' ;;
        find_sizes) echo 'find with sizes' ;;
        copy) echo 'cp -r of them' ;;
        remove) echo 'rm -r' ;;
        git_commit) echo 'git init, add, commit' ;;
        git_status) echo 'git status' ;;
        write_1m) echo '64 MiB of zeros by 1 MiB' ;;
        write_64k) echo '64 MiB by 64 KiB, fsync' ;;
        write_4k) echo '4 MiB by 4 KiB' ;;
        read_again) echo '64 MiB read again' ;;
        sqlite) echo '200 commits of SQLite' ;;
        mkdirs) echo '10,000 mkdir in ten' ;;
        renames) echo '10,000 rename in one' ;;
        creates) echo '5,000 create, write, close' ;;
    esac
}

untar() { tar -xf "$room/tree.tar"; }
find_sizes() { find tree -printf '%s\n'; }
copy() { cp -r tree second; }
remove() { rm -r second; }
git_commit() { git -C tree init -q && git -C tree add -A && git -C tree -c user.name=a -c user.email=a@b commit -qm one; }
git_status() { git -C tree status --short; }
write_1m() { dd if=/dev/zero of=zeros bs=1M count=64; }
write_64k() { dd if="$room/random" of=random bs=64k count=1024 conv=fsync; }
write_4k() { dd if="$room/random" of=small bs=4k count=1024; }
read_again() { cat random; }
sqlite() {
    { echo 'create table t(a);'; for _ in $(seq 200); do echo 'insert into t values(1);'; done; } | sqlite3 commits.db
}
mkdirs() {
    python3 -c '
import os
for outer in range(10):
    os.mkdir(f"d{outer}")
    for inner in range(1000):
        os.mkdir(f"d{outer}/{inner}")'
}
renames() {
    python3 -c '
import os
os.makedirs("r/0")
for at in range(10000):
    os.rename(f"r/{at}", f"r/{at + 1}")'
}
creates() {
    python3 -c '
import os
os.mkdir("c")
for at in range(5000):
    fd = os.open(f"c/{at}", os.O_CREAT | os.O_WRONLY)
    os.write(fd, b"x" * 100)
    os.close(fd)'
}

# now : the time in microseconds.
now() { echo $(($(date +%s%N) / 1000)); }

# median NUMBER.. : the middle one.
median() { printf '%s\n' "$@" | sort -n | sed -n "$((($# + 1) / 2))p"; }

# begin KIND BASE : a new empty file system of this kind, mounted on BASE/KIND; fails where it can't be had.
begin() {
    at=$2/$1
    image=$at.image
    mkdir -p "$at"
    case $1 in
        served | deferred)
            # One word, or none.
            # shellcheck disable=SC2046
            "$program" make "$image" "$image.nvram" --force --blocks 1G --inodes 64k --half 8M 2>/dev/null &&
                "$wafl" mount --background --wait=30 $([ "$1" = served ] || echo --deferred) "$image" "$image.nvram" "$at" 2>/dev/null
            ;;
        ext4 | ext4_sync)
            truncate -s 1G "$image" && mkfs.ext4 -q -F "$image" 2>/dev/null &&
                mount -o "loop$([ "$1" = ext4 ] || echo ,sync)" "$image" "$at" 2>/dev/null
            ;;
        btrfs)
            truncate -s 1G "$image" && mkfs.btrfs -q -f "$image" >/dev/null 2>&1 && mount -o loop "$image" "$at" 2>/dev/null
            ;;
        fuse2fs | fuse2fs_sync)
            command -v fuse2fs >/dev/null && truncate -s 1G "$image" && mkfs.ext4 -q -F "$image" 2>/dev/null &&
                fuse2fs -o "fakeroot$([ "$1" = fuse2fs ] || echo ,sync)" "$image" "$at" >/dev/null 2>&1
            ;;
        ntfs_3g)
            command -v ntfs-3g >/dev/null && truncate -s 1G "$image" && mkfs.ntfs -q -F -f "$image" >/dev/null 2>&1 &&
                ntfs-3g "$image" "$at" >/dev/null 2>&1
            ;;
    esac
}

# end KIND BASE : unmounts it, and removes its image.
end() {
    until_so 20 umount "$2/$1" || umount -l "$2/$1"
    rm -f "$2/$1.image" "$2/$1.image.nvram"
}

served_memory=0
missing=
sizes=

# times_of KIND BASE WORK : the file of the microseconds that it took, a line a run.
times_of() { echo "$2/$1.$3.times"; }

# run KIND BASE : does the works once.
run() {
    for work in $works; do
        from=$(now)
        (cd "$2/$1" && "$work") >/dev/null 2>&1 || echo "failed: $work on $1" >&2
        to=$(now)
        echo $((to - from)) >>"$(times_of "$1" "$2" "$work")"
    done
    if [ "$1" = served ]; then
        process=$(pgrep -f "^$room/prefix/libexec/wafl/wafl serve .* $2/served.image ")
        served_memory=$(awk -v least="$served_memory" '/VmHWM/ { print ($2 > least ? $2 : least) }' "/proc/$process/status")
        told=$(ask_trips "$2/$1")
        missing="$missing ${told%:*}"
        sizes="$sizes ${told#*:}"
    fi
}

# ask_trips FOLDER : how many names that aren't there and how many free sizes it tells a second.
ask_trips() {
    python3 - "$1" <<'END'
import os, sys, time


def count(call, least=1.0):
    """How often a second."""
    begun, times = time.monotonic(), 0
    while time.monotonic() < begun + least:
        call(times)
        times += 1
    return int(times / (time.monotonic() - begun))


def miss(at):
    """A name that was never asked for."""
    try:
        os.stat(f'{sys.argv[1]}/missing{at}')
    except FileNotFoundError:
        pass


print(f'{count(miss)}:{count(lambda _: os.statvfs(sys.argv[1]))}')
END
}

# Each is KIND:BASE.
kinds=
for base in $bases; do
    for kind in served deferred ext4 ext4_sync btrfs fuse2fs fuse2fs_sync ntfs_3g; do
        if begin $kind "$base"; then
            end $kind "$base"
            kinds="$kinds $kind:$base"
        else
            echo "not there: $kind in $base" >&2
        fi
    done
done
for _ in $(seq "$runs"); do
    for each in $kinds; do
        if begin "${each%%:*}" "${each#*:}"; then
            run "${each%%:*}" "${each#*:}"
            end "${each%%:*}" "${each#*:}"
        else
            echo "not mounted: $each" >&2
        fi
    done
done

# middle KIND BASE WORK : the median of its microseconds.
middle() {
    # Words.
    # shellcheck disable=SC2046
    median $(cat "$(times_of "$1" "$2" "$3")")
}

# The table: seconds, and how many times as long as the served folder beside it takes.
printf '| Work |'
for each in $kinds; do printf ' %s%s |' "${each%%:*}" "$([ "${each#*:}" = "$room" ] || echo ', on the disk')"; done
printf '\n|---|'
for each in $kinds; do printf -- '---|'; done
echo
for work in $works; do
    printf '| %s |' "$(title "$work")"
    for each in $kinds; do
        own=$(middle "${each%%:*}" "${each#*:}" "$work")
        served=$(middle served "${each#*:}" "$work")
        if [ "${each%%:*}" = served ]; then
            awk -v own="$own" 'BEGIN { printf " %.2f |", own / 1000000 }'
        else
            awk -v own="$own" -v served="$served" 'BEGIN { printf " %.2f (%.2f) |", own / 1000000, own / served }'
        fi
    done
    echo
done
echo
# Words.
# shellcheck disable=SC2086
echo "Round trips a second: a missing name $(median $missing), statfs $(median $sizes)."
echo "The server's greatest memory: $((served_memory / 1024)) MiB."
