#!/bin/sh
# Looks up 10,000 directories by their paths, by a name behind their parent's number, and by their own numbers, and then moves each of
# them into another directory under another name, with a sync every 1,000, on an image of 16,384 blocks. Tells seconds, writes and peak
# memory of each; beside it the same through debugfs and on rows of SQLite, where these are installed. Then it moves one directory 200
# times into another one and back, by paths from the root and by its parents' numbers: an empty one, and one with 20,000 files below it,
# which must cost the same. These 20,000 names it tells at once (`list`), and in parts of 1,000 and of 100 (`entries`; the parts' cookies
# need python3).
#
#   sh bench/names.sh [1|10]         the 10,000 stand in one directory, or (without a word) 1,000 each in ten
#
# over ./wafl; WAFL=path takes another program. debugfs has no rename: it makes the new name and takes the old one away, keeps no log and
# syncs once, at its end. SQLite commits each changed row by itself and syncs for it, as wafl logs and syncs each command. Making the
# 10,000 is what directories.sh measures, and isn't measured here.
set -eu
here=$(cd "$(dirname "$0")/.." && pwd)
wafl=${WAFL:-$here/wafl}
case ${1:-10} in 1 | 10) parents=${1:-10} ;; *) sed -n '2,16s/^# \{0,1\}//p' "$0" >&2; exit 1 ;; esac
folder=$(mktemp -d)
trap 'rm -rf "$folder"' EXIT
cd "$folder"
. "$here/bench/measure.sh"

# commands FIRST EACH EVERY_1000 : FIRST for each of the parents, by its number, and EACH for each of the 10,000, by the numbers of its
# parent, of itself, and of the parent that it moves to and itself again; behind each 1,000 of them EVERY_1000.
commands() {
    awk -v first="$1" -v each="$2" -v every="$3" -v parents="$parents" 'BEGIN {
        if (first != "") for (i = 0; i < parents; i++) printf first "\n", i, i
        for (n = 0; n < 10000; n++) {
            i = int(n * parents / 10000)
            if (each != "") printf each "\n", i, n, (i + 1) % parents, n
            if (every != "" && n % 1000 == 999) print every
        }
    }'
}

# moves HERE THERE NAME : moves the directory of this name from HERE to THERE, and back, 100 times.
moves() {
    awk -v here="$1" -v there="$2" -v name="$3" 'BEGIN {
        for (i = 0; i < 100; i++) {
            printf "rename %s/%s %s/%s\n", here, name, there, name
            printf "rename %s/%s %s/%s\n", there, name, here, name
        }
    }'
}

# parts COUNT : tells the 20,000 names in /here/full in parts of so many: a command for each, and one that tells none.
parts() {
    python3 - "$1" <<'END'
import hashlib
import sys

count = int(sys.argv[1])
digests = [hashlib.md5(b"n%05d" % n).digest() for n in range(20000)]
cookies = sorted(max(int.from_bytes(digest[:8], "big") // 4, 4) for digest in digests)
for after in [0] + cookies[count - 1::count]:
    print(f"entries /here/full {after} {count}")
END
}

restore() { for file in $files; do cp "$file.before" "$file"; done; }
keep() { for file in $files; do cp "$file" "$file.before"; done; }

commands 'mkdir /d%d\nmkdir /e%d' 'mkdir /d%d/n%04d' sync > make.script
commands '' 'stat /d%d/n%04d' '' > look.script
# The parents' numbers are 4, 6, 8 and so on, and those of the 10,000 come behind them.
commands '' '%d n%04d' '' | awk '{print "stat @" 4 + 2 * $1 "/" $2}' > behind.script
awk -v parents="$parents" 'BEGIN {for (n = 0; n < 10000; n++) print "stat @" 4 + 2 * parents + n}' > alone.script
commands '' 'rename /d%d/n%04d /e%d/m%04d' sync > move.script
files='disk nvram'
"$wafl" make disk nvram --blocks 16384 --inodes 32768 --half 131072
"$wafl" run disk nvram make.script > replies; refused '^ok$'
keep; again=restore
measure 'wafl look' "$wafl" run disk nvram look.script
refused '^stat number [0-9]+ kind dir '
mv replies look.replies
measure 'wafl behind' "$wafl" run disk nvram behind.script
cmp replies look.replies
measure 'wafl alone' "$wafl" run disk nvram alone.script
cmp replies look.replies
measure 'wafl move' "$wafl" run disk nvram move.script
refused '^ok$'

# 20,000 files stand below /here/full.
awk 'BEGIN {
    print "mkdir /here\nmkdir /there\nmkdir /here/empty\nmkdir /here/full"
    for (n = 0; n < 20000; n++) printf "open /here/full/n%05d wc\nclose 0\n", n
    print "sync"
}' > below.script
moves /here /there empty > empty.script
moves /here /there full > full.script
# /here is number 4, and /there 5. A server looked each directory up before it names it by its number.
for name in empty full; do
    { echo 'lstat @3/here'; echo 'lstat @3/there'; moves @4 @5 "$name"; } > "$name.numbered.script"
done
"$wafl" make disk nvram --blocks 16384 --inodes 32768 --half 131072
"$wafl" run disk nvram below.script > replies; refused '^(ok|fd 0)$'
keep
measure 'wafl empty' "$wafl" run disk nvram empty.script
refused '^ok$'
restore
measure 'wafl full' "$wafl" run disk nvram full.script
refused '^ok$'
restore
for name in empty full; do
    measure "wafl $name by numbers" "$wafl" run disk nvram "$name.numbered.script"
    refused '^(ok|stat number [45] kind dir .*)$'
    restore
done
echo 'list /here/full' > list.script
measure 'wafl list' "$wafl" run disk nvram list.script
refused '^names n00000 '
if command -v python3 > /dev/null; then
    for count in 1000 100; do
        parts "$count" > parts.script
        measure "wafl parts $count" "$wafl" run disk nvram parts.script
        refused '^entries( |$)'
        told=$(awk '{names += (NF - 1) / 7} END {print names}' replies)
        [ "$told" = 20000 ] || { echo "wafl told $told names" >&2; exit 1; }
    done
fi

if command -v debugfs > /dev/null && command -v mke2fs > /dev/null; then
    files=ext2
    mke2fs -q -t ext2 -b 4096 -N 32768 ext2 16384 > faults 2>&1
    commands 'mkdir d%d\nmkdir e%d' 'mkdir d%d/n%04d' '' > make.debugfs
    commands '' 'stat d%d/n%04d' '' > look.debugfs
    commands '' 'ln d%d/n%04d e%d/m%04d' '' |
        awk '{print; print "unlink " $2}' > move.debugfs
    debugfs -w -f make.debugfs ext2 > replies 2> faults
    keep
    measure 'debugfs look' debugfs -f look.debugfs ext2
    measure 'debugfs move' debugfs -w -f move.debugfs ext2
fi
if command -v sqlite3 > /dev/null; then
    files=names.db
    { echo 'create table directory (path text primary key, number integer);'
      echo 'begin;'
      commands '' "insert into directory values ('/d%d/n%04d', 0);" ''
      echo 'commit;'; } | sqlite3 names.db
    { echo 'pragma synchronous = full;'
      commands '' "select number from directory where path = '/d%d/n%04d';" ''; } > look.sqlite
    { echo 'pragma synchronous = full;'
      commands '' "/d%d/n%04d /e%d/m%04d" '' |
          awk -v q="'" '{print "update directory set path = " q $2 q " where path = " q $1 q ";"}'; } > move.sqlite
    keep
    measure 'sqlite look' sqlite3 -init look.sqlite names.db .quit
    measure 'sqlite move' sqlite3 -init move.sqlite names.db .quit
fi
