#!/bin/sh
# Writes a file of 64 MiB in writes of 64 KiB with a sync each 4 MiB, reads it back in reads of 64 KiB, and makes 10,000 files of 100
# bytes each in ten directories with a sync every 1,000, on an image of 32,768 blocks. Tells seconds, writes and peak memory of each;
# beside it the same through debugfs and in SQLite, where these are installed.
#
#   sh bench/files.sh          over ./wafl; WAFL=path takes another program
#
# Each call that changes something writes the NVRAM twice, its record and the byte that puts it in force, and a consistency point
# writes each changed block once: the line `floor` has the writes that calls and data blocks come to, without those of roots, maps,
# inodes, directories and indirect blocks. debugfs keeps no log and copies whole files, so it writes the 64 MiB by one command and
# syncs once, at its end. The small files stand in their inodes, and have no data block. SQLite keeps the parts and the small files
# as rows, and commits each by itself and syncs for it, as wafl logs and syncs each command. `wafl put` works on the image's files as
# `wafl run` does, and makes a consistency point only where the log is full.
set -eu
here=$(cd "$(dirname "$0")/.." && pwd)
wafl=${WAFL:-$here/wafl}
folder=$(mktemp -d)
trap 'rm -rf "$folder"' EXIT
cd "$folder"
. "$here/bench/measure.sh"

parts=1024
# large WORD : the script that writes the parts, or reads them.
large() {
    awk -v parts="$parts" -v what="$1" 'BEGIN {
        data = "5761666c"
        while (length(data) < 131072) data = data data
        print what == "write" ? "open /large wct" : "open /large r"
        for (i = 1; i <= parts; i++) {
            if (what == "write") print "write 0 " data; else print "read 0 65536"
            if (what == "write" && i % 64 == 0) print "sync"
        }
        print "close 0"
    }'
}

# small FIRST EACH EVERY_1000 : FIRST for each of ten directories, EACH for each of the 10,000 files by its directory and number.
small() {
    awk -v first="$1" -v each="$2" -v every="$3" 'BEGIN {
        for (i = 0; i < 10; i++) if (first != "") printf first "\n", i
        for (n = 0; n < 10000; n++) {
            printf each "\n", n % 10, n
            if (every != "" && n % 1000 == 999) print every
        }
    }'
}

# floor CALLS BLOCKS : the writes that so many calls and blocks of data come to.
floor() { printf '%-16s %9s   %9s writes\n' '  floor' '' "$((2 * $1 + $2))"; }

restore() { for file in $files; do cp "$file.before" "$file"; done; }
keep() { for file in $files; do cp "$file" "$file.before"; done; }
hundred=$(awk 'BEGIN {while (i++ < 100) printf "61"}')

files='disk nvram'
"$wafl" make disk nvram --blocks 32768 --inodes 32768 --half 8388608
keep; again=restore
large write > write.script; large read > read.script
small 'mkdir /d%d' "open /d%d/n%04d wct\nwrite 0 $hundred\nclose 0" sync > small.script
measure 'wafl write' "$wafl" run disk nvram write.script
refused '^(ok|fd 0|wrote 65536)$'
floor $((parts + 1)) $((parts * 16))
keep
measure 'wafl read' "$wafl" run disk nvram read.script
refused '^(ok|fd 0|data (5761666c)+)$'
"$wafl" make disk nvram --blocks 32768 --inodes 32768 --half 8388608
keep
measure 'wafl small' "$wafl" run disk nvram small.script
refused '^(ok|fd 0|wrote 100)$'
floor 20010 0
"$wafl" make disk nvram --blocks 32768 --inodes 32768 --half 8388608
keep
awk 'BEGIN {while (i++ < 16777216) printf "Wafl"}' > large
measure 'wafl put' "$wafl" put disk nvram large /large
keep
measure 'wafl get' "$wafl" get disk nvram /large back
cmp large back

if command -v debugfs > /dev/null && command -v mke2fs > /dev/null; then
    files=ext2
    mke2fs -q -t ext2 -b 4096 -N 32768 ext2 32768 > faults 2>&1
    keep
    printf '%100s' '' | tr ' ' a > hundred
    echo 'write large large' > write.debugfs
    echo 'dump large back' > read.debugfs
    small 'mkdir d%d' 'write hundred d%d/n%04d' '' > small.debugfs
    measure 'debugfs small' debugfs -w -f small.debugfs ext2
    restore
    measure 'debugfs write' debugfs -w -f write.debugfs ext2
    keep
    measure 'debugfs read' debugfs -f read.debugfs ext2
fi
if command -v sqlite3 > /dev/null; then
    files=files.db
    sqlite3 files.db 'create table file (path text primary key, bytes blob); create table part (number integer primary key, bytes blob);'
    keep
    { echo 'pragma synchronous = full;'
      awk -v parts="$parts" 'BEGIN {for (i = 0; i < parts; i++) print "insert into part values (" i ", zeroblob(65536));"}'; } > write.sqlite
    { echo 'pragma synchronous = full;'
      small '' "insert into file values ('/d%d/n%04d', zeroblob(100));" ''; } > small.sqlite
    echo 'select hex(bytes) from part order by number;' > read.sqlite
    measure 'sqlite small' sqlite3 -init small.sqlite files.db .quit
    restore
    measure 'sqlite write' sqlite3 -init write.sqlite files.db .quit
    keep
    measure 'sqlite read' sqlite3 -init read.sqlite files.db .quit
fi
