#!/bin/sh
# Makes 10,000 directories in ten directories, with a sync every 1,000, on an image of 16,384 blocks, and tells seconds,
# writes and peak memory; beside it the same names through debugfs and as rows of SQLite, where these are installed.
#
#   sh bench/directories.sh          over ./wafl; WAFL=path takes another program
#
# debugfs keeps no log and syncs once, at its end; SQLite commits each row by itself and syncs for it, as wafl logs and
# syncs each command. Writes are counted by strace, peak memory is told by GNU time; without them these columns are "-".
set -eu
here=$(cd "$(dirname "$0")/.." && pwd)
wafl=${WAFL:-$here/wafl}
folder=$(mktemp -d)
trap 'rm -rf "$folder"' EXIT
cd "$folder"
. "$here/bench/measure.sh"

names() { # names FORMAT_OF_A_PARENT FORMAT_OF_A_CHILD EVERY_1000
    awk -v parent="$1" -v child="$2" -v every="$3" 'BEGIN {
        for (i = 0; i < 10; i++) printf parent "\n", i
        for (i = 0; i < 10; i++) {
            for (j = 0; j < 1000; j++) printf child "\n", i, j
            if (every != "") print every
        }
    }'
}

fresh_wafl() { rm -f disk nvram; "$wafl" make disk nvram --blocks 16384 --inodes 32768 --half 131072; }
fresh_debugfs() { rm -f ext2; mke2fs -q -t ext2 -b 4096 -N 32768 ext2 16384 > faults 2>&1; }
fresh_sqlite() { rm -f names.db names.db-journal; sqlite3 names.db 'create table directory (path text primary key)'; }

names 'mkdir /d%d' 'mkdir /d%d/n%04d' sync > wafl.script
again=fresh_wafl; fresh_wafl
measure wafl "$wafl" run disk nvram wafl.script
refused '^ok$'

if command -v debugfs > /dev/null && command -v mke2fs > /dev/null; then
    names 'mkdir d%d' 'mkdir d%d/n%04d' '' > debugfs.script
    again=fresh_debugfs; fresh_debugfs
    measure debugfs debugfs -w -f debugfs.script ext2
fi
if command -v sqlite3 > /dev/null; then
    { echo 'pragma synchronous = full;'
      names "insert into directory values ('/d%d');" "insert into directory values ('/d%d/n%04d');" ''; } > sqlite.script
    again=fresh_sqlite; fresh_sqlite
    measure sqlite sqlite3 -init sqlite.script names.db .quit
fi
