#!/bin/sh
# Sends commands to `wafl shell` over pipes, and tells how many lines a second it answers: each line when the one before it is answered
# ("asked"), and all at once ("sent"); beside it the same through sqlite3 and debugfs, sent, where these are installed. Then puts 1 KB
# into an image of 4 GiB, beside a `df` of it, and tells what memory a run of 100,000 lines holds at its beginning and towards its end.
#
#   sh bench/shell.sh [LINES]        2,000 lines of each kind, over ./wafl; WAFL=path takes another program
#
# wafl and SQLite sync for every line that changes something; debugfs keeps no log and syncs once, at its end, and has no writes within a
# file, so its column `pwrite` copies a file of 4 KiB for each line. SQLite keeps its journal as it does by itself. Needs python3.
set -eu
here=$(cd "$(dirname "$0")/.." && pwd)
wafl=${WAFL:-$here/wafl}
count=${1:-2000}
folder=$(mktemp -d)
trap 'rm -rf "$folder"' EXIT
cd "$folder"
. "$here/bench/measure.sh"

# lines FORMAT : so many lines of this form, by their numbers.
lines() { awk -v format="$1" -v count="$count" 'BEGIN {for (i = 0; i < count; i++) printf format "\n", i}'; }

# rate SECONDS : lines a second.
rate() { awk -v count="$count" -v seconds="$1" 'BEGIN {printf "%.0f", count / (seconds > 0.001 ? seconds : 0.001)}'; }

# sent COMMAND.. : the seconds that the command takes for the lines in its standard input.
sent() {
    begin=$(date +%s.%N)
    "$@" > replies 2> faults || { echo "$1 failed: $(head -n 1 faults)" >&2; exit 1; }
    echo "$begin $(date +%s.%N)" | awk '{print $2 - $1}'
}

# row NAME MKDIR PWRITE STAT
row() { printf '%-16s %9s %9s %9s lines/s\n' "$@"; }

data=$(awk 'BEGIN {while (i++ < 4096) printf "61"}')
lines 'mkdir /d%d' > mkdir.lines
{ echo 'open /file rwc'; lines "pwrite 0 0 $data"; } > pwrite.lines
lines 'stat /d%d' > stat.lines

row '' mkdir pwrite stat
for way in asked sent; do
    rm -f disk nvram
    "$wafl" make disk nvram --new --blocks 32768 --inodes 32768 --half 8388608
    set --
    for kind in mkdir pwrite stat; do
        if [ "$way" = asked ]; then
            took=$(python3 "$here/bench/lines.py" ask "$kind.lines" "$wafl" shell disk nvram)
        else
            took=$(sent "$wafl" shell disk nvram < "$kind.lines")
            refused '^(ok|fd 0|wrote 4096|stat number [0-9]+ kind dir .*)$'
        fi
        set -- "$@" "$(rate "$took")"
    done
    row "wafl $way" "$@"
done

if command -v sqlite3 > /dev/null; then
    sqlite3 names.db 'create table directory (path text primary key); create table part (number integer primary key, bytes blob);
        insert into part values (0, zeroblob(4096));'
    lines "insert into directory values ('/d%d');" > mkdir.sqlite
    lines "update part set bytes = x'$data' where number = 0;" > pwrite.sqlite
    lines "select path from directory where path = '/d%d';" > stat.sqlite
    set --
    for kind in mkdir pwrite stat; do set -- "$@" "$(rate "$(sent sqlite3 names.db < $kind.sqlite)")"; done
    row 'sqlite sent' "$@"
else
    echo 'sqlite3 is not installed'
fi
if command -v debugfs > /dev/null && command -v mke2fs > /dev/null; then
    mke2fs -q -t ext2 -b 4096 -N 32768 ext2 32768 > faults 2>&1
    printf '%4096s' '' | tr ' ' a > file
    lines 'mkdir d%d' > mkdir.debugfs
    lines 'write file f%d' > pwrite.debugfs
    lines 'stat d%d' > stat.debugfs
    set --
    for kind in mkdir pwrite stat; do set -- "$@" "$(rate "$(sent debugfs -w ext2 < $kind.debugfs)")"; done
    row 'debugfs sent' "$@"
else
    echo 'debugfs is not installed'
fi

rm -f disk nvram
"$wafl" make disk nvram --new --blocks 1048576 --inodes 4096 --half 8388608
head -c 1000 /dev/urandom > file
cp nvram made.nvram
cp --sparse=always disk made.disk
# made : the image as it was made.
made() { cp made.nvram nvram; cp --sparse=always made.disk disk; }
again=made
measure 'wafl df' "$wafl" df disk nvram
measure 'wafl put' "$wafl" put disk nvram file /file
refused '^$'
# The log is open now: its half of 8 MiB is read whole.
again=true
measure 'wafl df, open' "$wafl" df disk nvram
measure 'wafl put, open' "$wafl" put disk nvram file /file
refused '^$'

rm -f disk nvram
"$wafl" make disk nvram --new --blocks 16384 --inodes 32 --half 131072
awk 'BEGIN {
    print "open /file rwc"
    for (i = 1; i < 100000; i++) print i % 10 ? "stat /file" : "pwrite 0 " i % 4096 " 5761666c"
}' > run.script
# Behind line 95,000 the program waits for its replies to be read: they are more than a pipe holds.
memory=$(python3 "$here/bench/lines.py" memory 95000 "$wafl" run disk nvram run.script)
printf '%-16s %9s MiB at its first reply %9s MiB at reply 95,000\n' 'wafl run' "${memory% *}" "${memory#* }"
