#!/bin/sh
# Makes directories and changes parts of a file, in turn, 100,000 commands in all, on an image of 1 GiB, with the changes spread over many
# blocks: each directory goes into the next one of 100, and each 8 bytes of data to another block of 64 MiB. No sync is asked for, so
# consistency points come where the log gets full. Does so over two builds of the program: one whose points are written in slices,
# between commands, and one from before that. Tells the longest that any line waited for its reply, and which line that was, and
# seconds, device writes, syncs and peak memory of the whole. The first line, a `df`, waits for the mount and isn't counted.
#
#   WAFL=path BEFORE=path sh bench/slices.sh [COMMANDS]
#
# Both have to be proved builds: another one is slow where it plans, which isn't what is measured. A pause lies in planning, which is one
# command's, and in syncs: TMPDIR=/dev/shm takes the host's disk out of it. Needs python3. Writes and syncs are counted by strace, which
# takes minutes, and peak memory is told by GNU time; without them these columns are "-".
set -eu
here=$(cd "$(dirname "$0")/.." && pwd)
wafl=$(readlink -f "${WAFL:?WAFL has to name the program}")
before=$(readlink -f "${BEFORE:?BEFORE has to name a build of it from before}")
count=${1:-100000}
folder=$(mktemp -d)
trap 'rm -rf "$folder"' EXIT
cd "$folder"
. "$here/bench/measure.sh"

# commands : the lines, behind those that make what they need.
commands() {
    awk -v count="$count" 'BEGIN {
        print "df"
        for (i = 0; i < 100; i++) print "mkdir /d" i
        print "open /file rwc"
        print "truncate /file 67108864"
        for (n = 0; n < count / 2; n++) {
            printf "mkdir /d%d/n%05d\n", n % 100, n
            printf "pwrite 0 %d 5761666c5761666c\n", n * 7919 % 16384 * 4096 + n % 512 * 8
        }
    }'
}

fresh() { rm -f disk nvram; "$program" make disk nvram --blocks 1G --inodes 64k --half 128k; }

commands > script
again=fresh
for name in before wafl; do
    eval "program=\$$name"
    fresh
    python3 "$here/bench/lines.py" pauses script "$program" shell disk nvram | sed "s/^/$name /"
    "$program" check disk nvram
done
for name in before wafl; do
    eval "program=\$$name"
    fresh
    measure "$name" "$program" run disk nvram script
    refused '^(ok|fd 0|wrote 8|blocks 262144 .*)$'
done
