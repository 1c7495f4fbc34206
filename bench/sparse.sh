#!/bin/sh
# What files with holes cost, beside small ones: makes 100 consistency points that each store one block, the last one of the greatest
# file, which has no other; mounts an image with 100 such files, and checks it; reads one byte at the end of each of them; and cuts each
# to nothing, with a consistency point behind each; then the same where the one block stands at offset 4,096. Tells the milliseconds of a
# processor that each run takes, the least of five, and its peak memory, and in the last line whether none costs more than twice what it
# costs at 4,096 (2 ms more are the clock; of a run without the mount that it begins with), or 2 MB more of memory. Ends with 1 where one
# does.
#
#   sh bench/sparse.sh [FILES]      100 points and files, over ./wafl; WAFL=path takes another program
#
# Needs bash, whose `time` tells milliseconds, and GNU time.
set -eu
here=$(cd "$(dirname "$0")/.." && pwd)
wafl=${WAFL:-$here/wafl}
files=${1:-100}
folder=$(mktemp -d)
trap 'rm -rf "$folder"' EXIT
cd "$folder"
. "$here/bench/measure.sh"

end=68719476735
restore() { for file in disk nvram; do cp --sparse=always "$file.$1" "$file"; done; }
keep() { for file in disk nvram; do cp --sparse=always "$file" "$file.$1"; done; }

# turns FORMAT : these lines for each of the files, by its number.
turns() { awk -v format="$1" -v files="$files" 'BEGIN {for (n = 0; n < files; n++) printf format "\n", n}'; }

# processor COMMAND.. : the milliseconds of a processor that it takes.
processor() {
    bash -c 'TIMEFORMAT="%U %S"; { time "$@" > replies 2> faults; } 2> spent' bench "$@"
    awk '{printf "%.0f\n", 1000 * ($1 + $2)}' spent
}

# cost NAME AT : runs the script of this name and place, or a check, on the image that it begins from, prints its line, and keeps its figures
# in the file NAME.AT.
cost() {
    name=$1 at=$2
    case $name in
        check) set -- check disk nvram ;;
        *) set -- run disk nvram "$name.$at.script" ;;
    esac
    rm -f times
    for _ in 1 2 3 4 5; do
        restore "$name.$at"
        processor "$wafl" "$@" >> times
        refused '^(ok|fd 0|wrote 1|data 61|ok generation .*)$'
    done
    restore "$name.$at"
    /usr/bin/time -f %M -o peak "$wafl" "$@" > replies
    { sort -n times | head -n 1; tail -n 1 peak; } | paste -s > "$name.$at"
    awk -v name="wafl $name" -v at="$at" '{printf "%-12s at %11s %9d ms %9.1f MiB\n", name, at, $1, $2 / 1024}' "$name.$at"
}

for at in 4096 $end; do
    "$wafl" make disk nvram --blocks 4096 --inodes 1024 --half 131072
    keep store.$at
    { echo 'open /f wct'; turns "pwrite 0 $at 61\nsync"; } > store.$at.script
    { turns "open /f%d wct\npwrite 0 $at 61\nclose 0"; echo sync; } > fill.script
    turns "open /f%d r\npread 0 $at 1\nclose 0" > read.$at.script
    turns "truncate /f%d 0\nsync" > cut.$at.script
    "$wafl" run disk nvram fill.script > replies; refused '^(ok|fd 0|wrote 1)$'
    : > mount.$at.script
    for name in mount check read cut; do keep $name.$at; done
    rm disk nvram
done
for name in mount check store read cut; do
    cost $name 4096
    cost $name $end
    paste "$name.4096" "$name.$end" >> all
done
# The first line is the mount, with which each run begins but the check, the second.
awk '
    NR == 1 {small = $1; great = $3}
    NR <= 2 && $3 > 2 * $1 + 2 {above = above "; " $3 " ms, and " $1 " ms at 4096"}
    NR > 2 && $3 - great > 2 * ($1 - small) + 2 {above = above "; " $3 - great " ms, and " $1 - small " ms at 4096"}
    $4 > $2 + 2000 {above = above "; " $4 " KB, and " $2 " KB at 4096"}
    END {print above == "" ? "within the limits" : "above the limits" above; exit above != ""}' all
