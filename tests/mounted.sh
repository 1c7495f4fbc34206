#!/bin/sh
# Programs and test suites in a served folder, as root.
#
#   sh tests/mounted.sh PROGRAM [WORK [KILLS [TEST..]]]
#
# PROGRAM is a build of the program, WORK an empty folder (else a new one in memory), KILLS how often a server is killed in the longest
# test (60). With TESTs only those whose names begin so. Prints a line for each test: ok, FAILED and why, or skipped and why; ends with 1
# where one failed, or the image isn't whole at the end. Takes a quarter of an hour, and many times that with a build without proofs. With
# MOUNT_OPTIONS=--deferred in the environment the folder is served so.
# Packages of Debian: git sqlite3 rsync fio stress-ng dbench bonnie++ fsmark postmark make gcc python3.
# shellcheck disable=SC2317 # The end is called by a trap.
set -u
if [ "$#" -lt 1 ]; then
    echo 'usage: sh tests/mounted.sh PROGRAM [WORK [KILLS [TEST..]]]' >&2
    exit 1
fi
here=$(dirname "$(dirname "$(readlink -f "$0")")")
. "$here/tests/placing.sh"
tests=$here/tests/mounted
program=$(readlink -f "$1")
work=${2:-}
kills=${3:-60}
shift $(($# < 3 ? $# : 3))
wanted=$*
made=
if [ -z "$work" ]; then
    made=1
    work=$(mktemp -d /dev/shm/wafl-mounted.XXXXXX) || exit 1
fi
work=$(readlink -f "$work")
# Other users look into the folder.
chmod 755 "$work"
folder=$work/folder
export here work
place_program "$program" "$work/prefix" || exit 1
wafl=$work/prefix/bin/wafl
failed=0
running=
# The bound of a test, in seconds.
limit=$((900 + 2 * kills))

# end_all : leaves nothing mounted.
end_all() {
    cd / || exit
    [ -z "$running" ] || kill "$running"
    grep -F " $work/" /proc/self/mountinfo | cut -d ' ' -f 5 | while read -r place; do umount -l "$place"; done
    [ -z "$made" ] || rm -rf "$work"
}
trap end_all EXIT
trap 'exit 130' INT
trap 'exit 143' TERM HUP

# is_wanted NAME : whether the test was asked for.
is_wanted() {
    [ -n "$wanted" ] || return 0
    for each in $wanted; do
        case $1 in "$each"*) return 0 ;; esac
    done
    return 1
}

# try NAME COMMANDS WORD.. : a test, which needs these commands, in the folder; its words are a command, or a function of programs.sh.
try() {
    name=$1
    is_wanted "$name" || return 0
    for needed in $2; do
        command -v "$needed" >/dev/null || { echo "skipped $name: no $needed"; return; }
    done
    shift 2
    begun=$(date +%s)
    # In the background, so that a signal is heard meanwhile. The words are those of the other shell.
    # shellcheck disable=SC2016
    (cd "$folder" && exec timeout "$limit" sh -ec '. "$0"; "$@"' "$tests/programs.sh" "$@") >"$work/said" 2>&1 </dev/null &
    running=$!
    wait "$running"
    status=$?
    running=
    took=$(($(date +%s) - begun))
    if [ "$status" -eq 0 ]; then
        echo "ok $name ($took s)"
    else
        echo "FAILED $name: status $status after $took s"
        tail -n 12 "$work/said" | cut -c 1-300 | sed 's/^/    /'
        failed=1
    fi
}

# alone NAME WORD.. : the test NAME.py, in a folder of its own.
alone() {
    name=$1
    shift
    try "$name" python3 own_folder "$tests/$name.py" "$@"
}

"$program" make "$work/disk" "$work/nvram" --force --blocks 1G --inodes 64k --half 8M 2>/dev/null || exit
mkdir -p "$folder"
# One word, or none.
# shellcheck disable=SC2086
"$wafl" mount --background ${MOUNT_OPTIONS:-} "$work/disk" "$work/nvram" "$folder" 2>"$work/said" || { cat "$work/said"; exit 1; }
chmod 777 "$folder"

for test in numbers_again removed set_id set_group holes listing space times odds; do alone $test; done
try server_killed python3 sh "$here/tests/launcher.sh" "$program" server_killed
try snapshots python3 python3 "$tests/snapshots.py" "$folder"
for seed in 1 2 3 4 5 6 7; do try fsx_$seed python3 own_folder "$tests/fsx.py" $seed 20000; done
for seed in 8 9 10; do try fsx_kills_$seed python3 python3 "$tests/fsx.py" --kills 8 "$wafl" "$work" $seed 20000; done
try kills python3 python3 "$tests/kills.py" "$wafl" "$work" "$kills"
try sqlite_kills python3 python3 "$tests/sqlite_kills.py" "$wafl" "$work" $((kills / 3 + 1))
try deferred python3 python3 "$tests/deferred.py" "$wafl" "$work" "$kills"
try sqlite_deferred python3 python3 "$tests/sqlite_kills.py" "$wafl" "$work" $((kills / 3 + 1)) --deferred=1000
try full python3 python3 "$tests/full.py" "$wafl" "$work"
try git git git_works
try sqlite sqlite3 sqlite_works
try tar tar tar_works
try cp diff copies_agree
try rsync rsync rsync_works
try make 'make cc' make_works
try fio fio fio_verifies
for each in dentry rename symlink link seek hdd dir chmod utime filename access fstat getdent open sync-file fallocate dirdeep flock; do
    try "stress_$each" stress-ng stressor "$each"
done
try postmark postmark postmark_works
try fs_mark fs_mark fs_mark_works
try dbench dbench dbench -t 5 -D . 2
try bonnie bonnie++ bonnie_works

cd / || exit
umount "$folder" || failed=1
if "$program" check --wait=20 "$work/disk" "$work/nvram" >"$work/said" 2>&1; then
    echo 'ok check'
else
    echo "FAILED check: $(cat "$work/said")"
    failed=1
fi
exit $failed
