#!/bin/sh
# Tells how many calls a second 1, 4, 16 and 64 programs at once get done in a served folder, and how many lines a second a shell answers, in
# each mode, beside ext4 by a loop device and SQLite, as root.
#
#   sh bench/commits.sh PROGRAM [DISK_FOLDER [RUNS [MILLISECONDS]]]
#
# PROGRAM is a build of the program. Images lie in memory (/dev/shm), and once more in DISK_FOLDER, which is on a disk. Each number is the
# median of RUNS (5), each of MILLISECONDS (1,000); those that are compared take turns, run by run. Prints tables of Markdown. A call is a
# mkdir or an rmdir, or an open with O_CREAT, a write of 100 bytes and a close together; SQLite commits a row of 100 bytes. Which of them
# survive a power cut when they return, each line says. Needs cc and python3.
# shellcheck disable=SC2317 # The end is called by a trap.
set -u
if [ "$#" -lt 1 ]; then
    echo 'usage: sh bench/commits.sh PROGRAM [DISK_FOLDER [RUNS [MILLISECONDS]]]' >&2
    exit 1
fi
here=$(dirname "$(dirname "$(readlink -f "$0")")")
. "$here/tests/placing.sh"
program=$(readlink -f "$1")
disk_folder=${2:-}
runs=${3:-5}
milliseconds=${4:-1000}
room=$(mktemp -d /dev/shm/wafl-commits.XXXXXX) || exit 1
bases=$room
[ -z "$disk_folder" ] || bases="$bases $(mktemp -d "$(readlink -f "$disk_folder")/wafl-commits.XXXXXX")" || exit 1
place_program "$program" "$room/prefix" || exit 1
wafl=$room/prefix/bin/wafl
cc -O2 -o "$room/clients" "$here/bench/clients.c" || exit 1

# end_all : leaves nothing behind.
end_all() {
    cd / || exit
    for base in $bases; do
        grep -F " $base/" /proc/self/mountinfo | cut -d ' ' -f 5 | while read -r place; do umount "$place" || umount -l "$place"; done
        rm -rf "$base"
    done
}
trap end_all EXIT
trap 'exit 130' INT
trap 'exit 143' TERM HUP

counts='1 4 16 64'
works='mkdir store'

# title KIND : its name in the tables, and whether each call is durable when it returns.
title() {
    case $1 in
        together) echo 'wafl mount | yes' ;;
        deferred) echo 'wafl mount --deferred | no' ;;
        deferred_synced) echo 'wafl mount --deferred, fsync a call | yes' ;;
        ext4_synced) echo 'ext4, fsync a call | yes' ;;
        ext4_sync) echo 'ext4 -o sync | yes' ;;
        ext4) echo 'ext4 | no' ;;
        sqlite_full) echo 'SQLite, WAL, FULL | yes' ;;
        sqlite_normal) echo 'SQLite, WAL, NORMAL | no' ;;
    esac
}

# median : the middle one of the numbers in standard input, a line each.
median() { sort -n | awk '{ line[NR] = $1 } END { if (NR > 0) print line[int((NR + 1) / 2)] }'; }

# begin KIND BASE : a new empty file system of this kind, mounted on BASE/KIND; fails where it can't be had.
begin() {
    at=$2/$1
    image=$at.image
    mkdir -p "$at"
    case $1 in
        together | deferred | deferred_synced)
            # One word, or none.
            # shellcheck disable=SC2046
            "$program" make "$image" "$image.nvram" --force --blocks 1G --inodes 64k --half 8M 2>/dev/null &&
                "$wafl" mount --background --wait=30 $([ "$1" = together ] || echo --deferred) "$image" "$image.nvram" "$at" 2>/dev/null
            ;;
        ext4*)
            truncate -s 1G "$image" && mkfs.ext4 -q -F "$image" 2>/dev/null &&
                mount -o "loop$([ "$1" != ext4_sync ] || echo ,sync)" "$image" "$at" 2>/dev/null
            ;;
        sqlite*) ;;
    esac
}

# end KIND BASE : takes it away.
end() {
    case $1 in
        sqlite*) ;;
        *) until_so 20 umount "$2/$1" || umount -l "$2/$1" ;;
    esac
    rm -rf "${2:?}/$1" "$2/$1.image" "$2/$1.image.nvram"
}

# once KIND BASE WORK COUNT : how many calls a second so many programs get done at once.
once() {
    case $1 in
        sqlite_full | sqlite_normal) python3 "$here/bench/sqlite_clients.py" "$2/$1/database" "$4" "$milliseconds" "${1#sqlite_}" ;;
        *_synced) "$room/clients" "$2/$1" "$4" "$milliseconds" "$3" synced ;;
        *) "$room/clients" "$2/$1" "$4" "$milliseconds" "$3" ;;
    esac
}

# works_of KIND : the works that it does.
works_of() { case $1 in sqlite*) echo commit ;; *) echo "$works" ;; esac; }

# told KIND BASE WORK COUNT : the file of what came out, a line a run.
told() { echo "$room/$1.$(basename "$2").$3.$4.told"; }

kinds='together deferred deferred_synced ext4_synced ext4_sync ext4 sqlite_full sqlite_normal'
for _ in $(seq "$runs"); do
    for base in $bases; do
        for kind in $kinds; do
            if ! begin "$kind" "$base"; then
                echo "not there: $kind in $base" >&2
                continue
            fi
            for work in $(works_of "$kind"); do
                for count in $counts; do
                    once "$kind" "$base" "$work" "$count" >>"$(told "$kind" "$base" "$work" "$count")" || echo "failed: $work on $kind by $count" >&2
                done
            done
            end "$kind" "$base"
        done
    done
done

for base in $bases; do
    echo "Calls a second, $([ "$base" = "$room" ] && echo 'in memory' || echo 'on a disk')"
    echo
    printf '| | durable | work |'
    # shellcheck disable=SC2086 # These are words.
    printf ' %s at once |' $counts
    printf ' 64 for 1 |\n|---|---|---|---|---|---|---|---|\n'
    for kind in $kinds; do
        for work in $(works_of "$kind"); do
            printf '| %s | %s |' "$(title "$kind")" "$work"
            for count in $counts; do printf ' %s |' "$(median <"$(told "$kind" "$base" "$work" "$count")")"; done
            first=$(median <"$(told "$kind" "$base" "$work" 1)")
            last=$(median <"$(told "$kind" "$base" "$work" 64)")
            awk -v first="${first:-0}" -v last="${last:-0}" 'BEGIN { printf " %.1f |\n", first ? last / first : 0 }'
        done
    done
    echo
done

# ---- lines of a shell

lines=2000
awk -v count="$lines" 'BEGIN { for (i = 0; i < count; i++) print "mkdir /d" i }' >"$room/mkdir.lines"
awk -v count="$lines" 'BEGIN {
    while (i++ < 100) data = data "61"
    print "open /file rwc"
    for (i = 1; i < count; i++) print "pwrite 0 " 100 * i " " data
}' >"$room/pwrite.lines"

# shelled WAY OPTION BASE KIND : how many such lines a second a new image's shell answers: each asked when the one before it is answered, or all
# sent at once through a pipe.
shelled() {
    "$program" make "$3/shell.disk" "$3/shell.nvram" --force --blocks 64M --inodes 8k --half 8M 2>/dev/null || return 1
    # One word, or none.
    # shellcheck disable=SC2086
    if [ "$1" = asked ]; then
        took=$(python3 "$here/bench/lines.py" ask "$room/$4.lines" "$wafl" shell "$3/shell.disk" "$3/shell.nvram" $2)
    else
        from=$(date +%s.%N)
        # shellcheck disable=SC2002 # A pipe is meant.
        cat "$room/$4.lines" | "$wafl" shell "$3/shell.disk" "$3/shell.nvram" $2 >"$room/replies" 2>/dev/null
        took=$(echo "$from $(date +%s.%N)" | awk '{ print $2 - $1 }')
        [ "$(grep -cE '^(ok|fd 0|wrote 100)$' "$room/replies")" -eq "$lines" ] || return 1
    fi
    awk -v count="$lines" -v took="$took" 'BEGIN { printf "%.0f\n", count / (took > 0.001 ? took : 0.001) }'
}

for _ in $(seq "$runs"); do
    for base in $bases; do
        for way in asked: sent: sent:--together asked:--deferred sent:--deferred; do
            for kind in mkdir pwrite; do
                shelled "${way%%:*}" "${way#*:}" "$base" "$kind" >>"$(told "$way" "$base" "$kind" lines)" || echo "failed: $kind lines, $way" >&2
            done
        done
        rm -f "$base/shell.disk" "$base/shell.nvram"
    done
done
for base in $bases; do
    echo "Lines a second of a shell, $([ "$base" = "$room" ] && echo 'in memory' || echo 'on a disk')"
    echo
    printf '| wafl shell | durable | mkdir | pwrite of 100 bytes |\n|---|---|---|---|\n'
    for way in asked: sent: sent:--together asked:--deferred sent:--deferred; do
        printf '| %s, %s | %s |' "${way#*:}" "${way%%:*}" "$(case $way in *--deferred) echo no ;; *) echo yes ;; esac)" | sed 's/^| , /| /'
        for kind in mkdir pwrite; do printf ' %s |' "$(median <"$(told "$way" "$base" "$kind" lines)")"; done
        echo
    done
    echo
done
