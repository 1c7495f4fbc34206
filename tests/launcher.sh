#!/bin/sh
# Tries `wafl mount` with every way to begin and to end, as root, who is to run it, and as the user nobody.
#
#   sh tests/launcher.sh PROGRAM [CASE..]      all cases, or these
#
# PROGRAM is a build of the program; the launcher is that of this repository, installed into a folder of its own in /dev/shm. Prints a line
# for each case, and ends with 1 where one failed. Takes a minute or two. While it runs, /dev/fuse is open to all, and a line is
# added to /etc/fstab and a link to /sbin, for the cases about them; all is as before at the end.
# shellcheck disable=SC2317 # Cases are called by their names.
set -u
if [ "$#" -lt 1 ]; then
    echo 'usage: sh tests/launcher.sh PROGRAM [CASE..]' >&2
    exit 1
fi
here=$(dirname "$(dirname "$(readlink -f "$0")")")
. "$here/tests/placing.sh"
program=$(readlink -f "$1")
shift
room=$(mktemp -d /dev/shm/wafl-launcher.XXXXXX) || exit 1
chmod 755 "$room"
place_program "$program" "$room/prefix" || exit 1
wafl=$room/prefix/bin/wafl
serving=$room/prefix/libexec/wafl/wafl
# Interrupts reach a command in the background of a script only so.
heard='env --default-signal=HUP,INT,QUIT,TERM'
device_mode=$(stat -c %a /dev/fuse)

# end_all : leaves nothing behind.
end_all() {
    clear_mounts
    chmod "$device_mode" /dev/fuse
    [ ! -e "$room/fstab" ] || cp "$room/fstab" /etc/fstab
    [ "$(readlink /sbin/mount.wafl)" != "$room/prefix/sbin/mount.wafl" ] || rm /sbin/mount.wafl
    rm -rf "$room"
}
trap 'end_all' EXIT
trap 'exit 130' INT
trap 'exit 143' TERM HUP

# clear_mounts : unmounts whatever a case left; the servers end by that.
clear_mounts() {
    grep -F " $room/" /proc/self/mountinfo | cut -d ' ' -f 5 | tac | while read -r place; do umount -l "$(printf '%b' "$place")"; done
}

# fails WHY : ends the case.
fails() {
    echo "FAILED $case: $1"
    [ ! -s "$room/told" ] || sed 's/^/    /' "$room/told"
    exit 1
}

# skips WHY : ends the case.
skips() {
    echo "skipped $case: $1"
    exit 3
}

# fresh : a new empty image, and an empty folder, in a new place.
fresh() {
    place=$room/$case
    rm -rf "$place"
    mkdir -p "$place/folder"
    cd "$place" || exit 1
    "$program" make disk nvram --new --blocks 4M --inodes 1k --half 128k || fails 'no image was made'
}

# begin WORD.. : starts the launcher, and waits until it says that the folder is there.
begin() {
    # Before anybody looks into it.
    : >"$room/told"
    # Words.
    # shellcheck disable=SC2086
    $heard ${as_user-} "$wafl" mount "$@" >"$room/out" 2>"$room/told" &
    launcher=$!
    until_so 20 grep -q 'shows the image' "$room/told" || fails 'the folder is not there'
}

# refused STATUS TEXT WORD.. : the launcher ends with the status, says the text, and mounts nothing.
refused() {
    wanted=$1
    text=$2
    shift 2
    before=$(grep -c fuse.wafl /proc/self/mountinfo)
    # shellcheck disable=SC2086
    timeout 30 ${as_user-} "$wafl" mount "$@" >"$room/out" 2>"$room/told"
    status=$?
    [ "$status" -eq "$wanted" ] || fails "it ended with $status, and not $wanted"
    says "$text"
    [ "$(grep -c fuse.wafl /proc/self/mountinfo)" -eq "$before" ] || fails 'something is mounted'
}

# says TEXT : the launcher said so.
says() { grep -qF -e "$1" "$room/told" || fails "nobody said: $1"; }

# is_gone PROCESS : whether it has ended.
is_gone() { ! kill -0 "$1" 2>/dev/null; }

# ended STATUS : the launcher ends, with this status, and nothing is mounted on the folder.
ended() {
    stays "$1"
    ! is_mounted folder || fails 'the folder is mounted'
}

# stays STATUS : the launcher ends, with this status.
stays() {
    until_so 20 is_gone "$launcher" || fails 'the launcher has not ended'
    wait "$launcher"
    status=$?
    [ "$status" -eq "$1" ] || fails "the launcher ended with $status, and not $1"
}

# is_mounted FOLDER : whether anything is mounted there.
is_mounted() { mountpoint -q "$1" || LC_ALL=C stat -f "$1" 2>&1 | grep -q 'not connected'; }

# server : the process that serves.
server() { pgrep -P "$launcher" -f "^$serving serve "; }

# asker SERVER : the process beside it that asks the folder, where it is served deferred.
asker() { pgrep -f "python3 $room/prefix/libexec/wafl/ask_folder.py $1 "; }

# is_whole : the check finds no fault, once the server has ended.
is_whole() { "$program" check --wait=10 disk nvram >"$room/out" 2>&1 || fails "check: $(cat "$room/out")"; }

# holds NAME TEXT : the file in the folder has this text.
holds() { [ "$(cat "folder/$1" 2>&1)" = "$2" ] || fails "$1 holds: $(cat "folder/$1" 2>&1)"; }

words() {
    for asked in --help -h; do
        "$wafl" mount "$asked" >"$room/out" || fails "$asked ends with $?"
        cmp -s "$room/out" "$here/build/help/mount.txt" || fails "$asked prints something else"
    done
    for bad in '' 'disk nvram' 'disk nvram folder more' '--fast disk nvram folder' 'disk nvram folder -o'; do
        # shellcheck disable=SC2086 # These are words.
        refused 1 "For more information, try '--help'." $bad
    done
}

unmounted() {
    fresh
    begin disk nvram folder
    says "umount $place/folder ends it"
    says 'owners and times are kept until then only'
    echo one >folder/name && holds name one
    umount folder
    ended 0
    is_whole
    begin disk nvram folder
    holds name one
    umount folder
    ended 0
}

signals() {
    fresh
    for signal in TERM INT HUP; do
        begin disk nvram folder
        echo "$signal" >"folder/$signal"
        kill -s "$signal" "$launcher"
        ended 0
        [ -z "$(ls folder)" ] || fails 'the bare folder has names'
    done
    is_whole
    begin disk nvram folder
    for signal in TERM INT HUP; do holds "$signal" "$signal"; done
    umount folder
    ended 0
}

in_use() {
    fresh
    begin disk nvram folder
    mkfifo pipe
    (cd folder && read -r _ <../pipe && echo late >late && cat late >"$place/seen") &
    user=$!
    sleep 0.2
    kill "$launcher"
    until_so 10 grep -q 'is in use' "$room/told" || fails 'it did not say that the folder is in use'
    ! is_mounted folder || fails 'the folder is still mounted'
    ! is_gone "$launcher" || fails 'the launcher has ended, though somebody uses the folder'
    echo >pipe
    wait "$user"
    [ "$(cat seen)" = late ] || fails 'who had the folder could not use it any more'
    ended 0
    begin disk nvram folder
    holds late late
    umount folder
    ended 0
}

terminal() {
    command -v python3 >/dev/null || skips 'no python3'
    fresh
    for way in interrupt hangup; do
        timeout 30 python3 - "$way" "$wafl" mount disk nvram folder >"$room/told" 2>&1 <<'END' || fails "$way: status $?"
import os, pty, sys, time

# Types ctrl-c at the terminal of the launcher, or closes it.
process, terminal = pty.fork()
if process == 0:
    os.execv(sys.argv[2], sys.argv[2:])
said = b''
while b'kept until then' not in said:
    said += os.read(terminal, 1000)
if sys.argv[1] == 'interrupt':
    os.write(terminal, b'\x03')
else:
    os.close(terminal)
status = os.waitstatus_to_exitcode(os.waitpid(process, 0)[1])
print(said.decode(), status)
sys.exit(status != 0)
END
        until_so 10 not is_mounted folder || fails "$way: the folder is mounted"
    done
    is_whole
}

not_images() {
    fresh
    refused 2 "no such folder" disk nvram nowhere
    refused 2 "not a folder" disk nvram disk
    refused 2 'No such file' disk nothing folder
    refused 2 'the program ended with status 2' nothing nvram folder
    cp disk other
    refused 4 'the program ended with status 4' disk other folder
    refused 1 "'--uid" -o uid=somebody disk nvram folder
    refused 2 'bad option' -o nonsense disk nvram folder
}

within() {
    fresh
    cp disk nvram folder
    refused 2 'lies in folder' folder/disk nvram folder
    refused 2 'lies in folder' disk folder/nvram folder
    ln -s "$place/folder/nvram" link
    ln -s folder other
    refused 2 'lies in other' disk link other
    refused 2 'lies in .' disk nvram .
}

image_in_use() {
    fresh
    mkdir second
    begin disk nvram folder
    first=$launcher
    cp "$room/told" "$room/told.first"
    refused 2 'in use' disk nvram second
    refused 2 'in use: it shows an image already' disk nvram folder
    refused 2 'in use' --wait=1 disk nvram second
    : >"$room/told"
    "$wafl" mount --wait disk nvram second 2>"$room/told" &
    launcher=$!
    sleep 1
    ! is_gone "$launcher" || fails 'it did not wait'
    echo waited >folder/name
    umount folder
    wait "$first" || fails "the first one ended with $?"
    until_so 20 grep -q 'shows the image' "$room/told" || fails 'the second folder is not there'
    [ "$(cat second/name)" = waited ] || fails 'the second folder has another tree'
    umount second
    ended 0
}

told_while_it_waits() {
    fresh
    mkdir second
    begin disk nvram folder
    first=$launcher
    for signal in TERM:143 INT:130; do
        $heard "$wafl" mount --wait disk nvram second 2>"$room/told" &
        launcher=$!
        until_so 10 grep -q "$place/second" /proc/self/mountinfo || fails 'it has not begun'
        kill -s "${signal%:*}" "$launcher"
        stays "${signal#*:}"
        ! is_mounted second || fails 'the second folder is mounted'
    done
    umount folder
    wait "$first" || fails "the first one ended with $?"
}

no_device() {
    fresh
    # The words of another shell.
    # shellcheck disable=SC2016
    unshare -m sh -c 'mount --bind disk /dev/fuse && "$0" mount disk nvram folder' "$wafl" >"$room/told" 2>&1
    status=$?
    says '/dev/fuse is not there'
    [ "$status" -eq 2 ] || fails "it ended with $status"
}

background() {
    fresh
    # The pipe ends only once nobody has it open.
    timeout 20 "$wafl" mount --background disk nvram folder 2>&1 </dev/null | cat >"$room/told"
    says 'shows the image'
    echo one >folder/name || fails 'the folder is not there'
    process=$(pgrep -f "^$serving serve .* $place/disk")
    [ "$(ps -o sid= -p "$process" | tr -d ' ')" = "$process" ] || fails 'the server has no session of its own'
    [ "$(readlink "/proc/$process/cwd")" = / ] || fails 'the server keeps the folder where it was called'
    umount folder
    until_so 10 is_gone "$process" || fails 'the server goes on'
    refused 2 'No such file' --background disk nothing folder
    cp disk other
    refused 4 'the program ended with status 4' --background disk other folder
    is_whole
}

server_killed() {
    fresh
    begin disk nvram folder
    echo one >folder/kept
    # A writer that goes on.
    (
        count=0
        while [ ! -e stop ]; do
            count=$((count + 1))
            echo more >"folder/more.$count"
        done
    ) 2>/dev/null &
    writer=$!
    sleep 0.5
    kill -9 "$(server)"
    stays 137
    says 'the server was killed, by signal 9'
    says 'answers nothing until it is unmounted'
    sleep 0.5
    LC_ALL=C touch folder/new 2>&1 | grep -q 'not connected' || fails 'the folder answers'
    touch stop
    wait "$writer"
    umount folder
    [ -z "$(ls folder)" ] || fails 'names in the bare folder'
    is_whole
    begin disk nvram folder
    holds kept one
    umount folder
    ended 0
}

mounted_anew() {
    fresh
    begin disk nvram folder
    for round in 1 2 3; do
        echo "$round" >folder/round
        kill -9 "$(server)"
        stays 137
        begin disk nvram folder
        holds round "$round"
        [ "$(grep -c " $place/folder " /proc/self/mountinfo)" -eq 1 ] || fails 'the dead mount is still there'
    done
    # Where somebody has the dead one open.
    (cd folder && sleep 2) &
    sleep 0.2
    kill -9 "$(server)"
    stays 137
    begin disk nvram folder
    holds round 3
    umount folder
    ended 0
}

launcher_killed() {
    fresh
    begin disk nvram folder
    process=$(server)
    kill -9 "$launcher"
    wait "$launcher" 2>/dev/null
    echo one >folder/name || fails 'the server ended too'
    umount folder
    until_so 10 is_gone "$process" || fails 'the server goes on'
    begin disk nvram folder
    holds name one
    process=$(server)
    kill -9 "$launcher" "$process"
    wait "$launcher" 2>/dev/null
    begin disk nvram folder
    holds name one
    umount folder
    ended 0
    is_whole
}

other_on_top() {
    fresh
    begin disk nvram folder
    mount -t tmpfs none folder
    kill "$launcher"
    until_so 5 grep -q 'something else is mounted' "$room/told" || fails 'it did not say so'
    umount folder
    ! is_gone "$launcher" || fails 'the launcher has ended'
    kill "$launcher"
    ended 0
}

names() {
    fresh
    for name in 'a b' 'back\slash' 'tab	here' '-dash' 'it'\''s' '*' 'ünder'; do
        mkdir "./$name"
        cp disk "./$name.disk"
        cp nvram "./$name.nvram"
        begin -- "$name.disk" "$name.nvram" "$name"
        echo one >"./$name/file"
        refused 2 'in use: it shows an image already' -- "$name.disk" "$name.nvram" "$name"
        kill -9 "$(server)"
        stays 137
        begin -- "$name.disk" "$name.nvram" "$name"
        [ "$(cat "./$name/file")" = one ] || fails "$name is not there"
        kill "$launcher"
        stays 0
        ! is_mounted "./$name" || fails "$name is mounted"
    done
}

options() {
    fresh
    # What is mounted is called so, whatever has that name here.
    touch image wafl
    begin -o uid=12,gid=34,fsname=image disk nvram folder
    [ "$(stat -c %u:%g folder)" = 12:34 ] || fails "the folder is that of $(stat -c %u:%g folder)"
    line=$(grep " $place/folder " /proc/self/mountinfo)
    for option in nosuid nodev noatime default_permissions allow_other 'fuse.wafl image '; do
        case $line in *"$option"*) ;; *) fails "the mount has no $option: $line" ;; esac
    done
    umount folder
    ended 0
    begin disk nvram folder -o ro
    grep " $place/folder " /proc/self/mountinfo | grep -q 'fuse.wafl wafl ' || fails 'the mount is not called wafl'
    LC_ALL=C touch folder/name 2>&1 | grep -q 'Read-only' || fails 'ro can be written'
    umount folder
    ended 0
}

# asks_while OPTION.. : with these options somebody asks beside the server, and no more once that has ended.
asks_while() {
    begin "$@" disk nvram folder
    says 'deferred: a power cut or a kill may lose'
    process=$(server)
    until_so 10 asker "$process" || fails 'nobody asks'
    mkdir folder/name && rmdir folder/name
    umount folder || fails 'it is in use'
    ended 0
    until_so 5 not asker "$process" || fails 'who asks goes on'
}

deferred() {
    fresh
    asks_while --deferred=50
    asks_while --deferred
    asks_while -o deferred
    asks_while -o uid=12,deferred=20
    for bad in 0 x -1 ''; do refused 1 "'--deferred" "--deferred=$bad" disk nvram folder; done
    refused 1 "'--deferred" -o deferred=0 disk nvram folder
    is_whole
    begin disk nvram folder
    ! asker "$(server)" || fails 'somebody asks a folder that is not deferred'
    umount folder
    ended 0
}

# read_by SERVER : how many bytes it has read.
read_by() { sed -n 's/^rchar: //p' "/proc/$1/io"; }

deferred_and_idle() {
    fresh
    begin --deferred=50 disk nvram folder
    process=$(server)
    until_so 10 asker "$process" || fails 'nobody asks'
    mkdir folder/name
    sleep 0.5
    idle=$(read_by "$process")
    sleep 0.5
    [ "$(read_by "$process")" = "$idle" ] || fails 'an idle folder is asked'
    mkdir folder/other
    sleep 0.3
    [ $(($(read_by "$process") - idle)) -gt 150 ] || fails 'it is not asked behind a call'
    kill -9 "$process"
    stays 137
    says 'what it answered is kept, but for the last of it'
    until_so 5 not asker "$process" || fails 'who asks goes on'
    begin disk nvram folder
    [ -d folder/other ] || fails 'a call is lost that was made long before the kill'
    umount folder
    ended 0
}

deferred_never_in_use() {
    fresh
    for _ in $(seq 20); do
        begin --deferred=10 disk nvram folder
        until_so 10 asker "$(server)" || fails 'nobody asks'
        rm -rf folder/part
        cp -r "$here/build" folder/part
        umount folder || fails 'it is in use'
        ended 0
    done
    is_whole
}

deferred_in_use() {
    fresh
    begin --deferred=50 disk nvram folder
    process=$(server)
    mkfifo pipe
    (cd folder && read -r _ <../pipe && mkdir late && sleep 1) &
    user=$!
    sleep 0.2
    kill "$launcher"
    until_so 10 grep -q 'is in use' "$room/told" || fails 'it did not say that the folder is in use'
    echo >pipe
    sleep 0.5
    # Though the folder is seen nowhere.
    kill -9 "$process"
    wait "$user"
    stays 137
    begin disk nvram folder
    [ -d folder/late ] || fails 'a call is lost that was made long before the kill'
    umount folder
    ended 0
}

deferred_background() {
    fresh
    timeout 20 "$wafl" mount --background --deferred disk nvram folder 2>&1 </dev/null | cat >"$room/told"
    says 'deferred: a power cut or a kill may lose'
    says 'shows the image'
    process=$(pgrep -f "^$serving serve .* $place/disk")
    until_so 10 asker "$process" || fails 'nobody asks'
    asking=$(asker "$process")
    [ "$(ps -o sid= -p "$asking" | tr -d ' ')" = "$asking" ] || fails 'who asks has no session of its own'
    [ "$(readlink "/proc/$asking/cwd")" = / ] || fails 'who asks keeps the folder where it was called'
    echo one >folder/name
    umount folder || fails 'it is in use'
    until_so 10 is_gone "$process" || fails 'the server goes on'
    until_so 5 is_gone "$asking" || fails 'who asks goes on'
    is_whole
}

shell_deferred() {
    command -v python3 >/dev/null || skips 'no python3'
    fresh
    awk 'BEGIN {
        for (i = 0; i < 60000; i++) data = data "61"
        print "open /f rwc"
        for (i = 0; i < 30; i++) print "pwrite 0 " i * 1000 " " data
        printf "stat /f"
    }' >lines
    cp disk other.disk
    cp nvram other.nvram
    "$program" shell other.disk other.nvram <lines >wanted 2>&1
    # In parts that begin and end amid lines, with pauses in which empty lines come.
    { head -c 50000 lines; sleep 0.3; tail -c +50001 lines | head -c 1500000; sleep 0.3; tail -c +1550001 lines; } |
        "$wafl" shell --deferred=20 disk nvram >found 2>&1 || fails "it ends with $?"
    cmp -s wanted found || fails "other replies: $(head -c 300 found)"
    "$wafl" shell --deferred disk nvram <lines >found 2>&1 || fails "it ends with $?, of a file"
    "$wafl" shell --deferred disk nothing </dev/null >found 2>&1
    [ $? -eq 2 ] || fails 'it ends otherwise without an NVRAM'
    echo | "$wafl" shell --deferred disk nothing >found 2>&1
    [ $? -eq 2 ] || fails 'it ends otherwise without an NVRAM, behind a pipe'
    for bad in 0 x ''; do
        echo | "$wafl" shell "--deferred=$bad" disk nvram >found 2>&1
        [ $? -eq 1 ] || fails "--deferred=$bad is taken"
    done
    mkfifo pipe
    "$wafl" shell --deferred=50 disk nvram <pipe >found 2>&1 &
    launcher=$!
    exec 7>pipe
    printf 'mkdir /a\nmkd' >&7
    until_so 10 grep -q ok found || fails 'no reply'
    sleep 0.3
    kill -9 "$(pgrep -P "$launcher")"
    stays 137
    exec 7>&-
    [ "$("$program" 'do' disk nvram list /)" = 'names a f' ] || fails 'a line is lost that was answered long before the kill'
    is_whole
}

# fstab LINE : a line more in /etc/fstab, in place of that of another case.
fstab() {
    [ -e "$room/fstab" ] || cp /etc/fstab "$room/fstab"
    { cat "$room/fstab"; echo "$1"; } >/etc/fstab
}

fstab_mount_wafl() {
    fresh
    [ ! -e /sbin/mount.wafl ] || skips '/sbin/mount.wafl is there'
    ln -s "$room/prefix/sbin/mount.wafl" /sbin/mount.wafl
    fstab "$place/disk:$place/nvram $place/folder wafl defaults,uid=12,nofail 0 0"
    for _ in 1 2 3; do
        mount folder >"$room/told" 2>&1 || fails "mount ends with $?"
        mount -a >"$room/told" 2>&1 || fails "mount -a, where it is mounted, ends with $?"
        [ "$(stat -c %u folder)" = 12 ] || fails 'uid was not taken'
        echo one >folder/name && holds name one
        umount folder || fails "umount ends with $?"
    done
    fstab "$place/disk:$place/nvram $place/folder wafl defaults,uid=12,nofail,deferred=50 0 0"
    mount folder >"$room/told" 2>&1 || fails "mount ends with $?, deferred"
    until_so 10 asker "$(pgrep -f "^$serving serve .*--deferred=50 .* $place/disk")" || fails 'nobody asks'
    umount folder || fails 'it is in use'
    mv nvram away
    ! mount folder >"$room/told" 2>&1 || fails 'an image without its NVRAM was mounted'
    says 'No such file'
    ! is_mounted folder || fails 'the folder is mounted'
    mv away nvram
    rm /sbin/mount.wafl
    cp "$room/fstab" /etc/fstab
    is_whole
}

fstab_fuse3() {
    fresh
    [ -e /sbin/mount.fuse3 ] || skips 'no mount.fuse3, of the package fuse3'
    fstab "$room/prefix/libexec/wafl/device#$place/disk:$place/nvram $place/folder fuse3 drop_privileges,subtype=wafl,allow_other,default_permissions,uid=12 0 0"
    for _ in 1 2 3; do
        mount folder >"$room/told" 2>&1 || fails "mount ends with $?"
        [ "$(stat -c %u folder)" = 12 ] || fails 'uid was not taken'
        echo one >folder/name && holds name one
        umount folder || fails "umount ends with $?"
    done
    fstab "$room/prefix/libexec/wafl/device#$place/disk:$place/nvram $place/folder fuse3 drop_privileges,subtype=wafl,allow_other,default_permissions,deferred=50 0 0"
    mount folder >"$room/told" 2>&1 || fails "mount ends with $?, deferred"
    process=$(pgrep -f "^$serving serve .*--deferred=50 .* $place/disk")
    until_so 10 asker "$process" || fails 'nobody asks'
    mkdir folder/deferred
    sleep 0.5
    kill -9 "$process"
    umount folder
    mount folder || fails "mount ends with $?, behind a kill"
    [ -d folder/deferred ] || fails 'a call is lost that was made long before the kill'
    umount folder || fails 'it is in use'
    mv nvram away
    ! mount folder >"$room/told" 2>&1 || fails 'an image without its NVRAM was mounted'
    says 'No such file'
    # mount.fuse3 has mounted it before.
    umount folder || fails "umount ends with $?"
    mv away nvram
    cp "$room/fstab" /etc/fstab
    is_whole
}

# for_user : has what follows run as nobody, in a place that is its own.
for_user() {
    command -v fusermount3 >/dev/null || skips 'no fusermount3, of the package fuse3'
    chmod 666 /dev/fuse
    fresh
    chown -R nobody:nogroup .
    as_user='setpriv --reuid=nobody --regid=nogroup --clear-groups env PATH=/usr/bin:/bin'
}

user_unmounted() {
    for_user
    begin disk nvram folder
    says "fusermount3 -u $place/folder ends it"
    $as_user sh -c 'echo one >folder/name && cat folder/name' >"$room/out" 2>&1
    [ "$(cat "$room/out")" = one ] || fails "nobody can't write: $(cat "$room/out")"
    [ "$($as_user stat -c %U:%G folder/name)" = nobody:nogroup ] || fails 'the file is not its maker'\''s'
    # Without allow_other even root is kept out.
    ! ls folder >/dev/null 2>&1 || fails 'root sees it without allow_other'
    $as_user fusermount3 -u folder || fails 'nobody can'\''t unmount it'
    ended 0
    is_whole
}

user_signals() {
    for_user
    for signal in TERM INT HUP; do
        begin disk nvram folder
        kill -s "$signal" "$launcher"
        ended 0
    done
    begin disk nvram folder
    $as_user sh -c 'cd folder && sleep 2' &
    sleep 0.5
    kill "$launcher"
    ended 0
    says 'is in use'
    # Words.
    # shellcheck disable=SC2086
    timeout 20 $as_user "$wafl" mount --background disk nvram folder 2>&1 | cat >"$room/told"
    says 'shows the image'
    $as_user touch folder/name || fails 'the folder is not there'
    $as_user fusermount3 -u folder
    is_whole
}

user_server_killed() {
    for_user
    begin disk nvram folder
    $as_user sh -c 'echo one >folder/name'
    kill -9 "$(server)"
    stays 137
    says 'answers nothing until it is unmounted (fusermount3 -u '
    begin disk nvram folder
    [ "$($as_user cat folder/name)" = one ] || fails 'the file is not there'
    $as_user fusermount3 -u folder
    ended 0
    is_whole
}

user_deferred() {
    for_user
    begin --deferred=50 disk nvram folder
    process=$(server)
    until_so 10 asker "$process" || fails 'nobody asks'
    $as_user mkdir folder/name
    sleep 0.5
    kill -9 "$process"
    stays 137
    begin disk nvram folder
    $as_user [ -d folder/name ] || fails 'a call is lost that was made long before the kill'
    $as_user fusermount3 -u folder
    ended 0
}

user_refused() {
    for_user
    refused 2 'No such file' disk nothing folder
    chown root:root folder
    refused 2 'see what fusermount3 said' disk nvram folder
    chown nobody folder
    chmod 600 /dev/fuse
    refused 2 "/dev/fuse can't be opened" disk nvram folder
    chmod 666 /dev/fuse
    for missing in fusermount3:'package fuse3' python3:'needs python3'; do
        mkdir "without.${missing%%:*}"
        ln -s /usr/bin/* /bin/* "without.${missing%%:*}" 2>/dev/null
        rm "without.${missing%%:*}/${missing%%:*}"
        as_user="setpriv --reuid=nobody --regid=nogroup --clear-groups env PATH=$place/without.${missing%%:*}"
        refused 2 "${missing#*:}" disk nvram folder
    done
}

# not COMMAND.. : whether the command fails.
not() { ! "$@"; }

[ "$(id -u)" = 0 ] || { echo 'FAILED: only root can try it'; exit 1; }
[ "$#" -gt 0 ] || set -- words unmounted signals in_use terminal not_images within image_in_use told_while_it_waits no_device background \
    server_killed mounted_anew launcher_killed other_on_top names options deferred deferred_and_idle deferred_never_in_use \
    deferred_in_use deferred_background shell_deferred fstab_mount_wafl fstab_fuse3 user_unmounted user_signals user_server_killed \
    user_deferred user_refused
failed=0
for case; do
    : >"$room/told"
    ("$case")
    case $? in
        0) echo "ok $case" ;;
        3) ;;
        *) failed=1 ;;
    esac
    clear_mounts
done
exit $failed
