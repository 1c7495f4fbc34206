# The word `mount`: sourced by the script `wafl`, and by the one that `wafl install` installs, behind interrupts.sh.
# shellcheck disable=SC2154 # The script has set $beside, the folder of user_mount.py and ask_folder.py.

# mount_folder PROGRAM mount WORD.. : serves an image as a folder, and ends the script with the program's status. The words were judged
# already.
mount_folder() {
    read_words "$@"
    see_folder
    see_outside "$disk"
    see_outside "$nvram"
    see_able
    start_serving
    if ! is_there; then give_up; fi
    is_serving=1
    # One that came just before that.
    [ -z "$signal" ] || give_up
    say_there
    [ -z "$deferred" ] || start_asking
    [ -z "$background" ] || exit 0
    watch_server
}

# read_words PROGRAM mount WORD.. : learns what is asked for.
read_words() {
    program=$1
    shift 2
    disk=
    nvram=
    folder=
    options=
    background=
    waiting=
    deferred=
    is_open=1
    while [ "$#" -gt 0 ]; do
        case $is_open$1 in
            1--) is_open=0 ;;
            1-o)
                options=$2
                shift
                ;;
            1--background) background=1 ;;
            1--wait | 1--wait=*) waiting=$1 ;;
            1--deferred | 1--deferred=*) deferred=$1 ;;
            *) read_place "$1" ;;
        esac
        shift
    done
    read_options
    # The server lets go of the folder in which it was called.
    [ -z "$background" ] || { disk=$(absolute "$disk") && nvram=$(absolute "$nvram"); }
}

# read_place WORD : the next of DISK, NVRAM and FOLDER.
read_place() {
    if [ -z "$disk" ]; then
        disk=$1
    elif [ -z "$nvram" ]; then
        nvram=$1
    else
        folder=$1
    fi
}

# absolute PATH : the path from the root.
absolute() {
    case $1 in
        /*) printf '%s\n' "$1" ;;
        *) printf '%s\n' "$PWD/$1" ;;
    esac
}

# read_options : parts the options in those for the program or for the name of the mount, and those for the kernel.
read_options() {
    uid=$(id -u)
    gid=$(id -g)
    source=wafl
    for_kernel=
    parted=$IFS
    IFS=,
    set -f
    for option in $options; do
        case $option in
            uid=*) uid=${option#*=} ;;
            gid=*) gid=${option#*=} ;;
            fsname=*) source=${option#*=} ;;
            deferred | deferred=*) deferred=--$option ;;
            *) for_kernel=$for_kernel,$option ;;
        esac
    done
    set +f
    IFS=$parted
}

# refuse_mount TEXT : says why nothing was mounted, and ends the script.
refuse_mount() {
    echo "wafl: not mounted: $1" >&2
    exit 2
}

# is_root : whether mount(8) may be asked, and not fusermount3 has to be.
is_root() { [ "$(id -u)" = 0 ]; }

# on_top : the number of the mount that is seen in the folder, if it is one of ours.
on_top() {
    FOLDER=$folder awk '
        BEGIN {
            folder = ENVIRON["FOLDER"]
            # As the kernel spells these.
            gsub(/\\/, "\\\\134", folder); gsub(/ /, "\\\\040", folder); gsub(/\t/, "\\\\011", folder)
        }
        $5 == folder { id = / - fuse\.wafl / ? $1 : "" }
        END { print id }' /proc/self/mountinfo
}

# is_mounted ID : whether there still is a mount of this number.
is_mounted() { awk -v id="$1" '$1 == id { is_there = 1 } END { exit !is_there }' /proc/self/mountinfo; }

# unmount [lazily] : takes away what is mounted on the folder; lazily, once nobody uses it any more.
unmount() {
    if is_root; then
        umount ${1:+-l} "$folder"
    else
        fusermount3 -u ${1:+-z} -- "$folder"
    fi
}

# way_to_unmount : the command to type.
way_to_unmount() { if is_root; then echo "umount $folder"; else echo "fusermount3 -u $folder"; fi; }

# see_folder : ends the script unless something can be mounted on the folder. What a killed server left there is unmounted.
see_folder() {
    given=$folder
    folder=$(readlink -f -- "$given") || refuse_mount "$given: no such folder; make it first"
    while [ -n "$(on_top)" ]; do
        # What the kernel can't answer from its memory.
        case $(LC_ALL=C stat -f -- "$folder" 2>&1 >/dev/null) in
            *'not connected'*) unmount 2>/dev/null || unmount lazily || refuse_mount "$given: what a killed server left can't be unmounted" ;;
            *) refuse_mount "$given: in use: it shows an image already ($(way_to_unmount) ends that)" ;;
        esac
    done
    [ -e "$folder" ] || refuse_mount "$given: no such folder; make it first"
    [ -d "$folder" ] || refuse_mount "$given: not a folder"
}

# see_outside FILE : ends the script where a file of the image lies in the folder: each request would ask for itself.
see_outside() {
    case $(readlink -f -- "$1") in
        "${folder%/}"/*) refuse_mount "$1: it lies in $given, and would be covered by it; move it, or take another folder" ;;
    esac
}

# see_able : ends the script where what has to be asked isn't there.
see_able() {
    [ -c /dev/fuse ] || refuse_mount '/dev/fuse is not there; modprobe fuse, as root, makes it where the kernel has it'
    if ! is_root; then
        command -v fusermount3 >/dev/null || refuse_mount 'who is not root needs fusermount3, of the package fuse3'
        command -v python3 >/dev/null || refuse_mount 'who is not root needs python3'
    fi
    [ -z "$deferred" ] || command -v python3 >/dev/null || refuse_mount '--deferred needs python3'
    if ! (: <>/dev/fuse) 2>/dev/null; then refuse_mount "/dev/fuse can't be opened; chmod 666 /dev/fuse, as root, lets everybody"; fi
}

# start_serving : mounts the folder, and starts the program for it.
start_serving() {
    before=$(on_top)
    messages=
    [ -z "$background" ] || messages=$(mktemp) || exit 2
    server=
    signal=
    is_serving=
    trap 'hear 129' HUP
    trap 'hear 130' INT
    trap 'hear 143' TERM
    if [ -n "$background" ]; then
        (cd / && serve) 2>"$messages" &
    else
        serve &
    fi
    server=$!
    # A signal that came before that.
    [ -z "$signal" ] || kill "$server" 2>/dev/null
}

# hear STATUS : a signal, that of this status, ends the server that isn't there yet, and later on unmounts the folder.
hear() {
    signal=$1
    heard=1
    if [ -n "$is_serving" ]; then
        end_folder
    elif [ -n "$server" ]; then
        kill "$server" 2>/dev/null
    fi
}

# serve : mounts the folder with a device that nobody else has open, and becomes the program, in a session of its own: an interrupt of
# the terminal is for the script, which unmounts the folder then.
serve() {
    # Set-id bits aren't obeyed: who made a file isn't kept, so a program that somebody marked so would run as who mounts it next.
    own=default_permissions,max_read=1048576,noatime,nosuid,nodev
    # One word each, or none.
    # shellcheck disable=SC2086
    set -- "$program" serve $waiting $deferred --uid "$uid" --gid "$gid" -- "$disk" "$nvram"
    if ! is_root; then
        exec setsid python3 "$beside/user_mount.py" "$folder" "$own,fsname=$source,subtype=wafl$for_kernel" "$@" </dev/null
    fi
    exec 3<>/dev/fuse
    # The source is a name, and no file of this folder.
    told=$(mount -c -i -t fuse.wafl -o "fd=3,rootmode=40000,user_id=0,group_id=0,allow_other,$own$for_kernel" -- "$source" "$folder" 2>&1) ||
        refuse_mount "$told"
    exec setsid "$@" <&3 >&3 3<&-
}

# is_there : whether the folder came to be there; waits until that is known.
is_there() {
    while ours=$(on_top) && [ "$ours" = "$before" ] && kill -0 "$server" 2>/dev/null; do sleep 0.05; done
    # It may have been mounted between that look and the server's end.
    ours=$(on_top)
    [ "$ours" != "$before" ] || return 1
    # What the kernel can't answer from its memory. In the background, so that a signal is heard meanwhile.
    stat -f -- "$folder" >/dev/null 2>&1 &
    await $!
    [ "$status" -eq 0 ] && [ -z "$signal" ]
}

# await PROCESS : waits until it has ended, and sets $status.
await() {
    status=127
    while :; do
        heard=
        # Without the word of the shell on how it ended.
        wait "$1" 2>/dev/null
        ended=$?
        # Nobody knows it: it had ended before a signal came.
        [ "$ended" -eq 127 ] || status=$ended
        [ -n "$heard" ] || return 0
    done
}

# give_up : tells why the folder isn't there, and ends the script.
give_up() {
    kill "$server" 2>/dev/null
    await "$server"
    if [ "$ours" != "$before" ] && [ "$(on_top)" = "$ours" ]; then unmount 2>/dev/null || unmount lazily; fi
    if [ -n "$messages" ]; then
        cat "$messages" >&2
        rm -f "$messages"
    fi
    if [ -n "$signal" ]; then
        status=$signal
    elif [ "$ours" != "$before" ]; then
        echo "wafl: not mounted: the program ended with status $status" >&2
    fi
    exit "$status"
}

# say_there : says that the folder is there.
say_there() {
    if [ -n "$messages" ]; then
        cat "$messages" >&2
        rm -f "$messages"
    fi
    echo "wafl: $folder shows the image; $(way_to_unmount) ends it" >&2
    echo 'wafl: owners and times are kept until then only: what is set is forgotten, and the next mount shows its own user and time' >&2
}

# start_asking : has somebody beside the server see to it that the last call of programs that are silent then doesn't wait for long. The
# server can't wait and listen at once.
start_asking() {
    device=$(awk -v id="$ours" '$1 == id { print $3 }' /proc/self/mountinfo)
    (cd / && exec setsid python3 "$beside/ask_folder.py" "$server" "$device" "$(bound_of "$deferred")") </dev/null >/dev/null 2>&1 &
}

# watch_server : waits until the server ends, and ends the script with its status.
watch_server() {
    await "$server"
    if [ "$status" -ne 0 ]; then
        if [ "$status" -gt 128 ]; then
            echo "wafl: the server was killed, by signal $((status - 128)); what it answered is kept$([ -z "$deferred" ] || echo ', but for the last of it')" >&2
        fi
        # So that no writer goes on in the bare folder below.
        ! is_mounted "$ours" ||
            echo "wafl: $folder answers nothing until it is unmounted ($(way_to_unmount)) or mounted anew (wafl mount)" >&2
    fi
    exit "$status"
}

# end_folder : unmounts the folder, where it is in use once it isn't any more; the server ends then.
end_folder() {
    if [ "$(on_top)" = "$ours" ]; then
        unmount 2>/dev/null && return
        ! unmount lazily ||
            echo "wafl: $folder is in use: nobody finds it any more, and the server ends once those who have it open close it" >&2
    elif is_mounted "$ours"; then
        echo "wafl: something else is mounted on $folder: unmount that first" >&2
    fi
}
