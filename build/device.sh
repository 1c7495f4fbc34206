#!/bin/sh
# device DISK:NVRAM /dev/fd/N [-o OPTIONS]: what mount.fuse3, of the package fuse3, calls for a line of fstab, where /usr/local is the
# PREFIX that this was installed into:
#
#   /usr/local/libexec/wafl/device#/srv/disk:/srv/nvram  /mnt  fuse3  drop_privileges,subtype=wafl,allow_other,default_permissions  0  0
#
# The folder is mounted already, and N is the kernel's device.
set -u
home=$(dirname "$(readlink -f "$0")")
device=${2-}
device=${device#/dev/fd/}
case $device in
    [0-9]) ;;
    *)
        echo "wafl: not served: ${2-} is not /dev/fd/N; the line of fstab needs the option drop_privileges" >&2
        exit 2
        ;;
esac
uid=0
gid=0
deferred=
parted=$IFS
IFS=,
for option in ${4-}; do
    case $option in
        uid=*) uid=${option#*=} ;;
        gid=*) gid=${option#*=} ;;
        deferred | deferred=*) deferred=--$option ;;
    esac
done
IFS=$parted
disk=${1%%:*}
nvram=${1#*:}
# An image that can't be mounted is told of here: once this script has ended, nobody hears the server. One that was unmounted just now is
# waited for.
"$home/wafl" df --wait=10 "$disk" "$nvram" >/dev/null || exit
[ "$device" = 3 ] || eval "exec 3<&$device $device<&-"
connection=
if [ -n "$deferred" ]; then
    connection=$(sed -n 's/^fuse_connection:[^0-9]*//p' /proc/self/fdinfo/3)
    if [ -z "$connection" ] || ! command -v python3 >/dev/null; then
        echo 'wafl: not served: -o deferred needs python3, and a kernel that tells whose a device is, or a line of fstab of the type wafl' >&2
        exit 2
    fi
    # shellcheck source=build/interrupts.sh
    . "$home/interrupts.sh"
fi
# One word, or none.
# shellcheck disable=SC2086
setsid "$home/wafl" serve --wait=10 $deferred --uid "$uid" --gid "$gid" -- "$disk" "$nvram" <&3 >&3 3<&- 2>/dev/null &
[ -z "$deferred" ] || setsid python3 "$home/ask_folder.py" $! "0:$connection" "$(bound_of "$deferred")" 3<&- >/dev/null 2>&1 &
