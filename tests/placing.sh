# What the tests of a mounted folder share: sourced by them.
# shellcheck shell=sh disable=SC2154 # The script has set $here, the folder of the repository.

# place_program PROGRAM FOLDER : installs the launcher with this program below the folder, as `wafl install` does.
place_program() (
    root=$here
    program=$1
    base=$2
    unproved=
    new=
    . "$here/build/install.sh"
    place_all
)

# until_so SECONDS COMMAND.. : waits until the command succeeds, so many seconds at most.
until_so() {
    left=$(($1 * 20))
    shift
    until "$@" >/dev/null 2>&1; do
        left=$((left - 1))
        [ "$left" -gt 0 ] || return 1
        sleep 0.05
    done
}
