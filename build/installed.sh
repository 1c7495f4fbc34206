#!/bin/sh
# Runs the installed program. `mount` is a word of this script: `wafl mount --help` tells of it.
set -u
home=$(dirname "$(dirname "$(readlink -f "$0")")")/libexec/wafl
own_helps=$home/help
beside=$home
# shellcheck source=build/words.sh
. "$home/words.sh"
# shellcheck source=build/interrupts.sh
. "$home/interrupts.sh"
# shellcheck source=build/mounting.sh
. "$home/mounting.sh"
[ "${1-}" != mount ] || answer_own "$@"
[ ! -e "$home/unproved" ] || echo 'wafl: this build is not proved' >&2
run "$home/wafl" "$@"
