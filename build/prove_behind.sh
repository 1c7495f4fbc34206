#!/bin/sh
# Proves and builds the program in the background; the script `wafl` starts it. What it says goes to a log.
set -u

root=$(dirname "$(dirname "$(readlink -f "$0")")")
out=$root/crates/wafl/out
. "$root/build/sources.sh"
. "$root/build/proved.sh"
. "$root/build/background.sh"

# Where the kernel shares processors among sessions, this one has a priority of its own.
{ echo 19 >/proc/$$/autogroup; } 2>/dev/null
cd "$root" && mkdir -p "$out" || exit 70
# One at most waits here for another's end.
exec 7>"$out/next"
flock -n 7 || exit 0
exec 9>"$out/lock"
# A call that looks whether somebody proves has the lock for a moment.
if ! flock -w 2 9; then
    # What is proved there may be older sources.
    if is_for "$proving" || ! is_behind; then exit 0; fi
    end_behind
    flock 9 || exit 70
fi
exec 7>&- >"$log" 2>&1
is_held || build_proved background
