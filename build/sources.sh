# What the program is built from, and what both ways of building it share: sourced by the script `wafl`.
# shellcheck disable=SC2154 # The script has set $root, the folder of the repository.

# below NAME : the crates of this repository that the crate NAME stands on, lowest first as crates.txt has them, and NAME itself.
below() {
    awk -F: -v top="$1" '
        /^[a-z]/ { count++; name[count] = $1; sub(/ .*/, "", name[count]); below[count] = $2 }
        END {
            needed[top] = 1
            for (i = count; i > 0; i--)
                if (name[i] in needed) { split(below[i], words, " "); for (j in words) needed[words[j]] = 1 }
            for (i = 1; i <= count; i++)
                if (name[i] in needed) print name[i]
        }' "$root/crates.txt"
}

# lines_of NAMES : the lines of these crates in crates.txt.
lines_of() {
    for crate in $1; do grep "^${crate}[ :]" "$root/crates.txt"; done
}

# sum_of NAME PART.. : a checksum of the crate NAME and those below it: their lines of crates.txt, and the names and contents of all
# files in these parts of their folders.
sum_of() (
    crates=$(below "$1")
    shift
    cd "$root/crates" || exit 1
    folders=
    for crate in $crates; do
        for part; do
            [ ! -d "$crate/$part" ] || folders="$folders $crate/$part"
        done
    done
    {
        lines_of "$crates"
        # Words without blanks.
        # shellcheck disable=SC2086
        find $folders -type f | LC_ALL=C sort | tr '\n' '\0' | xargs -0 cksum
    } | cksum
)

# locked FILE WHAT : holds the lock FILE from here on, and says so where it first has to wait for another call.
locked() {
    mkdir -p "$(dirname "$1")" && exec 9>"$1" || exit 70
    if ! flock -n 9; then
        echo "wafl: another call $2; this one waits for it" >&2
        flock 9 || exit 70
    fi
}

# unlock : lets the lock go.
unlock() { exec 9>&-; }

# under COMMAND.. : runs the command in this subshell, and ends it where the subshell is told to end, which then goes on behind the call.
# A command in the background doesn't hear an interrupt of the terminal by itself.
under() {
    trap 'kill "$command" 2>/dev/null' TERM
    "$@" &
    command=$!
    while kill -0 "$command" 2>/dev/null; do
        wait "$command"
        status=$?
    done
    return "$status"
}
