# Runs the program so that an interrupted `put` or `restore` leaves nothing in the image, and so that a `shell` that answers before what it
# did is durable sees time pass: sourced by the script `wafl`, and by the one that `wafl install` installs.
# shellcheck disable=SC2154 # The script has set $beside, the folder of feed_lines.py.

# run PROGRAM WORD.. : becomes the program with these words; of the two commands that store a file's bytes, waits for it; of `shell`, may
# stand before it. `mount` is a word of the script, which then starts the program.
run() {
    case ${2-} in
        mount) mount_folder "$@" ;;
        put | restore) run_storing "$@" ;;
        shell) run_shell "$@" ;;
        *) exec "$@" ;;
    esac
}

# run_shell PROGRAM shell WORD.. : becomes the program; with --deferred becomes what hands it the lines, and empty ones where none come,
# unless they stand in a file, where they come at once.
run_shell() {
    deferred=
    for word; do
        case $word in
            --) break ;;
            --deferred | --deferred=*) deferred=$word ;;
        esac
    done
    milliseconds=$(bound_of "$deferred")
    case $milliseconds in
        # What the program itself judges.
        '' | 0 | *[!0-9]*) exec "$@" ;;
    esac
    [ ! -f /dev/stdin ] || exec "$@"
    command -v python3 >/dev/null || {
        echo 'wafl: shell --deferred needs python3' >&2
        exit 2
    }
    [ ! -t 2 ] || echo "wafl: deferred: a power cut or a kill may lose what was answered in the last $milliseconds milliseconds, but for what was synced" >&2
    exec python3 "$beside/feed_lines.py" "$milliseconds" "$@"
}

# bound_of WORD : the number of milliseconds in --deferred or --deferred=N.
bound_of() {
    case $1 in
        --deferred) echo 100 ;;
        --deferred=+*) echo "${1#*=+}" ;;
        --deferred=*) echo "${1#*=}" ;;
    esac
}

# run_storing PROGRAM COMMAND WORD.. : runs the program, and passes its status on. Interrupted, ends it, takes away what it collected in the
# image, and ends by the same signal. A program in the background hears no interrupt of the terminal, so it is always told.
run_storing() {
    child=
    signal=
    for told in HUP:129 INT:130 QUIT:131 TERM:143; do
        # The signal as it is now.
        # shellcheck disable=SC2064
        trap "signal=$told; [ -z \"\$child\" ] || kill \"\$child\" 2>/dev/null" "${told%:*}"
    done
    # By a descriptor of its own: standard input itself is /dev/null for a command in the background.
    if (: 3<&0) 2>/dev/null; then
        exec 3<&0
        "$@" <&3 3<&- &
    else
        "$@" <&- &
    fi
    child=$!
    [ -z "$signal" ] || kill "$child" 2>/dev/null
    while :; do
        # Without the word of the shell on how it ended.
        wait "$child" 2>/dev/null
        status=$?
        kill -0 "$child" 2>/dev/null || break
    done
    [ -n "$signal" ] || exit "$status"
    trap '' HUP INT QUIT TERM
    take_leftover "$@"
    trap - HUP INT QUIT TERM
    kill -s "${signal%:*}" $$
    # Some shells ignore one of these.
    exit "${signal#*:}"
}

# take_leftover PROGRAM COMMAND WORD.. : removes the name under which the program collects a file's bytes. DISK and NVRAM are the first
# two words behind the command that are no options; the options that stand before them have their values in the same word.
take_leftover() {
    leftover_of=$1
    shift 2
    disk=
    is_open=1
    for word; do
        case $is_open$word in
            1--) is_open= ;;
            1-?*) ;;
            *)
                case $word in -*) word=./$word ;; esac
                if [ -z "$disk" ]; then
                    disk=$word
                else
                    "$leftover_of" 'do' "$disk" "$word" unlink /.wafl-put </dev/null >/dev/null 2>&1
                    return
                fi
                ;;
        esac
    done
}
