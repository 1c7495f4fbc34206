# Proving in the background, and the word `prove`: sourced by the script `wafl` and by prove_behind.sh, behind proved.sh.
# shellcheck disable=SC2154 # The script has set $root and $out.
# shellcheck disable=SC2034 # proved.sh reads $total and $lanes, and prove_behind.sh $log.

log=$out/proving.log
# Whoever proves writes here: its process, the sources, and whether it is in the background.
proving=$out/proving
# Where no call is to begin: the sources, and why.
held=$out/held

# is_busy : whether somebody proves.
is_busy() { [ -f "$out/lock" ] && ! flock -n -s "$out/lock" true; }

# is_for FILE : whether the file is about the sources as they are.
is_for() { [ "$(sed -n 2p "$1" 2>/dev/null)" = "$(sum_of wafl src specs proofs)" ]; }

# is_held : whether no call is to begin to prove these sources.
is_held() { [ -f "$held" ] && is_for "$held"; }

# start_proving : begins to prove in the background, at the lowest priority and in a session of its own, where nobody proves these
# sources yet, and nothing speaks against it.
start_proving() {
    if is_held || ! command -v rt >/dev/null || { is_busy && is_for "$proving"; }; then return; fi
    idle=
    ! ionice -c 3 true 2>/dev/null || idle='ionice -c 3'
    # Words.
    # shellcheck disable=SC2086
    setsid -f nice -n 19 $idle sh "$root/build/prove_behind.sh" </dev/null >/dev/null 2>&1 7>&- 8>&- 9>&-
}

# say_unproved : says that this build isn't proved, and how it stands with the proving.
say_unproved() {
    if ! command -v rt >/dev/null; then
        echo 'wafl: this build is not proved, and rt, of the Rattle kit, which proves it, is not on the PATH' >&2
    elif ! is_held; then
        echo 'wafl: this build is not proved yet; proving goes on in the background (./wafl prove tells how far)' >&2
    elif [ "$(sed q "$held")" = stopped ]; then
        echo 'wafl: this build is not proved, and proving was stopped (./wafl prove goes on with it)' >&2
    else
        echo "wafl: this build is not proved: the crate $(sed q "$held") failed, see $logs/$(sed q "$held").log" \
            '(./wafl prove tries it again)' >&2
    fi
}

# hold WHY SOURCES [STATUS] : has no call begin to prove these sources. WHY is a crate that failed, with rt's status, or `stopped`.
hold() { printf '%s\n' "$@" >"$held.new" && mv "$held.new" "$held"; }

# prove [--stop] : the word.
prove() {
    if [ "${1-}" = --stop ]; then
        stop_proving
    else
        make_proved
        echo "wafl: the program is proved and built: $out/wafl" >&2
    fi
}

# make_proved : proves what isn't proved, or waits for whoever does; ends the script where that fails.
make_proved() {
    until is_proved; do
        mkdir -p "$out" && exec 9>"$out/lock" || exit 70
        if flock -n 9; then
            rm -f "$held"
            build_proved foreground
            exec 9>&-
        else
            exec 9>&-
            if ! is_for "$proving" && is_behind; then
                end_behind
            else
                join
            fi
        fi
    done
}

# is_behind : whether the one who proves is in the background.
is_behind() { [ "$(sed -n 3p "$proving" 2>/dev/null)" = background ]; }

# join : tells how far the proving of another call is, until it has ended.
join() {
    if is_behind; then
        told='wafl: proving goes on in the background (./wafl prove --stop ends it)'
    else
        told='wafl: another call goes on proving'
    fi
    # The words as they are now.
    # shellcheck disable=SC2064
    trap "[ ! -t 2 ] || echo >&2; echo '$told' >&2; exit 130" INT
    trap "exit 143" TERM HUP
    told=
    while is_busy; do
        tell_of_another
        sleep 1
    done
    [ ! -t 2 ] || echo >&2
    trap - INT TERM HUP
    is_held || return 0
    if [ "$(sed q "$held")" = stopped ]; then
        echo 'wafl: the proving was stopped' >&2
        exit 143
    fi
    tell_failed "$(sed q "$held")" "$(sed -n 3p "$held")"
    exit 70
}

# tell_of_another : tells how far another call is, by what it wrote.
tell_of_another() {
    [ -s "$state" ] && [ -s "$trees/crates" ] || return 0
    running=$(awk '$1 == "begun" { runs[$2] = 1 } $1 == "built" { delete runs[$2] } END { for (crate in runs) print crate ":" }' "$state" |
        sort | tr '\n' ' ')
    total=$(wc -l <"$trees/crates")
    lanes=$(sed -n 's/^lanes //p' "$state")
    # What is read may be gone by now.
    left=$(plan 2>/dev/null | sed q)
    [ -z "$running" ] || [ -z "$left" ] || tell "$left"
}

# stop_proving : ends the proving in the background, and has no call begin it again.
stop_proving() {
    if is_proved; then
        echo "wafl: the program is proved and built: $out/wafl" >&2
        return
    fi
    mkdir -p "$out" && hold stopped "$(sum_of wafl src specs proofs)" || exit 70
    if is_busy && ! is_behind; then
        echo 'wafl: the proving of another call goes on where that was begun: end it there, with ctrl-c' >&2
        exit 70
    elif is_busy; then
        end_behind
        if is_busy; then
            echo 'wafl: proving was told to stop, and has not ended yet' >&2
            exit 70
        fi
        echo 'wafl: proving was stopped; what is built stays (./wafl prove goes on with it)' >&2
    else
        echo 'wafl: nothing is proved in the background, and no call begins it (./wafl prove does)' >&2
    fi
}

# end_behind : ends the proving in the background, and returns once it has ended. Where the one who leads was killed, those whom it began
# are told to end.
end_behind() {
    tries=0
    ending=
    while is_busy && is_behind && [ "$tries" -lt 120 ]; do
        leader=$(sed q "$proving")
        # Numbers.
        # shellcheck disable=SC2046
        set -- $(holders "$leader")
        case " $* " in
            *" $leader "*)
                # Once: it waits for those whom it began.
                [ "$ending" = "$leader" ] || kill "$leader" 2>/dev/null
                ending=$leader
                ;;
            *) [ "$#" -eq 0 ] || kill "$@" 2>/dev/null ;;
        esac
        tries=$((tries + 1))
        sleep 0.5
    done
}

# holders LEADER : the processes of this session that have the lock open: a number alone may be another process's by now.
holders() {
    for folder in /proc/[0-9]*; do
        read -r line 2>/dev/null <"$folder/stat" || continue
        # Behind the name: state, parent, group, session.
        # shellcheck disable=SC2086
        set -- "$1" ${line##*) }
        [ "$5" = "$1" ] && [ "$(readlink "$folder/fd/9" 2>/dev/null)" = "$out/lock" ] && echo "${folder#/proc/}"
    done
}
