# Builds the proved program: sourced by the script `wafl` and by prove_behind.sh, behind sources.sh and with background.sh.
# shellcheck disable=SC2154 # The script has set $root and $out, and background.sh sets $proving.
#
# The crates are proved side by side, each as soon as those below it are built. `rt lib` keeps every other rt out of the crates below
# the one that it builds, so each crate is built in a tree of its own, of links to its sources and to the libraries below it, and what it
# made is moved back. Interrupted, the next call goes on from the crates that are built.

trees=$out/trees
notes=$out/built
logs=$out/logs
state=$trees/state

# is_proved : whether the program is built for the sources as they are.
is_proved() { [ -x "$out/wafl" ] && [ "$(cat "$out/sources" 2>/dev/null)" = "$(sum_of wafl src specs proofs)" ]; }

# build_proved WHERE : proves and builds what isn't built yet, while the script holds the lock at descriptor 9; ends the script with 70
# where that fails. WHERE, background or foreground, is told to those who look.
build_proved() {
    ! is_proved || return 0
    sources=$(sum_of wafl src specs proofs)
    printf '%s\n' $$ "$sources" "$1" >"$proving" || exit 70
    prepare
    trap 'end_jobs; echo "wafl: interrupted; the next call goes on from here" >&2; exit 130' INT
    trap 'end_jobs; exit 143' TERM HUP
    prove_all
    trap - INT TERM HUP
    rm -rf "$trees" "$proving"
    printf '%s\n' "$sources" >"$out/sources" || exit 70
}

# prepare : finds out what there is to do and how much of it at once, and says so.
prepare() {
    kit=$(rt version) || {
        echo 'wafl: the program is built by rt, of the Rattle kit, which does not run here' >&2
        exit 70
    }
    { rm -rf "$logs" "$out/sources" && mkdir -p "$trees" "$notes" "$logs" && weigh >"$trees/crates"; } || exit 70
    total=$(wc -l <"$trees/crates")
    lanes=$(lanes)
    running=
    told=
    echo "lanes $lanes" >"$state"
    for crate in $(below wafl); do
        ! is_built "$crate" || echo "kept $crate" >>"$state"
    done
    echo "wafl: proving the program: $((total - $(grep -c '^kept' "$state"))) of its $total crates are to be proved, up to $lanes at once" >&2
}

# weigh : a line for each crate, lowest first: its name, its weight, and the crates right below it. The weight stands for the time that
# it takes: that of any crate, of its lines, and of reading the sources below, which rt does once for each way down to them.
weigh() {
    for crate in $(below wafl); do
        lines=$(cd "$root/crates/$crate" && find src specs proofs -type f -exec cat {} + 2>/dev/null | wc -l)
        echo "$crate $lines $(sed -n "s/^${crate}[^:]*: *//p" "$root/crates.txt")"
    done | awk '{
        ways[$1] = 1
        words = ""
        for (i = 3; i <= NF; i++) if ($i in ways) { ways[$1] += ways[$i]; words = words " " $i }
        print $1, int(1000 + $2 + 1.5 * ways[$1]) words
    }'
}

# lanes : how many crates are proved at once: one for each processor, as far as there are 3 GB of memory for each.
lanes() {
    awk -v most="$(nproc)" '
        /^MemAvailable:/ { fit = int($2 / 3000000); if (fit < most) most = fit }
        END { print most < 1 ? 1 : most }' /proc/meminfo
}

# noted NAME : what tells that the crate is built: a checksum of what it is built from, the kit, and the stamp that rt left beside it.
noted() { echo "$2 $kit $(cat "$root/crates/$1/out/rlib/stamp" 2>/dev/null)"; }

# is_built NAME : whether an earlier call built the crate for these sources.
is_built() {
    [ -f "$notes/$1" ] && [ -f "$root/crates/$1/out/rlib/stamp" ] &&
        [ "$(cat "$notes/$1")" = "$(noted "$1" "$(sum_of "$1" src specs proofs)")" ]
}

# prove_all : begins crates as they can be begun, until all are built.
prove_all() {
    while :; do
        planned=$(plan)
        # Names of crates.
        # shellcheck disable=SC2046
        begin_ready $(printf '%s\n' "$planned" | sed 1d)
        [ -n "$running" ] || break
        tell "$(printf '%s\n' "$planned" | sed q)"
        sleep 1
        collect
    done
    [ ! -t 2 ] || echo >&2
    [ "$(grep -c -e '^kept' -e '^built' "$state")" -eq "$total" ] || exit 70
}

# plan : the seconds that are left, by what the crates took so far, and then the crates that can begin, each on a line; those first from
# which the longest way leads up to the program.
plan() {
    awk -v now="$(date +%s)" -v lanes="$lanes" '
        NR == FNR {
            name[++count] = $1; weight[$1] = $2
            for (i = 3; i <= NF; i++) below[$1] = below[$1] " " $i
            next
        }
        $1 == "begun" { begun[$2] = $3 }
        $1 == "kept" { built[$2] = 1 }
        $1 == "built" { built[$2] = 1; seconds += $3; measured += weight[$2] }
        END {
            rate = (400 + seconds) / (10000 + measured)
            for (i = count; i > 0; i--) {
                crate = name[i]
                rest = crate in built ? 0 : weight[crate]
                if (!(crate in built) && crate in begun) {
                    rest -= (now - begun[crate]) / rate
                    if (rest < weight[crate] / 10) rest = weight[crate] / 10
                }
                sum += rest
                way[crate] += rest
                if (way[crate] > longest) longest = way[crate]
                is_ready[crate] = !(crate in built) && !(crate in begun)
                words = split(below[crate], word, " ")
                for (j = 1; j <= words; j++) {
                    if (way[crate] > way[word[j]]) way[word[j]] = way[crate]
                    if (!(word[j] in built)) is_ready[crate] = 0
                }
            }
            print int(rate * (sum / lanes > longest ? sum / lanes : longest))
            while (1) {
                best = ""
                for (i = 1; i <= count; i++)
                    if (is_ready[name[i]] && (best == "" || way[name[i]] > way[best])) best = name[i]
                if (best == "") exit
                print best
                is_ready[best] = 0
            }
        }' "$trees/crates" "$state"
}

# begin_ready NAME.. : begins as many of these crates as there is room for; with fewer at once, each shares its work among more jobs.
begin_ready() {
    at_once=0
    for job in $running; do at_once=$((at_once + 1)); done
    for crate; do
        [ "$at_once" -lt "$lanes" ] || return 0
        wanted=$((at_once + $#))
        [ "$wanted" -le "$lanes" ] || wanted=$lanes
        begin "$crate" $(((2 * lanes + wanted) / (2 * wanted)))
        at_once=$((at_once + 1))
        shift
    done
}

# begin NAME JOBS : begins to prove and build the crate in the background.
begin() {
    echo "begun $1 $(date +%s)" >>"$state"
    rm -f "$trees/$1.ended"
    (
        sum=$(sum_of "$1" src specs proofs)
        if [ "$1" = wafl ]; then
            cd "$root/crates/wafl" && under rt run --jobs "$2" -- --help
        else
            stage "$1" && cd "$trees/$1/crates/$1" && under rt lib --jobs "$2"
        fi
        status=$?
        put_back "$1"
        [ "$status" -ne 0 ] || noted "$1" "$sum" >"$notes/$1"
        echo "$status" >"$trees/$1.ended"
    ) >"$logs/$1.log" 2>&1 &
    running="$running $1:$!"
}

# stage NAME : makes the tree in which the crate is built. What an interrupted call left of its own work there stays.
stage() {
    tree=$trees/$1/crates
    mkdir -p "$tree/$1/out" && lines_of "$(below "$1")" >"$trees/$1/crates.txt" || return 1
    for old in "$tree"/*; do
        case $old in
            "$tree/$1") rm -rf "$old/src" "$old/specs" "$old/proofs" ;;
            *) rm -rf "$old" ;;
        esac
    done
    for crate in $(below "$1"); do
        mkdir -p "$tree/$crate/out" || return 1
        for part in src specs proofs out/rlib; do
            from=$root/crates/$crate/$part
            to=$tree/$crate/$part
            [ ! -d "$from" ] || [ -d "$to" ] || linked "$from" "$to" || return 1
        done
    done
    from=$root/crates/$1/out/incremental
    [ ! -d "$from" ] || [ -d "$tree/$1/out/incremental" ] || mv "$from" "$tree/$1/out"
}

# linked FROM TO : makes the folder TO of links to the files in FROM, or of copies where the file system has no links.
linked() { cp -al "$1" "$2" 2>/dev/null || { rm -rf "$2" && cp -a "$1" "$2"; }; }

# put_back NAME : moves what was made of the crate to its own folder, and takes its tree away.
put_back() {
    mkdir -p "$root/crates/$1/out"
    for part in rlib incremental; do
        from=$trees/$1/crates/$1/out/$part
        [ ! -d "$from" ] || { rm -rf "$root/crates/$1/out/$part" && mv "$from" "$root/crates/$1/out"; }
    done
    rm -rf "${trees:?}/$1"
}

# collect : sees which crates have ended, and ends the script where one isn't proved.
collect() {
    still=
    for job in $running; do
        crate=${job%:*}
        if [ -s "$trees/$crate.ended" ]; then
            wait "${job#*:}"
            [ "$(cat "$trees/$crate.ended")" -eq 0 ] || failed "$crate" "$(cat "$trees/$crate.ended")"
            began=$(sed -n "s/^begun $crate //p" "$state")
            echo "built $crate $(($(date +%s) - began))" >>"$state"
        elif kill -0 "${job#*:}" 2>/dev/null; then
            still="$still $job"
        else
            failed "$crate" killed
        fi
    done
    running=$still
}

# failed NAME STATUS : says which crate isn't built and why, has no call begin again by itself, and ends the script.
failed() {
    [ ! -t 2 ] || echo >&2
    tell_failed "$1" "$2"
    end_jobs
    hold "$1" "$sources" "$2"
    exit 70
}

# tell_failed NAME STATUS : says which crate isn't built and why.
tell_failed() {
    echo "wafl: the crate $1 is not built (rt ended with $2); the last lines of $logs/$1.log:" >&2
    tail -n 20 "$logs/$1.log" >&2
}

# end_jobs : ends what is under way; what it made so far stays.
end_jobs() {
    for job in $running; do kill "${job#*:}" 2>/dev/null; done
    wait
}

# tell SECONDS : says how far it is: on a terminal in one line that is written again, else in a line whenever another crate begins.
tell() {
    names=
    for job in $running; do names="$names, ${job%:*}"; done
    minutes=$((($1 + 59) / 60))
    left="about $minutes minutes left"
    [ "$minutes" -gt 1 ] || left='about a minute left'
    text="wafl: proving $(grep -c -e '^kept' -e '^begun' "$state") of $total, $left (${names#, })"
    if [ -t 2 ]; then
        printf '\r\033[K%.79s' "$text" >&2
    elif [ "$names" != "$told" ]; then
        echo "$text" >&2
    fi
    told=$names
}
