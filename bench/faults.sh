#!/bin/sh
# Has the host fail the program on real files, and looks whether what was answered is there: kills at random moments, a host's file system
# that gets full, a limit of the host's on the size of files, many programs on one image at once, and files that can't be written.
#
#   sh bench/faults.sh [KILLS [MODE]]      1,000 kills, over ./wafl; WAFL=path takes another program
#
# MODE says when what was answered is durable: `usual`; `together`, of `shell --together`; `deferred` or `deferred=N`, of `run --deferred`. The
# last two try what such a program makes of a limit on the size of files, and the kills.
#
# Needs python3; setpriv or unshare where root runs it, and unshare for the full file system. Ends with 1 where anything was lost.
set -eu
here=$(cd "$(dirname "$0")/.." && pwd)
wafl=$(readlink -f "${WAFL:-$here/wafl}")
kills=${1:-1000}
mode=${2:-usual}
"$wafl" --version > /dev/null
folder=$(mktemp -d)
trap 'rm -rf "$folder"' EXIT
chmod 755 "$folder"
cd "$folder"

lost() { echo "$1" >&2; exit 1; }

# fresh : a new image.
fresh() {
    rm -f disk nvram
    "$wafl" make disk nvram --new --blocks 1024 --inodes 512 --half 131072
}

# is WORDS.. : what the program answers to these words behind the image's names, on standard output.
is() {
    command=$1
    shift
    "$wafl" "$command" disk nvram "$@"
}

# directories COUNT TEXT : a line of this text for each of so many directories, by their long names, which soon fill the log.
long=$(printf 'n%.0s' $(seq 200))
directories() { seq -f "$2d%03g$long" "$1"; }

# stands REPLIES NAME : whether the directories that were answered `ok` are there, and at most the next one; together any number of the next
# ones, and deferred the first ones of them all, however many.
stands() {
    answered=$(grep -c '^ok$' "$1") || true
    least=$answered
    most=$((answered + 1))
    [ "$mode" = usual ] || most=60
    case $mode in deferred*) least=0 ;; esac
    found=$(is 'do' list /)
    for done in $(seq "$least" "$most"); do
        names=$(directories "$done" '' | tr '\n' ' ')
        shown="names ${names% }"
        [ "$done" -gt 0 ] || shown=names
        if [ "$found" = "$shown" ]; then
            is check > checked 2>&1 || lost "$2: $(head -n 1 checked)"
            echo "$2: $answered commands answered, $done done"
            return
        fi
    done
    lost "$2: the tree isn't the one after $least to $most commands; $answered were answered"
}

# does_script : does the commands of the script, as the mode says.
does_script() {
    case $mode in
        usual) exec "$wafl" run disk nvram script ;;
        together) exec "$wafl" shell disk nvram --together < script ;;
        deferred*) exec "$wafl" run disk nvram script "--$mode" ;;
    esac
}

# limited HALVES SIGNAL : a run under a limit of the size of files, so many halves of a KiB, that brings an error or a signal.
limited() {
    fresh
    directories 60 'mkdir /' > script
    status=0
    (
        [ "$2" = signal ] || trap '' XFSZ
        ulimit -c 0
        ulimit -f "$1"
        does_script
    ) > replies 2> told || status=$?
    if [ "$2" = error ] && [ "$mode" = usual ]; then
        [ "$status" = 0 ] || lost "a limit of $1: ends with $status: $(cat told)"
        [ "$(grep -c '^err EIO$' replies)" = 1 ] || lost "a limit of $1: not one EIO"
        sed '1,/^err EIO$/d' replies | grep -qv '^err FAILED$' && lost "a limit of $1: something was done behind EIO"
    fi
    stands replies "files of $(($1 / 2)) KiB at most, by $2"
}

# at_once : many programs on one image: one has it, and all others are refused.
at_once() {
    fresh
    mkfifo lines
    is shell < lines > replies &
    exec 7> lines
    echo 'mkdir /first' >&7
    until grep -q ok replies; do sleep 0.1; done
    cp disk disk.before
    cp nvram nvram.before
    for words in 'do mkdir /second' 'do list /' 'run /dev/null' 'df' 'check' 'shell'; do
        status=0
        # shellcheck disable=SC2086 # These are words.
        is $words < /dev/null > shown 2> told || status=$?
        [ "$status" = 2 ] && [ ! -s shown ] || lost "two at once: $words ends with $status"
        [ "$(cat told)" = 'wafl: disk: in use by another program' ] || lost "two at once: $words: $(cat told)"
    done
    cmp disk disk.before && cmp nvram nvram.before
    echo 'mkdir /third' >&7
    exec 7>&-
    wait
    [ "$(is do list /)" = 'names first third' ] || lost 'two at once: the first program did not go on'
    echo 'two at once: six programs refused with status 2, and the first one went on'
    many
}

# many : programs that begin at once, each with a directory of its own.
many() {
    fresh
    rm -f ok.*
    for at in $(seq 40); do
        (is do mkdir "/m$at" > "reply.$at" 2> "told.$at" && echo "m$at" > "ok.$at") || true &
    done
    wait
    names=$(cat ok.* | LC_ALL=C sort | tr '\n' ' ')
    [ "$(is do list /)" = "names ${names% }" ] || lost 'many at once: the tree is another one than what was answered'
    refused=$(grep -l 'in use by another program' told.* | wc -l)
    done=$(cat ok.* | wc -l)
    [ $((refused + done)) = 40 ] || lost "many at once: $done done and $refused refused of 40"
    is check > checked 2>&1 || lost "many at once: $(head -n 1 checked)"
    echo "many at once: 40 programs, $done answered ok and are there, $refused refused with status 2"
}

# unwritable : files that may be read and not written.
unwritable() {
    fresh
    [ "$(is do mkdir /a)" = ok ]
    chmod 444 disk nvram
    cp disk disk.before
    cp nvram nvram.before
    as=
    [ "$(id -u)" != 0 ] || as='setpriv --reuid=65534 --regid=65534 --clear-groups'
    for words in 'do mkdir /b' 'run script' 'shell' 'put script /p'; do
        # shellcheck disable=SC2086 # These are words.
        set -- $words
        command=$1
        shift
        status=0
        # shellcheck disable=SC2086 # These are words.
        $as "$wafl" "$command" disk nvram "$@" < /dev/null > shown 2> told || status=$?
        [ "$status" = 2 ] && [ ! -s shown ] || lost "files that can't be written: $words ends with $status"
        grep -q '^wafl: ' told || lost "files that can't be written: $words says nothing"
    done
    cmp disk disk.before && cmp nvram nvram.before
    echo "files that can't be written: four programs refused with status 2: $(tail -n 1 told)"
    for words in df check; do
        status=0
        $as "$wafl" "$words" disk nvram > shown 2> told || status=$?
        echo "files that can't be written: $words ends with $status: $(cat shown told | head -n 1)"
    done
    chmod 644 disk nvram
}

for halves in 4 10 16 128; do
    limited "$halves" error
    limited "$halves" signal
done
if [ "$mode" = usual ]; then
    at_once
    unwritable
    sh "$here/bench/full.sh"
    python3 "$here/bench/kills.py" "$kills" 1 run
else
    python3 "$here/bench/kills.py" "$kills" 1 all "$mode"
fi
