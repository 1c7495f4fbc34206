#!/bin/sh
# Does what a user's day brings and rows can't have: a terminal that is asked, pipes between two commands on one image, puts that are
# killed, and commands that wait for each other.
#
#   sh bench/users.sh [KILLS]       100 kills, over ./wafl; WAFL=path takes another program
#
# Needs script, for a terminal. Ends with 1 where something isn't as docs/COMMANDS.md has it.
set -eu
here=$(cd "$(dirname "$0")/.." && pwd)
wafl=$(readlink -f "${WAFL:-$here/wafl}")
kills=${1:-100}
"$wafl" --version > /dev/null
folder=$(mktemp -d)
trap 'rm -rf "$folder"' EXIT
cd "$folder"

wrong() { echo "$1" >&2; exit 1; }

# fresh : a new image.
fresh() {
    rm -f disk nvram disk.bad
    "$wafl" make disk nvram --new --blocks 1024 --inodes 64 --half 128k
}

# on_terminal ANSWER WORD.. : runs the program on a terminal where somebody types this line; what it shows comes into the file shown.
on_terminal() {
    answer=$1
    shift
    printf '%s\n' "$answer" | script -qec "$wafl $*" /dev/null > shown || true
}

# says TEXT NAME : the terminal showed this.
says() { grep -qF "$1" shown || { cat shown >&2; wrong "$2: not shown: $1"; }; }

make_asks() {
    sizes='--blocks 64 --inodes 32 --half 128k'
    echo thesis > text
    on_terminal n make text other $sizes
    says 'text holds 7 bytes, no image of wafl' 'make over a text'
    [ "$(cat text)" = thesis ] || wrong 'make over a text: it is gone behind the answer n'
    [ ! -e other ] || wrong 'make over a text: the other file was made behind the answer n'
    on_terminal '' make text other $sizes
    [ "$(cat text)" = thesis ] || wrong 'make over a text: it is gone behind an empty answer'
    on_terminal y make text other $sizes
    "$wafl" check text other > /dev/null || wrong 'make over a text: no image behind the answer y'
    fresh
    "$wafl" do disk nvram mkdir /d > /dev/null
    echo abc | "$wafl" put disk nvram - /f
    on_terminal n make disk nvram $sizes
    says 'an image of 1024 blocks with 1 file' 'make over an image'
    [ "$("$wafl" do disk nvram list /)" = 'names d f' ] || wrong 'make over an image: it is gone behind the answer n'
    on_terminal n make disk nvram --force $sizes
    [ "$("$wafl" do disk nvram list /)" = names ] || wrong 'make --force asks'
    echo 'an image of last year' > disk.bad
    on_terminal n make disk nvram $sizes
    says 'disk.bad' 'make beside a DISK.bad that is no list'
    [ -s disk.bad ] || wrong 'make beside a DISK.bad that is no list: it is gone behind the answer n'
    rm disk.bad
    # Scripts aren't asked.
    echo thesis > text
    "$wafl" make text other $sizes < /dev/null 2> told || wrong 'make without a terminal is refused'
    [ "$(wc -c < text)" = 262144 ] || wrong 'make without a terminal replaces nothing'
    echo 'make asks: on a terminal, about a text, an image and a DISK.bad that is no list; not with --force, nor in a script'
}

pipes() {
    fresh
    head -c 300000 /dev/urandom > old
    head -c 300000 /dev/urandom > new
    "$wafl" put disk nvram new /x
    "$wafl" do disk nvram snap take monday > /dev/null
    "$wafl" put disk nvram old /y
    refused=0
    for _ in $(seq 20); do
        "$wafl" get disk nvram /x - --in monday 2> /dev/null | "$wafl" put disk nvram - /y 2> told || refused=$((refused + 1))
        "$wafl" get disk nvram /y now
        cmp -s now old || cmp -s now new || wrong "a pipe left /y with $(wc -c < now) bytes"
    done
    : | "$wafl" put disk nvram - /y 2> told && wrong 'a pipe without bytes isn'\''t refused'
    grep -q 'no bytes came' told || wrong 'a pipe without bytes isn'\''t told'
    "$wafl" put disk nvram - /y < /dev/null || wrong '/dev/null empties nothing'
    [ "$("$wafl" do disk nvram get /y 0 9)" = 'data -' ] || wrong '/dev/null empties nothing'
    "$wafl" restore disk nvram monday /x /y
    "$wafl" get disk nvram /y now
    cmp now new || wrong 'restore brings other bytes'
    # Both wait for the image: the reader is done first, or the writer is, which then waits for bytes that can't come.
    echo "pipes: 20 of get into put on one image, $refused refused, none left an empty file; restore has the snapshot's bytes"
}

killed() {
    fresh
    head -c 2000000 /dev/urandom > large
    done=0
    for turn in $(seq "$kills"); do
        "$wafl" put disk nvram large "/f$((turn % 3))" 2> told &
        process=$!
        sleep "0.0$((turn % 10))$((turn % 7))"
        kill -9 "$process" 2> /dev/null || done=$((done + 1))
        wait "$process" 2> /dev/null || true
    done
    echo small > small
    "$wafl" put disk nvram small /small
    names=$("$wafl" do disk nvram list /)
    case $names in *.wafl-put*) wrong "killed puts left something: $names" ;; esac
    for name in f0 f1 f2; do
        case " $names " in *" $name "*)
            "$wafl" get disk nvram "/$name" now
            cmp now large || wrong "a killed put left a part of /$name" ;;
        esac
    done
    "$wafl" check disk nvram > checked || wrong "killed puts: $(cat checked)"
    echo "killed: $((kills - done)) of $kills puts; each file is whole, and nothing is left behind the next put"
}

waits() {
    fresh
    { sleep 1; echo 'mkdir /held'; sleep 1; } | "$wafl" shell disk nvram > replies &
    sleep 0.3
    "$wafl" do disk nvram list / > answered 2> told && wrong 'a command works on an image in use'
    grep -q 'in use by another program' told || wrong 'an image in use isn'\''t told'
    "$wafl" do --wait=0 disk nvram list / > answered 2> told && wrong '--wait=0 waits'
    [ "$("$wafl" do --wait=60 disk nvram list /)" = 'names held' ] || wrong '--wait=60 doesn'\''t wait'
    wait
    { sleep 2; } | "$wafl" shell disk nvram > replies &
    sleep 0.3
    "$wafl" --wait check disk nvram > checked || wrong '--wait doesn'\''t wait'
    wait
    chmod 444 disk nvram
    for words in 'list /' 'stat /' 'df' 'snap list'; do
        # Several words.
        # shellcheck disable=SC2086
        "$wafl" do disk nvram $words > answered || wrong "do $words needs to write the image's files"
    done
    chmod 644 disk nvram
    echo 'waits: --wait, --wait=60 and --wait=0 on an image in use; reading commands do with files that may only be read'
}

make_asks
pipes
killed
waits
