#!/bin/sh
# Makes an image and speaks with `wafl shell` over two pipes, as a program would: a line goes in, and its reply comes when all that the
# command did is durable. Then kills the program, and shows that what was answered is there.
set -u

here=$(dirname "$(readlink -f "$0")")
folder=$(mktemp -d) || exit 1
trap 'rm -rf "$folder"' EXIT
cd "$folder" || exit 1
wafl=$here/../wafl

"$wafl" make disk nvram --new --blocks 1024 --inodes 32 --half 128k || exit 1
mkfifo lines replies || exit 1
"$wafl" shell disk nvram < lines > replies &
shell=$!
exec 3> lines 4< replies

# ask WORD.. : sends these words as a line, and shows them beside the reply.
ask() {
    echo "$*" >&3
    read -r reply <&4
    printf '%-24s %s\n' "$*" "$reply"
}

ask mkdir /desk
ask open /desk/notes rwc
ask write 0 6669727374
ask mkdri /desk
ask mkdir /desk
ask snap take monday
ask pread 0 0 100

echo
echo '$ kill -9'
kill -9 "$shell"
wait "$shell" 2> /dev/null
exec 3>&- 4<&-

for words in 'do disk nvram list /desk' 'do disk nvram snap list' 'get disk nvram /desk/notes -'; do
    echo "\$ wafl $words"
    # shellcheck disable=SC2086
    "$wafl" $words || exit 1
done
echo
