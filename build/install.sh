# The word `install`: sourced by the script `wafl`, behind background.sh.
# shellcheck disable=SC2154 # The script has set $root and $out, and unproved.sh sets $kept.

# install [--unproved] PREFIX : the word. The words were judged already.
install() {
    prefix=
    unproved=
    is_open=1
    for word; do
        case $is_open$word in
            1--) is_open= ;;
            1--unproved) unproved=1 ;;
            *) prefix=$word ;;
        esac
    done
    case $prefix in
        '') refuse "PREFIX is empty" ;;
        /*) ;;
        *)
            [ -z "${DESTDIR-}" ] || refuse "$prefix: with DESTDIR, PREFIX begins with /"
            prefix=$PWD/$prefix
            ;;
    esac
    base=${DESTDIR-}${prefix%/}
    see_writable "$base"
    if [ -n "$unproved" ]; then
        is_kept || keep_unproved
        echo 'wafl: installing a build that is not proved' >&2
        program=$kept/wafl
    else
        is_proved || echo 'wafl: the program is not proved yet; it is proved first' >&2
        make_proved
        program=$out/wafl
    fi
    new=
    trap 'rm -f "$new"; exit 130' INT
    trap 'rm -f "$new"; exit 143' TERM HUP
    place_all
    trap - INT TERM HUP
    echo "wafl: installed $base/bin/wafl" >&2
}

# place_all : the files; what is called comes last.
place_all() {
    mark=libexec/wafl/unproved
    if [ -n "$unproved" ]; then place 644 /dev/null "$mark"; fi
    place 755 "$program" libexec/wafl/wafl
    if [ -z "$unproved" ]; then rm -f "$base/$mark" || refuse "$base/$mark can't be removed"; fi
    for file in words.sh interrupts.sh mounting.sh user_mount.py ask_folder.py feed_lines.py help/mount.txt; do place 644 "$root/build/$file" "libexec/wafl/$file"; done
    place 755 "$root/build/device.sh" libexec/wafl/device
    place 755 "$root/build/mount.wafl" sbin/mount.wafl
    place 755 "$root/build/installed.sh" bin/wafl
    place 644 "$root/README.md" share/doc/wafl/README.md
    for file in "$root"/docs/*.md; do place 644 "$file" "share/doc/wafl/docs/${file##*/}"; done
    for file in "$root"/examples/*; do
        # What the examples say of where they are.
        # shellcheck disable=SC2016
        place 644 "$file" "share/doc/wafl/examples/${file##*/}" 's|\$here/\.\./wafl|$here/../../../../bin/wafl|'
    done
}

# place MODE FILE NAME [EDIT] : installs the file under this name below the prefix, changed by sed's EDIT: whole, or not at all.
place() {
    folder=$(dirname "$base/$3")
    told=$(mkdir -p "$folder" 2>&1) || refuse "$(reason "$told")"
    new=$(mktemp "$folder/.wafl-install-XXXXXX" 2>&1) || refuse "$(reason "$new")"
    if ! told=$({ write "$2" "${4-}" && chmod "$1" "$new" && sync "$new" && mv -fT "$new" "$base/$3" && sync "$folder"; } 2>&1); then
        rm -f "$new"
        refuse "$(reason "$told")"
    fi
    new=
}

# write FILE EDIT : writes the new file.
write() { if [ -n "$2" ]; then sed "$2" "$1" >"$new"; else cat "$1" >"$new"; fi; }

# see_writable FOLDER : ends the script where nothing can be made in the folder, or where it isn't there in the last one above that is;
# so nobody hears of it behind an hour of proving.
see_writable() {
    above=$1
    until [ -e "$above" ]; do above=$(dirname "$above"); done
    [ -d "$above" ] || refuse "$above: Not a directory"
    if ! [ -w "$above" ] || ! [ -x "$above" ]; then refuse "$above: Permission denied"; fi
    for part in bin libexec sbin share; do
        [ ! -e "$above/$part" ] || [ "$above" != "$1" ] || [ -w "$above/$part" ] || refuse "$above/$part: Permission denied"
    done
}

# reason TEXT : what a program said, without its own name.
reason() { printf '%s\n' "${1#*: }"; }

# refuse TEXT : says why nothing more is installed, and ends the script.
refuse() {
    echo "wafl: not installed: $1" >&2
    exit 2
}
