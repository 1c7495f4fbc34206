# The programs and suites that tests/mounted.sh runs in a served folder, which is the current one: each ends at its first command that fails.
# shellcheck shell=sh disable=SC2154,SC2164,SC2103 # The script has exported $here, the folder of the repository, and $work, that of the image.

# own_folder SCRIPT WORD.. : a test of this folder, in a folder of its own.
own_folder() {
    script=$1
    shift
    place=$PWD/$(basename "$script" .py)
    # What a test that failed left.
    rm -rf "$place"
    mkdir "$place"
    chmod 777 "$place"
    python3 "$script" "$place" "$@"
    rm -rf "$place"
}

# git_works : a repository from its first commit to a clone, whole at each step.
git_works() {
    export GIT_CONFIG_GLOBAL=/dev/null GIT_AUTHOR_NAME=a GIT_AUTHOR_EMAIL=a@b GIT_COMMITTER_NAME=a GIT_COMMITTER_EMAIL=a@b
    mkdir git
    cp -r "$here/docs" "$here/build" git
    cd git
    git init -q .
    git add -A
    git commit -qm one
    echo more >>docs/COMMANDS.md
    git add -A
    git commit -qm two
    git gc -q
    git fsck --strict
    [ -z "$(git status --short)" ]
    git clone -q . ../clone
    git -C ../clone fsck
    diff -r docs ../clone/docs
    git checkout -q HEAD~1
    git diff --exit-code
    cd ..
    rm -rf git clone
}

# tar_works : what tar packs and unpacks is the same, and it sees a change.
tar_works() {
    cp -a "$here/docs" tarred
    tar -cf - -C "$here" docs | tar -xf - -C .
    diff -r docs "$here/docs"
    diff -r docs tarred
    tar -cf archive.tar docs
    tar -df archive.tar
    echo changed >>docs/COMMANDS.md
    if tar -df archive.tar; then return 1; fi
    rm -r docs tarred archive.tar
}

# attributes : names, modes, sizes and times of what lies below the current folder.
attributes() { find . ! -type d -printf '%p %m %s %T@ %l\n' | sort; }

# copies_agree : cp -a keeps bytes, modes and times.
copies_agree() {
    cp -a "$here/build" copy
    diff -r "$here/build" copy
    (cd "$here/build" && attributes) >"$work/attributes"
    (cd copy && attributes) | diff "$work/attributes" -
    rm -r copy
}

# rsync_works : the second run sends nothing, and unchanged files are linked.
rsync_works() {
    rsync -a "$here/docs/" synced/
    [ -z "$(rsync -ai "$here/docs/" synced/)" ]
    rsync -ac --delete "$here/docs/" synced/
    diff -r "$here/docs" synced
    rsync -a --link-dest="$PWD/synced" "$here/docs/" linked/
    [ "$(stat -c %h linked/COMMANDS.md)" -eq 2 ]
    rm -r synced linked
}

# make_works : a program is built once, and again when its source is newer.
make_works() {
    mkdir made
    cd made
    printf 'int main(void) { return 0; }\n' >a.c
    printf 'a: a.c\n\tcc -o a a.c\n' >Makefile
    make
    ./a
    make | grep -q 'up to date'
    touch a.c
    make | grep -q 'cc -o'
    cd ..
    rm -r made
}

# sqlite_works : commits in both journal modes.
sqlite_works() {
    for mode in delete wal; do
        {
            echo "pragma journal_mode=$mode; create table t(a);"
            for at in $(seq 50); do echo "insert into t values($at);"; done
        } | sqlite3 "$mode.db"
        [ "$(sqlite3 "$mode.db" 'select count(*) from t; pragma integrity_check')" = "$(printf '50\nok')" ]
        rm "$mode.db"*
    done
}

# fio_verifies : random writes, read back with their checksums.
fio_verifies() {
    fio --name=v --directory=. --size=4M --bs=4k --rw=randwrite --ioengine=psync --verify=crc32c --do_verify=1 --fsync=16 --nrfiles=2
    rm -f v.*
}

# stressor NAME : a test of stress-ng.
stressor() {
    rm -rf stress
    mkdir stress
    stress-ng --temp-path "$PWD/stress" "--$1" 1 --timeout 3 --verify --hdd-bytes 4M --fallocate-bytes 4M --dentries 200
    rm -r stress
}

# postmark_works : files of mail, and what it says of errors.
postmark_works() { printf 'set location .\nset number 200\nset transactions 500\nset size 500 20000\nrun\nquit\n' | postmark; }

# fs_mark_works : small files with syncs, by two.
fs_mark_works() {
    fs_mark -d marks -n 200 -s 4096 -t 2
    rm -rf marks
}

# bonnie_works : a large file, and many small ones; not byte by byte, which are eight million requests.
bonnie_works() { bonnie++ -f -u root -d . -s 8M:64k -r 4M -n 1:4096:0:2; }
