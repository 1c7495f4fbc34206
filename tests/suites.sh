#!/bin/bash
# Test suites of other projects with a served folder as their place, beside the same in another folder, as on ext4. As root.
#
#   bash tests/suites.sh PROGRAM WORK [SUITE..]
#
# WORK is a folder on ext4, where sources are unpacked and built, and stay for the next run. Suites: libfuse tar cpio findutils rsync
# coreutils git perl python sqlite; all of them, or these. In the environment: COREUTILS='cp mv' (these of its tests alone; so GIT, PERL,
# PYTHON and SQLITE), JOBS (how many tests of coreutils and findutils at once; as many as processors).
#
# Sources come from Debian by apt-get source, which needs a line deb-src in its sources. Packages of Debian: gcc make libacl1-dev
# libattr1-dev acl attr tcl-dev libpython3-testsuite; with dejagnu, findutils has more tests, and with gdb and strace coreutils. Prints a
# line for each test that ends otherwise than beside, with the reason where it is known, and for each suite how many tests agree; their
# results stay in WORK. Ends with 1 where a test differs and no reason is known. The builds take a quarter of an hour, and the tests too.
# shellcheck disable=SC2317 # Suites are called by their names.
set -u
if [ "$#" -lt 2 ]; then
    echo 'usage: bash tests/suites.sh PROGRAM WORK [SUITE..]' >&2
    exit 1
fi
here=$(dirname "$(dirname "$(readlink -f "$0")")")
. "$here/tests/placing.sh"
program=$(readlink -f "$1")
mkdir -p "$2" || exit 1
work=$(readlink -f "$2")
shift 2
[ "$#" -gt 0 ] || set -- libfuse tar cpio findutils rsync coreutils git perl python sqlite
jobs=${JOBS:-$(nproc)}
# The tests that run, of suites that have many more.
: "${COREUTILS:=chmod chown cp dd df du install ln ls mkdir mv readlink rm rmdir touch tail-2}"
: "${GIT:=t0000-basic t0001-init t1000-read-tree-m-3way t1400-update-ref t2003-checkout-cache-mkdir t2007-checkout-symlink t3200-branch
    t3700-add t5304-prune t5510-fetch t7001-mv t7063-status-untracked-cache t7300-clean t7501-commit-basic-functionality}"
: "${PERL:=io/*.t op/chdir.t op/filetest.t op/filetest_stack_ok.t op/filetest_t.t op/glob.t op/mkdir.t op/readline.t op/stat.t}"
: "${PYTHON:=test_os test_shutil test_mmap test_tempfile test_posix test_pathlib test_glob test_fileio test_file test_fcntl test_filecmp
    test_stat test_posixpath test_tarfile test_zipfile test_dbm test_mailbox test_largefile}"
: "${SQLITE:=avtrans crash2 exclusive filectrl io journal1 journal2 journal3 lock lock2 mmap1 mmap2 pager1 pager2 savepoint shmlock symlink
    sync tempdb vacuum wal wal2 wal3 walmode walcrash}"
room=$(mktemp -d /dev/shm/wafl-suites.XXXXXX) || exit 1
folder=$room/folder
aside=$(mktemp -d "$work/beside.XXXXXX") || exit 1
place_program "$program" "$room/prefix" || exit 1
failed=0

# end_all : leaves nothing mounted.
end_all() {
    cd / || exit
    ! mountpoint -q "$folder" || umount "$folder" || umount -l "$folder"
    rm -rf "$room" "$aside"
}
trap end_all EXIT
trap 'exit 130' INT
trap 'exit 143' TERM HUP

# reason SUITE TEST : why this test has to end otherwise in a served folder; docs/OPERATIONS.md tells each.
reason() {
    case $1/$2 in
        libfuse/mkfifo | git/t1400-update-ref:190 | python/*fifo* | python/*named_pipe | python/*ExtractionFilters.test_pipe | \
            */cp/file-perm-race.sh | */cp/parent-perm-race.sh | */cp/sparse-to-pipe.sh | */cp/special-f.sh | */dd/reblock.sh | \
            */dd/stats.sh | */ls/classify.sh | */ls/file-type.sh | */tail-2/pipe-f2.sh | */touch/fifo.sh)
            echo 'no FIFOs (EPERM)'
            ;;
        libfuse/socket | python/*socket*) echo 'no sockets (EPERM)' ;;
        */mv/mv-special-1.sh | rsync/devices) echo 'no devices (EPERM)' ;;
        */acl.sh | */p-acl.sh | */slink-acl.sh | rsync/acls* | rsync/xattrs* | rsync/*-fake | python/*xattr* | \
            python/*ExtendedAttributeTests* | tar/*xattrs:* | tar/*acls:* | tar/*capabilities:* | tar/11_--pax-option_compatibility)
            echo 'no extended attributes, so no ACLs (ENOTSUP)'
            ;;
        */cp/link-deref.sh | */cp/link-no-deref.sh | */cp/link-symlink.sh | */ln/hard-to-sym.sh | rsync/itemize | \
            */mv/symlink-onto-hardlink-to-self.sh | findutils/samefile-p-brokenlink.*)
            echo 'no hard links to symbolic links (EPERM)'
            ;;
        */rm/empty-immutable-skip.sh | */tail-2/append-only.sh) echo 'no attributes of chattr (ENOTTY)' ;;
        */cp/sparse-extents.sh) echo 'no fallocate (ENOTSUP)' ;;
        */cp/sparse-perf.sh) echo 'files up to 64 GiB (EFBIG)' ;;
        tar/*_bigger_than_2^33_B) echo 'needs 10 GB, and an image has 4 GiB at most (ENOSPC)' ;;
        */du/bigtime.sh) echo 'times of 64 bits, where ext4 has 34' ;;
        */du/threshold.sh) echo 'directories take no blocks' ;;
        */df/df-symlink.sh) echo 'the source of the mount is a word, and no file' ;;
        */tail-2/inotify-dir-recreate.sh | */tail-2/inotify-race.sh | */tail-2/inotify-race2.sh | */tail-2/inotify-rotate-resources.sh)
            echo 'tail takes what is mounted by FUSE for remote, and polls'
            ;;
    esac
}

# unpack SUITE PACKAGE : the package's sources, in WORK/SUITE.
unpack() {
    [ ! -e "$work/$1.unpacked" ] || return 0
    (
        mkdir -p "$work/download" "$work/$1" && cd "$work/download" && apt-get source --download-only "$2" >"$work/$1.log" 2>&1 &&
            tar -xf "$(find . -name "${2}_*.orig.tar.*" ! -name '*.asc' | sort | tail -1)" -C "$work/$1" --strip-components=1 2>>"$work/$1.log" &&
            touch "$work/$1.unpacked"
    )
}

# make_suite SUITE : builds its sources, in the current folder.
make_suite() {
    local each
    case $1 in
        libfuse)
            touch fuse_config.h
            cc -w -D_GNU_SOURCE -I. -o test_syscalls test/test_syscalls.c
            ;;
        rsync) ./configure --disable-openssl --disable-xxhash --disable-zstd --disable-lz4 --disable-md2man && make -j 2 ;;
        git) make -j 2 CFLAGS=-O1 NO_TCLTK=1 NO_CURL=1 NO_GETTEXT=1 NO_EXPAT=1 NO_OPENSSL=1 ;;
        perl) ./Configure -des -Doptimize=-O1 && make -j 2 test_prep ;;
        cpio)
            # Its sources define a name twice, and its manual isn't there.
            ./configure CFLAGS='-O1 -fcommon' &&
                for each in gnu lib rmt src tests; do make -j 2 -C "$each" || return; done &&
                make -C tests genfile
            ;;
        sqlite) ./configure CFLAGS=-O1 --disable-shared && make -j 2 testfixture ;;
        # The programs of its tests are built once, and not in both places.
        findutils) ./configure && make -j 2 && make -j 2 -C gnulib-tests check TESTS= ;;
        *) FORCE_UNSAFE_CONFIGURE=1 ./configure && make -j 2 ;;
    esac
}

# build SUITE PACKAGE : has what the suite needs, in WORK.
build() {
    if [ "$1" = python ]; then
        [ -n "$(python_with_tests)" ]
        return
    fi
    [ ! -e "$work/$1.built" ] || return 0
    unpack "$1" "$2" && (cd "$work/$1" && make_suite "$1" >>"$work/$1.log" 2>&1) && touch "$work/$1.built"
}

# python_with_tests : a python3 that has its own tests.
python_with_tests() {
    local each
    for each in python3 /usr/bin/python3; do
        "$each" -c 'import test.test_os' 2>/dev/null && echo "$each" && return
    done
}

# Each prints a line `RESULT TEST` for each test, run in the folder PLACE.
run_libfuse() {
    mkdir "$1/calls"
    "$work/libfuse/test_syscalls" "$1/calls" 2>&1 | sed -n 's/^ *[0-9]* \[\(.*\)\] OK$/ok \1/p; s/^ *[0-9]* \[\([^]]*\)\] .*[^K]$/failed \1/p' | tr ' ' _ | sed 's/_/ /'
}
run_coreutils() {
    cp -a "$work/coreutils" "$1/tree"
    (
        cd "$1/tree" || exit
        tests=
        for part in $COREUTILS; do
            tests="$tests $(find "tests/$part" -name '*.sh' | sort | tr '\n' ' ')"
        done
        RUN_EXPENSIVE_TESTS=no make -j "$jobs" check TESTS="$tests" SUBDIRS=. VERBOSE= 2>&1 | results_of_automake
    )
}
run_findutils() {
    cp -a "$work/findutils" "$1/tree"
    (
        cd "$1/tree" || exit
        {
            make -k -j "$jobs" check 2>&1
            # What runtest of the package dejagnu finds, if it is there.
            cat ./*/testsuite/*.sum
        } 2>/dev/null | results_of_automake
    )
}
run_tar() {
    cp -a "$work/tar" "$1/tree"
    (cd "$1/tree/tests" && make check 2>&1 | results_of_autotest)
}
run_cpio() {
    cp -a "$work/cpio" "$1/tree"
    (cd "$1/tree/tests" && make check 2>&1 | results_of_autotest)
}
run_rsync() {
    (cd "$work/rsync" && scratchbase=$1 make check 2>&1 | sed -n 's/^\(PASS\|FAIL\|SKIP\|XFAIL\)  *\([^ ]*\).*/\1 \2/p')
}
run_git() {
    local test
    for test in $GIT; do
        (cd "$work/git/t" && TEST_OUTPUT_DIRECTORY=$1 sh "./$test.sh" 2>&1 | results_of_tap "$test")
    done
}
run_perl() {
    local test
    mkdir "$1/tree"
    ln -s "$work/perl/perl" "$work/perl/lib" "$1/tree"
    cp -a "$work/perl/t" "$1/tree"
    (
        cd "$1/tree/t" || exit
        for test in $PERL; do
            [ ! -e "$test" ] || ./perl -I../lib "$test" 2>&1 </dev/null | results_of_tap "$test"
        done
    )
}
run_python() {
    (
        cd "$1" || exit
        rm -f "$room/python.xml"
        # shellcheck disable=SC2086 # The tests are words.
        TMPDIR=$1 "$(python_with_tests)" -m test --timeout 300 --junit-xml "$room/python.xml" $PYTHON >"$work/python.log" 2>&1 </dev/null
        python3 - "$room/python.xml" <<'END'
import sys
import xml.etree.ElementTree as tree

for case in tree.parse(sys.argv[1]).iter("testcase"):
    ends = [part.tag for part in case if part.tag in ("skipped", "failure", "error")]
    print(ends[0] if ends else "ok", case.get("name").replace(" ", "_"))
END
    )
}
run_sqlite() {
    local test
    for test in $SQLITE; do
        mkdir "$1/$test"
        (
            cd "$1/$test" &&
                "$work/sqlite/testfixture" "$work/sqlite/test/$test.test" 2>&1 </dev/null |
                # Some names have random numbers, or one by the length of the place's path.
                sed -n 's/^\([^ ]*\)\.\.\. Ok$/ok \1/p; s/^! \([^ ]*\) expected.*/failed \1/p; s/^\([0-9]*\) errors out of .*/\1_errors end/p' |
                    sed "s/\(avtrans-9\.[0-9]*\.[0-9]*\|pager1-16\.1\)[.-][0-9]*$/\1/; s/ / $test:/"
        )
    done
}

# results_of_automake : the lines of results out of what make check prints.
results_of_automake() {
    # What runtest tells of an error has several words, and no name of a test.
    sed -n 's/^\(PASS\|FAIL\|SKIP\|XFAIL\|XPASS\|UNTESTED\): \([^ ].*\)/\1:\2/p; s/^ERROR: \([^ -][^ ]*\)$/ERROR:\1/p' |
        sort -u | tr ' ' _ | sed 's/:/ /'
}

# results_of_autotest : the same with another framework's prints.
results_of_autotest() {
    sed -n 's/^ *\([0-9]*\): \(.*[^ ]\)  *\(ok\|skipped\|FAILED\|expected failure\|UNEXPECTED PASS\).*/\3:\1_\2/p' | tr ' ' _ | sed 's/:/ /'
}

# results_of_tap TEST : and with those of the lines `ok N - NAME`.
results_of_tap() {
    sed -n 's/^ok \([0-9]*\).* # \(skip\|SKIP\).*/skipped \1/p; t; s/^ok \([0-9]*\).*/ok \1/p; t
        s/^not ok \([0-9]*\).*# TODO.*/todo \1/p; t; s/^not ok \([0-9]*\).*/failed \1/p' | sed "s|\([^ ]*\) \(.*\)|\1 $1:\2|"
}

# numbered : results with a name of its own for each.
numbered() { awk 'NF > 1 { n = ++seen[$2]; print $1, $2 (n > 1 ? "#" n : "") }'; }

# compare SUITE COMMAND : runs it in both places, and tells what differs.
compare() {
    local test ends known agree=0 all=0 explained=0
    local -A beside served
    mkdir "$aside/$1" "$folder/$1"
    "$2" "$aside/$1" | numbered >"$room/beside"
    "$2" "$folder/$1" | numbered >"$room/served"
    cp "$room/beside" "$work/$1.beside"
    cp "$room/served" "$work/$1.served"
    rm -rf "$aside/${1:?}" "$folder/${1:?}"
    while read -r ends test; do beside[$test]=$ends; done <"$room/beside"
    while read -r ends test; do served[$test]=$ends; done <"$room/served"
    while read -r test; do
        all=$((all + 1))
        if [ "${served[$test]-nothing}" = "${beside[$test]-nothing}" ]; then
            agree=$((agree + 1))
            continue
        fi
        known=$(reason "$1" "$test")
        [ -z "$known" ] || explained=$((explained + 1))
        echo "differs $1 $test: ${served[$test]-nothing}, beside ${beside[$test]-nothing}${known:+: $known}"
        [ -n "$known" ] || case ${served[$test]-nothing} in ok | PASS) ;; *) failed=1 ;; esac
    done < <(cut -d ' ' -f 2- "$room/beside" "$room/served" | awk '!seen[$0]++')
    echo "$1: $agree of $all tests end as beside, $explained otherwise for a known reason"
    [ "$all" -gt 0 ] || failed=1
}

"$program" make "$room/disk" "$room/nvram" --new --blocks 2G --inodes 64k --half 8M || exit
mkdir "$folder"
"$room/prefix/bin/wafl" mount --background "$room/disk" "$room/nvram" "$folder" || exit
for suite; do
    case $suite in
        libfuse) package=fuse3 ;;
        sqlite) package=sqlite3 ;;
        *) package=$suite ;;
    esac
    if build "$suite" "$package"; then
        compare "$suite" "run_$suite"
    else
        echo "skipped $suite: not built, see $work/$suite.log"
    fi
done
cd / || exit
umount "$folder" || failed=1
"$program" check --wait=20 "$room/disk" "$room/nvram" || failed=1
exit $failed
