#!/bin/sh
# Prints each needless edge of crates.txt: a crate that another one is said to stand on, though no file of its sources, definitions, proofs
# or edits names it. Ends with 1 where there is one: then that crate is proved anew more often than it has to be.
#
#   sh build/edges.sh
set -u
cd "$(dirname "$(dirname "$(readlink -f "$0")")")/crates" || exit 1

# is_named BELOW CRATE : whether a file of the crate names the one below it.
is_named() {
    for part in src specs proofs must-fail; do
        [ ! -d "$2/$part" ] || ! grep -rqE "(^|[^[:alnum:]_:.])$1::|use $1[ ;]|Rattle[.]$1[.]" "$2/$part" || return 0
    done
    return 1
}

needless=$(sed -n 's/#.*//; s/^\([a-z][a-z0-9_]*\)[^:]*:/\1/p' ../crates.txt | while read -r crate words; do
    for below in $words; do
        is_named "$below" "$crate" || echo "$crate: $below"
    done
done)
[ -z "$needless" ] || { echo "$needless"; exit 1; }
