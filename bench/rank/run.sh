#!/bin/sh
# run.sh [HALOOP]: times the rounds of a program with functions of its own in plain Rust and by
# `haloop plain`, side by side, and checks that both write the same bytes.
# HALOOP is the path of the built haloop.

set -eu

here=$(cd "$(dirname "$0")" && pwd)
programs="inline"
crate=haloop
. "$here/../measure.sh"

# inline.rs has the same program as data.
cp "$here/rank.hal" "$work/program"

start=ranks.tsv
make_tables() {
    (cd "$work" && ./generate "$1" 7)
}

. "$here/../rounds.sh"
