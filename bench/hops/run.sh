#!/bin/sh
# run.sh [HALOOP]: times the rounds of one program in plain Rust and by
# `haloop plain`, side by side, and checks that both write the same bytes.
# HALOOP is the path of the built haloop.

set -eu

here=$(cd "$(dirname "$0")" && pwd)
programs="inline"
crate=haloop
. "$here/../measure.sh"

# inline.rs has the same program as data.
cp "$here/hops.hal" "$work/program"
printf '1\t0\n' >"$work/start.tsv"

start=start.tsv
make_tables() {
    "$work/generate" "$1" 7 >"$work/links.tsv"
}

. "$here/../rounds.sh"
