#!/usr/bin/env bash
# Tries the programs of tests/lives against the crate cache_states, in a copy of the repository: each is refused with the
# message that it names, or compiles. Their names end in .txt, since no check reads them where they lie. The crates below
# are taken as `rt ci` keeps them on this machine; where it has not passed them, they are proved first. Prints a line for
# each program; the status is 0 only where none failed.

set -u

top=$(dirname -- "$(dirname -- "$(readlink -f -- "${BASH_SOURCE[0]}")")")
work=$(mktemp -d) || exit 1
trap 'rm -rf -- "$work"' EXIT
trap 'exit 1' HUP INT TERM

# Only the crates below are copied, without what was built of them.
below='hal_base node_names hal_outside node_files counter_report schedule_text replica_table run_model cache_states'
mkdir -p "$work/crates/tried/src"
cp -- "$top/HANDLES" "$work/"
for crate in $below; do
    mkdir "$work/crates/$crate"
    for part in src specs proofs; do
        [ ! -d "$top/crates/$crate/$part" ] || cp -a -- "$top/crates/$crate/$part" "$work/crates/$crate/"
    done
    grep -E "^$crate:" "$top/crates.txt" >>"$work/crates.txt"
done
echo 'tried: hal_base node_names hal_outside node_files cache_states' >>"$work/crates.txt"
cd "$work" || exit 1

failed=0 cases=0
for program in "$top"/tests/lives/*.txt; do
    name=$(basename -- "$program" .txt)
    cp -- "$program" crates/tried/src/lib.rt
    rt ci >"$work/said" 2>&1
    status=$?
    wanted=$(sed -n 's,^// refused: ,,p' "$program")
    if [ -n "$wanted" ]; then
        [ "$status" -ne 0 ] && grep -qF "error[$wanted]" "$work/said"
    else
        [ "$status" -eq 0 ]
    fi && echo "ok $name" || { echo "FAILED $name"; sed 's/^/  /' "$work/said"; failed=$((failed + 1)); }
    cases=$((cases + 1))
done
echo "$cases programs, $failed failed"
[ "$failed" -eq 0 ]
