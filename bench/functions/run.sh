#!/bin/sh
# run.sh [PROGRAM]: times two reduces over 1,000,000 groups each, written by hand in Rust and run by the evaluator,
# side by side, and checks that both programs print the same lines. PROGRAM is the path of the built function_bench.

set -eu

here=$(cd "$(dirname "$0")" && pwd)
programs="plain"
crate=function_bench
. "$here/../measure.sh"

cd "$work"
count=1000000

# The rounds alternate, so that a slow spell of the machine hits both programs.
for _ in 1 2 3 4 5 6 7 8 9 10; do
    for program in $programs; do
        case $program in
            function_bench) set -- "$built" ;;
            *) set -- "./$program" ;;
        esac
        figures=$(measure "$@" "$count") || {
            echo "run.sh: $program failed" >&2
            exit 1
        }
        [ -f expected ] || cp said expected
        cmp expected said
        echo "$program $figures" >>figures
    done
done

# The best of the rounds, and how many times that of the first program it is.
awk '
BEGIN {
    print "| program | milliseconds | times | peak MB |"
    print "|---------|-------------:|------:|--------:|"
}
{
    if (!($1 in time)) { order[++count] = $1; time[$1] = $2; peak[$1] = $3 }
    if ($2 < time[$1]) time[$1] = $2
    if ($3 < peak[$1]) peak[$1] = $3
}
END {
    for (i = 1; i <= count; i++) {
        name = order[i]
        printf "| %s | %d | %.1f | %d |\n", name, time[name], time[name] / time[order[1]], peak[name] * 1024 / 1000000 + 0.5
    }
}' figures
