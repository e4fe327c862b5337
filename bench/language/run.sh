#!/bin/sh
# run.sh [HALOOP]: times the reading of a program's text of 1 MiB in two programs, side by side, and checks that they
# say the same. HALOOP is the path of the built haloop.

set -eu

here=$(cd "$(dirname "$0")" && pwd)
programs="plain"
crate=haloop
. "$here/../measure.sh"

cd "$work"
./generate 1048576 >program

# Both end with 11, since the program is right and the file of its table is not there.
run='"$@"; [ $? -eq 11 ]'

# The rounds alternate, so that a slow spell of the machine hits both programs.
for _ in 1 2 3 4 5 6 7 8 9 10; do
    for program in $programs; do
        case $program in
            haloop) set -- "$built" plain program out ;;
            *) set -- "./$program" program ;;
        esac
        figures=$(measure sh -c "$run" sh "$@") || {
            echo "run.sh: $program failed" >&2
            exit 1
        }
        grep -q '^error: file t.tsv absent$' said
        echo "$program $figures" >>figures
    done
done

# The best of the rounds.
awk '
BEGIN {
    print "| program | milliseconds | peak MB |"
    print "|---------|-------------:|--------:|"
}
{
    if (!($1 in time)) { order[++count] = $1; time[$1] = $2; peak[$1] = $3 }
    if ($2 < time[$1]) time[$1] = $2
    if ($3 < peak[$1]) peak[$1] = $3
}
END {
    for (i = 1; i <= count; i++)
        printf "| %s | %d | %d |\n", order[i], time[order[i]], peak[order[i]] * 1024 / 1000000 + 0.5
}' figures
