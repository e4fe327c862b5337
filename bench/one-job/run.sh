#!/bin/sh
# run.sh [HALOOP]: times one job in three programs, side by side, and checks
# that they write the same bytes. HALOOP is the path of the built haloop.

set -eu

here=$(cd "$(dirname "$0")" && pwd)
programs="straightforward inline"
crate=haloop
. "$here/../measure.sh"

cat >"$work/program" <<'END'
program bench;
parts 1;
rounds 1;
stop exact;
table t "table.tsv" (int, int);
begin t;
step { state by same; reduce least; }
END
echo "nodes 1" >"$work/schedule"

# The rounds alternate, so that a slow spell of the machine hits every program.
for records in 1000000 4000000; do
    rm -f "$work/expected"
    "$work/generate" "$records" 1 >"$work/table.tsv"
    for _ in 1 2 3; do
        for program in $programs; do
            mkdir "$work/run"
            cd "$work/run"
            ln ../table.tsv ../program ../schedule .
            case $program in
                haloop) set -- "$built" run program schedule out ;;
                *) set -- "../$program" table.tsv out ;;
            esac
            figures=$(measure "$@") || {
                echo "run.sh: $program failed with $records records" >&2
                exit 1
            }
            echo "$records $program $figures" >>"$work/figures"
            if [ -f "$work/expected" ]; then
                cmp "$work/expected" out/part-00000
            else
                mv out/part-00000 "$work/expected"
            fi
            cd "$work"
            rm -rf run
        done
    done
done

# The best of the rounds, in the order in which they were run.
awk '
BEGIN {
    print "| records | program | milliseconds | peak MB |"
    print "|--------:|---------|-------------:|--------:|"
}
{
    name = $1 " | " $2
    if (!(name in time)) { order[++count] = name; time[name] = $3; peak[name] = $4 }
    if ($3 < time[name]) time[name] = $3
    if ($4 < peak[name]) peak[name] = $4
}
END {
    for (i = 1; i <= count; i++) {
        name = order[i]
        printf "| %s | %d | %d |\n", name, time[name], peak[name] * 1024 / 1000000 + 0.5
    }
}' "$work/figures"
echo
echo "All part-00000 files are byte for byte the same."
