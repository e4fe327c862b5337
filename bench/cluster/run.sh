#!/bin/sh
# run.sh [HALOOP]: times two programs in memory, by `haloop plain`, and over two clusters, by `haloop run`, side by side, and
# checks that all write the same part files. HALOOP is the path of the built haloop.

set -eu

here=$(cd "$(dirname "$0")" && pwd)
programs=""
crate=haloop
. "$here/../measure.sh"

[ -n "$programs" ] || exit 1
keys=250000
cd "$work"
for program in hops rank; do
    rustc -O --edition 2021 -o "generate-$program" "$here/../$program/generate.rs"
    mkdir "$program"
    cp "$here/../$program/$program.hal" "$program/program"
done
./generate-hops "$keys" 7 >hops/links.tsv
printf '1\t0\n' >hops/start.tsv
(cd rank && ../generate-rank "$keys" 7)

printf 'nodes 1\n' >one-node
printf 'nodes 8\nslots 2\ncopies 3\nblock 10000\n' >eight-nodes

# The runs alternate, so that a slow spell of the machine hits all of them. Each has a folder of its own.
for _ in 1 2 3; do
    for program in hops rank; do
        for command in plain one-node eight-nodes; do
            mkdir run
            cd run
            ln ../"$program"/* .
            case $command in
                plain) set -- plain program out ;;
                *) set -- run program "../$command" out ;;
            esac
            figures=$(measure "$built" "$@") || {
                echo "run.sh: $program failed by $command" >&2
                exit 1
            }
            echo "$program $command $(sed -n 's/^rounds //p' said) $figures" >>../figures
            cd ..
            if [ -d "expected-$program" ]; then
                diff -rq "expected-$program" run/out
            else
                mv run/out "expected-$program"
            fi
            rm -rf run
        done
    done
done

# The best of the runs, in the order in which they were made.
awk '
BEGIN {
    print "| program | command | rounds | milliseconds | times plain | peak MB | times plain |"
    print "|---------|---------|-------:|-------------:|------------:|--------:|------------:|"
}
{
    name = $1 " " $2
    if (!(name in time)) { order[++count] = name; program[name] = $1; command[name] = $2; rounds[name] = $3; time[name] = $4; peak[name] = $5 }
    if ($4 < time[name]) time[name] = $4
    if ($5 < peak[name]) peak[name] = $5
}
END {
    for (i = 1; i <= count; i++) {
        name = order[i]
        plain = program[name] " plain"
        printf "| %s | %s | %s | %d | %.1f | %d | %.1f |\n", program[name], command[name], rounds[name], time[name], time[name] / time[plain], peak[name] * 1024 / 1000000 + 0.5, peak[name] / peak[plain]
    }
}' figures
echo
echo "All part files are byte for byte the same."
