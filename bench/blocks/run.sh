#!/bin/sh
# run.sh [PROGRAM]: times the encoding and decoding of blocks, written by hand in Rust and proved, side by side, and checks
# that both programs print the same lines; and a digest of the same bytes, a put and a fetch. A block has 1,000,000
# records, or 10,000, and then a hundred blocks are made for each of the first. PROGRAM is the path of the built block_bench.

set -eu

here=$(cd "$(dirname "$0")" && pwd)
programs="plain"
crate=block_bench
. "$here/../measure.sh"

cd "$work"
million=1000000

# passes N BLOCK COMMAND...: the milliseconds of N passes over a million records, in blocks of so many.
passes() {
    count=$1
    block=$2
    shift 2
    spent=$(measure "$@" "$block" $((count * million / block))) || return
    echo "${spent% *}"
}

# time_work BLOCK KINDS WORK: times one pass and eleven in each program that does the work, and adds them to the figures.
time_work() {
    for program in $programs; do
        case $program:$3 in
            plain:digest | plain:put | plain:fetch) continue ;;
            block_bench:*) command=$built ;;
            *) command=./$program ;;
        esac
        if ! one=$(passes 1 "$1" "$command" "$2" "$3") || ! eleven=$(passes 11 "$1" "$command" "$2" "$3"); then
            echo "run.sh: $program failed" >&2
            exit 1
        fi
        [ -f "expected.$1.$2.$3" ] || cp said "expected.$1.$2.$3"
        cmp "expected.$1.$2.$3" said
        echo "$2 $1 $3 $program $one $eleven $(cut -d ' ' -f 1 said)" >>figures
    done
}

# The rounds alternate, so that a slow spell of the machine hits both programs.
for _ in 1 2 3 4 5; do
    for block in 10000 1000000; do
        for kinds in pairs words; do
            for what in encode decode digest put fetch; do
                time_work "$block" "$kinds" "$what"
            done
        done
    done
done

# What the best eleven passes take more than the best one. Ten passes over a million records in so many milliseconds are a
# tenth of that in nanoseconds a record.
awk '
BEGIN {
    print "| records | in a block | work | program | ns a record | MB/s |"
    print "|---------|-----------:|------|---------|------------:|-----:|"
}
{
    name = $1 " | " $2 " | " $3 " | " $4
    if (!(name in one)) { order[++count] = name; one[name] = $5; eleven[name] = $6; bytes[name] = $7 * 1000000 / $2 }
    if ($5 < one[name]) one[name] = $5
    if ($6 < eleven[name]) eleven[name] = $6
}
END {
    for (i = 1; i <= count; i++) {
        name = order[i]
        spent = eleven[name] > one[name] ? eleven[name] - one[name] : 1
        printf "| %s | %.1f | %d |\n", name, spent / 10, bytes[name] / 100 / spent
    }
}' figures
