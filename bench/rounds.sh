# Read by the scripts run.sh of the benches that time rounds, behind measure.sh. The folder $work has the text of the
# program as the file program, and $start is the name of its start table beside links.tsv. make_tables KEYS makes
# the tables in that folder.

# The runs alternate, so that a slow spell of the machine hits every program.
for keys in 25000 250000; do
    rm -rf "$work/expected"
    make_tables "$keys"
    for _ in 1 2 3; do
        for program in $programs; do
            mkdir "$work/run"
            cd "$work/run"
            ln "../$start" ../links.tsv ../program .
            case $program in
                haloop) set -- "$built" plain program out ;;
                *) set -- "../$program" "$start" links.tsv out ;;
            esac
            figures=$(measure "$@") || {
                echo "run.sh: $program failed with $keys keys" >&2
                exit 1
            }
            rounds=$(sed -n 's/^rounds //p' said)
            echo "$keys $program $rounds $figures" >>"$work/figures"
            # The two lines are compared with the part files.
            mv said out
            if [ -d "$work/expected" ]; then
                diff -rq "$work/expected" out
            else
                mv out "$work/expected"
            fi
            cd "$work"
            rm -rf run
        done
    done
done

# The best of the runs, in the order in which they were made.
awk '
BEGIN {
    print "| keys | program | rounds | milliseconds | ms per round | peak MB |"
    print "|-----:|---------|-------:|-------------:|-------------:|--------:|"
}
{
    name = $1 " | " $2 " | " $3
    if (!(name in time)) { order[++count] = name; rounds[name] = $3; time[name] = $4; peak[name] = $5 }
    if ($4 < time[name]) time[name] = $4
    if ($5 < peak[name]) peak[name] = $5
}
END {
    for (i = 1; i <= count; i++) {
        name = order[i]
        printf "| %s | %d | %.1f | %d |\n", name, time[name], time[name] / rounds[name], peak[name] * 1024 / 1000000 + 0.5
    }
}' "$work/figures"
echo
echo "All part files and lines are byte for byte the same."
