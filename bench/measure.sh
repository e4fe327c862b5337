# Read by the scripts run.sh of the benches, each with the words that it was called with. It takes the
# folder $here of the bench, its $programs and the name of a program $crate. It makes the folder $work with
# the programs in it, and adds the program of the crate to them where it is built, as $built.

built=${1:-$here/../../crates/$crate/out/$crate}

work=$(mktemp -d)
trap 'rm -rf "$work"' EXIT
trap 'exit 1' HUP INT TERM

for source in "$here"/*.rs; do
    [ -f "$source" ] || continue
    rustc -O --edition 2021 -o "$work/$(basename "$source" .rs)" "$source"
done

if [ -f "$built" ] && [ -x "$built" ]; then
    # Every run has a folder of its own, so the path must hold from any folder.
    built=$(cd "$(dirname "$built")" && pwd)/$(basename "$built")
    programs="$programs $crate"
else
    echo "run.sh: no program at $built, so $crate is skipped" >&2
fi

# measure COMMAND...: runs it, keeps what it says in the file said, and prints
# its milliseconds and its peak in KiB.
if command time -f %M -o "$work/peak" true 2>/dev/null &&
    date +%N | grep -q '^[0-9]*$'; then
    measure() {
        # The clock of time itself only counts hundredths of a second.
        begin=$(date +%s%N)
        command time -f %M -o "$work/peak" "$@" >said || return
        end=$(date +%s%N)
        echo "$(((end - begin) / 1000000)) $(cat "$work/peak")"
    }
else
    measure() {
        python3 -c '
import resource, subprocess, sys, time
begin = time.monotonic()
with open("said", "wb") as said:
    if subprocess.call(sys.argv[1:], stdout=said):
        sys.exit(1)
end = time.monotonic()
peak = resource.getrusage(resource.RUSAGE_CHILDREN).ru_maxrss
if sys.platform == "darwin":
    peak //= 1024  # counted in bytes there
print(int((end - begin) * 1000), peak)
' "$@"
    }
fi
