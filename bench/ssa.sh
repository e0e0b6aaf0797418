#!/bin/sh
# Times reaching definitions on generated functions, beside a solver by bit vectors over basic blocks that is iterated to the
# fixpoint (bench/ssa_peer.cpp), where g++ is. It prints for each function its places, the count and the sum of both, which
# have to be the same, the seconds of each with reading, and the greatest memory in MB. It installs nothing.
# usage: bench/ssa.sh [ARGOT_PLAIN_SHOW]      (the built program; crates/argot_plain_show/out/argot_plain_show where none is named)
set -eu
here=$(cd "$(dirname "$0")" && pwd)
show=${1:-$here/../crates/argot_plain_show/out/argot_plain_show}
folder=$(mktemp -d)
trap 'rm -rf "$folder"' EXIT
peer=
if command -v g++ > /dev/null; then
    g++ -O2 -o "$folder/peer" "$here/ssa_peer.cpp"
    peer=$folder/peer
fi

# the functions: n places in a straight line that read what stands before them (line); n/2 definitions, read in reverse
# (fold); n/10 times an `if` that assigns two variables, one of which is read at the end and one at its join, beside a variable
# that is read everywhere (joins); n/5 times a result that is tested and returned (tested)
function_of() {
    awk -v shape="$1" -v n="$2" '
    function op(text) { line[++count] = "0 " text; split(text, w, " "); if (w[1] + 0 > top) top = w[1] + 0 }
    function jump(text) { line[++count] = text }
    BEGIN {
        count = 0; top = 0
        if (shape == "line") { op("1"); for (k = 2; k <= n; k++) op(k " " (k - 1)) }
        if (shape == "fold") { h = int(n / 2); for (k = 1; k <= h; k++) op(k ""); for (k = 1; k <= h; k++) op((h + k) " " (h + 1 - k)) }
        if (shape == "joins") {
            op("0"); op("1"); op("2"); r = 3
            for (j = 1; j <= n / 10; j++) {
                b = count + 1
                jump("2 " (b + 1) " " (b + 4)); op("1 0"); op("2 0"); jump("1 " (b + 5)); op("2 0")
                op(r " 2 0"); for (k = 1; k <= 4; k++) op((r + k) " " (r + k - 1)); r += 5
            }
            op(r " 1")
        }
        if (shape == "tested") {
            op("0"); r = 2
            for (j = 1; j <= n / 5; j++) { b = count + 1; op("1 0"); jump("2 " (b + 2) " " (b + 4)); op(r " 1"); jump("1 " (b + 4)); op((r + 1) " 0"); r += 2 }
        }
        print top + 1
        for (k = 1; k <= count; k++) print line[k]
    }'
}

# the same function as a program of plain code
program_of() {
    awk 'NR == 1 { registers = $1; next }
    { line[++count] = $0 }
    END {
        printf "file main.go\nfunction entry 0 %d %d 0 0 own - - - -", count + 1, count + 2
        for (k = 0; k < registers; k++) printf " -"
        print "\n  goto 1"
        split("op goto branch", word, " ")
        for (k = 1; k <= count; k++) print "  " word[substr(line[k], 1, 1) + 1] substr(line[k], 2)
        print "  rundefers\n  leave"
    }'
}

timed() {
    (cd "$folder" && python3 -c '
import resource, subprocess, sys, time
begin = time.time()
text = subprocess.run(sys.argv[1:], capture_output=True, text=True).stdout.splitlines()[-1]
memory = resource.getrusage(resource.RUSAGE_CHILDREN).ru_maxrss // 1024
print("%s: %.2f s, %d MB" % (text, time.time() - begin, memory))' "$@")
}

for size in 10000 100000; do
    for shape in line fold joins tested; do
        function_of "$shape" "$size" > "$folder/function.txt"
        program_of < "$folder/function.txt" > "$folder/program.txt"
        echo "$shape of $size"
        printf '  argot  '
        timed "$show" definitions program.txt
        if [ -n "$peer" ]; then
            printf '  peer   '
            timed "$peer"
        fi
    done
done
