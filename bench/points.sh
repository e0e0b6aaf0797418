#!/bin/sh
# Times the points-to analysis on generated programs of plain code, beside the same relation found in passes and, where g++ is,
# beside a plain worklist that hands on what is new (bench/points_peer.cpp). It prints for each program its functions, places,
# nodes and locations, how many references there are with a sum over the relation, which has to be the same for all, how much
# of the table that fills, the processor seconds of each with reading (and of argot up to the reaching definitions alone), and
# the greatest memory in MB. It installs nothing.
# usage: bench/points.sh [ARGOT_PLAIN_SHOW [FUNCTIONS [SHAPE..]]]
#        (the built program; crates/argot_plain_show/out/argot_plain_show where none is named)
set -eu
here=$(cd "$(dirname "$0")" && pwd)
show=${1:-$here/../crates/argot_plain_show/out/argot_plain_show}
folder=$(mktemp -d)
trap 'rm -rf "$folder"' EXIT
functions=${2:-500}
shapes=tree
if [ $# -gt 2 ]; then
    shift 2
    shapes=$*
fi
peer=
if command -v g++ > /dev/null; then
    g++ -O2 -std=c++17 -o "$folder/peer" "$here/points_peer.cpp"
    peer=$folder/peer
fi

# Each function makes five objects of three fields, stores them into each other and into what its two parameters refer to,
# reads from these, calls two others by number and one method of whatever its first parameter refers to, and hands back
# what it read. The two are its children in a tree of calls (tree), the next two functions (line), or any two (web).
program_of() {
    python3 -c '
import sys
shape, count = sys.argv[1], int(sys.argv[2])
out, sites, place, nodes, seed = ["file main.go"], [], 0, 0, 7
KINDS = 10
first, wrapper = 1, 1 + count
def function(name, params, results, role, registers, body):
    global place, nodes
    entry = place
    leave = entry + len(body) - 1
    out.append("function %s %d %d %d %d %d %s - - - %s %s" % (name, entry, leave - 1, leave, params, results, role, "main::" + name[5:] if role == "own" and params else "-", " ".join(["-"] * registers)))
    nodes += params
    for line in body:
        words = line.split()
        if words[0] == "new":
            sites.append("site %d 0 0 f0,f1,f2 %d -" % (place, 31 + len(sites) % KINDS))
        nodes += {"goto": 0, "branch": 0, "rundefers": 0, "call": len(words) - 3 + (words[-1][0] == "m" or any(w[0] == "m" for w in words[1:])), "leave": len(words) - 1}.get(words[0], 1)
        out.append("  " + line)
        place += 1
def random(n):
    global seed
    seed = (seed * 1103515245 + 12345) % 2147483648
    return (seed >> 8) % n
def callees(g):
    if shape == "tree": return (2 * g + 1) % count, (2 * g + 2) % count
    if shape == "line": return (g + 1) % count, (g + 2) % count
    return random(count), random(count)
function("entry", 0, 0, "own", 3, ["goto 1", "new 0 0", "new 1 1", "call 2 = f1 0 1", "rundefers", "leave"])
for g in range(count):
    a, b = callees(g)
    at, site = place, len(sites)
    function("main.f%d" % g, 2, 1, "own", 44, [
        "goto %d" % (at + 1),
        "new 2 %d" % site, "new 3 %d" % (site + 1), "new 4 %d" % (site + 2), "new 5 %d" % (site + 3), "new 6 %d" % (site + 4),
        "step 7 2 f0", "write 7 0", "step 8 0 f1", "write 8 3", "step 9 1 f0", "read 10 9 -", "step 11 2 f1", "write 11 10",
        "step 12 4 f2", "write 12 1", "step 13 0 f2", "read 14 13 -", "move 15 2 -", "branch %d %d" % (at + 20, at + 21), "move 15 5 -",
        "step 16 15 f0", "read 17 16 -", "step 18 17 f1", "write 18 6", "move 19 0 -", "move 20 1 -",
        "call 21 = f%d 2 15" % (first + a), "call 22 = f%d 19 3" % (first + b), "call 23 = m0:main.run",
        "step 24 21 f0", "read 25 24 -", "step 26 22 f2", "read 27 26 -", "step 28 23 f1", "read 29 28 -",
        "step 30 4 f0", "write 30 25", "step 31 5 f1", "write 31 27", "step 32 6 f2", "write 32 29",
        "move 33 25 -", "branch %d %d" % (at + 44, at + 45), "move 33 27 -",
        "move 34 33 -", "move 35 10 -", "move 36 35 -", "move 37 14 -", "move 38 29 -", "move 39 38 -",
        "move 40 39 -", "move 41 1 -", "move 42 2 -", "move 43 42 -",
        "rundefers", "leave 33"])
for k in range(KINDS):
    function("main.T%d.run" % k, 1, 1, "wrapper", 2, ["goto %d" % (place + 1), "move 1 0 -", "rundefers", "leave 1"])
out += sites
out += ["method %d main.run %d" % (31 + k, wrapper + k) for k in range(KINDS)]
print("\n".join(out))
print("%d functions, %d places, %d nodes, %d locations" % (count + KINDS + 1, place, nodes, 4 * len(sites)), file=sys.stderr)' "$1" "$2"
}

timed() {
    (cd "$folder" && python3 -c '
import resource, subprocess, sys
text = subprocess.run(sys.argv[1:], capture_output=True, text=True).stdout.splitlines()[-1]
used = resource.getrusage(resource.RUSAGE_CHILDREN)
print("%s: %.2f s, %d MB" % (text, used.ru_utime + used.ru_stime, used.ru_maxrss // 1024))' "$@")
}

for shape in $shapes; do
    program_of "$shape" "$functions" > "$folder/program.txt" 2> "$folder/counts"
    echo "$shape: $(cat "$folder/counts")"
    printf '  up to definitions  '
    timed "$show" definitions -count program.txt
    printf '  worklist           '
    timed "$show" references program.txt | tee "$folder/found"
    printf '  passes             '
    timed "$show" references -passes program.txt
    if [ -n "$peer" ]; then
        printf '  peer               '
        timed "$peer"
    fi
    python3 -c '
import sys
counts, found = open(sys.argv[1]).read().split(), open(sys.argv[2]).read().split()
rows = int(counts[4]) + int(counts[6])
print("  fill               %.2f %% of %d rows times %s columns" % (100 * int(found[0]) / (rows * int(counts[6])), rows, counts[6]))' "$folder/counts" "$folder/found"
done
