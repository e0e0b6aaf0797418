#!/bin/sh
# Times what the greatest configuration asks of the program with the most functions: 16 problems of 320 matchers with three
# patterns each, 65,536 functions, and 50,000 places with two tags. It prints the processor seconds and the greatest memory in MB of
# reading the program and a configuration without matchers, and then of the whole. It installs nothing.
# usage: bench/config.sh [ARGOT_PLAIN_SHOW]      (the built program; crates/argot_plain_show/out/argot_plain_show where none is named)
set -eu
here=$(cd "$(dirname "$0")" && pwd)
show=${1:-$here/../crates/argot_plain_show/out/argot_plain_show}
folder=$(mktemp -d)
trap 'rm -rf "$folder"' EXIT

python3 -c '
import json, sys
places, functions = 50000, 65536
with open(sys.argv[1] + "/program.txt", "w") as out:
    leave = places + 2
    print("file main.go\nfunction entry 0 %d %d 0 0 own - - - - - -\n  goto 1" % (leave - 1, leave), file=out)
    for i in range(places):
        print("tag field example.org/p%d:T%d:key%d\ntag variable example.org/p%d::global%d\n  move 1 0 -" % (i % 300, i % 40, i % 1000, i % 300, i % 2000), file=out)
    print("  rundefers\n  leave", file=out)
    for n in range(functions - 1):
        place = leave + 1 + n
        receiver = "Type%d" % (n % 50) if n % 3 else ""
        name = "method%d" % n
        print("function example.org/p%d.%s %d %d %d 0 0 own - inert - example.org/p%d:%s:%s\n  goto %d" % (n % 300, name, place, place, place, n % 300, receiver, name, place), file=out)
def matcher(k, j, kind):
    made = {"package": "^example[.]org/p%d$" % ((k * 64 + j) % 300), "receiver": "Type%d$" % (j % 50), "name": "%d" % (k * 1000 + j)}
    if kind: made["kind"] = kind
    return made
problems = []
for k in range(16):
    problem = {"name": "p%d" % k}
    for key in ("sources", "sinks", "sanitizers", "validators", "points"):
        problem[key] = [matcher(k, j, {0: "field", 1: "global"}.get(j % 4, "") if key == "sources" else "") for j in range(64)]
    problems.append(problem)
json.dump({"problems": problems}, open(sys.argv[1] + "/full.json", "w"))
json.dump({"problems": [{"name": "none"}]}, open(sys.argv[1] + "/none.json", "w"))' "$folder"

timed() {
    (cd "$folder" && python3 -c '
import resource, subprocess, sys
lines = subprocess.run(sys.argv[1:], capture_output=True, text=True).stdout.splitlines()
used = resource.getrusage(resource.RUSAGE_CHILDREN)
named = sum(int(line.split()[1]) for line in lines[1:])
print("%d functions and places named: %.2f s, %d MB" % (named, used.ru_utime + used.ru_stime, used.ru_maxrss // 1024))' "$show" problems -count "$1.json" program.txt)
}

timed none
timed full
