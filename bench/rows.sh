#!/bin/sh
# Times the joins of a table's rows, beside the same loop in C++ (bench/rows_peer.cpp), where g++ is. It prints for each table
# its size, how many joins changed a row, which has to be the same, and the gigabytes of both rows that go by in a second. It
# installs nothing.
# usage: bench/rows.sh [ARGOT_PLAIN_SHOW]      (the built program; crates/argot_plain_show/out/argot_plain_show where none is named)
set -eu
here=$(cd "$(dirname "$0")" && pwd)
show=${1:-$here/../crates/argot_plain_show/out/argot_plain_show}
folder=$(mktemp -d)
trap 'rm -rf "$folder"' EXIT
peer=
if command -v g++ > /dev/null; then
    g++ -O2 -o "$folder/peer" "$here/rows_peer.cpp"
    peer=$folder/peer
fi

# with the time of the same table without a join taken off
timed() {
    python3 -c '
import subprocess, sys, time
program, (rows, cols, rounds) = sys.argv[1:-3], map(int, sys.argv[-3:])
def run(rounds):
    best = None
    for _ in range(3):
        begin = time.time()
        words = program + [str(number) for number in (rows, cols, rounds)]
        text = subprocess.run(words, capture_output=True, text=True).stdout.splitlines()[-1]
        spent = time.time() - begin
        best = spent if best is None else min(best, spent)
    return text, best
text, spent = run(rounds)
spent -= run(0)[1]
print("%s: %.2f s, %.1f GB/s" % (text, spent, (rows - 1) * rounds * cols / 4 / 1e9 / spent))' "$@"
}

# rows that stay in the cache, and a table of 128 MB
for table in "64 16384 20000" "1024 1048576 20"; do
    echo "rows, columns, rounds: $table"
    printf '  argot  '
    timed "$show" rows $table
    if [ -n "$peer" ]; then
        printf '  peer   '
        timed "$peer" $table
    fi
done
