#!/bin/sh
# Lists what is too long to read: functions with more than five parameters, and lines of contracts and of code with more than
# 120 columns (comments and imports aside), as 'FILE:LINE: ..'. Tests are left out. With names, these crates alone.
# usage: bench/lines.sh [CRATE ..]
set -eu
cd "$(dirname "$0")/.."
python3 - "$@" <<'PYTHON'
import glob, re, sys

crates = sys.argv[1:] or [line.split(":")[0] for line in open("crates.txt") if re.match("[a-z]", line)]

# the parts between brackets of no depth
def parts(text):
    depth, found = 0, [""]
    for at, mark in enumerate(text):
        if mark in "([{<":
            depth += 1
        elif mark in ")]}" or mark == ">" and text[at - 1] != "-":
            depth -= 1
        if mark == "," and depth == 0:
            found.append("")
        else:
            found[-1] += mark
    return [part for part in found if part.strip()]

for path in sorted(path for crate in crates for path in glob.glob("crates/%s/src/**/*.rt" % crate, recursive=True)):
    if path.endswith("tests.rt"):
        continue
    text = open(path).read()
    for found in re.finditer(r"\bfn (\w+)(<[^(]*>)?\(", text):
        depth, end = 1, found.end()
        while depth:
            depth += {"(": 1, ")": -1}.get(text[end], 0)
            end += 1
        count = len(parts(text[found.end():end - 1]))
        if count > 5:
            print("%s:%d: %s has %d parameters" % (path, text[:found.start()].count("\n") + 1, found.group(1), count))
    for number, line in enumerate(text.split("\n"), 1):
        if len(line) > 120 and not re.match(r"\s*(//|ghost use |use )", line):
            print("%s:%d: %d columns" % (path, number, len(line)))
PYTHON
