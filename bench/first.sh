#!/bin/sh
# Times taint on three generated files of the form, of 4,096 bytes each: many sources and sinks that no data joins, as many
# names as fit, and one value of many sources in many sinks, where nearly all of the time is the report's. The best of 20
# runs counts, beside that on an empty program, which is what it costs to start one.
# usage: bench/first.sh [ARGOT]      (the built program; crates/argot/out/argot where none is named)
set -eu
argot=${1:-$(dirname "$0")/../crates/argot/out/argot}
folder=$(mktemp -d)
trap 'rm -rf "$folder"' EXIT
mkdir "$folder/empty" "$folder/apart" "$folder/names" "$folder/joined"
printf 'package main\nfunc main() {\n}\n' > "$folder/empty/main.go"
# the lines that are repeated, at most so many bytes of them, then the rest; blank lines fill the file
fill() { awk -v head="$1" -v line="$2" -v room="$3" -v more="$4" 'BEGIN {
    text = head
    while (length(text) + length(line) <= room) text = text line
    while (more != "" && length(text) + length(more) + 2 <= 4096) text = text more
    text = text "}\n"
    while (length(text) < 4096) text = text "\n"
    printf "%s", text
}'; }
fill 'package main\nfunc source() string { return "a" }\nfunc sink(x string) {}\nfunc main() {\n\ta := source()\n' '\ta = source()\n\tsink("")\n' 4094 '' > "$folder/apart/main.go"
fill 'package main\nfunc source(x string) string { return x }\nfunc sink(x string) {}\nfunc main() {\n\ta := source("")\n' '\ta = source(a)\n' 2096 '\tsink(a)\n' > "$folder/joined/main.go"
awk 'BEGIN {
    letters = "abcdefghijklmnopqrstuvwxyzABCDEFGHIJKLMNOPQRSTUVWXYZ"
    text = "package main\nfunc source() string { return \"a\" }\nfunc sink(x string) {}\nfunc main() {\n"
    for (i = 0; ; i++) {
        name = substr(letters, int(i / 52) % 52 + 1, 1) substr(letters, i % 52 + 1, 1) "z"
        line = "\t" name " := \"\"\n\tsink(" name ")\n"
        if (length(text) + length(line) + 2 > 4096) break
        text = text line
    }
    text = text "}\n"
    while (length(text) < 4096) text = text "\n"
    printf "%s", text
}' > "$folder/names/main.go"
now() { date +%s%N; }
for name in empty apart names joined; do
    best=999999999
    for _ in 1 2 3 4 5 6 7 8 9 10 11 12 13 14 15 16 17 18 19 20; do
        start=$(now)
        "$argot" taint "$folder/$name" > "$folder/out" || true
        took=$(($(now) - start))
        if [ "$took" -lt "$best" ]; then best=$took; fi
    done
    echo "$name: $(wc -c < "$folder/$name/main.go") bytes, $(tail -n 1 "$folder/out"), $((best / 1000)) us"
done
