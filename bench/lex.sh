#!/bin/sh
# Times the lexer on a generated file of 8 MiB, beside gofmt -l on the same file where Go is installed. It installs nothing.
# usage: bench/lex.sh [ARGOT_SHOW]      (the built program; crates/argot_show/out/argot_show where none is named)
set -eu
show=${1:-$(dirname "$0")/../crates/argot_show/out/argot_show}
folder=$(mktemp -d)
trap 'rm -rf "$folder"' EXIT
awk 'BEGIN {
    print "package main\n\nimport \"fmt\"\n"
    for (i = 0; size < 8 * 1024 * 1024; i++) {
        text = sprintf("// function number %d\nfunc worker%d(count int, name string) (total int, err error) {\n\titems := []int{1, 0x%x, 4_000, %d}\n\tfor index, value := range items {\n\t\tif value > count && index != len(name) || value == 0 {\n\t\t\ttotal += value * (index + %d) // a sum\n\t\t\tcontinue\n\t\t}\n\t\ttext := fmt.Sprintf(\"%%d: %%s\\n\", value, name)\n\t\ttotal = total<<1 | len(text)\n\t}\n\treturn total, nil\n}\n", i, i, i, i * 7, i % 13)
        print text
        size += length(text) + 1
    }
}' > "$folder/big.go"
now() { date +%s%N; }
run() { start=$(now); "$@" > /dev/null; end=$(now); echo $(((end - start) / 1000000)); }
bytes=$(wc -c < "$folder/big.go")
ours=$(run "$show" tokens -count "$folder/big.go")
echo "argot_show tokens -count: $ours ms for $bytes bytes, $((bytes / 1000 / (ours + 1))) MB/s"
if command -v gofmt > /dev/null; then
    theirs=$(run gofmt -l "$folder/big.go")
    echo "gofmt -l: $theirs ms, $((theirs / (ours + 1))) times as long"
fi
