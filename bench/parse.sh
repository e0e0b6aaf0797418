#!/bin/sh
# Times lexing and parsing of generated files of 8 MiB, and their memory, beside gofmt -l on the same file where Go is
# installed: many small functions, chains of operators, one long chain, nesting at the limit, long texts. It installs nothing.
# usage: bench/parse.sh [ARGOT_SHOW]      (the built program; crates/argot_show/out/argot_show where none is named)
set -eu
show=${1:-$(dirname "$0")/../crates/argot_show/out/argot_show}
folder=$(mktemp -d)
trap 'rm -rf "$folder"' EXIT
size=$((8 * 1024 * 1024))

awk -v size="$size" 'BEGIN {
    print "package main\n\nimport \"fmt\"\n"
    for (i = 0; done < size; i++) {
        text = sprintf("func worker%d(count int, name string) (total int, err error) {\n\titems := []int{1, 0x%x, 4_000, %d}\n\tfor index, value := range items {\n\t\tif value > count && index != len(name) || value == 0 {\n\t\t\ttotal += value * (index + %d)\n\t\t\tcontinue\n\t\t}\n\t\ttext := fmt.Sprintf(\"%%d: %%s\\n\", value, name)\n\t\ttotal = total<<1 | len(text)\n\t}\n\treturn total, nil\n}\n", i, i, i * 7, i % 13)
        print text
        done += length(text) + 1
    }
}' > "$folder/functions.go"

# gofmt's time grows with the square of a chain's length, and it refuses the whole file as one chain
awk -v size="$size" 'BEGIN {
    print "package main\n"
    for (i = 0; done < size; i++) {
        text = sprintf("var total%d = 1", i)
        for (k = 0; k < 50; k++) text = text sprintf(" | %d", (i + k) % 1000)
        print text
        done += length(text) + 1
    }
}' > "$folder/chains.go"

awk -v size="$size" 'BEGIN {
    printf "package main\n\nvar total = 1"
    for (i = 0; done < size; i++) {
        text = sprintf(" | %d", i % 1000)
        printf "%s", text
        done += length(text)
    }
    print ""
}' > "$folder/chain.go"

awk -v size="$size" 'BEGIN {
    print "package main\n"
    for (k = 0; k < 190; k++) { open = open "f("; close_ = close_ ")" }
    for (i = 0; done < size; i++) {
        text = sprintf("var v%d = %s%d%s", i, open, i, close_)
        print text
        done += length(text) + 1
    }
}' > "$folder/nested.go"

awk -v size="$size" 'BEGIN {
    print "package main\n"
    for (k = 0; k < 4096; k++) long = long "x"
    for (i = 0; done < size; i++) {
        text = sprintf("var t%d = \"%s\"", i, long)
        print text
        done += length(text) + 1
    }
}' > "$folder/texts.go"

# milliseconds and megabytes of a command
measure() {
    start=$(date +%s%N)
    if [ -x /usr/bin/time ]; then
        memory=$(/usr/bin/time -f %M "$@" 2>&1 > /dev/null | tail -n 1)
    else
        memory=0
        "$@" > /dev/null
    fi
    end=$(date +%s%N)
    echo "$(((end - start) / 1000000)) $((memory / 1024))"
}

for form in functions chains chain nested texts; do
    file=$folder/$form.go
    bytes=$(wc -c < "$file")
    ours=$(measure "$show" tree -count "$file")
    line="$form, $bytes bytes: argot_show tree -count ${ours% *} ms, ${ours#* } MB"
    if command -v gofmt > /dev/null && [ $form = chain ]; then
        line="$line; gofmt refuses it"
    elif command -v gofmt > /dev/null; then
        theirs=$(measure gofmt -l "$file")
        line="$line; gofmt -l ${theirs% *} ms, ${theirs#* } MB; ours takes $((100 * ${ours% *} / (${theirs% *} + 1))) percent of its time"
    fi
    echo "$line"
done
