#!/bin/sh
# Runs the lexer and the parser over every .go file of an installed Go, read where it lies. It installs nothing, and where
# no Go is, it is skipped. Without a reference it compares with what gofmt accepts: a file that gofmt takes must have tokens;
# of those without a tree it counts the words at which the subset ends. With a reference program it compares tokens
# and trees, a file at a time: REFERENCE front DIR --tokens prints the tokens of a folder's files, and --tree their trees or
# a line with the position of the fault.
# usage: bench/corpus.sh [ARGOT_SHOW [REFERENCE]]      (crates/argot_show/out/argot_show where no program is named)
set -eu
show=${1:-$(dirname "$0")/../crates/argot_show/out/argot_show}
reference=${2:-}
root=$(command -v go > /dev/null && go env GOROOT || true)
if [ -z "$root" ]; then
    echo "skipped: no Go is installed"
    exit 0
fi
folder=$(mktemp -d)
trap 'rm -rf "$folder"' EXIT
echo 'module m' > "$folder/go.mod"
find -L "$root/src" "$root/test" -type f -name '*.go' > "$folder/files"
: > "$folder/lexed"
: > "$folder/parsed"
: > "$folder/ends"

yes_or_no() { if "$@" > /dev/null 2>&1; then echo yes; else echo no; fi; }

# the word or the character at which a file ends to be of the subset, or `nesting`; names are one class
end_of() {
    fault=$("$show" tree -count "$1" 2>&1 > /dev/null || true)
    case $fault in
        *nest*) echo nesting ;;
        *)
            place=${fault#"$1":}
            line=${place%%:*}
            column=${place#*:}
            column=${column%%:*}
            word=$(sed -n "${line}p" "$1" | cut -b "$column-" | grep -oE '^([A-Za-z_]+|.)' || true)
            case $word in
                '') echo 'the end of a line' ;;
                map | chan | func | struct | interface | type) echo "$word" ;;
                [A-Za-z_]*) echo 'a name' ;;
                *) echo "$word" ;;
            esac ;;
    esac
}

accepted() {
    gofmt=$(yes_or_no gofmt -e "$1")
    tokens=$(yes_or_no "$show" tokens -count "$1")
    tree=$(yes_or_no "$show" tree -count "$1")
    echo "$tokens $gofmt" >> "$folder/lexed"
    echo "$tree $gofmt" >> "$folder/parsed"
    if [ "$tokens $gofmt" = 'no yes' ]; then echo "no tokens, and gofmt takes it: $1"; fi
    if [ "$tokens $tree $gofmt" = 'yes no yes' ]; then end_of "$1" >> "$folder/ends"; fi
}

# a file's tokens, and whether and where it has no tree
compared() {
    cp "$1" "$folder/a.go"
    "$reference" front "$folder" --tokens | tail -n +2 > "$folder/wanted"
    if "$show" tokens "$folder/a.go" > "$folder/got" 2> /dev/null; then
        if cmp -s "$folder/wanted" "$folder/got"; then echo 'yes yes' >> "$folder/lexed"; else echo "tokens differ: $1"; fi
    elif grep -q 'fault at' "$folder/wanted"; then
        echo 'no no' >> "$folder/lexed"
        return
    else
        echo "no tokens, and the reference has some: $1"
        return
    fi
    "$reference" front "$folder" --tree > "$folder/wanted" || true
    theirs=$(grep 'syntax error\|nesting over' "$folder/wanted" | grep -o 'a\.go:[0-9]*:[0-9]*' | head -n 1 || true)
    ours=$("$show" tree -count "$folder/a.go" 2>&1 > /dev/null | grep -o 'a\.go:[0-9]*:[0-9]*' | head -n 1 || true)
    if [ "$theirs" != "$ours" ]; then echo "trees differ: $1: $ours, reference $theirs"; fi
    if [ -z "$ours" ]; then echo 'yes yes' >> "$folder/parsed"; else echo 'no no' >> "$folder/parsed"; fi
}

while read -r file; do
    if [ -z "$reference" ]; then accepted "$file"; else compared "$file"; fi
done < "$folder/files"
echo 'files by: has tokens, and is taken by the other'
sort "$folder/lexed" | uniq -c
echo 'files by: has a tree, and is taken by the other'
sort "$folder/parsed" | uniq -c
if [ -s "$folder/ends" ]; then
    echo 'files that gofmt takes and that have no tree, by the words at which they end to be of the subset'
    sort "$folder/ends" | uniq -c | sort -rn
fi
