#!/bin/sh
# Lists every recursive function of the repository, a group of functions that call one another a line: as
# 'CRATE: FUNCTION FUNCTION ..', or by the name of their cycle where they have one, with their number. It says which of
# them docs/testing.md doesn't name, and its status is 1 where there are such.
# A call is a name before a parenthesis, alone, behind `Self::` or behind `self.`; tests are left out.
# usage: bench/recursion.sh
set -eu
cd "$(dirname "$0")/.."
found=$(mktemp)
trap 'rm -f "$found"' EXIT
for crate in $(sed -n "s,^\([a-z_0-9]*\)[ :].*,crates/\1,p" crates.txt); do
    awk -v crate="${crate#crates/}" '
        /^#\[cfg\(test\)\]/ || /^#\[test\]/ { intest = 1 }
        /^ *\/\// { next }
        /^ *#\[cycle\(/ { cycle = $0; sub(/^.*cycle\(/, "", cycle); sub(/\).*$/, "", cycle); next }
        FNR == 1 { from_below = 0; split("", below) }
        /^use argot_/ { from_below = 1 }
        from_below {
            line = $0
            while (match(line, /[a-z_][a-z_0-9]*/)) {
                below[substr(line, RSTART, RLENGTH)] = 1
                line = substr(line, RSTART + RLENGTH)
            }
            if ($0 ~ /;/) from_below = 0
            next
        }
        {
            line = $0
            if (match(line, /(^|[^a-z_])fn [a-z_0-9]+/)) {
                name = substr(line, RSTART, RLENGTH)
                sub(/^.*fn /, $0 ~ /^ / ? "." : "", name)
                if (intest) { name = ""; intest = 0 }
                else if (!(name in functions)) { functions[name] = 1; order[++count] = name; cycles[name] = cycle }
                cycle = ""
                sub(/fn [a-z_0-9]+/, "fn", line)
            }
            if (name == "" || line ~ /^ *(ensures|requires|ghost|invariant|decreases)/) next
            while (match(line, /(Self::|self\.|[.:]|[A-Za-z0-9_])?[a-z_][a-z_0-9]*\(/)) {
                call = substr(line, RSTART, RLENGTH - 1)
                line = substr(line, RSTART + RLENGTH)
                if (call ~ /^(Self::|self\.)/) sub(/^(Self::|self\.)/, ".", call)
                else if (call ~ /^[.:]/ || call in below) continue
                calls[name, call] = 1
            }
        }
        function reach(from, at,    i) {
            for (i = 1; i <= count; i++)
                if ((at, order[i]) in calls && !((from, order[i]) in reached)) {
                    reached[from, order[i]] = 1
                    reach(from, order[i])
                }
        }
        END {
            for (k = 1; k <= count; k++) reach(order[k], order[k])
            for (k = 1; k <= count; k++) {
                if (!((order[k], order[k]) in reached) || order[k] in told) continue
                group = label = ""
                size = 0
                for (j = 1; j <= count; j++)
                    if ((order[k], order[j]) in reached && (order[j], order[k]) in reached) {
                        group = group " " order[j]
                        told[order[j]] = 1
                        size++
                        if (cycles[order[j]] != "") label = cycles[order[j]]
                    }
                print crate ":" (label == "" ? group : " " label " (" size " functions)")
            }
        }' "$crate"/src/*.rt >> "$found"
done
cat "$found"
missing=0
while IFS= read -r group; do
    crate=${group%%:*}
    names=${group#*: }
    for name in ${names%% (*}; do
        grep -q "\`$crate\`.*\`$name\`" docs/testing.md || {
            echo "docs/testing.md doesn't say what bounds the depth of $name of $crate"
            missing=1
        }
    done
done < "$found"
exit $missing
