#!/bin/sh
# Checks that each path that the index of docs/architecture.md names stands, and that each crate is in crates.txt.
cd "$(dirname "$0")/.." || exit 1
missing=0
for path in $(grep -o '`argot[a-z_]*/[^`]*`' docs/architecture.md | tr -d '`'); do
    [ -e "crates/$path" ] || { echo "docs/architecture.md: crates/$path is missing"; missing=1; }
done
for folder in crates/*/; do
    name=$(basename "$folder")
    grep -q "^$name:" crates.txt || { echo "crates.txt: $name is missing"; missing=1; }
done
exit $missing
