#!/bin/sh
# Runs every bench in turn, each on the programs that are built; one that isn't built is passed over.
here=$(cd "$(dirname "$0")" && pwd)
for script in lex parse names ssa rows points config first hostile edges; do
    [ -f "$here/$script.sh" ] || continue
    echo "== $script"
    sh "$here/$script.sh" || echo "$script: ended with $?"
done
