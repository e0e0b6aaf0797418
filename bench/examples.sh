#!/bin/sh
# Runs argot on each folder of examples/ and compares text and status with its wanted.txt.
cd "$(dirname "$0")/.." || exit 1
failed=0
for folder in examples/*/; do
    folder=${folder%/}
    words="taint $folder"
    [ -f "$folder/words.txt" ] && words=$(cat "$folder/words.txt")
    # shellcheck disable=SC2086
    answer=$(bin/argot $words 2>&1; echo "status $?")
    [ "$answer" = "$(cat "$folder/wanted.txt")" ] || { echo "$folder: $answer"; failed=1; }
done
exit $failed
