#!/bin/sh
# Outside the gate: tries the edits that lie in crates/NAME/tried in a copy of the repository, those of the crates named,
# or of all. Prints each with what became of it; it fails where one is not refused or can't be applied.
set -eu
cd "$(dirname "$0")/.."
folder=$(mktemp -d)
trap 'rm -rf "$folder"' EXIT
names=$*
if [ -z "$names" ]; then
    for edits in crates/*/tried; do
        names="$names $(basename "$(dirname "$edits")")"
    done
fi
find . \( -name .git -o -path './crates/*/out' -o -path './crates/*/must-fail' \) -prune -o -type f -print |
    while IFS= read -r file; do
        mkdir -p "$folder/$(dirname "$file")"
        cp -p "$file" "$folder/$file"
    done
for name in $names; do
    mkdir -p "$folder/crates/$name/must-fail"
    cp "crates/$name/tried/"*.edit "$folder/crates/$name/must-fail/"
done
cd "$folder"
for name in $names; do
    (cd "crates/$name" && rt check >"$folder/check.log" 2>&1) || { cat "$folder/check.log"; exit 1; }
done
rt must-fail $names
