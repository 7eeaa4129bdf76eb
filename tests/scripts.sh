#!/bin/sh
# Runs each script of tests/scripts on the program PROGRAM with each kind of table, and compares what it prints and its
# exit status with what is wanted: of NAME.dispatch the text NAME.out, and the status in NAME.status, or 0 where there is
# none. Of no_scripts.txt each line is an input of its own. What is wanted was written by hand from the rules of
# docs/SCRIPT.md, and is what tests/reference.py prints; of larger_batches, larger_pins and from_one_table_to_the_other it is
# tests/reference.py's alone. It was never taken from the program. Prints what differs, and as its last line how many passed.
set -eu
program=${1:?"usage: tests/scripts.sh PROGRAM"}
case $program in
    */*) program=$(cd "$(dirname "$program")" && pwd)/$(basename "$program") ;;
esac
cd "$(dirname "$0")/scripts"
folder=$(mktemp -d)
trap 'rm -rf "$folder"' EXIT
passed=0
failed=0

# runs NAME INPUT WANTED_TEXT WANTED_STATUS TABLE
runs() {
    status=0
    "$program" run --table "$5" <"$2" >"$folder/text" 2>"$folder/other" || status=$?
    if [ "$status" = "$4" ] && cmp -s "$folder/text" "$3" && [ ! -s "$folder/other" ]; then
        passed=$((passed + 1))
        return
    fi
    failed=$((failed + 1))
    echo "$1, table $5: status $status, expected $4"
    diff "$3" "$folder/text" | head -n 20
    head -n 5 "$folder/other"
}

for script in *.dispatch; do
    name=${script%.dispatch}
    wanted=0
    [ ! -f "$name.status" ] || wanted=$(cat "$name.status")
    for table in sti colour row mrd; do
        runs "$name" "$script" "$name.out" "$wanted" "$table"
    done
done

number=0
while IFS= read -r line; do
    number=$((number + 1))
    case $line in
        '#'*) continue ;;
    esac
    printf '%s\n' "${line%% : *}" >"$folder/wanted"
    printf '%b' "${line#* : }" >"$folder/input"
    runs "no_scripts.txt, line $number" "$folder/input" "$folder/wanted" 3 sti </dev/null
done <no_scripts.txt

echo "$passed passed, $failed failed"
[ "$failed" = 0 ]
