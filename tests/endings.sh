#!/bin/sh
# Each way in which the built program ends, with its status and what it put to standard output: that the words, standard
# input, standard output and the exit status are those of the process is in no contract. The program is the one named; else
# that of these sources, which is built where it isn't yet. The last line tells how many passed.
set -eu
cd "$(dirname "$0")/.."
folder=$(mktemp -d)
trap 'rm -rf "$folder"' EXIT
printf 'dispatch 1\nend\n' >"$folder/empty"
printf 'dispatch 1\ncaller 9\nend\n' >"$folder/caller_nine"
printf 'dispatch 1\ncaller 256\nend\n' >"$folder/caller_last"
printf 'fault malformed 2\n' >"$folder/malformed"
printf 'phase 1 0 0\ndone 0\n' >"$folder/nothing_done"
printf 'fault too-long\n' >"$folder/too_long"
printf 'fault no-header\n' >"$folder/no_header"
printf 'fault read\n' >"$folder/fault_read"
# What tests/reference_words.py prints for the number 0, two classes and one selector.
printf '%s\n' 'classes 2' 'selectors 1' 'accepted 191' 'refused 12' 'method 14990' 'ambiguous 0' 'not-understood 5010' \
    'other 0' 'mix 574794718' 'done 191' >"$folder/summary"
printf '%s\n' 'usage: dispatch run --table sti|colour|row|mrd [--readers R] [--pages P] [--limit L]' \
    '       dispatch gen --table sti|colour|row|mrd --number N --classes C --selectors S' >"$folder/usage"
: >"$folder/no_text"
program=${1:-}
if [ -z "$program" ]; then
    ./dispatch run --table sti <"$folder/empty" >/dev/null
    program=crates/dispatch_cli/out/dispatch_cli
fi
# A wrong program that copies what it reads fills no disk.
ulimit -f 20480
passed=0
failed=0

# ended NAME STATUS WANTED_STATUS TEXT WANTED_TEXT
ended() {
    if [ "$2" = "$3" ] && cmp -s "$4" "$5"; then
        passed=$((passed + 1))
    else
        failed=$((failed + 1))
        echo "$1: status $2, expected $3, and it printed:"
        head -c 400 "$4"
    fi
}

# ends NAME WANTED_STATUS WANTED_TEXT INPUT WORD..
ends() {
    name=$1 wanted=$2 wanted_text=$3 input=$4
    shift 4
    status=0
    "$program" "$@" <"$input" >"$folder/text" 2>"$folder/other" || status=$?
    ended "$name" "$status" "$wanted" "$folder/text" "$wanted_text"
    ended "$name, standard error" "$status" "$wanted" "$folder/other" "$folder/no_text"
}

# The examples print what stands below their command in examples/README.md.
for script in override collide batch pin; do
    awk -v command="\$ ./dispatch run --table sti < examples/$script.dispatch" \
        '$0 == command { on = 1; next } /^```/ { on = 0 } on' examples/README.md >"$folder/example"
    ends "$script" 0 "$folder/example" "examples/$script.dispatch" run --table sti
done
ends "no edit" 0 "$folder/nothing_done" "$folder/empty" run --table sti

# The words: options in any order, each once and in either spelling.
while read -r words; do
    # shellcheck disable=SC2086
    ends "the words $words" 0 "$folder/nothing_done" "$folder/empty" $words
done <<'WORDS'
run --table sti
run --table colour
run --table row
run --table mrd
run --table=mrd
run --readers 1 --table sti
run --readers=256 --table=row
run --pages 16 --table sti --limit 1 --readers 8
run --limit=2147483648 --pages=65536 --table sti
WORDS
while read -r words; do
    # shellcheck disable=SC2086
    ends "the words $words" 0 "$folder/summary" "$folder/empty" $words
done <<'WORDS'
gen --table sti --number 0 --classes 2 --selectors 1
gen --table colour --number 0 --classes 2 --selectors 1
gen --table row --number 0 --classes 2 --selectors 1
gen --table mrd --number 0 --classes 2 --selectors 1
gen --selectors=1 --classes 2 --number=0 --table=mrd
WORDS
while read -r words; do
    # shellcheck disable=SC2086
    ends "the words $words" 2 "$folder/usage" "$folder/empty" $words
done <<'WORDS'
run
sti
Run --table sti
run --table
run --table=
run --table sti sti
run --table STI
run --table other
run --tables sti
run -table sti
run -t sti
run --table sti --table sti
run --table=sti --table sti
run --table sti --readers
run --table sti --readers 0
run --table sti --readers 257
run --table sti --readers 08
run --table sti --readers +8
run --table sti --readers -8
run --table sti --readers eight
run --table sti --readers 8 --readers 8
run --table sti --readers 4294967304
run --table sti --readers 00000000008
run --table sti --pages 15
run --table sti --pages 65537
run --table sti --limit 0
run --table sti --limit 2147483649
run --table sti --number 1
run --table sti --classes 2
run --
run -- --table sti
run --table sti --
run --table -- sti
run --table sti --help
run --help
run -h
--help
-- run --table sti
help
--table sti run
--table run sti
gen
gen --table sti
gen --number 0 --classes 2 --selectors 1
gen --table sti --classes 2 --selectors 1
gen --table sti --number 0 --selectors 1
gen --table sti --number 0 --classes 2
gen --table sti --number 0 --classes 2 --selectors
gen --table other --number 0 --classes 2 --selectors 1
gen --table sti --number 4294967296 --classes 2 --selectors 1
gen --table sti --number -1 --classes 2 --selectors 1
gen --table sti --number 00 --classes 2 --selectors 1
gen --table sti --number 0 --classes 1 --selectors 1
gen --table sti --number 0 --classes 2049 --selectors 1
gen --table sti --number 0 --classes 02 --selectors 1
gen --table sti --number 0 --classes 65538 --selectors 1
gen --table sti --number 0 --classes 2 --selectors 0
gen --table sti --number 0 --classes 2 --selectors 4097
gen --table sti --number 0 --classes 2 --selectors one
gen --table sti --number 0 --classes 2 --selectors 65537
gen --table sti --number 0 --classes 2 --selectors 1 --number 0
gen --table sti --number 0 --classes 2 --selectors 1 --readers 4
gen --table sti --number 0 --classes 2 --selectors 1 --pages 65536
gen --table sti --number 0 --classes 2 --selectors 1 --limit 1
gen --table sti --number 0 --classes 2 --selectors 1 1
gen --table sti --number 0 --classes 2 --selectors 1 --
gen -- --table sti --number 0 --classes 2 --selectors 1
gen --help
Gen --table sti --number 0 --classes 2 --selectors 1
WORDS
ends "no word" 2 "$folder/usage" "$folder/empty"
ends "an empty word" 2 "$folder/usage" "$folder/empty" run --table ""
ends "an empty first word" 2 "$folder/usage" "$folder/empty" "" --table sti
ends "a word of spaces" 2 "$folder/usage" "$folder/empty" run "--table sti"
ends "a word that is no text" 2 "$folder/usage" "$folder/empty" run --table sti "$(printf '\377')"

# Each kind of ending. A source that never ends is read up to one byte more than a script may have.
ends "caller 9 of 8" 3 "$folder/malformed" "$folder/caller_nine" run --table sti
ends "caller 9 of 9" 0 "$folder/nothing_done" "$folder/caller_nine" run --table sti --readers 9
ends "caller 256 of 256" 0 "$folder/nothing_done" "$folder/caller_last" run --readers=256 --table sti
ends "caller 256 of 255" 3 "$folder/malformed" "$folder/caller_last" run --readers=255 --table sti
ends "no byte" 3 "$folder/no_header" /dev/null run --table sti
ends "bytes without an end" 3 "$folder/too_long" /dev/zero run --table sti
ends "an input that can't be read" 4 "$folder/fault_read" / run --table sti
# A generated script is performed whatever stands on standard input, which isn't read.
ends "gen, an input that can't be read" 0 "$folder/summary" / gen --table sti --number 0 --classes 2 --selectors 1
ends "gen, bytes without an end" 0 "$folder/summary" /dev/zero gen --table sti --number 0 --classes 2 --selectors 1

# What a device takes that is always full can't be looked at.
for words in "run --table sti" "gen --table sti --number 0 --classes 2 --selectors 1"; do
    status=0
    # shellcheck disable=SC2086
    "$program" $words <"$folder/empty" >/dev/full || status=$?
    ended "a full device, $words" "$status" 5 "$folder/no_text" "$folder/no_text"
done

# The words of the benchmark, where it is built: good ones take a moment, and what they print is the machine's.
bench=crates/dispatch_bench/out/dispatch_bench
if [ -x "$bench" ]; then
    program=$bench
    printf '%s\n' 'usage: dispatch_bench' '       dispatch_bench bench N C S' \
        '       dispatch_bench occupancy N C S' '       dispatch_bench graph chain|star|diamonds C' '       dispatch_bench selector D' >"$folder/usage"
    for words in bench "bench 1 100" "bench 1 100 300 4" "bench -1 100 300" "bench +1 100 300" \
        "bench 4294967296 100 300" "bench 1 1 300" "bench 1 2049 300" "bench 1 100 0" "bench 1 100 4097" \
        "bench 1 65636 300" "bench 1 x 300" "Bench 1 100 300" "occupancy 1 100" "occupancy 1 1 300" "occupancy x 100 300" "graph chain" "graph chain 1" "graph chain 2049" selector "selector 1 2" "selector 3601" "selector x" \
        "graph ring 100" "graph chain 100 1"; do
        # shellcheck disable=SC2086
        ends "dispatch_bench $words" 2 "$folder/usage" /dev/null $words
    done
    ends "dispatch_bench, an empty word" 2 "$folder/usage" /dev/null bench 1 "" 100
    for words in "bench 0 2 1" "bench 4294967295 2 1" "occupancy 0 2 1" "graph chain 2" "graph star 3" "graph diamonds 40" \
        "selector 0" "selector 3"; do
        status=0
        # shellcheck disable=SC2086
        "$program" $words >"$folder/text" 2>"$folder/no_text" || status=$?
        ended "dispatch_bench $words" "$status" 0 "$folder/no_text" /dev/null
    done
fi

echo "$passed passed, $failed failed"
[ "$failed" = 0 ]
