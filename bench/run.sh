#!/bin/sh
# Times look-ups and edits of generated programs of three sizes, from scratch and with tables of each kind, graphs of three
# shapes, and selectors of many definitions. Each line it prints is NAME SIZE | METRIC | UNIT | MEDIAN | LEAST | GREATEST, over
# 21 rounds. Run it on a machine that does nothing else.
set -eu
top=$(cd "$(dirname "$0")/.." && pwd)
crate=$top/crates/dispatch_bench
program=$crate/out/dispatch_bench
echo "run.sh: proving and building the program where it has changed; the first time this takes some minutes" >&2
(cd "$crate" && rt run >/dev/null)
for size in "100 300" "800 3000" "2000 4000"; do
    # shellcheck disable=SC2086
    "$program" bench 1 $size
done
for shape in chain star diamonds; do
    for classes in 800 2048; do
        "$program" graph "$shape" "$classes"
    done
done
for definitions in 1 30 300 3000; do
    "$program" selector "$definitions"
done
