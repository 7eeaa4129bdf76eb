#!/bin/sh
# Times what readers and the author of running versions pay, beside the same accesses of plain atomic words in the same run, and takes
# the peak memory of a process that makes the greatest store. Each line of figures is versions | METRIC | UNIT | MEDIAN | LEAST |
# GREATEST; the line below it, of the unit plain, has the figures of the plain words, and the next the ratios of the times. Needs
# /usr/bin/time or python3 for the memory. Run it on a machine that does nothing else.
set -eu
top=$(cd "$(dirname "$0")/.." && pwd)
crate=$top/crates/version_bench
program=$crate/out/version_bench
echo "versions.sh: proving and building the program where it has changed; the first time this takes some minutes" >&2
(cd "$crate" && rt run >/dev/null)
"$program" versions
if [ -x /usr/bin/time ]; then
    kib=$(/usr/bin/time -f %M "$program" store 2>&1 >/dev/null)
else
    kib=$(python3 -c 'import resource, subprocess, sys
subprocess.run(sys.argv[1:], check=True, stdout=subprocess.DEVNULL)
print(resource.getrusage(resource.RUSAGE_CHILDREN).ru_maxrss)' "$program" store)
fi
echo "versions | peak memory of the greatest store | MiB | $((kib / 1024))"
