#!/bin/sh
# What the gate doesn't run: a pipe that is closed before the text is put, and each request for memory failing in turn. The
# program is the one named; else that of these sources, which is built where it isn't yet.
set -eu
program=${1:-}
case $program in
    '' | /*) ;;
    *) program=$PWD/$program ;;
esac
cd "$(dirname "$0")/.."
script=examples/override.dispatch
if [ -z "$program" ]; then
    printf 'dispatch 1\nend\n' | ./dispatch run --table sti >/dev/null
    program=crates/dispatch_cli/out/dispatch_cli
fi

expect() {
    echo "$1: status $2, expected $3"
    [ "$2" = "$3" ]
}

# The reader is gone before the first byte is put, whether the signal of a closed pipe is ignored or not.
status=$( ( (trap '' PIPE; sleep 0.5; ended=0; "$program" run --table sti <"$script" || ended=$?; echo $ended >&3) | true) 3>&1 )
expect "a closed pipe, its signal ignored" "$status" 5
status=$( ( (sleep 0.5; ended=0; "$program" run --table sti <"$script" || ended=$?; echo $ended >&3) | true) 3>&1 )
expect "a closed pipe" "$status" 5

# Each request for memory fails in turn: the status is 0 or 6, and at 6 no byte of the log was put. A small library that
# is loaded before the C library counts the requests and refuses one; without a C compiler this part is left out.
command -v cc >/dev/null || { echo "no C compiler: memory isn't tried"; exit 0; }
folder=$(mktemp -d)
trap 'rm -rf "$folder"' EXIT
cat >"$folder/refuse.c" <<'C'
#define _GNU_SOURCE
#include <dlfcn.h>
#include <errno.h>
#include <stdlib.h>
static long count, refused = -1;
static int refuses(void) {
    if (refused < 0) { const char *n = getenv("REFUSE"); refused = n ? atol(n) : 0; }
    return ++count == refused;
}
#define REAL(name) static __typeof__(&name) real; if (!real) real = dlsym(RTLD_NEXT, #name)
void *malloc(size_t n) { REAL(malloc); if (refuses()) { errno = ENOMEM; return 0; } return real(n); }
void *realloc(void *p, size_t n) { REAL(realloc); if (refuses()) { errno = ENOMEM; return 0; } return real(p, n); }
void *aligned_alloc(size_t a, size_t n) { REAL(aligned_alloc); if (refuses()) { errno = ENOMEM; return 0; } return real(a, n); }
int posix_memalign(void **p, size_t a, size_t n) { REAL(posix_memalign); return refuses() ? ENOMEM : real(p, a, n); }
C
cc -shared -fPIC -O1 -o "$folder/refuse.so" "$folder/refuse.c" -ldl

# refuses WANTED_TEXT INPUT STEP WORD..: in turn each request whose number is one more than a multiple of STEP. The words are
# done with where 200 requests in turn were refused to no effect: they came after the last.
refuses() {
    wanted=$1 input=$2 step=$3
    shift 3
    number=1
    tried=0
    refused=0
    last=0
    while [ "$number" -lt $((last + 200 * step)) ]; do
        status=0
        REFUSE=$number LD_PRELOAD=$folder/refuse.so "$program" "$@" <"$input" >"$folder/text" || status=$?
        case $status in
            0) cmp -s "$folder/text" "$wanted" ;;
            6) [ ! -s "$folder/text" ] || [ "$(cat "$folder/text")" = "fault memory" ] ;;
            *) false ;;
        esac || { echo "$input, $*, request number $number refused: status $status, or its text, is wrong"; exit 1; }
        [ "$status" = 6 ] && refused=$((refused + 1)) && last=$number
        tried=$((tried + 1))
        number=$((number + step))
    done
    echo "$input, $*: of $tried requests that were refused $refused ended with status 6, the last that of number $last; all others with status 0 and the whole text"
}

refuses crates/dispatch_cli/stdout "$script" 1 run --table sti
for name in batches pins diamond refusals_of_classes; do
    refuses "tests/scripts/$name.out" "tests/scripts/$name.dispatch" 1 run --table sti
done
# Larger ones, under each table: batches of many edits, pins through many edits, and selectors that go from the table of one
# argument to the other and back.
for name in larger_batches larger_pins from_one_table_to_the_other; do
    for table in sti colour row mrd; do
        refuses "tests/scripts/$name.out" "tests/scripts/$name.dispatch" 1 run --table "$table"
    done
done
# A generated script: 20,000 calls, of which each is read and kept.
if command -v python3 >/dev/null; then
    for table in sti mrd; do
        words="gen --table $table --number 1 --classes 3 --selectors 60"
        # shellcheck disable=SC2086
        python3 tests/reference_words.py $words >"$folder/summary"
        # shellcheck disable=SC2086
        refuses "$folder/summary" /dev/null 97 $words
    done
fi
