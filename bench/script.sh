#!/bin/sh
# Times the program on scripts of 16 MiB of five shapes, from standard input to the last byte, beside `cat` of the same
# bytes, and on a small script of 1,000 lines; with the time to the first byte of output, and the peak memory. Needs
# python3. Run it on a machine that does nothing else.
set -eu
cd "$(dirname "$0")/.."
printf 'dispatch 1\nend\n' | ./dispatch run --table sti >/dev/null
exec python3 - crates/dispatch_cli/out/dispatch_cli <<'PYTHON'
import os, statistics, subprocess, sys, tempfile, time

PROGRAM = [sys.argv[1], "run", "--table", "sti"]
BYTES = 16 * 1024 * 1024


def small():
    lines = ["dispatch 1", "class c0"]
    lines += [f"class c{i} < c{i - 1}" for i in range(1, 300)]
    lines += [f"selector s{i} 1" for i in range(97)]
    lines += [f"define s{i % 97} c{(7 * i) % 300} -> b{i}" for i in range(100)]
    lines += ["caller 1"]
    lines += [f"call s{i % 97} c{(11 * i) % 300}" for i in range(500)]
    return "\n".join(lines + ["end"]) + "\n"


def filled(head, lines, tail):
    """The head, as many of the lines in turn as fit, and the tail."""
    head, tail = "\n".join(["dispatch 1"] + head) + "\n", "\n".join(tail + ["end"]) + "\n"
    turn = "\n".join(lines) + "\n"
    left = BYTES - len(head) - len(tail)
    whole = turn * (left // len(turn))
    rest = turn[: left - len(whole)]
    return head + whole + rest[: rest.rfind("\n") + 1] + tail


def program_of(classes, selectors, prefix=""):
    lines = [f"class {prefix}c0"]
    lines += [f"class {prefix}c{i} < {prefix}c{(i - 1) // 2}" for i in range(1, classes)]
    lines += [f"selector {prefix}s{i} 1" for i in range(selectors)]
    lines += [f"define {prefix}s{i} {prefix}c{(7 * i) % classes} -> b{i}" for i in range(selectors)]
    return lines


def long_name(number):
    return f"n{number:063d}"


def shapes():
    calls = [f"call s{i % 97} c{(11 * i) % 300}" for i in range(9_700)]
    yield "calls", filled(program_of(300, 97) + ["caller 1"], calls, [])
    yield "single edits", filled([], ["drop A"], [])
    defines = [f"define s{i % 97} c{(11 * i) % 300} -> b{i % 300}" for i in range(9_700)]
    yield "one batch", filled(program_of(300, 97) + ["begin"], defines, ["commit"])
    yield "comments", filled([], ["# " + "x" * 60], [])
    names = [f"call {long_name(i % 97)} {' '.join(long_name(i * k % 300) for k in (1, 7, 11, 13))}" for i in range(9_700)]
    yield "long names", filled(["caller 1"], names, [])
    yield "1,000 lines", small()


def run(command, path):
    """Seconds to the first byte and to the last one, and the bytes of the output."""
    with open(path, "rb") as source:
        start = time.perf_counter()
        process = subprocess.Popen(command, stdin=source, stdout=subprocess.PIPE)
        first = len(os.read(process.stdout.fileno(), 1))
        begun = time.perf_counter() - start
        size = first
        while piece := os.read(process.stdout.fileno(), 1 << 20):
            size += len(piece)
        if process.wait() != 0:
            sys.exit(f"{command[0]} ended with {process.returncode}")
        return begun, time.perf_counter() - start, size


def peak(path):
    child = os.fork()
    if child == 0:
        with open(path, "rb") as source, open(os.devnull, "wb") as sink:
            os.dup2(source.fileno(), 0)
            os.dup2(sink.fileno(), 1)
            os.execv(PROGRAM[0], PROGRAM)
    _, status, used = os.wait4(child, 0)
    if status != 0:
        sys.exit(f"the program ended with {status}")
    return used.ru_maxrss / 1024


print("script | bytes in, out | first byte, whole, s | cat, s | ratio | peak memory, MiB")
for name, text in shapes():
    with tempfile.NamedTemporaryFile() as script:
        script.write(text.encode())
        script.flush()
        times = 31 if len(text) < 1_000_000 else 3
        ours = [run(PROGRAM, script.name) for _ in range(times)]
        cat = statistics.median(run(["cat"], script.name)[1] for _ in range(times))
        first, whole = (statistics.median(one[place] for one in ours) for place in (0, 1))
        print(f"{name} | {len(text)}, {ours[0][2]} | {first:.3f}, {whole:.3f} | {cat:.4f} | {whole / cat:.1f} | {peak(script.name):.0f}")
PYTHON
