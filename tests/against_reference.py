#!/usr/bin/env python3
"""Compares a built program with the second implementation in reference.py, reference_generated.py and reference_words.py.

    against_reference.py [--scripts COUNT] [--seed SEED] [--every-table] [--chance-alone] PROGRAM

Each beginning of two scripts, scripts at the limits of the language, generated scripts, command lines, and COUNT scripts
made by chance (300, where it isn't said), of which a third is broken somewhere: what the program prints and the status with
which it ends have to be the same. The four tables take turns; generated scripts, and with --every-table the scripts by
chance, are performed by each. Prints what differs, what the scripts by chance met, and as its last line how many passed.
"""

import argparse
import random
import subprocess
import sys
import tempfile
from collections import Counter
from pathlib import Path

import reference
import reference_generated
import reference_words

FOLDER = Path(__file__).parent
TABLES = reference_words.TABLES


class Comparison:
    def __init__(self, program):
        self.program = program
        self.passed = 0
        self.failed = 0

    def compare(self, name, data, readers=8, wanted=None, tables=None):
        """Runs both on the script, or the program alone where it is known what it has to print."""
        wanted = wanted or reference.run(data, readers)
        for table in tables or (TABLES[(self.passed + self.failed) % len(TABLES)],):
            words = ["run", "--table", table] + ([] if readers == 8 else ["--readers", str(readers)])
            self.expect(f"{name}, table {table}", words, data, wanted)

    def expect(self, name, words, data, wanted):
        """Runs the program with these words and this input."""
        text, status = wanted
        ran = subprocess.run([self.program, *words], input=data, capture_output=True, check=False)
        if (ran.stdout, ran.returncode, ran.stderr) == (text.encode(), status, b""):
            self.passed += 1
            return
        self.failed += 1
        print(f"{name}: status {ran.returncode}, expected {status}")
        got, want = ran.stdout.decode(errors="replace").split("\n"), text.split("\n")
        for number, (one, other) in enumerate(zip(got, want), 1):
            if one != other:
                print(f"  line {number} of the output is {one!r}, expected {other!r}")
                break
        else:
            print(f"  {len(got)} lines, expected {len(want)}")
        if data and self.failed <= 5:
            kept = Path(tempfile.gettempdir()) / f"differs-{self.failed}.dispatch"
            kept.write_bytes(data)
            print(f"  the script is kept as {kept}")


def beginnings(comparison):
    for name in ("pins", "batches"):
        data = (FOLDER / "scripts" / f"{name}.dispatch").read_bytes()
        for length in range(len(data) + 1):
            comparison.compare(f"the first {length} bytes of {name}", data[:length])


def script(*lines):
    return ("\n".join(("dispatch 1",) + lines) + "\n").encode()


def full_books(comparison):
    """The last name that a space may hold, and the first that it may not, in each place of a line."""
    classes = [f"class c{number}" for number in range(2_047)]
    selectors = [f"selector s{number} 1" for number in range(4_095)]
    bodies = [f"define s0 c0 -> b{number}" for number in range(65_535)]
    spaces = [
        ("classes", classes, ["class {} < c0", "class c0 < {}", "drop {}", "link {} < c0", "link c0 < {}",
                              "unlink {} < c0", "unlink c0 < {}", "define s {} -> b", "define s c0 {} -> b",
                              "undefine s {}", "undefine s c0 c1 c2 {}"]),
        ("selectors", selectors, ["selector {} 4", "forget {}", "define {} c -> b", "undefine {} c"]),
        ("bodies", bodies, ["define s0 c0 -> {}"]),
    ]
    for name, lines, forms in spaces:
        full = len(lines) + 3
        for form in forms:
            last, past = form.format("last"), form.format("past")
            more = lines + [last]
            if name == "bodies":
                comparison.compare(f"{name}: {form}", script(*more, "end"), wanted=replaced_bodies(more))
            else:
                comparison.compare(f"{name}: {form}", script(*more, last, "end"))
            faults = (([past], f"names-full {full}"), ([past + "  x"], f"malformed {full}"),
                      (["caller 1", past], f"malformed {full + 1}"))
            for after, fault in faults:
                wanted = f"fault {fault}\n", 3
                comparison.compare(f"{name}: {after}", script(*more, *after, "end"), wanted=wanted)
    calls = ["caller 1", "call s c0"]
    comparison.compare("a call of the last class", script(*classes, *calls, "call s last", "end"))
    wanted = f"fault names-full {len(classes) + 5}\n", 3
    comparison.compare("a call past it", script(*classes, *calls, "call s last", "call s past", "end"), wanted=wanted)
    two = script(*classes, "class one < two", "end")
    comparison.compare("two names in one line", two, wanted=(f"fault names-full {len(classes) + 2}\n", 3))
    comparison.compare("twice one name in a line", script(*classes, "class one < one", "end"))


def replaced_bodies(lines):
    """What is printed where one definition of a selector that isn't live is refused again and again."""
    refused = "edit refused 1 11 selector-unknown\n" * len(lines)
    return f"phase 1 0 0\n{refused}done 0\n", 0


def full_definitions(comparison):
    """65,536 definitions, and one more."""
    classes = [f"class c{number}" for number in range(2_048)]
    selectors = [f"selector s{number} 1" for number in range(33)]
    batch = ["begin"]
    batch += [f"define s{s} c{c} -> b" for s in range(32) for c in range(2_048)]
    batch += ["commit"]
    more = ["define s32 c0 -> b", "define s0 c0 -> other", "undefine s31 c2047", "define s32 c0 -> b",
            "define s31 c2047 -> b"]
    calls = ["caller 1", "call s0 c0", "call s32 c0", "call s31 c2047"]
    told = [f"edit accepted {version}" for version in range(1, 2_083)]
    told += ["edit refused 1 15 definitions-full", "edit accepted 2083", "edit accepted 2084", "edit accepted 2085",
             "edit refused 1 15 definitions-full", "call 1 2085 method other", "call 1 2085 method b",
             "call 1 2085 not-understood", "done 2085"]
    text = "\n".join(["phase 1 0 2085", *told]) + "\n"
    comparison.compare("definitions full", script(*classes, *selectors, *batch, *more, *calls, "end"),
                       wanted=(text, 0))


def long_texts(comparison):
    """As many bytes as a script may have, and one more."""
    head = b"dispatch 1\nend\n#"
    fits = head + b"x" * (reference.SCRIPT_BYTES - len(head))
    comparison.compare("as many bytes as there may be", fits)
    comparison.compare("a byte more", fits + b"x")
    comparison.compare("a byte more after a fault", b"x\n" + fits)


def callers(comparison):
    """Every number of a caller, at the least and the greatest number of readers."""
    every = [line for number in range(1, 257) for line in (f"caller {number}", "pin", "call s c", "unpin")]
    comparison.compare("256 callers", script(*every, "phase", *every, "end"), readers=256)
    comparison.compare("caller 256 of 255", script(*every, "end"), readers=255)
    comparison.compare("one reader", script("caller 1", "call s c", "end"), readers=1)
    comparison.compare("caller 2 of one", script("caller 1", "caller 2", "end"), readers=1)


# Generated scripts: a number, classes, selectors. The forty-ninth selector is the first of two arguments, and where a batch
# of 500 definitions ends there are one fewer, as many, and one more.
GENERATED = (
    (0, 2, 1), (4_294_967_295, 2, 1), (1, 2, 49), (1, 2, 50), (2, 3, 51), (3, 12, 166), (4, 40, 167), (5, 8, 500),
    (6, 400, 1), (7, 300, 100),
)


def generated(comparison):
    """The summary of generated scripts, and the log of one whose text goes in by standard input."""
    for number, classes, selectors in GENERATED:
        wanted = reference_generated.generate(number, classes, selectors)
        for table in TABLES:
            words = f"gen --table {table} --number {number} --classes {classes} --selectors {selectors}"
            comparison.expect(words, words.split(), b"", wanted)
    text = reference_generated.Generator(8, 9, 60).text()
    comparison.compare("the text of a generated script", text, tables=TABLES)


def command_lines(comparison):
    """Words by chance, with something wrong in them mostly; where nothing is, both perform what they ask."""
    chance = random.Random(1)
    for _ in range(300):
        words = some_words(chance)
        wanted = reference_words.answer(words, lambda: b"dispatch 1\nend\n")
        comparison.expect(f"the words {words}", words, b"dispatch 1\nend\n", wanted)


def some_words(chance):
    """The words of a good command line, in any order and spelling, with up to two of them changed."""
    values = {
        "run": {"table": TABLES, "readers": ("1", "8", "256"), "pages": ("16", "65536"), "limit": ("1", "2147483648")},
        "gen": {"table": TABLES, "number": ("0", "4294967295"), "classes": ("2", "3"), "selectors": ("1", "2")},
    }
    bad = ("", "0", "1", "257", "2049", "4097", "4294967296", "01", "00", "+1", "-1", "--", "-", "1 ", "1x", "sti ", "Mrd",
           "99999999999", "18446744073709551617", "=1", "--table", "--table=sti", "--number=1", "run", "gen", "--help")
    name = chance.choice(("run", "gen", "gen"))
    options = list(values[name].items())
    chance.shuffle(options)
    words = []
    for option, good in options:
        if name == "run" and option != "table" and chance.random() < 0.5:
            continue
        value = chance.choice(good)
        words += [f"--{option}={value}"] if chance.random() < 0.5 else [f"--{option}", value]
    words.insert(0, name)
    for _ in range(chance.choice((0, 1, 1, 1, 2))):
        place = chance.randrange(len(words))
        match chance.randrange(5):
            case 0:
                del words[place]
            case 1:
                words.insert(place, chance.choice(bad))
            case 2:
                words.append(words[place])
            case 3:
                words[place] = words[place].partition("=")[0] + chance.choice(("", "=")) + chance.choice(bad)
            case 4:
                words[place] = chance.choice(bad)
        if not words:
            break
    return words


class Chance:
    """A script by chance: few names, so that edits meet each other."""

    def __init__(self, seed):
        self.random = random.Random(seed)
        self.classes = [f"c{number}" for number in range(self.random.choice((2, 4, 8, 20, 40)))]
        self.shape = self.random.choice(("any", "any", "deep", "wide"))
        self.selectors = {f"s{number}": self.random.randint(1, 4) for number in range(self.random.choice((1, 2, 4)))}

    def draw_class(self):
        return self.random.choice(self.classes)

    def draw_send(self):
        selector = self.random.choice(list(self.selectors))
        arity = self.selectors[selector] if self.random.random() < 0.95 else self.random.randint(1, 4)
        return " ".join([selector] + [self.draw_class() for _ in range(arity)])

    def edit(self):
        kind = self.random.choices(
            ("class", "link", "unlink", "drop", "selector", "forget", "define", "undefine"), (6, 6, 4, 1, 2, 0.3, 8, 3))[0]
        match kind:
            case "class":
                count = self.random.choice((0, 0, 1, 1, 2, 3))
                parents = [self.draw_class() for _ in range(count)]
                return " ".join([kind, self.draw_class()] + (["<"] + parents if parents else []))
            case "link" | "unlink":
                return f"{kind} {self.draw_class()} < {self.draw_class()}"
            case "drop":
                return f"drop {self.draw_class()}"
            case "selector":
                selector = self.random.choice(list(self.selectors))
                return f"selector {selector} {self.selectors[selector]}"
            case "forget":
                return f"forget {self.random.choice(list(self.selectors))}"
            case "define":
                return f"define {self.draw_send()} -> b{self.random.randint(0, 9)}"
        return f"undefine {self.draw_send()}"

    def batches(self):
        for _ in range(self.random.randint(0, 12)):
            if self.random.random() < 0.2:
                yield "begin"
                for _ in range(self.random.randint(0, 6)):
                    yield self.edit()
                yield "commit"
            else:
                yield self.edit()

    def parents_of(self, place):
        """The parents of a class, among those before it."""
        if self.shape == "any" or place == 0:
            return self.random.sample(self.classes[:place], min(place, self.random.choice((0, 1, 1, 2))))
        return [self.classes[place - 1 if self.shape == "deep" else self.random.randrange(min(place, 3))]]

    def lines(self):
        yield "dispatch 1"
        if self.random.random() < 0.8:
            for place, name in enumerate(self.classes):
                above = self.parents_of(place)
                yield " ".join(["class", name] + (["<"] + above if above else []))
            for selector, arity in self.selectors.items():
                yield f"selector {selector} {arity}"
        pinned = set()
        for phase in range(self.random.choice((1, 1, 2, 5))):
            if phase > 0:
                yield "phase"
            yield from self.batches()
            for caller in self.random.sample(range(1, 9), self.random.choice((0, 1, 2, 3))):
                yield f"caller {caller}"
                for _ in range(self.random.randint(0, 8)):
                    if self.random.random() < 0.15:
                        yield "unpin" if caller in pinned else "pin"
                        pinned ^= {caller}
                    else:
                        yield f"call {self.draw_send()}"
            if self.random.random() < 0.1:
                yield self.random.choice(("", "# a comment", "#"))
        yield "end"

    def broken(self, lines):
        """The lines with something wrong in them, mostly."""
        place = self.random.randrange(len(lines))
        match self.random.randrange(6):
            case 0:
                del lines[place]
            case 1:
                lines.insert(place, self.random.choice(lines))
            case 2:
                other = self.random.randrange(len(lines))
                lines[place], lines[other] = lines[other], lines[place]
            case 3:
                lines[place] += self.random.choice((" ", " x", " <", "\r", "\t"))
            case 4:
                words = lines[place].split(" ")
                del words[self.random.randrange(len(words))]
                lines[place] = " ".join(words)
            case 5:
                lines[place] = self.random.choice(("begin", "commit", "phase", "pin", "unpin", "end", "caller 1", "caller 9"))
        return lines

    def data(self):
        lines = list(self.lines())
        if self.random.random() < 1 / 3:
            lines = self.broken(lines)
        return ("\n".join(lines) + self.random.choice(("\n", "\n", ""))).encode()


def met(text):
    """What the output of a script by chance has in it."""
    lines = [line.split(" ") for line in text.split("\n")]
    pinned = set()
    if lines[0][0] == "fault":
        yield f"fault {lines[0][1]}"
        return
    yield "valid"
    for words in lines:
        if words[0] == "edit":
            yield f"batches {words[1]}"
        elif words[0] == "pin":
            pinned.add(words[1])
        elif words[0] == "unpin":
            pinned.remove(words[1])
        elif words[0] == "call":
            yield "calls under a pin" if words[1] in pinned else "calls"
            if words[2] == "worn":
                yield "calls worn"


def by_chance(comparison, seeds, tables):
    counts = Counter()
    for seed in seeds:
        data = Chance(seed).data()
        wanted = reference.run(data, 8)
        counts.update(met(wanted[0]))
        comparison.compare(f"script {seed}", data, wanted=wanted, tables=tables)
    print(f"{len(seeds)} scripts by chance: " + ", ".join(f"{what} {counts[what]}" for what in sorted(counts)))


def main():
    parser = argparse.ArgumentParser()
    parser.add_argument("--scripts", type=int, default=300)
    parser.add_argument("--seed", type=int, default=1)
    parser.add_argument("--every-table", action="store_true")
    parser.add_argument("--chance-alone", action="store_true")
    parser.add_argument("program")
    chosen = parser.parse_args()
    comparison = Comparison(str(Path(chosen.program).resolve()))
    parts = (beginnings, full_books, full_definitions, long_texts, callers, generated, command_lines)
    for part in () if chosen.chance_alone else parts:
        part(comparison)
    seeds = range(chosen.seed, chosen.seed + chosen.scripts)
    by_chance(comparison, seeds, TABLES if chosen.every_table else None)
    print(f"{comparison.passed} passed, {comparison.failed} failed")
    return 1 if comparison.failed else 0


if __name__ == "__main__":
    sys.exit(main())
