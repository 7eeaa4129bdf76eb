#!/usr/bin/env python3
"""The scripts that `dispatch gen` makes and performs, and their summary, once more; it stands on reference.py alone.

    reference_generated.py NUMBER CLASSES SELECTORS

prints the script that is made of these three.
"""

import functools
import sys

import reference

CALLERS = 4


class Draws:
    """Numbers, each from the one before."""

    def __init__(self, number):
        self.state = number

    def draw(self, count):
        self.state = (self.state * 6_364_136_223_846_793_005 + 1_442_695_040_888_963_407) % 2**64
        return self.state // 2**33 % count


class Generator:
    """The lines of the script that is made of a number, a number of classes and a number of selectors."""

    def __init__(self, number, classes, selectors):
        self.draw = Draws(number).draw
        self.classes = classes
        self.selectors = selectors
        self.first_parents = {}
        self.sends = []

    def draw_send(self, selector):
        """The selector and a class for each of its arguments: of every 50 selectors the last takes two."""
        arity = 2 if selector % 50 == 49 else 1
        return " ".join([f"s{selector}"] + [f"c{self.draw(self.classes)}" for _ in range(arity)])

    def class_lines(self):
        yield "class c0"
        for number in range(1, self.classes):
            first = self.first_parents[number] = self.draw(number)
            second = self.draw(number) if self.draw(4) == 0 else first
            yield f"class c{number} < c{first}" + ("" if second == first else f" c{second}")

    def selector_lines(self):
        for number in range(self.selectors):
            yield f"selector s{number} {2 if number % 50 == 49 else 1}"

    def definition_lines(self, numbers):
        for number in numbers:
            self.sends.append(self.draw_send(number % self.selectors))
            yield f"define {self.sends[number]} -> b{number}"

    def calling_lines(self):
        yield "phase"
        for caller in range(1, CALLERS + 1):
            yield f"caller {caller}"
            for _ in range(2_500):
                yield f"call {self.draw_send(self.draw(self.selectors))}"

    def edit_lines(self):
        yield "phase"
        for number in range(200):
            if number % 4 < 2:
                definition = self.draw(3 * self.selectors)
                send = self.sends[definition]
                yield f"undefine {send}" if number % 4 == 0 else f"define {send} -> b{definition}"
            else:
                name = 1 + self.draw(self.classes - 1)
                if number % 4 == 2:
                    yield f"link c{name} < c{self.draw(name)}"
                else:
                    yield f"unlink c{name} < c{self.first_parents[name]}"

    def lines(self):
        yield "dispatch 1"
        count = 3 * self.selectors
        batches = [self.class_lines(), self.selector_lines()]
        batches += [self.definition_lines(range(first, min(first + 500, count))) for first in range(0, count, 500)]
        for batch in batches:
            yield "begin"
            yield from batch
            yield "commit"
        yield from self.calling_lines()
        yield from self.edit_lines()
        yield from self.calling_lines()
        yield "end"

    def text(self):
        return "".join(f"{line}\n" for line in self.lines()).encode()


def code(reply, bodies):
    """The number that a call puts into the mix, of the words of its reply."""
    if reply[0] == "method":
        return bodies[reply[1].encode()] + 2
    return 1 if reply[0] == "ambiguous" else 0


def summary(books, log):
    """The lines of the summary of a log."""
    counts = {"accepted": 0, "refused": 0, "method": 0, "ambiguous": 0, "not-understood": 0, "other": 0}
    mix = 0
    for line in log:
        words = line.split(" ")
        if words[0] == "edit":
            counts["accepted" if words[1] == "accepted" else "refused"] += 1
        elif words[0] == "call":
            counts[words[3] if words[3] in ("method", "ambiguous", "not-understood") else "other"] += 1
            mix = (mix * 31 + code(words[3:], books["body"])) % 2**32
        elif words[0] == "done":
            last = words[1]
    yield f"classes {len(books['class'])}"
    yield f"selectors {len(books['selector'])}"
    yield from (f"{word} {count}" for word, count in counts.items())
    yield f"mix {mix}"
    yield f"done {last}"


@functools.cache
def generate(number, classes, selectors):
    """The text that is printed, and the status."""
    books, phases = reference.read(Generator(number, classes, selectors).text(), CALLERS)
    return "".join(f"{line}\n" for line in summary(books, reference.perform(books, phases))), 0


if __name__ == "__main__":
    sys.stdout.buffer.write(Generator(*map(int, sys.argv[1:])).text())
