#!/usr/bin/env python3
"""The language of docs/SCRIPT.md once more, written from that page and docs/SEMANTICS.md alone.

    reference.py [READERS] <SCRIPT

prints what `dispatch run --table sti --readers READERS` is to print for the script on standard input, and ends with the
status that it is to end with. It is plain and slow: an accepted batch copies the program, and a call looks at every
definition of its selector.
"""

import re
import sys

SCRIPT_BYTES = 16_777_216
NAMES = {"class": 2_048, "selector": 4_096, "body": 65_536}
PARENTS = 16
DEFINITIONS = 65_536
CELLS = 4_194_304
ROWS = 16_384
LINE = re.compile(rb"[!-~]{1,64}( [!-~]{1,64})*")
NUMBER = re.compile(rb"[1-9][0-9]{0,2}")


class Fault(Exception):
    """A fault of the script, with the words that tell it."""


class Refused(Exception):
    """A refusal of an edit, with the words that tell it."""


# Reading.


def parts_of(words):
    """The kind of a line, and its names as pairs of a space and a name, or None where no line is spelled so."""

    def classes(names):
        return [("class", name) for name in names]

    count = len(words)
    match words[0]:
        case b"class" if count == 2 or (count >= 4 and words[2] == b"<"):
            return "class", classes([words[1]] + words[3:])
        case b"drop" if count == 2:
            return "drop", classes(words[1:])
        case b"link" | b"unlink" if count == 4 and words[2] == b"<":
            return words[0].decode(), classes([words[1], words[3]])
        case b"selector" if count == 3 and words[2] in (b"1", b"2", b"3", b"4"):
            return "selector", [("selector", words[1]), ("arity", int(words[2]))]
        case b"forget" if count == 2:
            return "forget", [("selector", words[1])]
        case b"define" if 5 <= count <= 8 and words[-2] == b"->":
            return "define", [("selector", words[1])] + classes(words[2:-2]) + [("body", words[-1])]
        case b"undefine" | b"call" if 3 <= count <= 6:
            return words[0].decode(), [("selector", words[1])] + classes(words[2:])
        case b"caller" if count == 2 and NUMBER.fullmatch(words[1]):
            return "caller", [("caller", int(words[1]))]
        case b"begin" | b"commit" | b"phase" | b"pin" | b"unpin" | b"end" if count == 1:
            return words[0].decode(), []
    return None


class Places:
    """Where a line may stand, after those before it."""

    def __init__(self, readers):
        self.readers = readers
        self.caller = None
        self.stood = set()
        self.pinned = set()
        self.in_batch = False
        self.ended = False

    def may_stand(self, kind, parts):
        if self.ended:
            return False
        if kind == "call":
            return self.caller is not None
        if kind == "pin":
            return self.caller is not None and self.caller not in self.pinned
        if kind == "unpin":
            return self.caller is not None and self.caller in self.pinned
        if kind == "commit":
            return self.in_batch
        if kind == "caller":
            number = parts[0][1]
            return not self.in_batch and number <= self.readers and number not in self.stood
        if kind in ("phase", "end"):
            return not self.in_batch
        if kind == "begin":
            return self.caller is None and not self.in_batch
        return self.caller is None

    def take(self, kind, parts):
        if kind == "caller":
            self.caller = parts[0][1]
            self.stood.add(self.caller)
        elif kind == "phase":
            self.caller = None
            self.stood = set()
        elif kind == "pin":
            self.pinned.add(self.caller)
        elif kind == "unpin":
            self.pinned.remove(self.caller)
        elif kind in ("begin", "commit"):
            self.in_batch = kind == "begin"
        elif kind == "end":
            self.ended = True


def read(data, readers):
    """The phases of a script, each with its batches and its callers."""
    if len(data) > SCRIPT_BYTES:
        raise Fault("too-long")
    lines = data.split(b"\n")
    if lines[-1] == b"":
        lines.pop()
    if not lines or lines[0] != b"dispatch 1":
        raise Fault("no-header")
    places = Places(readers)
    books = {"class": {}, "selector": {}, "body": {}}
    phases = [([], [])]
    for number, line in enumerate(lines[1:], 2):
        if line == b"" or line.startswith(b"#"):
            continue
        meant = parts_of(line.split(b" ")) if LINE.fullmatch(line) else None
        if meant is None or not places.may_stand(*meant):
            raise Fault(f"malformed {number}")
        kind, parts = meant
        for space, name in parts:
            if space in books and name not in books[space]:
                books[space][name] = len(books[space])
                if len(books[space]) > NAMES[space]:
                    raise Fault(f"names-full {number}")
        batches, callers = phases[-1]
        if kind == "phase":
            phases.append(([], []))
        elif kind == "begin":
            batches.append([])
        elif kind == "caller":
            callers.append((parts[0][1], []))
        elif kind in ("call", "pin", "unpin"):
            callers[-1][1].append((kind, parts))
        elif kind not in ("commit", "end"):
            if places.in_batch:
                batches[-1].append((kind, parts))
            else:
                batches.append([(kind, parts)])
        places.take(kind, parts)
    if not places.ended:
        raise Fault("no-end")
    return books, phases


# Programs.


class Program:
    """Classes with their parents, selectors with their arity, and the definitions of each selector."""

    def __init__(self):
        self.parents = {}
        self.arity = {}
        self.bodies = {}
        self.forget_found()

    def forget_found(self):
        """Nothing that was found in the program is known any more."""
        self.above = {}
        self.below = {}
        self.replies = {}

    def copy(self):
        other = Program()
        other.parents = {name: list(parents) for name, parents in self.parents.items()}
        other.arity = dict(self.arity)
        other.bodies = {name: dict(bodies) for name, bodies in self.bodies.items()}
        return other

    def above_of(self, name):
        """The class and all classes above it."""
        if name not in self.above:
            found = {name}
            for parent in self.parents[name]:
                found |= self.above_of(parent)
            self.above[name] = found
        return self.above[name]

    def below_of(self, name):
        """The class and all classes below it."""
        if not self.below:
            self.below = {other: set() for other in self.parents}
            for other in self.parents:
                for above in self.above_of(other):
                    self.below[above].add(other)
        return self.below[name]

    def count(self):
        return sum(len(bodies) for bodies in self.bodies.values())

    def sizes(self):
        """How many calls are understood, and how many rows there are."""
        cells = rows = 0
        for bodies in self.bodies.values():
            if bodies:
                more = self.sizes_below(frozenset(bodies), {})
                cells, rows = cells + more[0], rows + more[1]
        return cells, rows

    def sizes_below(self, tuples, found):
        """The same of the lists of classes that are below one of the tuples; equal sets of tuples are gone through once."""
        if tuples not in found:
            firsts = set().union(*(self.below_of(one[0]) for one in tuples))
            cells, rows = len(firsts), 1
            if any(len(one) > 1 for one in tuples):
                cells = 0
                for name in firsts:
                    above = self.above_of(name)
                    more = self.sizes_below(frozenset(one[1:] for one in tuples if one[0] in above), found)
                    cells, rows = cells + more[0], rows + more[1]
            found[tuples] = cells, rows
        return found[tuples]

    def known(self, name):
        if name not in self.parents:
            raise Refused(f"2 class-unknown {text(name)}")

    def known_definition(self, selector, classes):
        if selector not in self.arity:
            raise Refused("11 selector-unknown")
        if len(classes) != self.arity[selector]:
            raise Refused("12 arity-differs")
        for name in classes:
            self.known(name)

    def edit(self, kind, parts, numbers):
        """Makes the edit, or raises its refusal."""
        self.forget_found()
        names = [name for _, name in parts]
        getattr(self, "edit_" + kind)(names, numbers)

    def edit_class(self, names, _numbers):
        name, parents = names[0], names[1:]
        if name in self.parents:
            raise Refused("1 class-exists")
        if len(parents) > PARENTS:
            raise Refused("4 too-many-parents")
        for parent in parents:
            self.known(parent)
        for place, parent in enumerate(parents):
            if parent in parents[:place]:
                raise Refused(f"3 parent-twice {text(parent)}")
        self.parents[name] = list(parents)

    def edit_drop(self, names, numbers):
        name = names[0]
        self.known(name)
        below = [other for other, parents in self.parents.items() if name in parents]
        if below:
            raise Refused(f"5 has-subclasses {text(min(below, key=numbers.__getitem__))}")
        if any(name in classes for bodies in self.bodies.values() for classes in bodies):
            raise Refused("14 has-definitions")
        del self.parents[name]

    def edit_link(self, names, _numbers):
        name, parent = names
        self.known(name)
        self.known(parent)
        if parent in self.parents[name]:
            raise Refused("6 link-exists")
        if len(self.parents[name]) == PARENTS:
            raise Refused("4 too-many-parents")
        if name in self.above_of(parent):
            raise Refused("8 cycle")
        self.parents[name].append(parent)

    def edit_unlink(self, names, _numbers):
        name, parent = names
        self.known(name)
        self.known(parent)
        if parent not in self.parents[name]:
            raise Refused("7 link-unknown")
        self.parents[name].remove(parent)

    def edit_selector(self, names, _numbers):
        name, arity = names
        if name in self.arity:
            raise Refused("10 selector-exists")
        self.arity[name] = arity
        self.bodies[name] = {}

    def edit_forget(self, names, _numbers):
        name = names[0]
        if name not in self.arity:
            raise Refused("11 selector-unknown")
        if self.bodies[name]:
            raise Refused("14 has-definitions")
        del self.arity[name], self.bodies[name]

    def edit_define(self, names, _numbers):
        selector, classes, body = names[0], tuple(names[1:-1]), names[-1]
        self.known_definition(selector, classes)
        if classes not in self.bodies[selector] and self.count() == DEFINITIONS:
            raise Refused("15 definitions-full")
        self.bodies[selector][classes] = body

    def edit_undefine(self, names, _numbers):
        selector, classes = names[0], tuple(names[1:])
        self.known_definition(selector, classes)
        if classes not in self.bodies[selector]:
            raise Refused("13 no-definition")
        del self.bodies[selector][classes]

    def reply(self, selector, classes):
        """What a call is answered; equal calls of one version are looked up once."""
        if (selector, classes) not in self.replies:
            self.replies[selector, classes] = self.look_up(selector, classes)
        return self.replies[selector, classes]

    def look_up(self, selector, classes):
        if selector not in self.arity:
            return "no-selector"
        if len(classes) != self.arity[selector]:
            return "wrong-arity"
        for place, name in enumerate(classes, 1):
            if name not in self.parents:
                return f"no-class {place}"

        def below(low, high):
            return all(h in self.above_of(l) for l, h in zip(low, high))

        applicable = [others for others in self.bodies[selector] if below(classes, others)]
        best = [one for one in applicable if not any(o != one and below(o, one) for o in applicable)]
        if not best:
            return "not-understood"
        if len(best) > 1:
            return "ambiguous"
        return f"method {text(self.bodies[selector][best[0]])}"


# Performing.


def text(name):
    return name.decode("ascii")


def apply(program, batch, numbers):
    """The program after the batch, or the line that tells why there is none."""
    tried = program.copy()
    for place, (kind, parts) in enumerate(batch, 1):
        try:
            tried.edit(kind, parts, numbers)
        except Refused as why:
            return None, f"edit refused {place} {why}"
    cells, rows = tried.sizes()
    if cells > CELLS:
        return None, "edit cells-full"
    if rows > ROWS:
        return None, "edit rows-full"
    return tried, None


def perform(books, phases):
    """The lines of the log."""
    program, version = Program(), 0
    pins = {}
    for number, (batches, callers) in enumerate(phases, 1):
        told, before = [], version
        for batch in batches:
            tried, refusal = apply(program, batch, books["class"])
            if tried is not None:
                program, version = tried, version + 1
            told.append(refusal or f"edit accepted {version}")
        yield f"phase {number} {before} {version}"
        yield from told
        for caller, lines in callers:
            for kind, parts in lines:
                if kind == "pin":
                    pins[caller] = program, version
                    yield f"pin {caller} {version}"
                elif kind == "unpin":
                    del pins[caller]
                    yield f"unpin {caller}"
                else:
                    at, stamp = pins.get(caller, (program, version))
                    names = [name for _, name in parts]
                    yield f"call {caller} {stamp} {at.reply(names[0], tuple(names[1:]))}"
    yield f"done {version}"


def run(data, readers):
    """The text that is printed, and the status."""
    try:
        books, phases = read(data, readers)
    except Fault as fault:
        return f"fault {fault}\n", 3
    return "".join(f"{line}\n" for line in perform(books, phases)), 0


def standard_input():
    """The bytes of standard input, up to the first that is one too many."""
    return sys.stdin.buffer.read(SCRIPT_BYTES + 1)


sys.setrecursionlimit(10_000)

if __name__ == "__main__":
    printed, ending = run(standard_input(), int(sys.argv[1]) if len(sys.argv) > 1 else 8)
    sys.stdout.write(printed)
    sys.exit(ending)
