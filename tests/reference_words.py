#!/usr/bin/env python3
"""What a command line means, once more, from the first part of docs/SCRIPT.md.

    reference_words.py WORD.. <SCRIPT

prints what `dispatch WORD..` is to print, and ends with the status that it is to end with.
"""

import re
import sys

import reference
import reference_generated

TABLES = ("sti", "colour", "row", "mrd")
USAGE = """usage: dispatch run --table sti|colour|row|mrd [--readers R] [--pages P] [--limit L]
       dispatch gen --table sti|colour|row|mrd --number N --classes C --selectors S
"""
# Of each command its options, with the least and the greatest number; those of `gen` have to be given, as the table has to.
OPTIONS = {
    "run": {"table": None, "readers": (1, 256), "pages": (16, 65_536), "limit": (1, 2**31)},
    "gen": {"table": None, "number": (0, 2**32 - 1), "classes": (2, 2_048), "selectors": (1, 4_096)},
}


def command(words):
    """The name of the command and its options, or None where the words write none."""
    if not words or words[0] not in OPTIONS:
        return None
    given, rest = {}, list(words[1:])
    while rest:
        name, is_whole, value = rest.pop(0).partition("=")
        if not is_whole:
            if not rest or rest[0].startswith("-"):
                return None
            value = rest.pop(0)
        if not name.startswith("--") or name[2:] not in OPTIONS[words[0]] or name[2:] in given:
            return None
        given[name[2:]] = value
    for name, ends in OPTIONS[words[0]].items():
        if name not in given:
            if name == "table" or words[0] == "gen":
                return None
        elif ends is None:
            if given[name] not in TABLES:
                return None
        elif not re.fullmatch("0|[1-9][0-9]{0,9}", given[name]) or not ends[0] <= int(given[name]) <= ends[1]:
            return None
        else:
            given[name] = int(given[name])
    return words[0], given


def answer(words, data):
    """The text that is printed for a command line and what stands on standard input, and the status."""
    match command(words):
        case "run", given:
            return reference.run(data(), given.get("readers", 8))
        case "gen", given:
            return reference_generated.generate(given["number"], given["classes"], given["selectors"])
    return USAGE, 2


if __name__ == "__main__":
    printed, ending = answer(sys.argv[1:], reference.standard_input)
    sys.stdout.write(printed)
    sys.exit(ending)
