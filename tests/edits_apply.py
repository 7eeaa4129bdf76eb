#!/usr/bin/env python3
"""Checks that each edit of must-fail/ and tried/ can still be made: that the file is there, and that each text to be
replaced stands in it exactly once. It doesn't say that the edit is still refused. The last line is 'N passed, M failed'."""
import pathlib
import sys

TOP = pathlib.Path(__file__).resolve().parent.parent


def fault_of(edit):
    """Why the edit can't be made; None where it can."""
    text, old, pairs = None, None, 0
    for line in edit.read_text(encoding="utf-8").splitlines():
        word, _, rest = line.partition(": ")
        if word == "file":
            file = edit.parent.parent / rest
            if not file.is_file():
                return f"there is no {rest}"
            text = file.read_text(encoding="utf-8")
        elif word == "old":
            old = rest
            if text is None:
                return "no file is named before the first text"
            if text.count(old) != 1:
                return f"the text stands {text.count(old)} times: {old}"
        elif word == "new":
            if old is None or old == rest:
                return f"nothing is replaced by: {rest}"
            text, old, pairs = text.replace(old, rest), None, pairs + 1
    return None if pairs else "it replaces nothing"


def main():
    edits = sorted([*TOP.glob("crates/*/must-fail/*.edit"), *TOP.glob("crates/*/tried/*.edit")])
    faults = [(edit, fault) for edit in edits if (fault := fault_of(edit))]
    for edit, fault in faults:
        print(f"{edit.relative_to(TOP)}: {fault}")
    failed = len(faults) if edits else 1
    print(f"{len(edits) - len(faults)} passed, {failed} failed")
    return 1 if failed else 0


if __name__ == "__main__":
    sys.exit(main())
