#!/usr/bin/env python3
"""Says of each edit in crates/*/must-fail and crates/*/edits whether it fits: each old text stands exactly once in its file, after the earlier pairs.

usage: python3 tools/edits_fit.py [NAME..]     at the top of the repository; without a name, every crate
"""
import glob
import os
import sys


def faults(edit, crate):
    """What does not fit of this edit; an empty list if it fits."""
    name, text, old, pairs, said = None, None, None, 0, []
    for line in open(edit, encoding="utf-8").read().split("\n"):
        key, colon, rest = line.partition(":")
        if not colon or key not in ("file", "old", "new"):
            continue
        rest = rest[1:] if rest.startswith(" ") else rest
        if key == "file":
            name = rest.strip()
            path = os.path.join("crates", crate, name)
            if not os.path.isfile(path):
                return ["no file " + path]
            text = open(path, encoding="utf-8").read()
        elif text is None:
            return ["a line '%s:' before the line 'file:'" % key]
        elif key == "old":
            if old is not None:
                said.append("no new text for: " + old)
            old = rest
            n = text.count(old) if old else 0
            if n != 1:
                said.append("%s has %d times: %s" % (name, n, old))
        elif old is None:
            said.append("no old text for: " + rest)
        else:
            if text.count(old) == 1:
                if old == rest:
                    said.append("changes nothing: " + old)
                text = text.replace(old, rest)
            old, pairs = None, pairs + 1
    if old is not None:
        said.append("no new text for: " + old)
    if not pairs:
        said.append("no pair of old and new")
    return said


def main():
    fit = unfit = 0
    names = sys.argv[1:] or sorted(os.listdir("crates"))
    for crate in names:
        for edit in sorted(glob.glob("crates/%s/must-fail/*.edit" % crate) + glob.glob("crates/%s/edits/*.edit" % crate)):
            said = faults(edit, crate)
            fit, unfit = fit + (not said), unfit + bool(said)
            for s in said:
                print("%s: %s" % (edit, s))
    print("%d fit, %d do not" % (fit, unfit))
    return 1 if unfit else 0


sys.exit(main())
