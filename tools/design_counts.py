#!/usr/bin/env python3
"""Counts in crates/*/src what docs/DESIGN-PASS.md speaks of, point by point.

usage: python3 tools/design_counts.py [--list POINT]     at the top of the repository; with --list the places themselves
"""
import glob
import re
import sys

SIGNATURE = re.compile(r"\bfn (\w+)(<[^(]*>)?\(([^)]*)\)")


def sources():
    """The lines of each source file, comments and ghost lines blanked."""
    for path in sorted(glob.glob("crates/*/src/**/*.rt", recursive=True)):
        lines = open(path, encoding="utf-8").read().split("\n")
        kept, clause = [], 0
        for line in lines:
            text = line.strip()
            if clause or re.match(r"(requires|ensures)\b|(pub )?ghost\b|//", text):
                clause = 0 if text.startswith("//") else clause + text.count("{") - text.count("}")
                kept.append("")
            else:
                kept.append(line.split("//")[0])
        yield path, kept


def lines_with(pattern):
    for path, lines in sources():
        for i, line in enumerate(lines):
            if re.search(pattern, line):
                yield "%s:%d: %s" % (path, i + 1, line.strip())


def functions():
    for path, lines in sources():
        text = "\n".join(lines)
        for m in SIGNATURE.finditer(text):
            parameters = [p.strip() for p in m[3].split(",") if p.strip()]
            yield path, m[1], parameters


def with_matrix():
    for path, name, parameters in functions():
        names = {p.split(":")[0].strip() for p in parameters}
        if len(names & {"row_ptr", "col_idx", "values", "ptr", "idx", "vals"}) >= 2:
            yield "%s: %s" % (path, name)


def long_ones():
    for path, name, parameters in functions():
        if len(parameters) > 7:
            yield "%s: %s: %d" % (path, name, len(parameters))


def twins():
    """Functions of one crate whose text is the same but for names, types and numbers."""
    seen = {}
    for path, lines in sources():
        text = "\n".join(lines)
        for m in re.finditer(r"(?ms)^ *(?:pub(?:\(crate\))? )?(?:extern \"C\" )?fn (\w+).*?\n\}$", text):
            body = re.sub(r"\s+", " ", m[0][m[0].find("("):])
            shape = re.sub(r"\b\w+\b", "_", body)
            if len(shape) > 60:
                seen.setdefault((path.split("/")[1], shape), []).append("%s: %s" % (path, m[1]))
    for found in seen.values():
        if len(found) > 1:
            yield "; ".join(found)


POINTS = [
    ("1 own enums like Option or Result", lambda: lines_with(r"^pub enum (\w*Answer|Fitting)\b")),
    ("1 a flag beside a value", lambda: lines_with(r"^ *(pub )?\w+: (bool|Answer|Result<.*>),$")),
    ("1 a refusal matched and handed on", lambda: lines_with(r"(Refused|Err)\((cause|_)\) => (\w+::)?(Refused|Err)\(cause\)|Err\(cause\) => Err")),
    ("2 functions of one shape", twins),
    ("3 loops by while", lambda: lines_with(r"\b(while|loop)\b")),
    ("4 helpers that the language has", lambda: lines_with(r"\bfn (both|lesser|wide|long_enough|zero_\w+|copy_\w+|finite|clear|width)\b")),
    ("5 functions over a matrix in parts", with_matrix),
    ("5 functions with more than seven parameters", long_ones),
    ("6 one list read and written at an offset", lambda: lines_with(r"\w\[(base|nodes|hits|counts|heads|strong|room|from|at|tail|near|start) [+] |\w\[[2-5] \* nodes")),
]

if __name__ == "__main__":
    wanted = sys.argv[2] if sys.argv[1:2] == ["--list"] else None
    for name, places in POINTS:
        found = list(places())
        if wanted is None:
            print("%4d  %s" % (len(found), name))
        elif name.startswith(wanted):
            print(name)
            for place in found:
                print("    " + place)
