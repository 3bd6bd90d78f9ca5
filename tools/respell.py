#!/usr/bin/env python3
"""Brings this repository's own definitions and lemmas to today's spelling: words in snake case, types and modules in camel case.

usage: python3 tools/respell.py     at the top of the repository, once, after the kit's port.py

A name is this repository's own where a file of specs/ or proofs/ defines it. In a file that takes a name from a library the library's spelling stays.
Rust code, exported names and strings keep theirs: a name with a dash or a capital inside stands in no Rust code.
It says which names fall together with another name; each of those is given in APART below.
"""
import os
import re
import sys

# Names that would fall together with another one get a name of their own.
APART = {
    "tile": "Tile",
}

# Lemmas that the library's script had put in snake case, and that would now have the name of what they are about: NAME_lem.
LEMMAS = ["front_of", "handed_out", "has_room", "insert_all", "part_length", "row_back", "row_room", "rows_fit", "scaled_at"]

MODULES = {"two_level_setup": {"Contracts": "Promises"}}

WORD = re.compile(r"[^\s(){}\[\];,.:⌜⌝\"|@λ`]+")
DEF = re.compile(r"^(\s*)((?:(?:abbrev|unfoldable|pub)\s+)*)([^\s:(){}λ,.]+)(\s+[({].*)?\s*:(?:\s|$)")


def crates():
    return sorted(d for d in os.listdir("crates") if os.path.isdir(os.path.join("crates", d)))


def texts(ends):
    for c in crates():
        for folder, dirs, files in os.walk(os.path.join("crates", c)):
            dirs[:] = sorted(d for d in dirs if d != "out")
            for f in sorted(files):
                if f.endswith(ends):
                    yield os.path.join(folder, f)


def read(p):
    with open(p, encoding="utf-8") as f:
        return f.read()


def plain(part):
    return re.fullmatch(r"[a-z0-9][a-z0-9_']*", part) is not None


def snake(name):
    """oddBit is odd_bit, half-small is half_small; a dash beside a type or a sign stays."""
    if name in APART:
        return APART[name]
    if re.match(r"[a-z]", name):
        name = re.sub(r"(?<=[a-z0-9])([A-Z])(?=[a-z])", lambda m: "_" + m[1].lower(), name)
        name = re.sub(r"(?<=[a-z])([A-Z])(?![A-Za-z])", lambda m: "_" + m[1].lower(), name)
    parts = name.split("-")
    out = parts[0]
    for a, b in zip(parts, parts[1:]):
        out += ("_" if plain(re.split(r"_", a)[-1] or "x") and plain(b) else "-") + b
    return out


def is_walk(p):
    return p.endswith("/Proof.antt")


def defined(p, t):
    """The names that this file of specs/ or proofs/ defines; of a function's own proof only its helpers."""
    names = set()
    for line in t.split("\n"):
        s = line.strip()
        if s.startswith(("--", "use ", "pub use ", "mod ", "pub mod ", "infix", "let ", "λ", "module ")):
            continue
        m = re.match(r"(?:pub\s+)?(?:data|record)\s+([^\s:(){}]+)", s)
        if m:
            names.add(m[1])
            continue
        m = DEF.match(line)
        if m and not re.search(r"[=→]", m[3]):
            if is_walk(p) and re.search(r":\s+tie\.(Need|InvT|invariant|decreases|Measure)", line):
                continue
            if is_walk(p) and re.search(r": \{M : Type 1\} → statement M", line):
                continue
            names.add(m[3])
    return names


def imported(t):
    """The names that a file takes, and those of them that come from a library."""
    theirs = set()
    for m in re.finditer(r"^(?:pub |ghost )?use ([^\s{;]+?)\.\{([^}]*)\}", t, re.M):
        if not re.match(r"Rattle\.(%s)\." % "|".join(OURS), m[1]):
            for n in m[2].split(","):
                n = n.strip()
                n = n.split(" as ")[-1].strip()
                theirs.add(n)
    return theirs


def taken(t):
    """The names that a file takes from this repository."""
    names = set()
    for m in re.finditer(r"^(?:pub |ghost )?use ([^\s{;]+?)\.\{([^}]*)\}", t, re.M):
        if re.match(r"Rattle\.(%s)\." % "|".join(OURS), m[1]):
            names |= {n.strip() for n in m[2].split(",")}
    return names


def aliases(t):
    """The names that a file gives by `as` to what it takes from this repository."""
    names = set()
    for m in re.finditer(r"^(?:pub |ghost )?use ([^\s{;]+?)\.\{([^}]*)\}", t, re.M):
        if re.match(r"Rattle\.(%s)\." % "|".join(OURS), m[1]):
            names |= set(re.findall(r" as ([^\s,}]+)", m[2]))
    return names


OURS = crates()


def turned(t, names, rust):
    def word(m):
        w = m[0]
        if w in names:
            return names[w]
        return w

    out = []
    for line in t.split("\n"):
        if rust:
            # strings stay
            bits = re.split(r'("(?:[^"\\]|\\.)*")', line)
            line = "".join(b if i % 2 else code(b, names, word, "//") for i, b in enumerate(bits))
        else:
            line = code(line, names, word, "--")
        out.append(line)
    return "\n".join(out)


def code(line, names, word, mark):
    i = line.find(mark + " ")
    text, note = (line, "") if i < 0 else (line[:i], line[i:])

    def told(m):
        w = m[0]
        # in prose only what cannot be a word of English
        if w in names and re.search(r"[a-z][A-Z]", w):
            return names[w]
        return w

    note = re.sub(r"`([^`]*)`", lambda m: "`" + WORD.sub(word, m[1]) + "`", note)
    note = WORD.sub(told, note)
    # what Rattle makes keeps its spelling
    made = r"((?:tie|goal)\.[^\s(){},;.]+)"
    bits = re.split(made, text)
    return "".join(b if i % 2 else WORD.sub(word, b) for i, b in enumerate(bits)) + note


def main():
    ours = {}
    local = {}
    everything = set()
    for p in texts((".antt",)):
        t = read(p)
        d = defined(p, t)
        everything |= set(WORD.findall(t))
        if is_walk(p):
            local[p] = {n: snake(n) for n in d if snake(n) != n}
        else:
            for n in d:
                if snake(n) != n:
                    ours.setdefault(n, set()).add(p)
    # names that a file gives to what it takes from this repository
    for p in texts((".antt", ".rt")):
        local.setdefault(p, {}).update({n: snake(n) for n in aliases(read(p)) if snake(n) != n})
    names = {n: snake(n) for n in ours}
    whole = set()
    for p in texts((".antt",)):
        whole |= defined(p, read(p))
    standing = everything - set(names)
    camels = {s for n, s in names.items() if "-" not in n}
    for n, s in sorted(names.items()):
        # a lemma that would have the name of what it is about
        if "-" in n and (s in camels or s in standing):
            names[n] = s + "_lem"
    said = 0
    back = {}
    for n, s in sorted(names.items()):
        back.setdefault(s, []).append(n)
    for s, ns in sorted(back.items()):
        if len(ns) > 1 or s in whole - set(names):
            print("falls together: %s: %s%s" % (s, ", ".join(ns), " (stands already)" if s in whole - set(names) else ""))
            said += 1
    parameters = {}
    for p in texts((".rt",)):
        t = read(p)
        for m in re.finditer(r"\b([a-z_][a-z0-9_]*)\s*:(?!:)", t):
            parameters.setdefault(m[1], set()).add(p)
    for n, s in sorted(names.items()):
        for p in sorted(parameters.get(s, ())):
            if re.search(r"ghost use .*[{, ]%s[,}]" % re.escape(n), read(p)):
                print("hidden by a parameter: %s (%s) in %s" % (s, n, p))
                said += 1
    if "--say" in sys.argv:
        print(len(names), "names")
        return
    changed = 0
    for p in list(texts((".antt", ".rt", ".edit"))):
        t = read(p)
        theirs = imported(t)
        own = (defined(p, t) | taken(t)) if p.endswith(".antt") else set()
        for n in LEMMAS:
            if n in own:
                t = re.sub(r"(?<![.\w'-])%s(?![\w'-])" % n, n + "_lem", t)
        here = {n: s for n, s in names.items() if n not in theirs}
        here.update(local.get(p, {}))
        for c, ms in MODULES.items():
            for a, b in ms.items():
                t2 = t.replace("Rattle.%s.specs.%s." % (c, a), "Rattle.%s.specs.%s." % (c, b))
                if p == "crates/%s/specs/Lib.antt" % c:
                    t2 = re.sub(r"\bmod %s\b" % a, "mod %s" % b, t2)
                t = t2
        n = turned(t, here, p.endswith(".rt"))
        if n != read(p):
            with open(p, "w", encoding="utf-8") as f:
                f.write(n)
            changed += 1
    for c, ms in MODULES.items():
        for a, b in ms.items():
            a, b = ("crates/%s/specs/%s.antt" % (c, x) for x in (a, b))
            if os.path.exists(a):
                os.rename(a, b)
    print("respelled: %d names in %d files" % (len(names), changed))


main()
