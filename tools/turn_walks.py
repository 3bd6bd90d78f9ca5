#!/usr/bin/env python3
"""Gives the proofs by hand, proofs/F/Proof.antt, today's names of what Rattle makes: goals, steps, places, loops, branches, arms.

usage: python3 tools/turn_walks.py CRATE NAMES MADE    at the top of the repository

NAMES is the names.json that `rt check --generated FOLDER --old-names` writes in the crate's folder, and MADE the folder that
`rt check --generated MADE` fills there. Run it once on a file in the older names: what it gives is in the new ones.
"""
import json
import os
import re
import sys

W = r"[^\s(){}.;,@\"«»\[\]\\λ]+"
KINDS = {"div": "nonzero", "rem": "nonzero"}


def main():
    crate, names, made = sys.argv[1:4]
    with open(names, encoding="utf-8") as f:
        told = json.load(f)
    words = source_words(crate)
    for module, of in sorted(told.items()):
        m = re.match(r"Rattle-(.+?)-proofs\.(.+)\.Lts(.*)$", module)
        if not m:
            continue
        path = "crates/%s/proofs/%s/Proof.antt" % (crate, m[2].replace(".", "/"))
        if not os.path.exists(path):
            continue
        with open(path, encoding="utf-8") as f:
            text = f.read()
        lts = ""
        if os.path.exists(os.path.join(made, "Rattle-%s-proofs" % m[1], *m[2].split("."), "Lts.antt")):
            with open(os.path.join(made, "Rattle-%s-proofs" % m[1], *m[2].split("."), "Lts.antt"), encoding="utf-8") as f:
                lts = f.read()
        new = Walk(text, of, m[2].split(".")[-1], lts, words, path).turned()
        if new != text:
            with open(path, "w", encoding="utf-8") as f:
                f.write(new)
            print("turned: " + path)


def source_words(crate):
    """Names of the sources that have an underscore, by their spelling with dashes."""
    words = {}
    for folder, _, files in os.walk("crates/%s/src" % crate):
        for f in files:
            if f.endswith(".rt"):
                with open(os.path.join(folder, f), encoding="utf-8") as g:
                    for w in re.findall(r"\b[a-z]\w*_\w*\b", g.read()):
                        words[w.replace("_", "-")] = w
    words["well-formed"] = "well_formed"
    return words


def term(text, i):
    """The end of the term that begins at i: a word with its fields, or what stands in parentheses."""
    if text[i] == "(":
        depth = 0
        for j in range(i, len(text)):
            depth += {"(": 1, ")": -1}.get(text[j], 0)
            if not depth:
                return j + 1
    j = i
    while j < len(text) and not text[j].isspace() and text[j] not in "(),":
        j += 1
    return j


def answers(text):
    """Where the answers of `tie.spec` stand, in its order."""
    i = text.find("(tie.spec")
    if i < 0:
        return []
    end, j, spans = term(text, i), i + len("(tie.spec"), []
    while True:
        while j < end and text[j].isspace():
            j += 1
        if j >= end - 1:
            return spans
        spans.append((j, term(text, j)))
        j = spans[-1][1]


class Walk:
    def __init__(self, text, of, name, lts, words, path):
        self.text, self.of, self.name, self.lts, self.words, self.path = text, of, name, lts, words, path
        self.steps, self.marks, self.loops, self.parent = {}, {}, {}, {}
        for old, new in of["needs"]:
            self.marks["Need-" + old] = "Need-" + new
            kind = re.match(r"(add|sub|mul|shl|shr|cast|div|rem|step)-", old)
            if kind:
                self.marks["Need-%s-%s" % (KINDS.get(kind[1], "overflow"), old)] = "Need-" + new
        new_of = {p[0]: n for p, n in zip(of["places"], of["places_by_name"])}
        for place, new in zip(of["places"], of["places_by_name"]):
            self.marks[place[0]] = new
            self.parent[new] = new_of.get(place[1])
            old, step = place[2]
            if old:
                self.steps[old] = step
        # an arm stands right behind the place at which the match begins
        for m in re.finditer(r"record (\S+) : Type 0 where\n\s+pub before : (\S+)\n", lts):
            if m[1] in self.parent:
                self.parent[m[1]] = m[2]
        self.plain = {k.replace("_", "-"): v for k, v in self.marks.items()}
        self.steps.update({k.replace("_", "-"): v for k, v in list(self.steps.items())})
        self.steps.update({k.replace("-", "_"): v for k, v in list(self.steps.items())})
        for loop in of["loops"]:
            old, new = loop[0]
            for kind in ("invariant-", "decreases-"):
                self.loops[kind + old] = kind + new

    def say(self, what):
        print("look: %s: %s" % (self.path, what), file=sys.stderr)

    def turned(self):
        t = self.text
        t = re.sub(r"\b(tie|lts)\.(" + W + ")", lambda m: m[1] + "." + self.mark(m[2]), t)
        t = "\n".join(line if line.startswith(("use ", "pub use ", "--")) else self.loop_names(line) for line in t.split("\n"))
        dashed = self.name.lstrip("+").replace("_", "-")
        for spec in ("%s-spec" % dashed, "+%s-spec" % dashed):
            t = re.sub(r"(?<![.\w'-])%s(?![\w'-])" % re.escape(spec), spec[:-5].replace("-", "_") + "_spec", t)
        t = self.by_place(t)
        blocks = self.blocks(t)
        helpers = {}
        for b in blocks:
            m = re.search(r"(?m)^(?:pub |abbrev |unfoldable )*([^\s-]\S*)\s*:\s*\((\S+) : (?:tie|lts)\.(\S+?)[ )]", b)
            if m and m[3] in self.parent:
                helpers[m[1]] = m[3]
        self.helpers = helpers
        t = "".join(self.block(b) for b in blocks)
        return self.branched(t)

    def mark(self, w):
        return self.marks.get(w, self.loops.get(w, self.plain.get(w.replace("_", "-"), w)))

    def loop_names(self, line):
        return re.sub(r"(?<![.\w'-])(invariant|decreases)-(" + W + ")", lambda m: self.loops.get(m[0], m[0]), line)

    def blocks(self, t):
        """The text in parts that each begin at a line that is not indented, behind a blank one."""
        out, part = [], []
        for line in t.split("\n"):
            if part and line and not line[0].isspace() and not part[-1].strip():
                out.append("\n".join(part) + "\n")
                part = []
            part.append(line)
        out.append("\n".join(part))
        return out

    def block(self, b):
        head = b.split("\n", 1)[0]
        if b.startswith(("use ", "pub use ", "--")) and "\n" in b and not re.search(r"(?m)^[^\s-].* : ", b):
            return b
        # comment lines before the declaration stay
        m = re.search(r"(?m)^(?!--|use |pub use )\S", b)
        if not m:
            return b
        note, b = b[: m.start()], b[m.start() :]
        sig = b.split("\n", 1)[0]
        places = {}
        need = re.match(r"(?:pub )?(\S+)\s*:\s*tie\.Need-(\S+)", sig)
        if need:
            at = [a[1] for n, a in zip(self.of["needs"], self.of["asked_at"]) if n[1] == need[2]]
            var = re.search(r"(?m)^%s ([^\s:]\S*)" % re.escape(need[1]), b)
            if at and var:
                places[var[1]] = at[0]
        for v, p in re.findall(r"\((\S+) : (?:tie|lts)\.([^\s)]+)", sig):
            if p in self.parent:
                places[v] = p
                # the clause may name the argument otherwise
        clause = re.match(r"(?:pub |abbrev |unfoldable )*(\S+)\s*:", sig)
        if clause and not need:
            params = re.findall(r"\((\S+) : ((?:tie|lts)\.[^\s)]+)", sig)
            lhs = re.search(r"(?m)^%s ((?:\S+ )*)=" % re.escape(clause[1]), b)
            if lhs and params:
                names, place = lhs[1].split(), params[0][1].split(".", 1)[1]
                if len(params) == 1 and names and place in self.parent:
                    places[names[0]] = place
        if "(tie.spec" in b:
            return note + self.spec(b)
        return note + self.fields(b, places)

    def spec(self, b):
        spans = answers(b)
        skip = len(spans) - len(self.of["needs"])
        if skip < 0:
            self.say("fewer answers than goals: %d, %d: %s" % (len(spans), len(self.of["needs"]), [n for _, n in self.of["needs"]]))
            return self.fields(b, {})
        for n in range(len(spans) - 1, skip - 1, -1):
            j, k = spans[n]
            v = re.match(r"\(λ ([^\s.]+)", b[j:k])
            if v:
                b = b[:j] + self.fields(b[j:k], {v[1]: self.of["asked_at"][n - skip][1]}) + b[k:]
        return b

    def above(self, place, wanted):
        n, p = 0, place
        while p and p != wanted:
            p = self.parent.get(p)
            n += 1
        return n if p else None

    def fields(self, b, places):
        # places under other names
        again = True
        alias = {v: v for v in places}
        while again:
            again = False
            for m in re.finditer(r"let ([^\s:=]+) = ([^\s.()]+)((?:\.before)*) in(?: |\n)", b):
                if m[2] in alias and m[1] not in alias and (m[3] or m[2] in alias):
                    alias[m[1]] = alias[m[2]]
                    again = True
        roots = set(alias) | {"c"}

        def path(m):
            root, rest = m[1], m[2]
            parts = rest[1:].split(".")
            if root in roots:
                befores = 0
                while befores < len(parts) and parts[befores] == "before":
                    befores += 1
                if befores < len(parts):
                    step = parts[befores]
                    if step.endswith("_lem") and step[:-4] in self.steps:
                        step = step[:-4]
                    bare = re.sub(r"\d+$", "", step)
                    step = self.steps.get(step, self.steps.get(bare, step) if step not in self.steps.values() and bare != step else step)
                    parts = [step] + parts[befores + 1 :]
                    root = alias.get(root, root)
            parts = [self.words.get(p, p) if "-" in p else p for p in parts]
            return root + "." + ".".join(parts)

        lines = []
        for line in b.split("\n"):
            if not line.startswith("--"):
                line = re.sub(r"(?<![\w.'-])([^\s(){}.;,\[\]\\λ←]+)((?:\.[^\s(){}.;,\[\]\\]+)+)", path, line)
            lines.append(line)
        b = "\n".join(lines)
        for h, wanted in self.helpers.items():

            def call(m):
                root = alias.get(m[2])
                if root is None or root not in places:
                    return m[0]
                n = self.above(places[root], wanted)
                if n is None:
                    self.say("%s is not above %s: %s" % (wanted, places[root], m[0]))
                    return m[0]
                return m[1] + root + ".before" * n

            b = re.sub(r"((?<![\w.'-])%s )([^\s(){}.;,]+)((?:\.before)*)(?![\w.'-])" % re.escape(h), call, b)
        # aliases that nothing uses any more
        for m in re.findall(r"(let ([^\s:=]+) = ([^\s.()]+)((?:\.before)+) in(?: |\n *))", b):
            if m[1] in alias:
                body = b.replace(m[0], "", 1)
                if not re.search(r"(?<![\w.'-])%s(?![\w'-])" % re.escape(m[1]), body.split(m[0])[0][b.find(m[0]) :]):
                    b = body
        # an arm has what the call behind it told
        for arm in self.of["arms"]:
            for field, step, at in arm[2] if arm else []:
                if at and step in self.steps:
                    b = re.sub(r"\.%s%s(?![\w'-])" % (re.escape(self.steps[step]), "".join(r"\." + re.escape(x) for x in at)), ".%s.%s" % (arm[0], field), b)
        b = re.sub(r"\.(in_default\S*?)\.rest(?![\w'-])", r".\1.\1-own.rest", b)
        return self.last(b)

    def last(self, b):
        """What a call left in an argument goes by the argument's name."""
        callees = {}
        for p in self.of["places"]:
            if p[3]:
                callees[p[2][1]] = self.of["params"].get(p[3], [])
        lets = {m[0]: m[1] for m in re.findall(r"let (\S+) = [^\s.()]+\.([^\s.()]+) in", b)}

        def path(m):
            step = m[1] if m[1] in callees else lets.get(m[1])
            names = callees.get(step)
            if not names:
                return m[0]
            at = m[3].split(".")[1:]
            n = 0
            while n < len(at) and at[n] == "1":
                n += 1
            if n >= len(at) or at[n] != "0" or n >= len(names):
                return m[0]
            rest = at[n + 1 :]
            return ".".join([m[1], m[2], names[n]] + rest)

        return re.sub(r"(?<![\w'-])([^\s(){}.;,\[\]\\]+)\.(new|auto|last)((?:\.\d+)+)", path, b)

    def by_place(self, text):
        """The goals by their place: the answers that stand in `tie.spec`, in its order."""
        terms = [text[j:k] for j, k in answers(text)]
        needs = self.of["needs"]
        if len(terms) < len(needs):
            return text
        for t, (_, new) in zip(terms[len(terms) - len(needs) :], needs):
            if re.fullmatch(r"[^\s()λ]+", t):
                text = re.sub(r"(?m)^(%s\s*:\s*)tie\.Need-[^\s(){},;]+" % re.escape(t), lambda m: m[1] + "tie.Need-" + new, text)
        return text

    def branched(self, text):
        """Branches have named fields: in `⊎_elim (λ w. ..) (λ w. ..) ...STEP.branch` each w.0, w.1 .. becomes the field of its record."""
        if ".branch" not in text or not self.lts:
            return text
        at = 0
        while True:
            i = text.find("⊎_elim", at)
            if i < 0:
                return text
            at = i + 1
            if text[text.rfind("\n", 0, i) + 1 :].startswith(("use ", "pub use ")):
                continue
            spans, j = [], i + len("⊎_elim")
            for _ in range(3):
                while text[j].isspace():
                    j += 1
                k = term(text, j)
                spans.append((j, k))
                j = k
            last = text[spans[2][0] : spans[2][1]]
            m = re.search(r"\.([^.()\s]+)\.branch$", last)
            if not m:
                continue
            joined = [n for p, n in zip(self.of["places"], self.of["places_by_name"]) if p[2][1] == m[1] and p[0].startswith("Joined")]
            ways = re.search(r"data Came-%s : Type 0 where\n((?:.*\S.*\n)+)" % re.escape(joined[0]), self.lts) if joined else None
            if not ways:
                self.say("no branches found: %s" % last)
                continue
            fields = []
            for by in re.findall(r": (By-\S+) →", ways[1]):
                body = re.search(r"record %s : Type 0 where\n((?:.*\n)*?)\n" % re.escape(by), self.lts)[1]
                ind = re.match(r"\s*", body)[0]
                fields.append(re.findall(r"(?m)^%spub ([^\s:]+) :" % ind, body))
            text = text[: spans[2][1]] + "-raw" + text[spans[2][1] :]
            for (a, b), names in reversed(list(zip(spans[:2], fields))):
                t = text[a:b]
                v = re.match(r"\(λ ([^\s.]+)\.\s", t)
                if not v:
                    self.say("a branch that is no λ: %s" % t)
                    continue
                v = re.escape(v[1])
                t = re.sub(r"(?<![.\w'-])(%s)\.(\d+)" % v, lambda x: x[1] + "." + (names[int(x[2])] if int(x[2]) < len(names) else x[2]), t)
                t = re.sub(r"(?<![.\w'-])(%s\.[^.()\s]+)\.taken" % v, r"\1.true", t)
                t = re.sub(r"(?<![.\w'-])(%s\.[^.()\s]+)\.left" % v, r"\1.false", t)
                text = text[:a] + t + text[b:]


main()
