#!/usr/bin/env python3
"""Spells the repository's own definitions and lemmas as today's Rattle does: words in snake case, after port.py of the kit.

usage: tools/respell.py [--names] ROOT      (--names prints the renamings and writes nothing)

A name that begins in lower case and has a capital or a dash gets plain underscores: in .antt files, in clauses and `ghost use` lines of
.rt files, and in the edits. Names of src/, strings and names of the kit stay. Where two names would fall together, the definition of
specs/ keeps the plain one and the lemma gets `_lem`; fields of records are apart, since they are never named alone.
"""
import collections
import glob
import os
import re
import sys

NAME = r"[^\s(){}.;,@\"«»]+"
DECLARED = re.compile(r"(?m)^( *)(?:(?:abbrev|unfoldable|pub|ruleset|opaque) )*([^\s(){}.;,@\"«»=:]+)(?: \{[^{}\n]*\}| \([^()\n]*\))* :(?: |$)")
FIELD = re.compile(r"(?ms)^(?:pub )?record \S.*?where\n(.*?)(?=^\S|\Z)")
OURS = re.compile(r"[a-z][\w'₀-₉-]*$")
TURNS = re.compile(r"[a-z0-9'][A-Z]|-")
USE = re.compile(r"(?m)\buse ([^\s;{]+?)\.?(?:\{([^;}]*)\})?(?: as \S+?)?(?:;|$)")


def snake(name):
    name = re.sub(r"(?<=[a-z0-9'])([A-Z])(?=[A-Z]|$)", lambda m: "_" + m[1].lower(), name)
    name = re.sub(r"(?<=[a-z0-9'])[A-Z]", lambda m: "_" + m[0].lower(), name)
    return name.replace("-", "_").lower()


def files(root, *endings):
    for p in sorted(glob.glob(os.path.join(root, "crates/**/*"), recursive=True)):
        if p.endswith(endings) and "/out/" not in p:
            with open(p, encoding="utf-8") as f:
                yield p, f.read()


def names(root):
    """The new spelling of each of the repository's names that changes, and the names of the kit that stay."""
    ours = {os.path.basename(os.path.dirname(c)) for c in glob.glob(os.path.join(root, "crates/*/src"))}
    kit, specs, proofs = set(), set(), set()
    for p, text in files(root, ".antt", ".rt"):
        for path, items in USE.findall(text):
            steps = path.split(".")
            if not (steps[0] == "Rattle" and len(steps) > 1 and steps[1] in ours):
                kit.update(re.findall(NAME, items))
        if p.endswith(".antt") and not p.endswith("/Proof.antt"):
            inside = "\n".join(m[1] for m in FIELD.finditer(text))
            fields = {n for _, n in DECLARED.findall(inside)}
            here = {n for _, n in DECLARED.findall(text)} - fields
            (specs if "/specs/" in p else proofs).update(here)
    together = collections.defaultdict(list)
    for n in sorted((specs | proofs) - kit, key=lambda n: (n not in specs, "-" in n, not TURNS.search(n), n)):
        if OURS.match(n):
            together[snake(n)].append(n)
    fixed = {}
    for s, ns in together.items():
        for i, n in enumerate(ns):
            fixed[n] = s if i == 0 else s + "_lem" + (str(i) if i > 1 else "")
    return fixed, kit


class Turner:
    def __init__(self, root):
        self.fixed, self.kit = names(root)
        self.done = {}

    def word(self, w):
        if w in self.kit or not OURS.match(w):
            return w
        new = self.fixed.get(w) or (snake(w) if TURNS.search(w) else w)
        if new != w:
            self.done[w] = new
        return new

    def antt(self, text):
        out = []
        for line in text.split("\n"):
            at = line.find("--") if line.lstrip().startswith("--") else -1
            if at >= 0:
                out.append(self.comment(line))
                continue
            out.append(re.sub(rf"(\.?)({NAME})", self.dotted, line))
        return "\n".join(out)

    def dotted(self, m):
        # behind a dot: a field, or a label that Rattle makes; a plain word there stays
        if m[1] and not TURNS.search(m[2]):
            return m[0]
        if m[1] and re.match(r"(invariant|decreases)-", m[2]):
            return m[0]
        return m[1] + (snake(m[2]) if m[1] and m[2] not in self.kit and OURS.match(m[2]) else self.word(m[2]))

    def comment(self, line):
        line = re.sub(r"`([^`\s]+)`", lambda m: "`" + (self.word(m[1]) if m[1] in self.fixed else m[1]) + "`", line)
        head = re.match(r"(--\s{4,})(\S+(?:, \S+)*)(\s{2,}.*)$", line)
        if head:
            turned = ", ".join(self.word(w) for w in head[2].split(", "))
            pad = max(2, len(head[3]) - len(head[3].lstrip()) - (len(turned) - len(head[2])))
            return head[1] + turned + " " * pad + head[3].lstrip()
        return re.sub(r"(?<![\w`'-])[a-z]+[a-z0-9]*[A-Z]\w*", lambda m: self.word(m[0]) if m[0] in self.fixed else m[0], line)

    def rt(self, text):
        out = []
        for line in text.split("\n"):
            code, mark, note = line.partition("//") if not re.search(r'"[^"]*//', line) else (line, "", "")
            if "ghost use" in code:
                code = re.sub(rf"(\.?)({NAME})", self.dotted, code)
            else:
                parts = re.split(r'("(?:[^"\\]|\\.)*")', code)
                code = "".join(p if i % 2 else re.sub(r"(?<![\w'])[a-z][a-z0-9_]*[A-Z][\w']*", lambda m: self.word(m[0]), p) for i, p in enumerate(parts))
            out.append(code + mark + re.sub(r"`([^`\s]+)`", lambda m: "`" + (self.word(m[1]) if m[1] in self.fixed else m[1]) + "`", note))
        return "\n".join(out)

    def edit(self, text):
        out, target = [], ""
        for line in text.split("\n"):
            key, sep, rest = line.partition(": ")
            if key == "file":
                target = rest.strip()
            if sep and key in ("old", "new"):
                rest = self.antt(rest) if target.endswith(".antt") else self.rt(rest)
            out.append(key + sep + rest)
        return "\n".join(out)


def main(argv):
    root = [a for a in argv if not a.startswith("--")][0]
    turner = Turner(root)
    todo = [(p, turner.antt(t) if p.endswith(".antt") else turner.rt(t) if p.endswith(".rt") else turner.edit(t), t) for p, t in files(root, ".antt", ".rt", ".edit")]
    if "--names" in argv:
        for old, new in sorted(turner.done.items()):
            print(old, new)
        return
    changed = 0
    for p, new, old in todo:
        if new != old:
            changed += 1
            with open(p, "w", encoding="utf-8") as f:
                f.write(new)
    print(f"respell: {len(turner.done)} names, {changed} files")


if __name__ == "__main__":
    main(sys.argv[1:])
