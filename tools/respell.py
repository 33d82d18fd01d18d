#!/usr/bin/env python3
"""Spells the names that this repository's own specs/ and proofs/ declare as Rattle's library spells its names:
snake case for definitions, lemmas, fields and constructors, `'` for a prime. Types and modules keep their camel case.

usage: python3 tools/respell.py [--list] [ROOT]

Run once, after port.py, at the top of the repository; a second run writes nothing. What turns: antt code, the clauses,
ghost items and ghost uses of .rt files, code spans in comments and in .md files, and the texts of must-fail edits.
Functions of src/, exported C names, strings, inputs and outputs keep their names.
"""
import collections
import os
import re
import sys

WORD = r'[^\s(){}\[\].;,@"«»`]+'
DECL = re.compile(r"^\s*(?:(?:abbrev|unfoldable|pub|data|record|ruleset) )*(" + WORD + r") (?:\{[^{}]*\} |\([^()]*\) )*: (.*)$")
SPAN = re.compile(r"`[^`\n]+`")
CLAUSE = re.compile(r"\b(?:requires|ensures|ghost)\b\s*\*?\s*(?:\w+\s*(?::\s*)?)?\{")
GHOST_USE = re.compile(r"\bghost\s+use\b[^;]*;")


def respelled(name):
    if name[0].isupper():
        return name
    name = re.sub(r"(?<=[a-z0-9₀-₉])([A-Z])", lambda m: "_" + m[1].lower(), name)
    return name.replace("-", "_").replace("′", "'")


def files(root, *endings):
    for folder, dirs, names in os.walk(root):
        dirs[:] = sorted(d for d in dirs if d not in ("out", "target", ".git"))
        for f in sorted(names):
            if f.endswith(endings):
                yield os.path.join(folder, f)


def is_function_proof(path):
    """In a function's own proof the goals and steps are Rattle's names."""
    return os.path.basename(path) in ("Proof.antt", "Answers.antt", "Invariants.antt")


def declared(root):
    found = collections.defaultdict(set)
    for path in files(os.path.join(root, "crates"), ".antt"):
        with open(path, encoding="utf-8") as f:
            for line in f:
                m = DECL.match(line)
                if m and not m[2].startswith(("tie.", "statement", "{M : Type 1} → statement", "goal.")):
                    found[m[1]].add(os.path.relpath(path, root))
    return found


def lent(root):
    """The names that some file takes from a library of the kit."""
    crates = set(os.listdir(os.path.join(root, "crates")))
    names = set()
    for path in files(os.path.join(root, "crates"), ".antt", ".rt"):
        with open(path, encoding="utf-8") as f:
            for m in re.finditer(r"use ([^\s;{]+)\.\{([^}]*)\}", f.read()):
                steps = m[1].split(".")
                if steps[0] != "Rattle" or steps[1] not in crates:
                    names |= {x.strip().split(" as ")[0] for x in m[2].split(",")}
    return names


def is_lemma(name, where):
    """Of two names that would be spelled alike, which one is the lemma: definitions were spelled by capitals."""
    return "-" in name or not re.search("[A-Z]", name) and all("/proofs/" in p for p in where)


def table(root):
    """The rows, old to new. A lemma or a field that would have its function's name gets `_lem`."""
    found = declared(root)
    meets = collections.defaultdict(set)
    for name in found:
        meets[respelled(name)].add(name)
    others = lent(root)
    rows = {}
    for new, olds in meets.items():
        for old in olds:
            to = new + "_lem" if len(olds) > 1 and is_lemma(old, found[old]) else new
            if to != old and old not in others:
                rows[old] = to
    return rows, found


class Turner:
    def __init__(self, rows):
        self.rows = rows
        self.token = re.compile(WORD)

    def plain(self, text):
        """Code without strings and comments."""

        def turn(m):
            if text[: m.start()].endswith(("tie.", "goal.")):
                return m[0]
            return self.rows.get(m[0], m[0])

        return self.token.sub(turn, text)

    def spans(self, text):
        return SPAN.sub(lambda m: self.plain(m[0]), text)

    def line(self, text, comment):
        """A line of code, with its strings and its comment, which begins with the given word."""
        out, i = [], 0
        for m in re.finditer(r'"(?:[^"\\]|\\.)*"', text):
            if comment in text[i : m.start()]:
                break
            out += [self.plain(text[i : m.start()]), m[0]]
            i = m.end()
        rest = text[i:]
        at = re.search(r"(?:^|(?<=\s))" + re.escape(comment), rest)
        if at:
            out += [self.plain(rest[: at.start()]), self.spans(rest[at.start() :])]
        else:
            out.append(self.plain(rest))
        return "".join(out)

    def antt(self, text):
        return "\n".join(self.line(l, "--") for l in text.split("\n"))

    def rt(self, text):
        ghost = []
        for m in GHOST_USE.finditer(text):
            ghost.append((m.start(), m.end()))
        for m in CLAUSE.finditer(text):
            depth, i = 0, m.end() - 1
            while i < len(text):
                depth += {"{": 1, "}": -1}.get(text[i], 0)
                i += 1
                if depth == 0:
                    break
            ghost.append((m.end() - 1, i))
        out, i = [], 0
        for a, b in sorted(ghost):
            if a < i:
                continue
            out += [self.comments(text[i:a]), self.antt_in_rt(text[a:b])]
            i = b
        out.append(self.comments(text[i:]))
        return "".join(out)

    def antt_in_rt(self, text):
        return "\n".join(self.line(l, "//") for l in text.split("\n"))

    def comments(self, text):
        return re.sub(r"//[^\n]*", lambda m: self.spans(m[0]), text)


def main(argv):
    show = "--list" in argv
    argv = [a for a in argv if a != "--list"]
    root = argv[0] if argv else "."
    rows, found = table(root)
    for new, n in collections.Counter(rows.get(o, o) for o in found).items():
        if n > 1:
            print("meets:", new, [o for o in found if rows.get(o, o) == new])
    if show:
        for old, new in sorted(rows.items()):
            print(old, new)
        return 0
    turner = Turner(rows)
    count = 0
    for path in files(root, ".antt", ".rt", ".md"):
        with open(path, encoding="utf-8") as f:
            old = f.read()
        if path.endswith(".antt"):
            new = turner.antt(old)
        elif path.endswith(".rt"):
            new = turner.rt(old)
        else:
            new = turner.spans(old)
        if new != old:
            count += 1
            with open(path, "w", encoding="utf-8") as f:
                f.write(new)
    print(f"{count} files")
    return 0


if __name__ == "__main__":
    raise SystemExit(main(sys.argv[1:]))
