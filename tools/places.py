#!/usr/bin/env python3
"""Lists the places of docs/DESIGN-PASS.md in crates/*/src, point by point: tools/places.py [COMMIT], without one the work tree.

It finds what has a form that can be searched for; what a reader must judge (is this flag beside a value, is this a twin) the page says.
"""
import re
import subprocess
import sys

commit = sys.argv[1] if len(sys.argv) > 1 else None


def git(*args):
    return subprocess.run(["git", *args], check=True, capture_output=True, text=True).stdout


def files(pattern):
    names = git("ls-tree", "-r", "--name-only", commit).split() if commit else git("ls-files").split()
    for name in names:
        if re.fullmatch(pattern, name):
            yield name, git("show", f"{commit}:{name}") if commit else open(name).read()


SRC = list(files(r"crates/[a-z]+/src/.*\.rt"))
PROOFS = list(files(r"crates/[a-z]+/proofs/.*Answers\.antt"))


def functions(text):
    """The functions of a file: name, parameters, clauses, body."""
    head = r"^( *)(?:pub(?:\(crate\))? )?(?:extern \"C\" )?fn (\w+)[^(\n]*\(([^)]*(?:\([^)]*\)[^)]*)*)\)(?: -> [^\n{]+?)?"
    for m in re.finditer(head + r"(?: \{\n(.*?)^\1\}|\n(.*?)^\1\{\n?(.*?)^\1\})", text, re.M | re.S):
        yield m.group(2), m.group(3), m.group(5) or "", m.group(4) or m.group(6)


def show(point, what, places):
    print(f"{point}  {len(places):3}  {what}")
    for place in places:
        print(f"          {place}")


def lines(pattern):
    return [f"{name}:{k}: {line.strip()}" for name, text in SRC for k, line in enumerate(text.split("\n"), 1) if re.search(pattern, line)]


def structs():
    for name, text in SRC:
        for m in re.finditer(r"(?:struct|enum) (\w+)[^;{]*\{(.*?)^\}", text, re.M | re.S):
            yield name, m.group(1), m.group(2)


# 1
show(1, "enums with a variant for a fault", [f"{n}: {t}" for n, t, body in structs() if re.search(r"^    Fault\(", body, re.M)])
show(1, "structs with a flag or an answer beside a value", [f"{n}: {t}" for n, t, body in structs()
     if re.search(r"\b(ok|complete|none|struck|forked|more|yes|empty): bool|answer: Answer|outcome: Outcome", body)])
show(1, "numbers for `there is none`", lines(r"^// .*(, or n\.|or some number above 3|0 where it stops)"))
show(1, "a number asked whether it is the one for taken", lines(r"number\(\) == 0|number [!=]= 0"))
show(1, "a number that the card has not", lines(r"^(pub )?const NO_STATE"))


# 2
def shape(body):
    words = {}
    text = re.sub(r"//[^\n]*", "", body)
    return re.sub(r"\b[a-z_]\w*\b|\b\d\w*\b|\b[A-Z]\w*\b", lambda m: words.setdefault(m.group(0), f"w{len(words)}"), re.sub(r"\s+", " ", text))


groups = {}
for name, text in SRC:
    for fn, params, _, body in functions(text):
        if body.count("\n") > 1:
            groups.setdefault(shape(body), []).append(f"{name}: {fn}")
show(2, "functions whose bodies differ in names and numbers alone", [" = ".join(g) for g in groups.values() if len(g) > 1])
types = {}
for name, kind, body in structs():
    fields = tuple(re.findall(r"(\w+): (.*),$", re.sub(r"ghost .*", "", body), re.M))
    if fields:
        types.setdefault(fields, []).append(f"{name}: {kind}")
show(2, "types with the same fields", [" = ".join(g) for g in types.values() if len(g) > 1])

# 3
counted = []
for name, text in SRC:
    for m in re.finditer(r"^( *)while ([^\n]*) \{\n(.*?)^\1\}", text, re.M | re.S):
        k = text[: m.start()].count("\n") + 1
        for v in re.findall(r"\b[a-z]\w*\b", m.group(2)):
            if re.search(rf"^\s*{v} [+-]= 1;|^\s*{v} &= {v} - 1;", m.group(3), re.M):
                counted.append(f"{name}:{k}: while {m.group(2)}")
                break
show(3, "loops that count an index, or a set's members, by hand", counted)

# 4
show(4, "an enum or a flag turned into a truth, a number or a text, or back, arm by arm",
     [f"{n}: {fn}" for n, text in SRC for fn, _, _, body in functions(text)
      if re.search(r"^\s*match \w+ \{(\s*(\w+::\w+|\d+|_) => (true|false|\d+|put\w*\([^\n]*b\"[^\n]*\)|\w+::\w+),)+\s*\}\s*$", body)
      or re.search(r"^\s*if yes \{", body)])


# 5
def conjuncts(clause):
    depth, part = 0, ""
    for token in re.split(r"(\(|\)| × )", clause):
        depth += (token == "(") - (token == ")")
        if token == " × " and depth == 0:
            yield part
            part = ""
        else:
            part += token
    yield part


facts, together = {}, {}
for name, text in SRC:
    crate = name.split("/")[1]
    for fn, params, clauses, _ in functions(text):
        for m in re.findall(r"requires \{ (.*?) \}\n", clauses, re.S):
            for fact in set(re.sub(r"^\((.*)\)$", r"\1", re.sub(r"\.(old|now|new)\b", "", re.sub(r"\s+", " ", c)).strip()) for c in conjuncts(m)):
                if re.match(r"[A-Z]|length|\w+ ≡", fact):
                    facts.setdefault((crate, fact), []).append(fn)
        names = [re.sub(r"&mut |&", "", re.sub(r"\s+", " ", p)).strip() for p in params.split(",") if ":" in p]
        for size in range(3, 5):
            for start in range(len(names) - size + 1):
                together.setdefault((crate, tuple(names[start : start + size])), []).append(fn)
show(5, "facts that three or more contracts of a crate ask for", [f"{c}: {f}: {', '.join(fns)}" for (c, f), fns in sorted(facts.items()) if len(fns) > 2])
show(5, "four parameters that three or more functions of a crate take side by side",
     [f"{c}: {', '.join(p)}: {len(fns)}" for (c, p), fns in sorted(together.items()) if len(fns) > 2 and len(p) == 4])

# 6
show(6, "words in which a record lies field by field", lines(r"groups: &(mut )?\[u64; 160\]|groups = \[0u64; 160\]"))
show(6, "a tail of a buffer lent, and the length that comes back", lines(r"&mut (buf|\w+)\[\w+\.\.\]"))
show(6, "a line and the place in it", lines(r"line: &mut \[u8; LINE\], at: usize"))
show(6, "two arrays filled side by side", [f"{n}: {fn}" for n, text in SRC for fn, params, _, _ in functions(text)
     if re.search(r"(tails|out): &mut \[u64; \d+\],\s*(heads|into): &mut \[u64; \d+\]", params)])
show(6, "an array and a count of what stands in it", [f"{n}: {fn}" for n, text in SRC for fn, params, _, _ in functions(text)
     if re.search(r"\w+: &(mut )?\[u64; \d+\],\s*(p|q|count): usize", params)] + [f"{n}: {t}" for n, t, b in structs() if re.search(r"\[u64; 64\],\s*pub count", b)])

# 7
show(7, "a switch on which step or writer to run", lines(r"^ *match (rule|content|opcode) \{"))

# 8
show(8, "answers", [f"{sum(len(re.findall(r'^pub [^ ]+ : goal', t, re.M)) for n, t in PROOFS)} in {len(PROOFS)} files, "
     f"{sum(t.count(chr(10)) for n, t in PROOFS)} lines"])
