#!/usr/bin/env python3
"""Respells the repository's own definitions and lemmas as today's Rattle spells them.

It ran once, right after the kit's port.py.

usage: respell.py          at the top of the repository: rewrites crates/, docs/ and README.md in place
       respell.py --list   writes nothing
Both print each new spelling.

Words are in snake case, so that setOf becomes set_of. A dash joins two names: where what is on one of its sides is no
name of a definition, a field or a function, it becomes an underscore. Types, modules and what src/ declares keep their
names, and so does every string, input and output. A spelling that is already in use, or that two names would have, is
not taken: such a name stays as it was, or, if it is a lemma's beside its definition's, it ends in _lem.
"""

import collections
import os
import re
import sys

WORD = re.compile(r"[^\s(){}.;,@\"«»\[\]`]+")
DECLARED = re.compile(
    r"(?:(?:pub|abbrev|unfoldable|opaque|ruleset)\s+)*([^\s(){}:;,.@\"]+)(?:\s*[{(][^})]*[})])*\s*:\s"
)
TYPE = re.compile(r"(?:(?:pub|abbrev)\s+)*(?:record|data) ([^\s(){}:]+)")
FIELD = re.compile(r"\s+(?:pub\s+)?([^\s(){}:;,.@\"]+) : ")
FUNCTION = re.compile(r"\bfn (\w+)")
COMMENT = re.compile(r"(?<![^\s(){}.;,@\"«»])--[^\n]*|\{-.*?-\}|\"(?:[^\"\\\n]|\\.)*\"", re.S)
OF_A_FUNCTION = ("Proof.antt", "Answers.antt", "Invariants.antt")


def read(path):
    with open(path, encoding="utf-8") as f:
        return f.read()


def files(*ends):
    for folder, below, names in os.walk("crates"):
        below[:] = sorted(d for d in below if d != "out")
        for name in sorted(names):
            if name.endswith(ends):
                yield os.path.join(folder, name)


def snake(name):
    return re.sub(r"(?<=[a-z0-9])([A-Z])", lambda m: "_" + m[1].lower(), name)


def of_a_function(path):
    """Whether the file is what is written of one function's proof."""
    return "/proofs/" in path and path.endswith(OF_A_FUNCTION)


def declared():
    """The definitions and lemmas, the fields, and every name that one of these, a type or a function of src/ has."""
    words, fields, names = set(), set(), set()
    for path in files(".antt"):
        for line in read(path).split("\n"):
            if it := TYPE.match(line):
                names.add(snake(it[1][0].lower() + it[1][1:]))
            elif line[:1] not in (" ", "-", "") and (it := DECLARED.match(line)):
                names.add(snake(it[1]))
                if not of_a_function(path):
                    words.add(it[1])
            elif not of_a_function(path) and (it := FIELD.match(line)):
                fields.add(it[1])
                names.add(it[1])
    for path in files(".rt"):
        names.update(FUNCTION.findall(read(path)))
    return words, fields, names


def undashed(name, names):
    """The name with a dash only where it joins two names."""
    parts = name.split("-")
    out = parts[0]
    for at in range(1, len(parts)):
        before = any("_".join(parts[k:at]) in names for k in range(at))
        after = any("_".join(parts[at:k]) in names for k in range(at + 1, len(parts) + 1))
        out += ("-" if before and after else "_") + parts[at]
    return out


def spellings():
    words, fields, names = declared()
    used = set()
    for path in files(".antt"):
        # a path names modules and functions of src/, which no name of a definition meets
        text = re.sub(r"(?<![^\s(){},;@\"])(?:Rattle|mathlib|Prim|native|borrow|lib)\.[^\s{}]*", " ", read(path))
        used.update(WORD.findall(re.sub(r"\.[^\s(){}.;,@\"]+", " ", COMMENT.sub(" ", text))))
    new = {}
    for name in sorted(words | fields):
        if not re.match(r"[a-z]", name):
            continue
        to = snake(name)
        if "-" in to:
            to = to.replace("-", "_") if name in fields and name not in words else undashed(to, names)
        if to != name:
            new[name] = to
    # a name with a capital in it goes before one with a dash
    first = {to for name, to in new.items() if "-" not in name}
    new = {name: to for name, to in new.items() if "-" not in name or to not in first}
    count = collections.Counter(new.values())
    new = {name: to for name, to in new.items() if count[to] == 1 and to not in used}
    # a lemma that has its definition's name, but for the capital
    for name in [it for it in words if re.match("[a-z]+[A-Z]", it) and it not in new]:
        new[name] = snake(name)
        new[snake(name)] = snake(name) + "_lem"
    return new


def camel(new, text):
    """The text with each name that has a capital in it."""
    return WORD.sub(lambda m: new.get(m[0], m[0]) if re.search("[A-Z]", m[0]) else m[0], text)


def spans(new, text):
    """The text with the names in its code spans, and those with a capital anywhere."""
    text = re.sub(r"`[^`\n]+`", lambda m: WORD.sub(lambda w: new.get(w[0], w[0]), m[0]), text)
    return camel(new, text)


def antt(new, text):
    out, at = [], 0
    for it in COMMENT.finditer(text):
        out.append(WORD.sub(lambda m: new.get(m[0], m[0]), text[at : it.start()]))
        out.append(it[0] if it[0][0] == '"' else spans(new, it[0]))
        at = it.end()
    return "".join(out) + WORD.sub(lambda m: new.get(m[0], m[0]), text[at:])


QUOTED = re.compile(r"b?\"(?:[^\"\\\n]|\\.)*\"")
GHOST = re.compile(r"ghost\s+use\b[^;]*;|\b(?:requires|ensures)\b[^{;]*\{[^}]*\}")


def rattle(new, text):
    text = GHOST.sub(lambda m: WORD.sub(lambda w: new.get(w[0], w[0]), m[0]), text)
    out, at = [], 0
    for it in QUOTED.finditer(text):
        out += [camel(new, text[at : it.start()]), it[0]]
        at = it.end()
    return "".join(out) + camel(new, text[at:])


def main():
    new = spellings()
    for name, to in sorted(new.items()):
        print(f"{name}\t{to}")
    if "--list" in sys.argv:
        return
    for path in files(".antt", ".rt", ".edit"):
        text = read(path)
        turned = rattle(new, text) if path.endswith(".rt") else antt(new, text)
        if turned != text:
            with open(path, "w", encoding="utf-8") as f:
                f.write(turned)
    pages = ["README.md"] + [os.path.join("docs", f) for f in sorted(os.listdir("docs")) if f.endswith(".md")]
    for path in pages:
        text = read(path)
        turned = spans(new, text)
        if turned != text:
            with open(path, "w", encoding="utf-8") as f:
                f.write(turned)


main()
