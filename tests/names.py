#!/usr/bin/env python3
"""The names that are declared: which are used by nothing, which mean two things, and whether a limit has one home.

usage: tests/names.py --dead     prints each declaration of the proof language that nothing uses
       tests/names.py --names    prints each public name of specs that means two things
       tests/names.py --limits   prints each limit that code and specs say unlike, and each line that says its number

Nothing is printed if all is well. The exit status is 1 if something is printed.

A declaration is live if a function's proof, a contract or a document leads to it, from declaration to declaration.
A public one of ENDS is live in itself: what these crates prove is for the reader.
A document names it in backquotes.
"""
import collections
import pathlib
import re
import sys

ENDS = ("demands", "tables")
# the programs that try and time the calls, and what they share
TRIED = r"(?:ask|timed|asked)$"
DOCUMENTS = ["README.md", "docs/*.md"]
MODIFIERS = ("pub", "abbrev", "unfoldable")
WORD = r"[^\s(){}.,;\"]+"
# the files that are written of one function's proof
OF_A_FUNCTION = ("Proof.antt", "Answers.antt", "Invariants.antt")
TOKEN = re.compile(r"(?P<field>(?<![^\s(])\.)?(?P<first>%s)(?:\.(?P<rest>%s))?(?P<bound>(?= [=:] ))?" % (WORD, WORD))
USE = re.compile(r"^(?:ghost )?use (Rattle\.%s(?:\.%s)*?)(?:\.\{(.*)\}| as (%s))?;?$" % (WORD, WORD, WORD))


class Declaration:
    """A name declared at the top of a file, whether it is public, and the text that says what it is."""

    def __init__(self, file, name, public, kind):
        self.file, self.name, self.public, self.kind = file, name, public, kind
        self.lines, self.constructors = [], []


def items(lines):
    """The lines in runs: each begins with one that is not indented, and no comment is in them."""
    run = []
    for line in lines:
        if not line.strip() or line.lstrip().startswith("-- "):
            continue
        if not line.startswith(" ") and run:
            yield run
            run = []
        run.append(line)
    if run:
        yield run


def declared(file, lines, header=()):
    """The declarations of these lines; those in a `module _` are as good as outside it."""
    current = None
    waiting = []
    for run in items(lines):
        words = run[0].split()
        if words[0] in ("use", "infixl", "infixr") or words[:2] == ["pub", "mod"] or run == ["}"]:
            continue
        if words[0] == "module":
            ends = next(i for i, line in enumerate(run) if line.rstrip().endswith("where"))
            indent = len(run[ends + 1]) - len(run[ends + 1].lstrip())
            inner = [line[indent:] for line in run[ends + 1 :]]
            yield from declared(file, inner, list(header) + run[: ends + 1])
            current = None
            continue
        if words[0] == "unfolding":
            waiting += run
            continue
        i = 0
        while words[i] in MODIFIERS:
            i += 1
        if words[i] in ("record", "data"):
            current = Declaration(file, words[i + 1], "pub" in words[:i], words[i])
            if words[i] == "data":
                current.constructors = [line.split()[0] for line in run[1:] if re.match(r"  \S+ :", line)]
            current.lines += header
            yield current
        elif words[i] == "ruleset":
            current = Declaration(file, words[i + 1], "pub" in words[:i], "definition")
            yield current
        elif re.match(r"(?:(?:%s) )*%s(?: \{\S+\})* :(?: |$)" % ("|".join(MODIFIERS), WORD), run[0]):
            current = Declaration(file, words[i], "pub" in words[:i], "definition")
            current.lines += header
            yield current
        current.lines += waiting + run
        waiting = []


def imports(file, modules):
    """What the names that a file takes from elsewhere stand for, and which of its names stand for whole files."""
    names, whole = {}, {}
    # a list of names may be broken, one to a line
    text = re.sub(r"\{\n((?:  \S+,\n)+)\}", lambda m: "{%s}" % " ".join(m[1].split()).rstrip(","), file.read_text())
    for line in text.splitlines():
        use = USE.match(line.strip())
        if not use or use[1] not in modules:
            continue
        target = modules[use[1]]
        if use[3]:
            whole[use[3]] = target
        for part in (use[2] or "").split(","):
            there, _, here = part.strip().partition(" as ")
            names[here or there] = (target, there)
    return names, whole


def bound(text):
    """The names that a text itself binds: after λ, before a type, and after `let`."""
    found = set()
    for names in re.findall(r"λ ([^.]*?)\.(?= |$)", text):
        found.update(re.findall(WORD, names))
    for names in re.findall(r"[({]([^(){}:]+) : ", text):
        found.update(names.split())
    found.update(re.findall(r"let (%s) [:=]" % WORD, text))
    return found


def uses(text, own, names, whole, hidden=()):
    """The declarations, as pairs of a file and a name, that a text names."""
    for token in TOKEN.finditer(text):
        first, rest = token["first"], token["rest"]
        if token["field"] or token["bound"]:
            continue
        if first in whole and rest:
            yield whole[first], rest
        elif first in hidden:
            continue
        elif first in own:
            yield own[first]
        elif first in names:
            yield names[first]


def given(file):
    """The declarations that a tactic is given in a function's attribute, by their paths in Rust's spelling."""
    for attribute in re.findall(r"#\[tactic\(.*?\)\]", file.read_text(), re.S):
        for path in re.findall(r"[\w+]+(?:::[\w+]+)+", attribute):
            first, *inner, name = path.split("::")
            crate = file.parts[1] if first == "crate" else first
            yield pathlib.Path("crates", crate, *inner).with_suffix(".antt"), name


def read():
    """Every file of the proof language with its declarations, and the names by which others call it."""
    files, modules = {}, {}
    for file in sorted(pathlib.Path("crates").glob("*/*/**/*.antt")):
        crate, part = file.parts[1], file.parts[2]
        if part not in ("specs", "proofs") or file.name == "Lib.antt":
            continue
        files[file] = list(declared(file, file.read_text().splitlines()))
        module = ".".join(file.with_suffix("").parts[3:])
        modules["Rattle.%s.%s.%s" % (crate, part, module)] = file
    return files, modules


def is_of_a_function(file):
    """Whether the file is what is written of one function's proof."""
    return file.parts[2] == "proofs" and file.name in OF_A_FUNCTION


def infix(name):
    """A name, or the word that stands between its two sides."""
    return name.strip("◌") if re.fullmatch(r"◌[^◌]+◌", name) else name


def dead():
    files, modules = read()
    table, edges, live = {}, collections.defaultdict(set), set()
    for file, declarations in files.items():
        for d in declarations:
            table[file, infix(d.name)] = d
    for file, declarations in files.items():
        own = {}
        for d in declarations:
            for name in [infix(d.name)] + d.constructors:
                own[name] = (file, infix(d.name))
        names, whole = imports(file, modules)
        names = {infix(here): (target, infix(there)) for here, (target, there) in names.items()}
        for d in declarations:
            text = "\n".join(d.lines)
            edges[file, infix(d.name)].update(uses(text, own, names, whole, bound(text) - {infix(d.name)}))
            if d.public and (is_of_a_function(file) or file.parts[1] in ENDS):
                live.add((file, infix(d.name)))
    # a constructor that a file takes from elsewhere stands for its type
    owner = {(d.file, c): (d.file, d.name) for d in table.values() for c in d.constructors}
    for file in sorted(pathlib.Path("crates").glob("*/src/**/*.rt")):
        names, whole = imports(file, modules)
        live.update(uses(file.read_text(), {}, names, whole))
        live.update(key for key in given(file) if key in table)
    quoted = set()
    for pattern in DOCUMENTS:
        for document in pathlib.Path(".").glob(pattern):
            for words in re.findall(r"`([^`\n]+)`", document.read_text()):
                quoted.update(re.findall(WORD, words))
    live.update(key for key in table if key[1] in quoted)
    waiting = list(live)
    while waiting:
        key = waiting.pop()
        for other in edges[owner.get(key, key)]:
            if other not in live:
                live.add(other)
                waiting.append(other)
    live.update(owner[key] for key in list(live) if key in owner)
    for file, name in sorted(set(table) - live, key=lambda key: (str(key[0]), key[1])):
        yield "%s: nothing uses %s" % (file, table[file, name].name)


def variants(text, enum):
    """The variants of an enum of the code, if the text declares it."""
    body = re.search(r"^(?:pub )?enum %s \{\n(.*?)^\}" % enum, text, re.M | re.S)
    return re.findall(r"^    (\w+)", body[1], re.M) if body else []


def two_meanings():
    """Each public name of specs and each type of the code means one thing; two that differ by capitals are one name.

    A crate's code and specs may have a type by one name: it is one thing.
    No public declaration of proofs, no constructor of specs and no refusal of the code has such a name.
    Constructors may repeat one another, and so may variants: their type is always at hand.
    """
    files, _ = read()
    names, others = collections.defaultdict(list), []
    for file, declarations in files.items():
        for d in declarations:
            if d.public and file.parts[2] == "specs":
                names[d.name.lower()].append((d.name, file))
                others += [(name, file) for name in d.constructors]
            elif d.public and not is_of_a_function(file):
                others.append((d.name, file))
    for file in sorted(pathlib.Path("crates").glob("*/src/**/*.rt")):
        text = file.read_text()
        if not re.match(TRIED, file.parts[1]):
            for name in re.findall(r"^(?:pub )?(?:struct|enum|type) (\w+)", text, re.M):
                if not any(one == name and home.parts[1] == file.parts[1] for one, home in names[name.lower()]):
                    names[name.lower()].append((name, file))
        others += [(name, file) for name in variants(text, "Refusal")]
    for _, alike in sorted(names.items()):
        if len(alike) > 1:
            yield " and ".join("%s (%s)" % place for place in alike) + " are one name with two meanings"
    for name, file in sorted(others):
        for one, home in names[name.lower()]:
            if one == name:
                yield "%s (%s) and %s (%s) are one name with two meanings" % (one, home, name, file)


# where limits are defined, in code and in specs
HOMES = {
    "crates/busset/src/lib.rt": "crates/busset/specs/Sets.antt",
    "crates/grid/src/limits.rt": "crates/grid/specs/Limits.antt",
    "crates/plan_input/src/lib.rt": "crates/plan_input/specs/Asking.antt",
}
# numbers made from limits, and lines that say such a number and mean another thing: a byte, a word, a refusal
MADE = {69, 128, 832, 860, 960}
OTHERS = {
    "crates/ask/src/rooms.rt": {128},
    "crates/busset/src/lib.rt": {255},
    "crates/busset/specs/Bytes.antt": {256},
    "crates/busset/proofs/Packing.antt": {255, 256},
    "crates/demands/specs/Order.antt": {62},
    "crates/tables/specs/Order.antt": {62},
    "crates/tables/specs/Results.antt": {62, 128},
    "crates/tables/specs/Sets.antt": {128},
    "crates/demands/proofs/EstimatorByTable.antt": {63},
    # the one table that has document 01's numbers
    "crates/tables/specs/Grids.antt": {64, 256, 1024, 8192, 16384},
}


def numbers(pairs):
    """The numbers that these names have, where a name may stand for another."""
    known = dict(pairs)
    for name, value in known.items():
        while not value.isdigit():
            value = known[value]
        yield name, int(value)


def limits():
    """Code and specs give each limit one name and one number, and no other line of src, specs or proofs says it."""
    code, specs = [], []
    for source, definition in HOMES.items():
        text = pathlib.Path(source).read_text()
        code += re.findall(r"^pub const (\w+): usize = (?:\w+::)?(\w+);", text, re.M)
        made = re.findall(r"^pub fn (\w+)\(n: usize\).*?\{\n    (\w+)\n\}", text, re.M | re.S)
        code += [(name.upper(), value) for name, value in made]
        specs += re.findall(r"^(\w+)(?: n)? = (\w+)$", pathlib.Path(definition).read_text(), re.M)
    code = dict(numbers(code))
    specs = {name.upper(): number for name, number in numbers(specs) if name != "empty"}
    for name in sorted(set(code) | set(specs)):
        if code.get(name) != specs.get(name):
            yield "%s is %s in code and %s in specs" % (name, code.get(name), specs.get(name))
    table = pathlib.Path("docs/CALLS.md").read_text()
    rows = re.findall(r"\| ([\d,]+) \| `(most\w+)` \|", table)
    rows = {name.upper(): int(most.replace(",", "")) for most, name in rows}
    for name in sorted(name for name in set(specs) | set(rows) if name.startswith("MOST_")):
        if specs.get(name) != rows.get(name):
            yield "docs/CALLS.md says %s for %s, which is %s" % (rows.get(name), name, specs.get(name))
    said = {value + k for value in code.values() if value > 60 for k in (-2, -1, 0, 1)} | MADE
    homes = set(HOMES) | set(HOMES.values())
    for file in sorted(pathlib.Path("crates").glob("*/*/**/*")):
        if file.suffix not in (".rt", ".antt") or file.parts[2] not in ("src", "specs", "proofs"):
            continue
        allowed = OTHERS.get(str(file), set()) | (set(code.values()) if str(file) in homes else set())
        for place, line in enumerate(file.read_text().split("\n"), 1):
            if line.lstrip().startswith(("-- ", "// ")):
                continue
            for number in re.findall(r"(?<!\^ )(?<![\w.])(\d+)(?!\w)", line):
                if int(number) in said - allowed:
                    yield "%s:%d says %s, which a limit's name should say" % (file, place, number)


def main():
    checks = {"--dead": dead, "--names": two_meanings, "--limits": limits}
    asked = sys.argv[1:]
    if not asked or any(option not in checks for option in asked):
        sys.exit(__doc__.split("\n\n")[1])
    said = [line for option in asked for line in checks[option]()]
    for line in said:
        print(line)
    sys.exit(1 if said else 0)


if __name__ == "__main__":
    main()
