#!/usr/bin/env python3
"""Spells the repository's own names of antt in snake case: definitions, lemmas, fields, constructors and variables.

usage: python3 tools/port/snake.py [--list]        at the top of the repository, once, after port.py of the kit

`numberOf` becomes `number_of` and `first-good` becomes `first_good`; types, facts and modules keep their capital, and names of Rust source, of
the kit's library and those that Rattle makes keep their spelling. A name that would fall together with another gets the spelling that OTHER
gives it. The must-fail edits, those beside the gate, the pages and the tools that cite such names are turned with the crates.
--list prints the table and writes nothing.
"""

import os
import re
import subprocess
import sys

# Names that in plain snake case would meet another: of a field, a parameter, or a word of the library in the same file.
OTHER = {
    "agreesAt": "agreement_at",
    "all-of": "all_of_lem",
    "in-float": "in_float_lem",
    "in-turn": "in_turn_lem",
    "is-nan": "is_nan_lem",
}

NAME = r"[^\s(){}.;,@\"«»\[\]|]+"
TOKEN = re.compile(NAME)
SIGNATURE = re.compile(
    r"(?m)^ *(?:(?:pub|abbrev|unfoldable|data|record|ruleset) )*([^\s(){}.;,@\"«»:]+)(?: \{[^{}\n]*\})*(?: \([^()\n]*\))* :(?= |$)"
)
RULESET = re.compile(r"(?m)^ *(?:pub )?ruleset (?:pub )?([^\s(){}.;,@\"«»:]+)")
LET = re.compile(r"\blet ([^\s(){}.;,@\"«»:]+)")
BINDER = re.compile(r"[({]((?:[^\s(){}.;,@\"«»:]+ )+): ")
LAMBDA = re.compile(r"λ ((?:[^\s(){}.;,@\"«»:]+ ?)+)\.")
CAMEL = re.compile(r"(?<=[a-z0-9₀-₉'])[A-Z]")
PROJECTION = re.compile(r"([\w')\]»]) \.([a-z0-9«][\w-]*»?)")
USE = re.compile(r"\buse ([^\s;{]+?)\.?(?:\{([^}]*)\})?(?: as (\S+?))?;?[ \t]*$", re.M)


def snake(name):
    if name in OTHER:
        return OTHER[name]
    if name[:1].isupper():
        # a fact keeps its capital, and what is said of it is joined by a dash
        first, dash, rest = name.partition("-")
        return first + dash + CAMEL.sub(lambda m: "_" + m[0].lower(), rest).replace("-", "_") if dash else name
    return CAMEL.sub(lambda m: "_" + m[0].lower(), name).replace("-", "_")


def files(ends):
    listed = subprocess.run(["git", "ls-files", "-z"], stdout=subprocess.PIPE, check=True).stdout.decode()
    return [f for f in listed.split("\0") if f.endswith(ends) and os.path.isfile(f)]


def read(f):
    with open(f, encoding="utf-8") as it:
        return it.read()


def code_of(text, sign):
    return re.sub(re.escape(sign) + r".*", "", text)


def declared():
    names = set()
    for f in files((".antt",)):
        text = code_of(read(f), "--")
        names.update(m[1] for m in SIGNATURE.finditer(text))
        names.update(m[1] for m in RULESET.finditer(text))
        names.update(m[1] for m in LET.finditer(text))
        for pattern in (BINDER, LAMBDA):
            for m in pattern.finditer(text):
                names.update(m[1].split())
    return {n for n in names if re.match(r"[A-Za-z]", n)}


def own_crates():
    return {os.path.basename(d) for d in (os.path.join("crates", c) for c in os.listdir("crates")) if os.path.isdir(d)}


def borrowed(text, crates):
    """The names that a file takes from a library, by its lines of use."""
    out = set()
    for m in USE.finditer(text):
        path = m[1].split(".")
        mine = path[0] == "Rattle" and len(path) > 1 and path[1] in crates and "declared" not in path
        if not mine and m[2]:
            for n in m[2].split(","):
                n = n.strip()
                out.add(n.split(" as ")[-1].strip())
    return out


def turn(text, table, keep, sign):
    """A file's text with the names of table turned, but for those of keep. In comments and strings only a name with a capital inside or in backticks is turned."""
    lines = []
    for line in text.split("\n"):
        at = line.find(sign) if sign else -1
        code, said = (line, "") if at < 0 else (line[:at], line[at:])
        code = TOKEN.sub(lambda m: table.get(m[0], m[0]) if m[0] not in keep else m[0], code)
        said = loosely(said, table)
        lines.append(code + said)
    return "\n".join(lines)


def loosely(text, table, names=frozenset()):
    def word(m):
        n = m[0]
        return follow(n, table, names) if CAMEL.search(n) and "-" not in n else n

    text = re.sub(r"(?<![\w'-])[A-Za-z][\w'-]*(?![\w'-])", word, text)
    return re.sub(r"`([^`\n]+)`", lambda m: "`" + TOKEN.sub(lambda n: follow(n[0], table, names), m[1]) + "`", text)


def main():
    crates = own_crates()
    names = declared()
    sources = {f: read(f) for f in files((".rt",))}
    antts = {f: read(f) for f in files((".antt",))}
    taken = {f: borrowed(code_of(t, "--" if f.endswith(".antt") else "//"), crates) for f, t in {**sources, **antts}.items()}
    table = {n: snake(n) for n in names if snake(n) != n}
    functions = set(re.findall(r"\bfn (\w+)", "\n".join(sources.values())))
    for n in list(table):
        # a name that Rattle makes of Rust source stays as it makes it
        if n in functions:
            del table[n]
    # a lemma that would have its definition's name
    for n in sorted(table):
        if "-" in n and any(o != n and table.get(o) == table[n] for o in table):
            table[n] += "_lem"
    if "--list" in sys.argv:
        meets = []
        for f, t in {**sources, **antts}.items():
            code = code_of(t, "--" if f.endswith(".antt") else "//")
            found = {}
            for m in TOKEN.finditer(code):
                n = m[0]
                to = n if n in taken[f] else table.get(n, n)
                found.setdefault(to, set()).add(n)
            for to, olds in sorted(found.items()):
                if len(olds) > 1:
                    meets.append(f"{f}: {' '.join(sorted(olds))} -> {to}")
        print("\n".join(meets))
        print(len(table), "names,", len(meets), "meet another")
        if "--all" in sys.argv:
            for old, to in sorted(table.items()):
                print(old, to)
        return
    for f, t in sources.items():
        write(f, t, turn(t, table, taken[f], "//"))
    for f, t in antts.items():
        write(f, t, turn(t, table, taken[f], "--"))
    for f in files((".edit",)):
        t = read(f)
        lines = []
        for line in t.split("\n"):
            m = re.match(r"(old|new): ?(.*)", line)
            if m:
                line = line[: m.start(2)] + TOKEN.sub(lambda n: follow(n[0], table, names), tight(m[2]))
            elif line.startswith("#"):
                line = loosely(line, table, names)
            lines.append(line)
        write(f, t, "\n".join(lines))
    for f in files((".md", ".txt")) + [f for f in files(("",)) if f.startswith("tools/docs/")]:
        if not f.startswith("tools/port/"):
            t = read(f)
            write(f, t, loosely(t, table, names))


def tight(text):
    for _ in range(3):
        text = re.sub(r"(?<!\w)\(([A-Za-z_]\w*(?:\.\w+)+)\)", r"\1", PROJECTION.sub(r"\1.\2", text))
    return text


def follow(name, table, names):
    """A name as it is spelled now, also one that port.py has turned before: in pages and edits, which port.py leaves."""
    if name in table:
        return table[name]
    if name not in names and re.fullmatch(r"[a-z][\w'-]*", name) and snake(name) in names | set(table.values()):
        return snake(name)
    return name


def write(f, old, new):
    if new != old:
        with open(f, "w", encoding="utf-8") as it:
            it.write(new)


if __name__ == "__main__":
    main()
