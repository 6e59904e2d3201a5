#!/usr/bin/env python3
"""Turns a crate's Proof.antt files, which close a proof by the parts of its `tie`, to Invariants.antt and Answers.antt.

usage: python3 tools/port/answers.py FOLDER NAME..        at the top of the repository

FOLDER/NAME/names.json is what the kit lists of the crate NAME: for each function, the old name of each goal, loop and step and its new one
(`rt check --generated FOLDER/NAME --old-names`). A goal that was answered by a search over the rules alone is left out: the check tries that by
itself. What has no new name keeps its old one, and a line that begins 'left:' says so.
"""

import json
import os
import re
import sys

WORD = r"[^\s(){}.;,@\"«»\[\]|]+"
SEARCHED = re.compile(r"^search \(?(?:rules|needs)\)?(?: depth \d+)?(?: fits \d+)?$")


def names_of(folder, crate):
    with open(os.path.join(folder, crate, "names.json"), encoding="utf-8") as it:
        return json.load(it)


def plain(name):
    return name.replace("-", "_")


def blocks_of(text):
    """The file's head (comments and use lines) and its declarations, each with its comment."""
    lines = text.rstrip("\n").split("\n")
    blocks, now = [], []
    for i, line in enumerate(lines):
        if line == "":
            after = next((l for l in lines[i + 1 :] if l != ""), "")
            if after and not after.startswith(" ") and not after.startswith(")"):
                if now:
                    blocks.append(now)
                now = []
                continue
        now.append(line)
    if now:
        blocks.append(now)
    return blocks


class Names:
    """The names of one function, old to new."""

    def __init__(self, listed):
        self.listed = listed
        self.goals = {}
        for old, new in listed["needs"]:
            self.goals.setdefault(plain(old), new)
        self.places = {}
        self.steps = {}
        self.clauses = {}
        self.arms = {}
        self.types = {}
        for arm in listed["arms"]:
            for new, step, path in arm[2] if arm else []:
                if not new.endswith("-own"):
                    self.arms[(plain(step), tuple(path))] = (arm[0], new)
        # what each arm of a match says of the value: that it is this variant, or none of those before
        matches = {}
        for place in listed["places"]:
            m = re.fullmatch(r"At-(match\d*)-keys(\d+)", place[0])
            if m:
                matches.setdefault(m[1], []).append((m[2], place[2][1]))
        self.keys = {}
        for match, arms in matches.items():
            others = [re.match(r"in-([^-]+)", new)[1] for _, new in arms if new.startswith("in-")]
            for key, new in arms:
                if new.startswith("in-"):
                    self.keys[match, key] = new + ".is"
                elif len(others) == 1:
                    self.keys[match, key] = f"{new}.not-{others[0]}"
        for i, place in enumerate(listed["places"]):
            name, above, step = place[0], place[1], place[2]
            self.places[name] = place
            if step and step[0]:
                self.steps.setdefault(plain(step[0]), set()).add(step[1])
                clause = listed["clauses"][i]
                if clause and clause["fields"]:
                    self.clauses[step[1]] = clause["fields"]
            self.types[plain(name)] = listed["places_by_name"][i]

    def goal(self, old):
        old = plain(old)
        for head in ("", "overflow_", "nonzero_"):
            if old.startswith(head) and old[len(head) :] in self.goals:
                return self.goals[old[len(head) :]]
        return None


def turned(text, names, where, left):
    """A body with the paths into its context turned."""
    text = text.replace(".well-formed", ".well_formed")
    if names.nested:
        # a helper takes the context of one place: the way to it stays
        return typed(named(text, names, where, left), names)
    # every step before a goal is a field of its context
    text = re.sub(r"(?:\.before)+(?=[.\s();,\]]|$)", "", text)
    while True:
        m = re.search(r"(?m)^( *)let (" + WORD + r") = (" + WORD + r") in ?(\n *)?", text)
        if not m or m[3].isdigit():
            break
        rest = re.sub(r"(?<![^\s(){},;\[\]|])" + re.escape(m[2]) + r"(?![^\s(){}.;,\[\]|])", m[3], text[m.end() :])
        text = text[: m.start()] + m[1] + rest

    return typed(named(text, names, where, left), names)


def named(text, names, where, left):
    def step(m):
        new = names.steps.get(plain(m[1]))
        if not new:
            return m[0]
        if len(new) > 1:
            left.append(f"{where}: {m[1]} is one of {sorted(new)}")
            return m[0]
        return "." + next(iter(new))

    for (old, path), (arm, new) in sorted(names.arms.items(), key=lambda it: -len(it[0][1])):
        behind = "".join(r"\." + re.escape(p) for p in path)
        text = re.sub(r"\." + old.replace("_", "[-_]") + behind + r"(?![.]?[\d])(?![\w-])", f".{arm}.{new}", text)
    text = re.sub(r"\.(match\d*)\.keys(\d+)", lambda m: "." + names.keys.get((m[1], m[2]), f"{m[1]}.keys{m[2]}"), text)
    text = re.sub(r"\.(" + WORD + r")", step, text)
    for at, fields in names.clauses.items():
        here = r"(?<=\." + re.escape(at) + r"\.ensures)"
        if len(fields) == 1:
            text = re.sub(here + r"(?![\w-])(?!\." + re.escape(fields[0]) + r"(?![\w-]))", "." + fields[0], text)
        else:
            text = re.sub(here + r"\.(\d+)", lambda m: "." + fields[int(m[1])] if int(m[1]) < len(fields) else m[0], text)
    return text


def typed(text, names):
    return re.sub(r"\btie\.((?:Start|After|Then|Else|In|At)" + r"[^\s(){}.;,]*)", lambda m: "goal." + names.types.get(plain(m[1]), m[1]), text)


def convert(crate, path, listed, left):
    folder = os.path.dirname(path)
    at = folder.split("/proofs/", 1)[1].replace("/", ".")
    full = f"Rattle.{crate}.proofs.{at}"
    with open(path, encoding="utf-8") as it:
        text = it.read()
    names = Names(listed)
    names.nested = re.search(r"\btie\.(?:Start|After|Then|Else|In|At)", text) is not None
    blocks = blocks_of(text)
    head = blocks[0]
    comment = [l for l in head if l.startswith("--")]
    uses = [l for l in head if l.startswith("use ") and not l.startswith(f"use {full}.Statement") and not l.startswith(f"use {full}.Tie")]
    other = [l for l in head if not l.startswith("--") and not l.startswith("use ")]
    if other:
        blocks[0:1] = [other]
    else:
        blocks = blocks[1:]
    answers, invariants = [], []
    labels = {}
    for b in blocks:
        body = [l for l in b if not l.startswith("--")]
        m = re.match(r"(?:pub )?(" + WORD + r") : tie\.Need-([^\s]+)", body[0]) if body else None
        if m:
            labels[m[1]] = (names.goal(m[2]), m[2])
    for b in blocks:
        body = [l for l in b if not l.startswith("--")]
        said = [l for l in b if l.startswith("--")]
        if not body:
            continue
        if re.match(r"pub \S+_spec : ", body[0]):
            continue
        m = re.match(r"(?:pub )?(" + WORD + r") : tie\.Need-([^\s]+)", body[0])
        if m:
            label = m[1]
            new, old = labels[label]
            code = "\n".join(body[1:])
            lhs = re.search(r"(?m)^" + re.escape(label) + r"((?: \S+)*?) =\s*", code)
            if not lhs:
                left.append(f"{path}: {label}: no equation")
                continue
            if SEARCHED.match(code[lhs.end() :].strip()):
                continue
            if new is None:
                left.append(f"{path}: {old} has no new name")
                new = "no-" + old
            signature = body[0][: m.start(1)] + f"{new} : goal.{new}"
            if not signature.startswith("pub "):
                signature = "pub " + signature
            args = [a for a in lhs[1].split() if a != "κs"]
            code = code[: lhs.start()] + new + "".join(" " + a for a in args) + " =" + code[lhs.end(1) + 2 :]
            code = re.sub(r"(?m)^" + re.escape(label) + r"(?= )", new, code)
            answers.append("\n".join(said + [signature, turned(code, names, path, left)]))
            continue
        m = re.match(r"abbrev (?:pub )?(" + WORD + r") : tie\.((?:invariant|decreases)[-_]" + WORD + r")", body[0])
        if m:
            invariants.append((m[1], m[2], said, body))
            continue
        code = "\n".join(b)
        answers.append(turned(code, names, path, left))
    return comment, uses, answers, invariants, names, full


def invariant(name, body, loop, changed):
    """The right side of an invariant or a measure, over the record of the live variables."""
    text = "\n".join(body[1:])
    m = re.match(re.escape(name) + r"((?: \S+)*?) =\s*", text)
    args = m[1].split()
    right = text[m.end() :]
    lives = [("l.initial." if c else "l.") + v for v, c in zip(loop[1], changed)] + ["l." + v for v, c in zip(loop[1], changed) if c]
    if len(args) != len(lives):
        return None
    table = dict(zip(args, lives))
    return re.sub(r"(?<![^\s(){},;\[\]|])([^\s(){}.;,\[\]|]+)", lambda m: table.get(m[1], m[1]), right)


def main(argv):
    for crate in argv[1:]:
        listed = names_of(argv[0], crate)
        left = []
        for key, it in sorted(listed.items()):
            m = re.fullmatch(rf"Rattle-{crate}-proofs\.(.+)\.Lts", key)
            if not m:
                continue
            folder = f"crates/{crate}/proofs/" + m[1].replace(".", "/")
            path = folder + "/Proof.antt"
            if not os.path.exists(path):
                continue
            comment, uses, answers, invariants, names, full = convert(crate, path, it, left)
            written = []
            for name, tie, said, body in invariants:
                kind, _, old = plain(tie).partition("_")
                at = next((i for i, l in enumerate(it["loops"]) if plain(l[0][0]) == old), None)
                right = invariant(name, body, it["loops"][at], it["changed"][at]) if at is not None else None
                if right is None:
                    left.append(f"{path}: {tie} could not be turned")
                    right = "?"
                new = f"{kind}-{it['loops'][at or 0][0][1]}"
                written.append("\n".join(said + [f"abbrev pub {new} : goal.{new}", f"{new} l = {right}"]))
            if written:
                write(f"{folder}/Invariants.antt", [c for c in comment] + needed(uses, written) + [f"use {full}.Given as goal"], written)
            if answers:
                write(f"{folder}/Answers.antt", comment + needed(uses, answers) + [f"use {full}.Goals as goal"], answers)
            os.remove(path)
        for l in left:
            print("left: " + l)


def needed(uses, texts):
    """The use lines, with the names that the texts have."""
    found = set(re.findall(WORD, "\n".join(texts)))
    out = []
    for u in uses:
        m = re.match(r"use (\S+?)\.\{(.*)\}$", u)
        if not m:
            out.append(u)
            continue
        names = [n.strip() for n in m[2].split(",")]
        keep = []
        for n in names:
            bare = n.split(" as ")[-1]
            parts = [p for p in bare.split("◌") if p]
            if "◌" in bare and all(p in found for p in parts) or bare in found:
                keep.append(n)
        if keep:
            out.append(f"use {m[1]}.{{{', '.join(keep)}}}")
    return out


def write(path, head, parts):
    with open(path, "w", encoding="utf-8") as it:
        it.write("\n".join(head) + "\n\n" + "\n\n".join(parts) + "\n")


if __name__ == "__main__":
    main(sys.argv[1:])
