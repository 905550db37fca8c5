#!/usr/bin/env python3
"""Brings the definitions and lemmas of the crates to snake case, after port.py of the kit; run once, at the top.

usage: python3 tools/respell.py [--dry]

A name that begins with a capital letter is a type and stays, but for the dashes of a lemma. Functions of src/, exported C
names, strings, inputs and outputs keep their names: only what specs/ and proofs/ declare is turned, wherever it is cited
(.antt and .rt files, must-fail/ and wrong/ edits, and between backticks in pages).
"""
import collections
import os
import re
import sys

TOKEN = re.compile(r"[^\s(){}\[\];,.\"`|@⌜⌝⟦⟧]+")
DECLARED = re.compile(r"\s*(?:(?:pub|abbrev|unfoldable|package|ruleset) +)*(?:record +|data +)?([^\s(){}\[\];,.:]+)\s*(?::|[({])")


def snake(name):
    if not re.fullmatch(r"[^\W\d][\w'₀-₉-]*", name):
        return name
    # a capital after a small letter begins a word; a type inside a name keeps its capital
    if name[0].islower() or name[0] == "_":
        name = re.sub(r"(?<=[a-z0-9])([A-Z])", lambda m: "_" + m.group(1).lower(), name)
    return re.sub(r"(?<=[a-z0-9'])-(?=[a-z0-9])", "_", name)


def files(*endings):
    for top in ("crates", "wrong", "docs", "README.md"):
        if os.path.isfile(top):
            if top.endswith(endings):
                yield top
            continue
        for folder, dirs, names in os.walk(top):
            dirs[:] = sorted(d for d in dirs if d != "out")
            for n in sorted(names):
                if n.endswith(endings):
                    yield os.path.join(folder, n)


def read(path):
    with open(path, encoding="utf-8") as f:
        return f.read()


def declared():
    """Each name that specs/ or proofs/ declares, with the files that do."""
    found = collections.defaultdict(set)
    for path in files(".antt"):
        for line in read(path).split("\n"):
            if line.startswith(("use ", "--")):
                continue
            m = DECLARED.match(line)
            if m and " : tie." not in line and m.group(1) not in ("let", "elim", "unfolding", "record", "in"):
                found[m.group(1)].add(path)
    return found


def apart(found):
    """The new name of each. Where two fall together the definition has the name; a field or theorem of specs/ gets `_is`, a lemma `_lem`."""
    names = {n: snake(n) for n in found}
    back = collections.defaultdict(set)
    for a, b in names.items():
        back[b].add(a)
    for b, olds in sorted(back.items()):
        if len(olds) > 1:
            camel = [n for n in olds if re.search("[A-Z]", n)]
            stays = camel[0] if len(camel) == 1 else min(olds, key=lambda n: ("-" in n, n))
            for n in olds - {stays}:
                stated = any("/specs/" in p for p in found[n])
                names[n] = b + ("_is" if stated else "_lem")
                print(f"together: {b} is {stays}; {n} is {names[n]}")
    assert len(set(names.values())) == len(names), "two names fall together still"
    return names


def turn(text, names):
    # a name behind a dot is a field's: where it has no capital and no dash it may be Rattle's own
    def one(m):
        t = m.group(0)
        dotted = text[m.start() - 1 : m.start()] == "." or text[m.end() : m.end() + 1] == "." and "Rattle" in text[: m.start()].split(" ")[-1]
        return t if dotted and re.fullmatch(r"[a-z_0-9]+", t) else names.get(t, t)

    return TOKEN.sub(one, text)


def turn_cited(text, names, new):
    """Edits and pages, which port.py did not see: a name that it turned is turned here too."""

    def one(m):
        t = m.group(0)
        again = names.get(snake(t)) if "-" in t else None
        return names.get(t) or again or (snake(t) if snake(t) in new else t)

    return TOKEN.sub(one, text)


def of_the_kit(text):
    """What a file imports from a library of the kit: those names are the library's, whatever a crate here declares."""
    own = tuple(f"Rattle.{c}." for c in sorted(os.listdir("crates")))
    lists = re.findall(r"(?m)^(?:pub )?use (\S+)\.\{(.*)\}$", text)
    return {t for path, names in lists if not path.startswith(own) for t in TOKEN.findall(names)}


def turn_file(path, text, names, new):
    if path.endswith(".md"):
        return re.sub(r"`[^`\n]+`", lambda m: turn_cited(m.group(0), names, new), text)
    if path.endswith(".edit"):
        return "\n".join(l if l.startswith(("#", "file:")) else turn_cited(l, names, new) for l in text.split("\n"))
    # a name that port.py turned already is turned on only where a file declares or imports it
    here = {t for line in text.split("\n") for t in TOKEN.findall(line.split("{", 1)[-1] if line.startswith("use ") else line if DECLARED.match(line) else "")}
    code = path.endswith(".rt")
    kit = of_the_kit(text)
    names = {a: b for a, b in names.items() if a not in kit and (re.search("[A-Z-]", a) or (a in here and not code))}
    lines = []
    for line in text.split("\n"):
        comment = line.lstrip().startswith(("--", "//", "#"))
        lines.append(turn(line, {a: b for a, b in names.items() if "-" not in a}) if comment else turn(line, names))
    return "\n".join(lines)


def main(argv):
    found = declared()
    names = apart(found)
    new = set(names.values())
    names = {a: b for a, b in names.items() if a != b}
    print(len(names), "names turned")
    if "--dry" in argv:
        return 0
    for path in files(".antt", ".rt", ".edit", ".md"):
        text = read(path)
        turned = turn_file(path, text, names, new)
        if turned != text:
            with open(path, "w", encoding="utf-8") as f:
                f.write(turned)
    return 0


if __name__ == "__main__":
    raise SystemExit(main(sys.argv[1:]))
