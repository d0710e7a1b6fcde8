#!/usr/bin/env python3
"""Brings the names of definitions and lemmas in specs/ and proofs/ to snake case.

usage: python3 tools/respell_names.py [--check]     at the top of the repository; --check only prints the table

A definition, a field and a constructor: words joined by '_'. A fact or a record: upper camel case. A lemma: a dash joins
two names, and any other word is added with '_'; one that would get the name of something in src/ also gets '_lem'. Names
that Rattle makes (a goal's, a step's) keep their dashes, and the program's own names in src/ stay as they are. It goes by
whole words in .antt and .rt files and, in pages, by code spans. It stops where two names would fall together.
"""

import collections
import os
import re
import sys

WORD = re.compile(r'[^\s(){}.;,@"«»\[\]|]+')
DECLARED = re.compile(r"^(\s*)((?:abbrev |unfoldable |pub |data |record |ruleset )*)([^\s:(){}.;,\"]+)((?:\s+[({].*?[)}])*)\s+(?::|where)\s?(.*)$")
KNOWN = set(
    "length append take drop map filter set get get_or keep any all member cons nil head tail push snoc add sub mul div mod eqb "
    "ltb leb min max sum swap insert remove replicate cond not bit_and bit_or rising updated joined".split()
)


def files(*endings):
    for folder, dirs, names in os.walk("."):
        dirs[:] = sorted(d for d in dirs if d not in (".git", "out", "target", "data"))
        for name in sorted(names):
            if name.endswith(endings):
                yield os.path.join(folder, name)


def read(path):
    with open(path, encoding="utf-8") as f:
        return f.read()


def declarations():
    """name -> the set of what it is: 'fact', 'definition', 'lemma'; and the names that stand on their own."""
    found = collections.defaultdict(set)
    whole = set(KNOWN)
    for path in files(".antt"):
        in_type = False
        for line in read(path).splitlines():
            m = DECLARED.match(line)
            if not m:
                continue
            indent, marks, name, _, type_ = m.groups()
            marks = marks.split()
            if not indent:
                in_type = "record" in marks or "data" in marks
            if type_.startswith("goal.") or name in ("module", "--"):
                continue
            if name[0].isupper() and name[1:2].islower():
                kind = "fact"
            elif "abbrev" in marks or "unfoldable" in marks or (indent and in_type):
                kind = "definition"
            else:
                kind = "lemma"
            found[name].add(kind)
            if kind == "definition":
                whole.add(name.replace("-", "_"))
    for path in files(".rt"):
        for name in re.findall(r"\bfn (\w+)|\bghost (\w+):", read(path)):
            whole.update(n for n in name if n)
    return found, whole


def lemma_name(name, whole):
    parts, tokens = name.replace("getD", "get_or").split("-"), []
    while parts:
        for n in range(len(parts), 0, -1):
            joined = "_".join(parts[:n])
            if n == 1 or joined in whole:
                tokens.append((joined, joined.rstrip("'") in whole))
                parts = parts[n:]
                break
    text, was = tokens[0]
    for token, named in tokens[1:]:
        text += ("-" if was and named else "_") + token
        was = named
    return text


def table():
    found, whole = declarations()
    rows = {}
    for name, kinds in found.items():
        if "-" not in name:
            continue
        if "fact" in kinds:
            rows[name] = "".join(p[:1].upper() + p[1:] for p in name.split("-"))
        elif "definition" in kinds:
            rows[name] = name.replace("-", "_")
        else:
            rows[name] = lemma_name(name, whole)
    have = words()
    for name, new in rows.items():
        if found[name] == {"lemma"} and new != name and new in have:
            rows[name] = new + "_lem"
    return {a: b for a, b in rows.items() if a != b}, found


def words():
    have = collections.Counter()
    for path in files(".antt", ".rt"):
        have.update(WORD.findall(read(path)))
    return have


def main(argv):
    rows, found = table()
    back = collections.defaultdict(list)
    for a, b in rows.items():
        back[b].append(a)
    clash = [f"{b}: {', '.join(a)}" for b, a in back.items() if len(a) > 1 or b in found]
    made = set()
    for path in files("Answers.antt", "Invariants.antt"):
        text = read(path)
        for path_ in re.findall(r"\b[clg]((?:\.[^\s(){}.;,@\"«»\[\]|]+)+)", text):
            made.update(path_.split("."))
        made.update(re.findall(r"goal\.([^\s(){}.;,]+)", text))
    both = sorted(a for a in rows if a in made)
    for a, b in sorted(rows.items()):
        print(f"{a}\t{b}")
    for line in clash:
        print("clash: " + line, file=sys.stderr)
    for a in both:
        print(f"also behind c., l. or goal.: {a}", file=sys.stderr)
    if argv == ["--check"]:
        return 0
    if clash:
        return 1

    def turn(m):
        return rows.get(m.group(0), m.group(0))

    for path in files(".antt", ".rt"):
        text = read(path)
        new = WORD.sub(turn, text)
        if new != text:
            with open(path, "w", encoding="utf-8") as f:
                f.write(new)
    for path in files(".md"):
        text = read(path)
        new = re.sub(r"`[^`\n]+`", lambda m: WORD.sub(lambda w: rows.get(w.group(0).strip("`"), w.group(0).strip("`")) , m.group(0)[1:-1]).join("``"), text)
        if new != text:
            with open(path, "w", encoding="utf-8") as f:
                f.write(new)
    return 0


if __name__ == "__main__":
    raise SystemExit(main(sys.argv[1:]))
