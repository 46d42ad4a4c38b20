#!/usr/bin/env python3
"""Brings this repository's own definitions and lemmas to the spelling of today's Rattle: words in snake case, facts and types in camel case.

usage: python3 tools/snake_names.py         at the top of the repository, once, right after port.py

Only names that a file of specs/ or proofs/ declares are respelled, where they stand as such: in .antt files, in the clauses and the
ghost imports of .rt files, and in must-fail edits. Functions of src/, their parameters, strings and Rattle's own made names keep theirs.
Where the new name of a lemma would be that of another definition, it gets `_lem`.
"""
import glob
import os
import re
import sys

TOKEN = re.compile(r"[^\s(){};,.λ\"`«»⌜⌝∥\[\]]+")
OWN = "Rattle."
# A definition may not have the name of a struct's field.
GIVEN = {"paletteFrom": "palette_of_property", "viewMode": "mode_of_view"}


def antt_files():
    for p in sorted(glob.glob("crates/**/*.antt", recursive=True)):
        if "/out/" not in p:
            yield p


def declared(path):
    """The names that the file declares, but for the answers to made goals."""
    inside = False
    for line in open(path, encoding="utf-8"):
        code = line.split("--")[0].rstrip() if line.lstrip().startswith("--") else line.rstrip()
        if re.match(r"^(pub )?(data|record) ", code):
            m = re.match(r"^(?:pub )?(?:data|record) ([^\s:(){}]+)", code)
            yield m.group(1)
            inside = True
            continue
        m = re.match(r"^(\s*)(?:abbrev |unfoldable )?(?:pub )?([^\s:(){}]+)(?: [({].*)? ?:(?: (.*))?$", code)
        if m:
            if not m.group(1):
                inside = False
            if re.match(r"(tie|goal)\.", m.group(3) or ""):
                continue
            if m.group(1) and not inside and not re.match(r"^\s+(abbrev |unfoldable )?(pub )", code) and len(m.group(1)) > 2:
                continue
            yield m.group(2)
            continue
        m = re.match(r"^\s*(?:pub )?ruleset ([^\s=]+) =", code)
        if m:
            yield m.group(1)


def respelled(name):
    parts = name.split("-")
    if re.match(r"^[A-Z]", name):
        if len(parts) == 1:
            return name
        return "".join(p[:1].upper() + p[1:] for p in parts)
    words = []
    for part in parts:
        part = re.sub(r"([a-z0-9])([A-Z])", r"\1_\2", part)
        words.append(part.lower() if re.search(r"[A-Z]", part) else part)
    return "_".join(words)


def foreign_names():
    found = set()
    for p in antt_files():
        text = open(p, encoding="utf-8").read()
        for m in re.finditer(r"^use ((?:Prim|mathlib|lib|borrow|denote|Rattle\.std)[^\s{]*)\.\{([^}]*)\}", text, re.M):
            for n in m.group(2).split(","):
                found.add(n.strip().split(" as ")[0])
                found.add(n.strip().split(" as ")[-1])
    return found


def main():
    names = set()
    for p in antt_files():
        names |= set(declared(p))
    names = {n for n in names if re.match(r"^[A-Za-z]", n) and not n.endswith("-spec")}
    foreign = foreign_names()
    taken = set(names)
    turned = {}
    todo = sorted(n for n in names if respelled(n) != n)
    skipped = [n for n in todo if n in foreign]
    todo = [n for n in todo if n not in foreign]
    words = [set(TOKEN.findall(open(p, encoding="utf-8").read())) for p in antt_files()]
    # definitions, which have no dash, come first
    for n in sorted(todo, key=lambda n: ("-" in n, n)):
        new = GIVEN.get(n, respelled(n))
        if "-" not in n and new in names:
            # a lemma has that name already: where one file has both, it makes room
            if any(n in w and new in w for w in words):
                turned[new] = new + "_lem"
                taken.add(new + "_lem")
        else:
            while new in taken or new in foreign:
                new += "_lem"
        taken.add(new)
        turned[n] = new
    made = {"Tie", "Statement", "Lts", "Given", "Goals"}

    def turn(text, aliases, dashes=True):
        out, last = [], 0
        for m in TOKEN.finditer(text):
            word = m.group(0)
            out.append(text[last : m.start()])
            last = m.end()
            new = turned.get(word)
            if new is not None and "-" in word:
                if not dashes:
                    new = None
                elif m.start() and text[m.start() - 1] == ".":
                    head = re.search(r"([^\s(){};,λ\"`\[\]]+)\.$", text[: m.start()])
                    first = head.group(1).split(".")[0] if head else ""
                    if not (first in aliases or re.match(r"^[A-Z]", first)):
                        new = turned[word] if word in fields else None
            out.append(new if new is not None else word)
        out.append(text[last:])
        return "".join(out)

    fields = set()
    for p in antt_files():
        block = False
        for line in open(p, encoding="utf-8"):
            if re.match(r"^(pub )?record .*", line):
                block = True
            elif re.match(r"^\S", line):
                block = False
            elif block:
                m = re.match(r"^  ([^\s:(){}]+) :", line)
                if m:
                    fields.add(m.group(1))

    changed = 0
    for p in list(antt_files()) + sorted(glob.glob("crates/*/src/**/*.rt", recursive=True)) + sorted(glob.glob("crates/*/must-fail*/**/*.edit", recursive=True)):
        old = open(p, encoding="utf-8").read()
        aliases = set()
        for m in re.finditer(r"use (Rattle[^\s{};]*) as ([^\s;]+)", old):
            if m.group(1).split(".")[-1] not in made:
                aliases.add(m.group(2))
        for m in re.finditer(r"use (Rattle[^\s{};]*)\.([A-Za-z_]+);?$", old, re.M):
            aliases.add(m.group(2))
        lines = []
        ghost = False
        for line in old.split("\n"):
            if p.endswith(".antt") or p.endswith(".edit"):
                at = re.search(r"(^|\s)--(\s|$)", line) if p.endswith(".antt") else None
                if p.endswith(".edit") and not re.match(r"(old|new):", line):
                    lines.append(re.sub(r"`[^`]+`", lambda m: turn(m.group(0), aliases), line))
                    continue
                code, note = (line[: at.start()], line[at.start() :]) if at else (line, "")
                lines.append(turn(code, aliases) + re.sub(r"`[^`]+`", lambda m: turn(m.group(0), aliases), note))
            else:
                at = line.find("//")
                code, note = (line[:at], line[at:]) if at >= 0 else (line, "")
                if re.match(r"\s*ghost use", code):
                    ghost = True
                dashes = ghost or bool(re.match(r"\s*(requires|ensures)", code))
                lines.append(turn(code, aliases, dashes) + re.sub(r"`[^`]+`", lambda m: turn(m.group(0), aliases), note))
                if ghost and ";" in code:
                    ghost = False
        new = "\n".join(lines)
        if new != old:
            changed += 1
            open(p, "w", encoding="utf-8").write(new)
    print(f"{len(turned)} names respelled in {changed} files")
    for n in skipped:
        print("kept, since a library has it too:", n)
    for n, m in sorted(turned.items()):
        if m.endswith("_lem"):
            print("fell together:", n, "->", m)
    with open("/tmp/respelled.txt", "w") as f:
        for n, m in sorted(turned.items()):
            f.write(f"{n} {m}\n")


main()
