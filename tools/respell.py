#!/usr/bin/env python3
"""Brings the names of the repository's own definitions and lemmas to the spelling of today's Rattle, once, behind the kit's port.py.

Words in snake case (`countBelow` is `count_below`); a dash stays where it joins two names (`length-written`) and is `_` before a plain word
(`row-length` is `row_length`); a lemma that would have its definition's name gets `_lem`; facts are spelled as types. Names of src/, of the
library and of what the prover makes stay, and so do strings. It turns the .antt and .rt files of crates/ and prints where a new name stood
in a file before; with --clashes it does no more than that, with --map it prints each old and new name. It refuses two names that would fall
together."""

import re
import sys
from pathlib import Path

ROOT = Path(__file__).resolve().parent.parent
WORD = re.compile(r"[^\s(){}\[\],;.:\"`⌜⌝∣]+")
SIGNATURE = re.compile(r"^ *(?:(?:pub|abbrev|unfoldable) )*([^\s(){}\[\],;\":]+) :(?: |$)")
TYPE = re.compile(r"^(?:abbrev |unfoldable )?(?:pub )?(?:record|data|ruleset) ([^\s(){}]+)")
USED = re.compile(r"use ([A-Za-z][\w.]*)\.\{([^}]*)\}")
ALIAS = re.compile(r"use Rattle\.\w+\.(?:specs\.(?!declared|contracts)|proofs\.[A-Z])(?:[\w.]*\.)?(\w+)(?: as ([^\s;]+))?(?=[\s;]|$)")
STAYS = r'''"(?:[^"\\]|\\.|\\\n)*"|(?<![\w'-])use [A-Za-z][\w.+]*'''
LOCAL = re.compile(r"(?!Prim\b)[A-Z]")  # a module that an import of this file brought in
QUOTED = re.compile(r"`[^`\n]*`")
FIELD = re.compile(r"^  (?:pub )?([^\s(){}\[\],;\":]+) : ")
# what std calls its own words, for the dash of a name that joins two
STD = "length set sets take drop get_or map sum append add mul sub mod pow div suc zero replicate gather get fold".split()
SPECIAL = {"getD": "get_or", "is_complete": "IsComplete"}
# private words of one file that say facts
FACTS = {"SheetCases.antt": {"prints": "PrintsSheet", "boxes": "PrintsBoxes", "matrix": "PrintsMatrix", "bad": "IsBadSheet", "bad-boxes": "IsBadBoxes"}}


def snake(word):
    if word in SPECIAL:
        return SPECIAL[word]
    if not word[:1].islower():
        return word
    return re.sub(r"(?<=[a-zα-ω0-9'′])([A-Z]+)(?=[A-Z][a-z]|[^a-zA-Z]|$|[a-z])", lambda m: "_" + m.group(1).lower(), word)


def definitions():
    """Each name that specs/ or a shared file of proofs/ defines: whether it is computed with, as by `abbrev`."""
    found = {}
    for file in sorted(ROOT.glob("crates/*/specs/**/*.antt")) + sorted(ROOT.glob("crates/*/proofs/*.antt")):
        for line in file.read_text().splitlines():
            if m := SIGNATURE.match(line):
                word = m.group(1)
                found[word] = found.get(word, False) or "abbrev " in line or "unfoldable " in line
            elif m := TYPE.match(line):
                found[m.group(1)] = True
    return found


def record_fields():
    found = set()
    for file in ROOT.glob("crates/**/*.antt"):
        inside = False
        for line in file.read_text().splitlines():
            if re.match(r"(?:pub )?record ", line):
                inside = True
            elif inside and (m := FIELD.match(line)):
                found.add(m.group(1))
            elif line and not line.startswith(" "):
                inside = False
    return found


def foreign():
    """What is imported from the library or from what the prover makes, and the names of src/."""
    crates = "|".join(p.name for p in (ROOT / "crates").iterdir())
    own = re.compile(rf"Rattle\.(?:{crates})\.(?:specs\.(?!declared|contracts)|proofs\.[A-Z]\w*$)")
    words = set()
    for file in list(ROOT.glob("crates/**/*.antt")) + list(ROOT.glob("crates/**/*.rt")):
        for path, names in USED.findall(file.read_text()):
            if not own.match(path) and (path.startswith("Rattle.") or not LOCAL.match(path)):
                words |= {n.split(" as ")[0].strip() for n in names.split(",")}
    return words


def renames():
    found, kept = definitions(), foreign()
    computed = {snake(w) for w, c in found.items() if c} | set(STD)
    new = {}
    for word in found:
        if word in kept or not re.search(r"[a-zα-ω0-9'′][A-Z]|-", word) and word not in SPECIAL:
            continue
        if "-" not in word and not word[0].islower():
            continue
        parts = [snake(p) for p in word.split("-")]
        made = parts[0]
        for part in parts[1:]:
            joins = (made in STD and (part in computed or part in STD)) or (made in computed and part in STD) or (made.split("-")[-1] in STD and part in STD)
            made += ("-" if joins else "_") + part
        if made != word:
            new[word] = made
    # names that would fall together: the lemma gives way
    taken = {}
    for word in sorted(found, key=lambda w: (not found[w], "-" in w, w)):
        to = new.get(word, word)
        if to in taken:
            to += "_lem"
            new[word] = to
        if to in taken:
            sys.exit(f"respell: {word} and {taken[to]} both want {to}")
        taken[to] = word
    return new


def turned(text, new, fields, comment):
    """The path of an import stays, and so does prose but for what stands in backticks. Behind a dot only a field of ours is turned, or a name
    of a module of ours: the rest are names that the prover makes."""
    aliases = {m.group(2) or m.group(1) for m in ALIAS.finditer(text)}

    def word(m):
        whole, at = m.string, m.start()
        if whole[at - 1:at] == ".":
            before = WORD.findall(whole[max(0, at - 80):at - 1])
            if m.group(0) not in fields and not (before and before[-1] in aliases):
                return m.group(0)
        return new.get(m.group(0), m.group(0))

    def part(m):
        if m.group(0).startswith(comment):
            return QUOTED.sub(lambda q: WORD.sub(word, q.group(0)), m.group(0))
        return m.group(0)

    made, at = [], 0
    for m in re.finditer(re.escape(comment) + r"[^\n]*|" + STAYS, text):
        made += [WORD.sub(word, text[at:m.start()]), part(m)]
        at = m.end()
    return "".join(made) + WORD.sub(word, text[at:])


def main():
    new = renames()
    if "--map" in sys.argv:
        for word in sorted(new):
            print(word, new[word])
        return
    clashes, fields = [], record_fields()
    for file in sorted(ROOT.glob("crates/**/*.antt")) + sorted(ROOT.glob("crates/**/*.rt")):
        if "/out/" in str(file):
            continue
        text = file.read_text()
        here = new | FACTS.get(file.name, {})
        words = set(WORD.findall(text))
        for w in words & set(here):
            if here[w] in words:
                clashes.append(f"{file.relative_to(ROOT)}: {w} becomes {here[w]}, which stands there")
        if "--clashes" not in sys.argv:
            if file.suffix == ".rt":  # a name of src/ may be spelled as a lemma of ours
                here = {w: to for w, to in here.items() if re.search(r"[a-zα-ω0-9'′][A-Z]|-", w)}
            file.write_text(turned(text, here, fields, "//" if file.suffix == ".rt" else "--"))
    print("\n".join(clashes))


if __name__ == "__main__":
    main()
