#!/usr/bin/env python3
"""Brings the repository's own names in specs/ and proofs/ to today's spelling: words in snake case.

usage: python3 tools/respell.py [--names] [ROOT]      once, behind the kit's port.py, in the repository (or in ROOT)

Two kinds of names are turned, wherever they stand in crates/ (definitions, proofs, clauses, must-fail edits), in tests/edits, in README.md and in docs/:
  - a name in camel case that begins with a small letter: isMinted becomes is_minted;
  - a name of a definition, lemma, field or constructor of specs/ or of proofs/*.antt with a dash: lowest-step becomes lowest_step. One that begins with
    a capital keeps its dash, which joins a fact's name to a word (AllI-sub). Where there is a definition of that name already, or one in camel case
    that gets it, the lemma's name ends in _lem: has-side becomes has_side_lem, since hasSide becomes has_side. So do the lemmas of LEMMAS, whose
    dash port.py has turned already.
Types, modules and the functions of src/ keep their names, and so do the goals that the check names (in the folders of proofs/ that hold a function's proof).
A name that the library has too, and that some file here takes from there, stays. With --names nothing is written: the names are printed, old and new.
"""

import os
import re
import sys

LEMMAS = ("side_after", "is_down", "goes_down", "by_side", "so_far", "step_words", "value_in")

LETTER = r"A-Za-z0-9_'?\u0370-\u03ff\u2080-\u209c"
TOKEN = re.compile(rf"(?<![{LETTER}])[A-Za-z_\u0370-\u03ff][{LETTER}]*(?:-[{LETTER}]+)*")
CAMEL = re.compile(r"[a-z][a-z0-9']*[A-Z]")
MODIFIERS = r"(?:pub |abbrev pub |unfoldable pub |abbrev |unfoldable |data |pub data |record |pub record |abbrev pub record )*"
DEFINED = re.compile(rf"^\s*{MODIFIERS}([^\s:(){{}};,.]+)(?:[ \n][^\n:]*)? : ", re.M)


def files(root, top, endings):
    for folder, dirs, names in os.walk(os.path.join(root, top)):
        dirs[:] = sorted(d for d in dirs if d not in ("out", "target", ".git"))
        for name in sorted(names):
            if name.endswith(endings):
                yield os.path.join(folder, name)


def read(path):
    with open(path, encoding="utf-8") as f:
        return f.read()


def of_a_function(path):
    """Whether the file is the proof of one function: its names are the check's."""
    return os.path.basename(path) == "Proof.antt"


def turned(name):
    if name[0].isupper():
        return name
    if CAMEL.match(name):
        name = re.sub(r"(?<=[a-z0-9'])([A-Z])", r"_\1", name).lower()
    return name.replace("-", "_")


def own_names(root):
    """The repository's own names that change, with their new spelling, and those that stay or that port.py has turned."""
    found, taken, others = {}, set(), set()
    crates = "|".join(os.listdir(os.path.join(root, "crates")))
    for path in files(root, "crates", (".antt",)):
        text = COMMENT.sub("", read(path))
        for module, names in IMPORT.findall(text):
            if not re.match(rf"Rattle\.({crates})\.", module):
                others |= set(TOKEN.findall(names))
        if not of_a_function(path):
            for name in DEFINED.findall(text):
                if TOKEN.fullmatch(name) and turned(name) != name:
                    found[name] = turned(name)
                else:
                    taken.add(name)
        for name in TOKEN.findall(text):
            if CAMEL.match(name) and "-" not in name:
                found[name] = turned(name)
    found = {name: new for name, new in found.items() if name not in others}
    taken |= {new for name, new in found.items() if "-" not in name}
    return {name: new + "_lem" if "-" in name and new in taken else new for name, new in found.items()}, taken


def spans(line, words):
    """The line of a page with the names between backquotes turned; paths and commands stay."""
    parts = line.split("`")
    for i in range(1, len(parts), 2):
        if "/" not in parts[i] and ".in" not in parts[i]:
            parts[i] = words(parts[i])
    return "`".join(parts)


def replaced(text, names, within):
    """The text with the names turned: everywhere but in strings, or, with names that are taken already, only between backquotes."""
    def words(part):
        return TOKEN.sub(lambda m: names.get(m.group(0), m.group(0)), part)

    if within is not None:
        def known(part):
            return TOKEN.sub(lambda m: names.get(m.group(0)) or (turned(m.group(0)) if turned(m.group(0)) in within else m.group(0)), part)

        return "".join(spans(line, known) for line in text.splitlines(keepends=True))
    done, at = "", 0
    for kept in STRING.finditer(text):
        done += words(text[at:kept.start()]) + kept.group(0)
        at = kept.end()
    return done + words(text[at:])


def lemmas_turned(text):
    """The lemmas of LEMMAS where they are no field of a step."""
    return re.sub(rf"(?<![.{LETTER}])({'|'.join(LEMMAS)})(?![-{LETTER}])", r"\1_lem", text)


COMMENT = re.compile(r"(?<![\w:])(--|//).*")
STRING = re.compile(r'"[^"\n]*"')
IMPORT = re.compile(r"(?m)^use (\S+)\.\{([^}]*)\}")
PATH = re.compile(r"Rattle\.\w+\.(specs|proofs)\.[\w.+]*")


def turn(root, write):
    names, taken = own_names(root)
    places = [(p, None) for p in files(root, "crates", (".antt", ".rt", ".edit"))]
    places += [(p, None) for p in files(root, "tests/edits", (".edit",))]
    places += [(p, taken) for p in files(root, "docs", (".md",))] + [(os.path.join(root, "README.md"), taken)]
    clashes = 0
    for path, within in places:
        before = read(path)
        text = before
        if path.endswith(".antt"):
            text = lemmas_turned(before)
            seen = {}
            for name in sorted(set(TOKEN.findall(PATH.sub("", COMMENT.sub("", text))))):
                new = names.get(name, name)
                if new in seen:
                    print(f"clash: {path}: {seen[new]} and {name} are both {new}")
                    clashes += 1
                seen[new] = name
        after = replaced(text, names, within)
        if write and after != before:
            with open(path, "w", encoding="utf-8") as f:
                f.write(after)
    return names, clashes


def main(argv):
    write = "--names" not in argv
    rest = [a for a in argv if a != "--names"]
    root = rest[0] if rest else "."
    names, clashes = turn(root, write)
    if not write:
        for old in sorted(names):
            print(old, names[old])
    print(f"respell: {len(names)} names, {clashes} clashes", file=sys.stderr)
    return 1 if clashes else 0


if __name__ == "__main__":
    raise SystemExit(main(sys.argv[1:]))
