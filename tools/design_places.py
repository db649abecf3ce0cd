#!/usr/bin/env python3
"""Lists the places in src/ that docs/DESIGN-PASS.md counts, a section for each of its points.

usage: tools/design_places.py [--count] [TREE]      (default: this repository; --count: the numbers alone)

A place is printed as FILE:LINE and its text. A place that a line `// Stays ..` stands at or right above is marked `stays`, and so is a
refusal by its number where the enum that holds it is marked.
What a section finds is found by its form alone: whether it is one of the point's places is said on that page.
"""
import difflib
import os
import re
import sys

HERE = os.path.dirname(os.path.dirname(os.path.abspath(__file__)))
TOKEN = re.compile(r"[A-Za-z_]\w*|\d[\w.]*|::|->|=>|[<>=!+\-*/%&|]=|&&|\|\||\.\.=?|\S")
WORDS = set("if else while for in let mut return match loop break continue fn pub crate self Self true false as usize u8 u32 u64 bool "
            "ref move struct enum impl const".split())


class Source:
    """A file's lines, and the same without comments."""

    def __init__(self, top, path):
        self.name = os.path.relpath(path, top)
        with open(path) as source:
            self.lines = source.read().split("\n")
        self.code = [re.sub(r"//.*", "", line) for line in self.lines]

    def stays(self, at):
        """Whether the place at a line (from 0 on) is marked as staying."""
        if "// Stays" in self.lines[at]:
            return True
        k = at - 1
        while k >= 0 and self.lines[k].strip().startswith(("//", "#[")):
            if "// Stays" in self.lines[k]:
                return True
            k -= 1
        return False

    def functions(self):
        """Each function: its line, its name, its contract, its body's tokens, its signature."""
        at = 0
        while at < len(self.code):
            found = re.match(r"\s*(?:pub(?:\(crate\))? )?(?:const )?(?:unsafe )?(?:extern \"C\" )?fn (\w+)", self.code[at])
            if not found:
                at += 1
                continue
            head, depth, body, k, begun = [], 0, [], at, False
            while k < len(self.code):
                line = self.code[k]
                clause = re.match(r"\s*(requires|ensures)\b", line)
                if not begun and (clause or (k > at and line.rstrip() == "") or not line.rstrip().endswith("{")):
                    head.append(line)
                    k += 1
                    continue
                begun = True
                body.append(line)
                depth += line.count("{") - line.count("}")
                k += 1
                if depth <= 0:
                    break
            signature = " ".join(x.strip() for x in head if not re.match(r"\s*(requires|ensures)", x)) + " " + (body[0].strip() if body else "")
            contract = [x.strip() for x in head if re.match(r"\s*(requires|ensures)", x)]
            text = " ".join(body[1:]) if body and body[0].strip() == "{" else " ".join(body).split("{", 1)[-1]
            yield at, found.group(1), contract, TOKEN.findall(text), signature
            at = k


def sources(top):
    for crate in sorted(os.listdir(os.path.join(top, "crates"))):
        src = os.path.join(top, "crates", crate, "src")
        for folder, _, files in sorted(os.walk(src)):
            for name in sorted(files):
                if name.endswith(".rt"):
                    yield Source(top, os.path.join(folder, name))


def shape(tokens):
    """The tokens with names and literals replaced in the order in which they come."""
    seen, out = {}, []
    for t in tokens:
        if t in WORDS or not re.match(r"\w", t):
            out.append(t)
        else:
            out.append(seen.setdefault(t, "$%d" % len(seen)))
    return out


def by_line(pattern, also=None):
    """A section's places: the lines of code with a pattern."""
    def find(all_sources):
        for s in all_sources:
            for at, line in enumerate(s.code):
                if re.search(pattern, line) and (also is None or also(s, at)):
                    yield s, at, s.lines[at].strip()
    return find


def counts_by_hand(s, at):
    """Whether a loop's body moves an index by one."""
    indent = len(s.code[at]) - len(s.code[at].lstrip())
    k = at + 1
    while k < len(s.code) and not (s.code[k].strip().startswith("}") and len(s.code[k]) - len(s.code[k].lstrip()) == indent):
        if re.search(r"\b\w+ [+-]= 1;|\b(\w+) = \1 [+-] 1;|\bk = j;", s.code[k]):
            return True
        k += 1
    return False


def twins(all_sources):
    """Functions whose bodies are equal but for names and literals, and long ones that are nearly so."""
    every = [(s, at, name, shape(tokens)) for s in all_sources for at, name, _, tokens, _ in s.functions()]
    groups = {}
    for item in every:
        groups.setdefault(" ".join(item[3]), []).append(item)
    shown = set()
    for group in groups.values():
        if len(group) > 1 and len(group[0][3]) >= 4:
            for s, at, name, _ in group:
                shown.add((s.name, at))
                yield s, at, "%s: as %s" % (name, ", ".join(n for t, a, n, _ in group if (t, a) != (s, at)))
    long = [item for item in every if len(item[3]) >= 40 and (item[0].name, item[1]) not in shown]
    for k, (s, at, name, form) in enumerate(long):
        near = [n for j, (_, _, n, other) in enumerate(long) if j != k
                and abs(len(other) - len(form)) * 10 <= len(form) and difflib.SequenceMatcher(None, form, other, autojunk=False).ratio() >= 0.92]
        if near:
            yield s, at, "%s: nearly as %s" % (name, ", ".join(near))


def together(all_sources):
    """Functions that are given parameters which always travel together."""
    groups = [("nodes, pool", r"\bnodes: &\[u32\]", r"\bpool: &\[u32\]"),
              ("wrapper, nodes, pools", r"\bnodes: \[&", r"\bpools: \[&"),
              ("rows, rest", r"\brows: &(mut )?\[u32\]", r"\bo: Rest\b"),
              ("environment, names in force", r"\be: &(mut )?\[u32\]", r"\b[nd]: usize\b"),
              ("rows, shelved, marks", r"\brows: &mut \[\[u32", r"\bshelved: \[usize")]
    for s in all_sources:
        for at, name, _, _, signature in s.functions():
            for title, *patterns in groups:
                if all(re.search(p, signature) for p in patterns):
                    yield s, at, "%s: %s" % (name, title)


def facts(all_sources):
    """A length that a clause asks, which three functions or more ask."""
    found = {}
    for s in all_sources:
        for at, name, contract, _, _ in s.functions():
            for clause in contract:
                if clause.startswith("requires"):
                    for number in re.findall(r"length [\w.]+ ≡ (\d+|length all_sides|256 \* length all_sides)", clause):
                        found.setdefault(number, []).append((s, at, "%s: a length of %s" % (name, number)))
    for places in found.values():
        if len(places) >= 3:
            yield from places


def structs(s):
    """A file's structs with fields: the line, the name, the fields with their lines."""
    for at, line in enumerate(s.code):
        found = re.match(r"\s*(?:pub(?:\(crate\))? )?struct (\w+)[^;]*\{", line)
        if found:
            fields, k = [], at
            while not s.code[k].strip().startswith("}"):
                fields += [(k, n, t.strip()) for n, t in re.findall(r"^\s*(?:pub(?:\(crate\))? )?(\w+): (.+),", s.code[k])]
                k += 1
            yield at, found.group(1), fields


def flags(all_sources):
    """The fields of structs that are one truth value."""
    for s in all_sources:
        for _, name, fields in structs(s):
            for at, field, kind in fields:
                if kind == "bool":
                    yield s, at, "struct %s: %s" % (name, field)


def counted_arrays(all_sources):
    """Structs with an array and a count beside it, and structs of one array alone."""
    for s in all_sources:
        for at, name, fields in structs(s):
            arrays = [n for _, n, t in fields if t.startswith("[")]
            counts = [n for _, n, t in fields if t == "usize"]
            if arrays and (counts or len(fields) == 1):
                yield s, at, "struct %s: %s" % (name, ", ".join(n for _, n, _ in fields))


POINTS = [
    ("1a enums", by_line(r"^\s*(pub(\(crate\))? )?enum \w+")),
    ("1b flags in structs", flags),
    ("1c numbers for kinds and uses", by_line(r"\bkind (==|<|<=|!=) \d|\d (<=|<) (x\.)?kind\b|\buse_of\([^)]*\) == \d|\bu == \d|\bsaid == \d|\bc == \d\d\b|\bif [kg] == \d")),
    ("1d numbers for refusals", by_line(r"\bRefused\(\d")),
    ("2 twins", twins),
    ("3 loops that count by hand", by_line(r"\b(while|loop)\b.*\{", counts_by_hand)),
    ("4a tests and conversions arm by arm", by_line(r"=> (true|false|\d+),\s*$")),
    ("4b truth values written out", by_line(r"\{ (true|false) \} else|else \{ (true|false) \}|^\s*return (true|false);$|^\s*(true|false)$")),
    ("4c a function that only widens", by_line(r"^\s*(pub(\(crate\))? )?fn (wide|words|narrow)\(")),
    ("5a parameters that travel together", together),
    ("5b lengths that clauses ask", facts),
    ("6 arrays with a count beside, or alone in a struct", counted_arrays),
    ("7 steps and checks picked by a number or a chain", by_line(r"\bif kind == \d|Lowest::At\(n\) => Verdict")),
]


def of_a_type_that_stays(all_sources, text):
    """Whether a place is a refusal by number of an enum that is marked as staying: `Offer::Refused(13)`."""
    found = re.search(r"\b(\w+)::Refused\(\d", text)
    return bool(found) and any(re.search(r"\benum %s\b" % found.group(1), line) and s.stays(at) for s in all_sources for at, line in enumerate(s.code))


def main():
    args = [a for a in sys.argv[1:] if a != "--count"]
    top = args[0] if args else HERE
    all_sources = list(sources(top))
    for title, find in POINTS:
        places = list(find(all_sources))
        kept = [s.stays(at) or of_a_type_that_stays(all_sources, text) for s, at, text in places]
        stay = sum(kept)
        crates = len({s.name.split(os.sep)[1] for s, _, _ in places})
        print("%-52s %4d in %2d crates, %d marked as staying" % (title, len(places), crates, stay))
        if "--count" not in sys.argv:
            for (s, at, text), stays in zip(places, kept):
                print("    %s:%d: %s%s" % (s.name, at + 1, "stays: " if stays else "", text))


main()
