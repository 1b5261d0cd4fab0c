#!/usr/bin/env python3
"""Brings the names of this repository's own definitions and lemmas to one spelling, once, after the kit's port.py.

usage: python3 tools/respell.py         at the top of the repository: rewrites crates/*/specs, crates/*/proofs and the clauses of crates/*/src
       python3 tools/respell.py --list  prints each old name and its new one, and changes nothing

Words are in snake case: a dash becomes an underscore, and a capital inside a word that begins small becomes an underscore and a small letter.
What begins with a capital is a type, and its parts are joined in upper camel case. A name that a Rust function or a field has gets the ending _lem.
Names of src/, strings, comments, and the names that the check makes (goals, steps, loops) stay as they are.
"""
import os
import re
import sys

# Lemmas whose name would fall together with their function's.
APART = {
    "is-count": "is_count_lem",
    "items-of": "object_items",
    "object-asks": "object_asks_lem",
    "object-blames": "object_blames_lem",
}

# Names of two crates that do not meet.
ALIKE = {"kind_of"}

# Parameters and names of imports, which are respelled too.
PARAMETERS = {
    "answers-before",
    "fits-h",
    "fits-k",
    "lists-before",
    "placement-entries",
    "reaches-h",
    "reaches-k",
    "whole-o",
    "whole-q",
}

# What has the name of a Rust function or of a field gets the ending _lem.
AS_FUNCTIONS = {
    "axes-of",
    "box-weights",
    "many-weights",
    "ball-reach",
    "cornerAt",
    "due-at",
    "entry-product",
    "first-gap",
    "flawNumber",
    "free-parts",
    "hullOf",
    "kindWord",
    "pairLine",
    "placement-lines",
    "placementLine",
    "refusalLine",
    "second-gap",
    "some-place",
    "tieHeight",
}

WORD = r"[^\s(){}\[\].,;:\"«»λ∷⌜⌝|]+"
DECLARED = re.compile(r"^\s*(?:(?:unfoldable|abbrev|pub|ruleset|record|data)\s+)*(" + WORD + r")((?:\s+\([^)]*\)|\s+\{[^}]*\}|\s+" + WORD + r")*)\s*:(?!=)\s*(.*)$")
MADE = re.compile(r"^(goal|given|need)\.")
COMMENT = re.compile(r"^\s*(--|//)")


def files(top):
    for crate in sorted(os.listdir(os.path.join(top, "crates"))):
        for part in ("src", "specs", "proofs"):
            for folder, dirs, names in os.walk(os.path.join(top, "crates", crate, part)):
                dirs.sort()
                for name in sorted(names):
                    if name.endswith((".rt", ".antt")):
                        yield os.path.join(folder, name)


def read(path):
    with open(path, encoding="utf-8") as f:
        return f.read()


def declared(text):
    """The names that a file of specs/ or proofs/ declares, but for answers to goals."""
    for line in text.split("\n"):
        if COMMENT.match(line) or re.match(r"\s*(use|mod|pub mod|module|let|elim)\b", line):
            continue
        hit = DECLARED.match(line)
        if hit and not MADE.match(hit.group(3)) and not hit.group(2):
            yield hit.group(1)


def snake(name):
    """The name in the new spelling."""
    if name in APART:
        return APART[name]
    if name[0].isupper():
        return "".join(p[:1].upper() + p[1:] for p in name.split("-")) if "-" in name else name
    words = re.sub(r"getD", "get_or", name).replace("-", "_")
    words = re.sub(r"(?<=[a-z0-9])([A-Z])", lambda m: "_" + m.group(1).lower(), words)
    return words + "_lem" if name in AS_FUNCTIONS else words


def table(top):
    own = set(PARAMETERS)
    for path in files(top):
        if path.endswith(".antt"):
            own |= set(declared(read(path)))
    renamed = {n: snake(n) for n in own if n != "_"}
    return {a: b for a, b in renamed.items() if a != b}, own


def together(renamed, own):
    """Names that would fall together."""
    back = {}
    for a, b in renamed.items():
        back.setdefault(b, set()).add(a)
    for b in back:
        if b in own and b not in renamed:
            back[b].add(b)
    return {b: sorted(a) for b, a in back.items() if len(a) > 1 and b not in ALIKE}


OTHER = re.compile(r"(?m)^\s*(?:ghost )?use\s+([^\s;{]+?)(?:\.\{([^}]*)\})?(?:\s+as\s+([^\s;]+))?;?\s*$")


def foreign(text, crates):
    """The names that a file has from elsewhere, and its short names for modules of elsewhere."""
    names, modules = set(), set()
    for path, listed, short in OTHER.findall(text):
        parts = path.split(".")
        if parts[0] == "Rattle" and len(parts) > 1 and parts[1] in crates:
            continue
        names |= {n.strip().split(" as ")[-1].strip() for n in listed.split(",") if n.strip()}
        if short:
            modules.add(short)
    return names, modules


CHAIN = re.compile(r"(?<![\w'·\-])((?:" + WORD + r"\.)*)(" + WORD + r")")


def respelled(line, renamed, modules, answers):
    """A line of a clause, a definition or a proof in the new spelling. In answers the second part of a step's path, as c.loop-i.invariant, is made."""

    def turn(hit):
        parts = (hit.group(1) + hit.group(2)).split(".")
        if parts[0] in modules:
            return hit.group(0)
        made = {1} if answers and parts[0] in ("c", "w", "l", "a", "goal", "given") else set()
        return ".".join(p if k in made else renamed.get(p, p) for k, p in enumerate(parts))

    return CHAIN.sub(turn, line)


def turned(path, text, renamed, crates):
    names, modules = foreign(text, crates)
    renamed = {a: b for a, b in renamed.items() if a not in names}
    answers = re.search(r"/proofs/.+/", path)
    out = []
    for line in text.split("\n"):
        code, mark, said = line, "", ""
        if path.endswith(".antt"):
            hit = re.search(r"(^|\s)--\s", line)
            if hit:
                code, mark, said = line[: hit.start()], line[hit.start() : hit.end()], line[hit.end() :]
        else:
            hit = re.search(r"(^|\s)//", line)
            if hit:
                code, mark, said = line[: hit.start()], line[hit.start() : hit.end()], line[hit.end() :]
        parts = re.split(r'(b?"(?:[^"\\]|\\.)*")', code)
        code = "".join(p if k % 2 else respelled(p, renamed, modules, answers) for k, p in enumerate(parts))
        said = re.sub(r"`(" + WORD + r")`", lambda m: "`" + renamed.get(m.group(1), m.group(1)) + "`", said)
        out.append(code + mark + said)
    return "\n".join(out)


def main():
    top = os.getcwd()
    renamed, own = table(top)
    alike = together(renamed, own)
    if "--list" in sys.argv:
        for a in sorted(renamed):
            print(a, renamed[a])
        for b in sorted(alike):
            print("fall together:", b, "from", ", ".join(alike[b]))
        return 0
    if alike:
        for b in sorted(alike):
            print("fall together:", b, "from", ", ".join(alike[b]))
        return 1
    crates = set(os.listdir(os.path.join(top, "crates")))
    changed = 0
    for path in files(top):
        before = read(path)
        after = turned(path, before, renamed, crates)
        if after != before:
            with open(path, "w", encoding="utf-8") as f:
                f.write(after)
            changed += 1
    print(f"{len(renamed)} names respelled in {changed} files")
    return 0


if __name__ == "__main__":
    sys.exit(main())
