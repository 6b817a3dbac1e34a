#!/usr/bin/env python3
"""Respells the repository's own definitions and lemmas in snake case, as the kit's library spells its words.

usage: python3 tools/respell.py [--list]      at the top of the repository, once, after the kit's own port.py

A name is the repository's own where a file of specs/ or proofs/ declares it: a definition, a lemma, a field of a
record, a constructor, or a name bound by `where` or `let`. Names that Rattle makes (goals, steps of a proof) and names
imported from the kit keep their spelling, as do functions of src/, strings and comments. A tactic that is written
with a name in ALSO is turned too: put it back by hand. --list prints the pairs alone.
"""

import collections
import pathlib
import re
import sys

OWN = {p.name for p in pathlib.Path("crates").iterdir()}
# the name of a tactic in this kit, and two that are words of its library
ALSO = {"first_of": "first_some", "bit-and": "bit_of_and", "bit-or": "bit_of_or"}
NAME = r"[A-Za-z][\w'\u2080-\u2089]*(?:-[\w'\u2080-\u2089]+)*"


def files(pattern):
    found = []
    for crate in sorted(OWN):
        for folder in ("specs", "proofs", "src"):
            found += sorted(pathlib.Path("crates", crate, folder).glob("**/" + pattern))
    return found


def imported(text):
    """The names that a file takes from the kit."""
    names = set()
    for path, inside in re.findall(r"use ([\w.\u00b7]+)\.\{([^}]*)\}", text):
        parts = path.split(".")
        if parts[0] == "Rattle" and len(parts) > 1 and parts[1] in OWN:
            continue
        names |= {n.split(" as ")[-1].strip() for n in inside.split(",")}
    return names


def renamed(text):
    """The names under which a file takes in names of the repository's own."""
    lines = re.findall(rf"use Rattle\.(?:{'|'.join(sorted(OWN))})\.[^;\n]*", text)
    return {n for line in lines for n in re.findall(rf" as ({NAME})", line)}


def declared(text, answers):
    names = renamed(text)
    for line in text.splitlines():
        code = line.split("--")[0]
        m = re.match(rf"\s*(?:pub |abbrev |unfoldable |\| )*({NAME})\s*:(?!=)", code)
        if m and not (answers and re.search(r":\s*goal\.", code)):
            names.add(m[1])
        names |= set(re.findall(rf"\blet ({NAME})\s*[:=]", code))
        names |= set(re.findall(rf"^pub (?:record|data) ({NAME})", code))
    return names


def snake(name):
    """In snake case; a type in camel case."""
    if not name[0].isupper():
        return name.replace("-", "_")
    return "".join(part[0].upper() + part[1:] for part in name.split("-"))


def pairs():
    own, kit = set(), set()
    for f in files("*.antt"):
        text = f.read_text(encoding="utf-8")
        own |= declared(text, f.name in ("Answers.antt", "Invariants.antt"))
        kit |= imported(text)
    for f in files("*.rt"):
        text = f.read_text(encoding="utf-8")
        own |= renamed(text)
        kit |= imported(text)
    turned = {n: snake(n) for n in own if "-" in n and n not in kit}
    turned |= ALSO
    together = collections.defaultdict(set)
    for n in own | set(turned):
        together[turned.get(n, n)].add(n)
    clash = {k: v for k, v in together.items() if len(v) > 1}
    taken = {v for v in turned.values() if v in kit}
    return turned, clash, taken


def strings_and_comments(text, rust):
    """Where not to look: (start, end) of comments, and of strings in Rust."""
    pattern = r"//[^\n]*|\"(?:\\.|[^\"\\])*\"" if rust else r"--[^\n]*"
    return [m.span() for m in re.finditer(pattern, text, re.S)]


def respell(text, turned, rust):
    skip, at, out = strings_and_comments(text, rust), 0, []

    def turn(part):
        return re.sub(rf"(?<![\w'\-]){NAME}(?![\w'\-])", lambda m: turned.get(m[0], m[0]), part)

    for a, b in skip:
        out += [turn(text[at:a]), text[a:b]]
        at = b
    return "".join(out) + turn(text[at:])


def main(argv):
    turned, clash, taken = pairs()
    for new, old in sorted(clash.items()):
        print(f"fall together: {', '.join(sorted(old))} as {new}")
    for new in sorted(taken):
        print(f"the kit has: {new}")
    if argv == ["--list"]:
        print("\n".join(f"{a} {b}" for a, b in sorted(turned.items())))
        return 0
    for f in files("*.antt") + files("*.rt"):
        text = f.read_text(encoding="utf-8")
        new = respell(text, turned, f.suffix == ".rt")
        if new != text:
            f.write_text(new, encoding="utf-8")
    print(f"{len(turned)} names")
    return 0


if __name__ == "__main__":
    raise SystemExit(main(sys.argv[1:]))
