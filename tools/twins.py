#!/usr/bin/env python3
"""Functions of src/ that have one shape: their bodies are equal once names and numbers are blotted out.

    tools/twins.py [COMMIT]      of the working tree, or of a commit
"""
import collections
import re
import subprocess
import sys

SHORTEST = 8  # tokens; a shorter body has nothing to share


def sources(commit):
    if commit is None:
        names = subprocess.run(["git", "ls-files", "crates/*/src/*.rt"], capture_output=True, text=True, check=True)
        for name in names.stdout.split():
            with open(name, encoding="utf-8") as file:
                yield name, file.read()
        return
    names = subprocess.run(["git", "ls-tree", "-r", "--name-only", commit, "crates"], capture_output=True, text=True, check=True)
    for name in names.stdout.split():
        if "/src/" in name and name.endswith(".rt"):
            yield name, subprocess.run(["git", "show", f"{commit}:{name}"], capture_output=True, text=True, check=True).stdout


def functions(text):
    """Name and body of each function: the body begins at the first brace that opens a line."""
    for found in re.finditer(r"^( *)(?:pub(?:\(crate\))? )?fn (\w+)", text, re.M):
        indent = found.group(1)
        ends = re.compile(rf"^{indent}}}", re.M).search(text, found.end())
        if not ends:
            continue
        whole = text[found.end():ends.start()]
        opens = re.search(rf"^{indent}{{|{{$", whole, re.M)
        if opens and "fn " not in whole[:opens.start()]:
            yield found.group(2), whole[opens.end():]


def shape(body):
    body = re.sub(r"//[^\n]*", "", body)
    tokens = re.findall(r"'\w+|\w+|[^\w\s]", body)
    keep = {"if", "else", "for", "in", "return", "match", "let", "mut", "Some", "None", "Ok", "Err", "true", "false"}
    return tuple(t if not re.match(r"\w", t) or t in keep else "x" for t in tokens)


def main():
    commit = sys.argv[1] if len(sys.argv) > 1 else None
    groups = collections.defaultdict(list)
    for name, text in sources(commit):
        if "_tests.rt" in name:
            continue
        for function, body in functions(text):
            tokens = shape(body)
            if len(tokens) >= SHORTEST:
                groups[tokens].append(f"{name}: {function}")
    twins = [members for members in groups.values() if len(members) > 1]
    for members in sorted(twins):
        print("  ".join(members))
    print(f"{len(twins)} groups, {sum(map(len, twins))} functions")


main()
