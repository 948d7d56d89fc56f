#!/usr/bin/env python3
"""Brings the names of this repository's definitions and lemmas to the spelling of today's Rattle.

Run once at the top, after the kit's own port script. A word is in snake case, a type or a statement in
camel case, and a prime is an apostrophe. Names of src/, strings, inputs and outputs stay as they are, and so do
the names that Rattle gives to goals and invariants.
"""
import collections
import glob
import re
import sys

# a name with its first letter; what Rattle itself makes has these heads and ends
MADE = re.compile(
    r"^(invariant|decreases|loop|returns|overflow|bounds|offset|offset-bounds|slice-bounds|nonzero|prove|ghost)-"
    r"|-(requires|init|preserved|smaller)$|-requires-"
)
PART = re.compile(r"[^\s(){}\[\];.,\"`]+")
HEAD = re.compile(
    r"^\s*(?:(?:abbrev|unfoldable|pub|record|data)\s+)*([^\s:(){}.,;\"]+)(?:\s+[({].*?)?\s+:(?:\s|$)"
)
KIND = re.compile(r"^\s*(?:pub\s+)?(?:record|data|ruleset)\s+([^\s:(){}]+)")


def files(*patterns):
    for pattern in patterns:
        yield from sorted(glob.glob(pattern, recursive=True))


def respelled(name):
    parts = name.replace("′", "'").split("-")
    if name[0].isupper():
        return "".join(part[0].upper() + part[1:] for part in parts if part)
    return "_".join(parts)


def own_names():
    names = set()
    for path in files("crates/*/specs/**/*.antt", "crates/*/proofs/**/*.antt"):
        answers = path.endswith(("/Answers.antt", "/Invariants.antt", "/Proof.antt", "/Choices.antt"))
        for line in open(path):
            for form in (HEAD, KIND):
                found = form.match(line)
                if not found:
                    continue
                name = found.group(1)
                if answers and MADE.search(name):
                    continue
                if re.match(r"^[A-Za-z][A-Za-z0-9_'′-]*$", name) and ("-" in name or "′" in name):
                    names.add(name)
    return names


def main():
    names = own_names()
    table = {name: respelled(name) for name in names}
    met = collections.defaultdict(set)
    for old, new in table.items():
        met[new].add(old)
    for new, olds in sorted(met.items()):
        if len(olds) > 1:
            print("fall together:", new, sorted(olds))

    def turn(text):
        return PART.sub(lambda found: table.get(found.group(0), found.group(0)), text)

    for path in files("crates/*/specs/**/*.antt", "crates/*/proofs/**/*.antt"):
        old = open(path).read()
        new = turn(old)
        if new != old:
            open(path, "w").write(new)
    for path in files("crates/*/src/**/*.rt", "crates/*/must-fail/*.edit"):
        old = open(path).read()
        lines = []
        for line in old.split("\n"):
            code, mark, comment = line.partition("//")
            lines.append(turn(code) + mark + comment)
        new = "\n".join(lines)
        if new != old:
            open(path, "w").write(new)
    if "--list" in sys.argv:
        for old in sorted(table):
            print(old, table[old])


main()
