#!/usr/bin/env python3
"""Clauses that stand in three or more functions of a crate, and pairs of types that travel together.

    tools/facts.py CRATE_SRC_FOLDERS...      (for example crates/*/src)

A head is read line by line: `fn`, its parameters, then its lines that begin with requires or ensures.
Parameters are replaced by their types, .old and .now by nothing, so that renamed facts are the same fact.
"""
import collections
import itertools
import pathlib
import re
import sys

HEAD = re.compile(r"fn (\w+)(?:<[^(]*>)?\(([^{}]*?)\)\s*(?:->[^\n{]*)?\n((?:\s+(?:requires|ensures)[^\n]*\n)*)")
CLAUSE = re.compile(r"(requires|ensures)\s*\w*\s*\{(.*)\}")
PARAMETER = re.compile(r"(\w+): ((?:[^,<\n]|<[^>]*>)*)")


def facts(clause):
    """The parts between products outside brackets; a clause that binds a variable stays whole."""
    if re.search(r"\(\w[^()]* : ", clause):
        return [clause.strip()]
    depth, part, parts = 0, "", []
    for c in clause:
        depth += (c == "(") - (c == ")")
        if c == "×" and depth == 0:
            parts.append(part)
            part = ""
        else:
            part += c
    parts.append(part)
    parts = [re.sub(r"^\((.*)\)$", r"\1", p.strip()) for p in parts]
    return [f for p in parts for f in (facts(p) if "×" in p and len(parts) > 1 else [p])]


def plain(fact, parameters):
    for name, kind in parameters:
        fact = re.sub(rf"\b{name}\b(\.(old|now))?(?!\.\w+ ≡ {name})", f"‹{kind}›", fact)
    return re.sub(r"\.(old|now)\b", "", fact).strip()


def read(folder):
    for file in sorted(pathlib.Path(folder).rglob("*.rt")):
        for m in HEAD.finditer(file.read_text(encoding="utf-8")):
            parameters = [(n, k.replace("mut ", "").strip()) for n, k in PARAMETER.findall(m.group(2))]
            clauses = [c for _, c in CLAUSE.findall(m.group(3))]
            yield f"{file.stem}::{m.group(1)}", parameters, clauses


def main():
    for folder in sys.argv[1:]:
        said, pairs = collections.defaultdict(list), collections.defaultdict(list)
        for name, parameters, clauses in read(folder):
            for fact in {plain(f, parameters) for c in clauses for f in facts(c)}:
                said[fact].append(name)
            kinds = sorted({k for _, k in parameters})
            for pair in itertools.combinations(kinds, 2):
                pairs[pair].append(name)
        for what, table in (("fact", said), ("pair", pairs)):
            for key, names in sorted(table.items(), key=lambda item: -len(item[1])):
                if len(names) >= 3:
                    shown = key if what == "fact" else " + ".join(key)
                    print(f"{what} {folder} {len(names)}: {shown}  [{', '.join(names)}]")


main()
