#!/usr/bin/env python3
"""Respells the definitions and lemmas of this repository, once: words in snake case, types in camel case.

usage: python3 tools/respell.py [FOLDER]     in the folder, or in the current one: rewrites specs/, proofs/ and the clauses of src/

It goes by the names that specs/ and proofs/ declare. Names that the toolchain makes, names of its library, functions of
src/, strings and comments stay as they are. It stops before it writes where two names would fall together.
"""

import os
import re
import sys

WORD = re.compile(r"[^\s(){}\[\].,;\"«»]+")
DECLARED = re.compile(r"^\s*(?:unfoldable )?(?:abbrev )?(?:pub )?(record |data )?(?:pub )?([^\s(){}\[\].,;:]+(?: [^\s(){}\[\].,;:]+)*)((?: \(.*\))*) ?: (.*)$")
KEYWORDS = {"let", "in", "use", "elim", "module", "syntax", "λ", "open", "where", "record", "data", "|", "×", "→", "rw", "cond"}
# a name after another one of these is the library's or the toolchain's
FOREIGN = re.compile(r"^use (?:Rattle\.(?:std|core|borrow|lib|anyhow)\b|borrow\b|logic\b|mathlib\b|Prim\b|lib\b)")


def files(top):
    for folder, dirs, names in os.walk(os.path.join(top, "crates")):
        dirs[:] = sorted(d for d in dirs if d != "out")
        for name in sorted(names):
            if name.endswith((".antt", ".rt")):
                yield os.path.join(folder, name)


def of_a_function(path):
    """Whether the file is the proof of one function, where most names are the toolchain's."""
    return "/proofs/" in path and os.path.basename(path) in ("Invariants.antt", "Answers.antt", "Proof.antt", "Choices.antt")


def imported(text):
    """The names that a file takes from libraries."""
    names = set()
    for line in text.split("\n"):
        if FOREIGN.match(line) and "{" in line:
            names |= set(re.split(r"[,\s]+", line[line.index("{") + 1 : line.rindex("}")]))
    return names


def signature(lines, i, rest):
    """The whole type that stands after the colon of line i."""
    deeper = len(lines[i]) - len(lines[i].lstrip())
    out = [rest]
    for line in lines[i + 1 :]:
        if not line.strip() or len(line) - len(line.lstrip()) <= deeper:
            break
        out.append(line.strip())
    return " ".join(out)


def is_type(kind, text):
    return bool(kind) or bool(re.search(r"Type(?: \S+)?( where)?$", text.strip()))


def respelled(name, a_type):
    """A field of a record keeps its small letter, though it is a type at each record."""
    if not a_type or not name[0].isupper():
        return name.replace("-", "_")
    return "".join(part[:1].upper() + part[1:] for part in re.split(r"[-_]", name))


def has_dash(name):
    return bool(re.search(r"[A-Za-z0-9_?']-[A-Za-z0-9_]", name))


def declared(top):
    """The repository's own names with a dash, and for each whether it is a type; and all its own names."""
    own, every = {}, set()
    for path in files(top):
        if not path.endswith(".antt"):
            continue
        text = open(path, encoding="utf-8").read()
        lines = text.split("\n")
        for i, line in enumerate(lines):
            if line.lstrip().startswith("--"):
                continue
            it = DECLARED.match(line)
            if not it:
                continue
            kind, names, _, rest = it.groups()
            if re.match(r"goal\.|Goals\.|Given\.", rest.strip()):
                continue
            for name in names.split(" "):
                if name in KEYWORDS or not re.match(r"[A-Za-z]", name):
                    continue
                every.add(name)
                if has_dash(name) or name[0].isupper() and "_" in name:
                    own[name] = own.get(name, False) or is_type(kind, signature(lines, i, rest))
    return own, every


def locals_of(text, foreign):
    """Names with a dash that a file of lemmas binds: all that no library declares."""
    found = set()
    for line in text.split("\n"):
        if line.lstrip().startswith("--") or line.startswith("use "):
            continue
        for word in WORD.findall(re.sub(r'"[^"]*"', "", line)):
            if has_dash(word) and word not in foreign and re.fullmatch(r"[A-Za-z][\w'?-]*", word):
                found.add(word)
    return found


def replace(text, names, rust):
    """The text with the names replaced, but for strings and comments."""
    mark = "//" if rust else "--"
    out = []
    for line in text.split("\n"):
        cut = re.search(r'(?:^|\s)' + re.escape(mark) + r"(?:\s|$)", re.sub(r'"(?:[^"\\]|\\.)*"', lambda m: "\0" * len(m.group()), line))
        code, comment = (line[: cut.start()], line[cut.start() :]) if cut else (line, "")
        parts = re.split(r'("(?:[^"\\]|\\.)*")', code)
        parts = [p if p.startswith('"') else WORD.sub(lambda m: names.get(m.group(), m.group()), p) for p in parts]
        out.append("".join(parts) + comment)
    return "\n".join(out)


def main(argv):
    top = argv[0] if argv else "."
    own, every = declared(top)
    names = {n: respelled(n, t) for n, t in own.items()}
    together = {}
    for name in sorted(every | set(names)):
        together.setdefault(names.get(name, name), set()).add(name)
    bad = {new: old for new, old in together.items() if len(old) > 1}
    for new, old in sorted(bad.items()):
        print(f"fall together as {new}: {', '.join(sorted(old))}")
    if bad:
        return 1
    count = 0
    for path in files(top):
        text = open(path, encoding="utf-8").read()
        here = dict(names)
        if path.endswith(".antt") and not of_a_function(path):
            foreign = imported(text)
            for name in locals_of(text, foreign):
                here.setdefault(name, respelled(name, False))
        new = replace(text, here, path.endswith(".rt"))
        if new != text:
            count += 1
            with open(path, "w", encoding="utf-8") as f:
                f.write(new)
    print(f"{len(names)} names, {count} files")
    return 0


if __name__ == "__main__":
    raise SystemExit(main(sys.argv[1:]))
