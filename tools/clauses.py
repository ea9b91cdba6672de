#!/usr/bin/env python3
"""What the program `clauses` must print, worked out another way than the program does it.

    clauses.py < LINES      prints the readings of the rule lines on standard input
    clauses.py --make       prints the lines of the stored run, crates/clauses/stdin

A chart parser (Earley's) decides what is a rule and where a text stops being one: the grammar below is the
list of the forms of a rule, and the place of a refusal is the longest beginning that leaves the chart
something to go on with. Trees, clauses and nesting are then made from the tokens of the accepted text.
"""

import re
import sys

# ---- the grammar, byte by byte -------------------------------------------------------------------------

RULE = "rule"
GRAMMAR = {
    RULE: [
        (" ", RULE),
        (RULE, " "),
        ("1",),
        ("0",),
        ("p", "mark number"),
        ("!", RULE),
        ("path", "step", RULE),
        ("(", RULE, "join", RULE, ")"),
        ("path", "(", RULE, "path join", RULE, ")"),
    ],
    "mark number": [(d,) for d in "0123456789"] + [("1", d) for d in "012345"],
    "path": [("A",), ("E",)],
    "step": [("X",), ("G",), ("F",)],
    "join": [("&",), ("|",)],
    "path join": [("U",), ("V",)],
}


def going_on(text):
    """The number of bytes that some rule begins with, and whether the whole text is a rule."""
    columns = [set()]
    waiting = [{}]
    predict(columns, waiting, 0, RULE)
    for place, byte in enumerate(text):
        columns.append(set())
        waiting.append({})
        for item in list(columns[place]):
            head, body, dot, origin = item
            if dot < len(body) and body[dot] not in GRAMMAR and ord(body[dot]) == byte:
                add(columns, waiting, place + 1, (head, body, dot + 1, origin))
        if not columns[place + 1]:
            return place, False
    whole = any(
        head == RULE and dot == len(body) and origin == 0 for head, body, dot, origin in columns[-1]
    )
    return len(text), whole


def predict(columns, waiting, place, name):
    for body in GRAMMAR[name]:
        add(columns, waiting, place, (name, body, 0, place))


def add(columns, waiting, place, first):
    """Adds an item to a column, with all that it predicts and completes. No form is empty."""
    work = [first]
    while work:
        item = work.pop()
        if item in columns[place]:
            continue
        columns[place].add(item)
        head, body, dot, origin = item
        if dot == len(body):
            for other, forms, at, start in list(waiting[origin].get(head, ())):
                work.append((other, forms, at + 1, start))
        elif body[dot] in GRAMMAR:
            waiting[place].setdefault(body[dot], []).append(item)
            work.extend((body[dot], form, 0, place) for form in GRAMMAR[body[dot]])


# ---- trees, nesting and clauses ------------------------------------------------------------------------

TOKEN = re.compile(rb"p1[0-5]|p[0-9]|[AE][XGF(]|[01!(&|UV)]")


def tree_of(tokens):
    """The tree of an accepted text, from its tokens, which are used up from the front."""
    token = tokens.pop(0)
    if token in ("0", "1"):
        return ("constant", token == "1")
    if token[0] == "p":
        return ("mark", int(token[1:]))
    if token == "!" or token[-1] in "XGF":
        return ("before", token, tree_of(tokens))
    left = tree_of(tokens)
    middle = tokens.pop(0)
    right = tree_of(tokens)
    assert tokens.pop(0) == ")"
    return ("pair", token[:-1], middle, left, right)


def nesting(tree):
    if tree[0] in ("constant", "mark"):
        return 1
    if tree[0] == "before":
        return nesting(tree[2]) + 1
    return max(nesting(tree[3]), nesting(tree[4])) + 1


SWAP = {"A": "E", "E": "A", "": "", "&": "|", "|": "&", "U": "V", "V": "U"}


def list_clauses(tree, negate, out):
    """Appends the clauses of a tree, negated or not, to `out`; returns the number of the last."""
    kind = tree[0]
    if kind == "constant":
        out.append("1" if tree[1] != negate else "0")
    elif kind == "mark":
        out.append(("!" if negate else "") + f"p{tree[1]}")
    elif kind == "before" and tree[1] == "!":
        return list_clauses(tree[2], not negate, out)
    elif kind == "before" and tree[1][1] == "X":
        part = list_clauses(tree[2], negate, out)
        path = SWAP[tree[1][0]] if negate else tree[1][0]
        out.append(f"{path}X #{part}")
    elif kind == "before":
        always = tree[1][1] == "G"
        written = ("pair", tree[1][0], "V" if always else "U", ("constant", not always), tree[2])
        return list_clauses(written, negate, out)
    else:
        path, middle = tree[1], tree[2]
        if negate:
            path, middle = SWAP[path], SWAP[middle]
        left = list_clauses(tree[3], negate, out)
        right = list_clauses(tree[4], negate, out)
        out.append(f"{path}(#{left} {middle} #{right})")
    return len(out) - 1


def reading(text):
    """The lines that are printed for one rule text."""
    if not 1 <= len(text) <= 512:
        return ["refused 8"]
    place, whole = going_on(text)
    if not whole:
        return [f"refused 9 at {place}"]
    tree = tree_of([token.decode() for token in TOKEN.findall(text)])
    depth = nesting(tree)
    if depth > 32:
        return ["refused 10"]
    clauses = []
    list_clauses(tree, False, clauses)
    if len(clauses) > 64:
        return ["refused 11"]
    lines = [f"{len(clauses)} clauses, nesting {depth}"]
    return lines + [f"{number} {clause}" for number, clause in enumerate(clauses)]


def readings(data):
    lines = data.split(b"\n")
    if lines[-1] == b"":
        lines.pop()
    for line in lines:
        for shown in reading(line):
            print(shown)


# ---- the stored run ------------------------------------------------------------------------------------


class Chance:
    """Numbers that are the same on every machine."""

    def __init__(self, seed):
        self.state = seed

    def below(self, n):
        self.state = (self.state * 6364136223846793005 + 1442695040888963407) % 2**64
        return (self.state >> 33) % n

    def one_of(self, things):
        return things[self.below(len(things))]


def spaced(chance, often):
    return " " * (chance.below(3) if chance.below(100) < often else 0)


def random_rule(chance, size, often):
    """A rule with some `size` operators, with spaces where they may stand."""
    before, after = spaced(chance, often), spaced(chance, often)
    if size == 0:
        core = chance.one_of(["0", "1"] + [f"p{n}" for n in range(16)])
    elif chance.below(2) == 0:
        prefix = chance.one_of(["!", "!", "AX", "EX", "AG", "EG", "AF", "EF"])
        core = prefix + random_rule(chance, size - 1, often)
    else:
        left = chance.below(size)
        opening, middle = chance.one_of(
            [("(", "&"), ("(", "|"), ("A(", "U"), ("A(", "V"), ("E(", "U"), ("E(", "V")]
        )
        parts = random_rule(chance, left, often), random_rule(chance, size - 1 - left, often)
        core = opening + parts[0] + middle + parts[1] + ")"
    return before + core + after


def damaged(chance, text):
    """A text with one byte dropped, put in or changed, or cut off."""
    place = chance.below(len(text) + 1)
    byte = chance.one_of(list(b"01p!AEXGFUV()&| 23456789#x\t\0\r\xa0\xff"))
    kind = chance.below(4)
    if kind == 0:
        return text[:place]
    if kind == 1:
        return text[:place] + text[place + 1 :]
    if kind == 2:
        return text[:place] + bytes([byte]) + text[place:]
    return text[:place] + bytes([byte]) + text[place + 1 :]


def balanced(leaves):
    if leaves == 1:
        return "p0"
    return f"({balanced(leaves // 2)}&{balanced(leaves - leaves // 2)})"


FIXED = [
    "1", "0", "p0", "p9", "p10", "p15", "p16", "p01", "p1 5", "p", "", " ", "     ",
    "(p0 & p1", "(p0 & p1)", "(p0 & p1))", "(p0)", "(p0 U p1)", "A(p0 & p1)", "A X p0", "A (p0 U p1)",
    "A", "E", "AXp0", "EX p1", "AGp0", "EGp0", "AFp0", "EFp0", "!AGp0", "!EGp0", "!AFp0", "!EFp0",
    "10", "p0  x", "x", "!", "! ! p3", "!!!p3", "!p3 p4",
    "!A(p0 U p1)", "E(!p0 V !p1)", "!E(p0 U p1)", "!A(p0 V p1)", "!E(p0 V p1)", "!(p0 & p1)", "!(p0 | p1)",
    "!AXp0", "!EXp0", "!1", "!0", "AG(!p1 | p0)", "A(0 V p0)", "A(1 U p0)", "A(p0Up1)", "E(1V p10)",
    "   (   ! p0   &   A(   p1   U   EX   p15   )   )   ", "p 0", "A\tXp0", "p0\r", "\u00a0p0", "(p0 &  p1)",
    "(p0 && p1)", "(p0 | p1 | p2)", "A(A(p0 U p1) V E(p2 U p3))", "AXEXAGEFp0", "aXp0", "P0",
    "!" * 31 + "p0", "!" * 32 + "p0", "!" * 30 + "AXp0", "!" * 31 + "AXp0", "!" * 40 + "x",
    "!" * 511, "!" * 511 + "1", "!" * 510 + "p0", "!" * 511 + "p0", "!" * 512,
    " " * 511 + "1", " " * 512 + "1", " " * 512, " " * 513, "(" * 512, "(" * 511 + ")",
    "p0" + " " * 510, "p0" + " " * 511,
    balanced(32), "AX" + balanced(32), balanced(33), "AG" + balanced(32), "!" * 26 + balanced(33),
    "!" * 27 + balanced(33), "AF" * 31 + "p0", "AF" * 32 + "p0", "AF" * 31 + "(p0 & p1)",
    "AX" * 30 + "AF" * 1 + "p0", "(p0 & " * 31 + "p0" + ")" * 31, "(p0 & " * 32 + "p0" + ")" * 32,
    "(" * 9000, " " * 20000 + "p0", "p0",
]


def make():
    chance = Chance(20)
    lines = [text.encode("latin-1") for text in FIXED]
    for number in range(240):
        size = chance.below(8) if number % 3 else chance.below(44)
        text = random_rule(chance, size, chance.one_of([0, 20, 60])).encode()
        lines.append(text)
        lines.append(damaged(chance, text))
    assert not any(b"\n" in line for line in lines)
    sys.stdout.buffer.write(b"\n".join(lines))


if __name__ == "__main__":
    sys.setrecursionlimit(10000)
    if sys.argv[1:] == ["--make"]:
        make()
    else:
        readings(sys.stdin.buffer.read())
