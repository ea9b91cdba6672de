#!/usr/bin/env python3
"""Lists places of the sources that may have a plainer form, one a line: `point file:line what`.

    tools/places.py [--root DIR] [--points 1,3] [--count] [--similar 0.85]

The points:
1 enums and structs that stand in for Option and Result, numbers for kinds, refusals and "none"
2 twins: bodies, structs and constants that differ only in names, types or numbers
3 loops that count an index, and what they do with it
4 equality, order, copying, conversion and printing written by hand
5 clauses that stand in three or more functions of a crate, parameters that travel together
6 arrays with a length beside them, arrays of one length side by side, links by numbers
7 arms that hand the same arguments to different functions
8 proofs: files and lines of each crate, statements that std has, lines that many answers repeat

A place is a candidate: a person decides. The script reads text, and proves nothing.
"""

import argparse
import collections
import difflib
import itertools
import pathlib
import re
import sys

Token = collections.namedtuple("Token", "kind text line")
Place = collections.namedtuple("Place", "point file line what")

TOKEN = re.compile(
    r"""(?P<comment>//[^\n]*)
      | (?P<string>b?"(?:\\.|[^"\\])*")
      | (?P<char>b?'(?:\\.|[^'\\\n])')
      | (?P<life>'[A-Za-z_]\w*)
      | (?P<number>\d[\w.]*?(?=\.\.|\b))
      | (?P<name>[^\W\d]\w*)
      | (?P<punct>::|->|=>|==|!=|<=|>=|&&|\|\||\+=|-=|\*=|\|=|&=|\.\.=|\.\.|\S)
      | (?P<space>\s+)""",
    re.VERBOSE,
)

KEYWORDS = set(
    "as break const continue else enum fn for if impl in let loop match mod mut pub ref return self Self"
    " static struct super trait type use where while true false Some None Ok Err".split()
)
OPEN = {"(": ")", "[": "]", "{": "}"}
CLOSE = set(OPEN.values())
NUMBER_TYPES = {"u8", "u16", "u32", "u64", "usize", "i32", "i64"}
EMPTY_NAMES = {"Other", "Nothing", "None", "Unknown", "Missing", "Empty", "Invalid", "NotFound"}
STD_WORDS = set("MatchResult MatchOption Decides Some None Ok Err List IfOk IfSome System AllByRecursion".split())
LENGTH_NAMES = {"len", "count", "length", "size", "used", "states", "groups"}


# ---------------------------------------------------------------- reading


def tokenize(text):
    tokens, line = [], 1
    for match in TOKEN.finditer(text):
        kind = match.lastgroup
        if kind not in ("space", "comment"):
            tokens.append(Token(kind, match.group(), line))
        line += match.group().count("\n")
    return tokens


def matching(tokens, start):
    """The place of the bracket that closes the one at `start`."""
    depth = 0
    for i in range(start, len(tokens)):
        if tokens[i].text in OPEN:
            depth += 1
        elif tokens[i].text in CLOSE:
            depth -= 1
            if depth == 0:
                return i
    return len(tokens) - 1


def texts(tokens):
    return [t.text for t in tokens]


def joined(tokens):
    return " ".join(texts(tokens))


def split_top(tokens, separator):
    """The parts of a list between separators that stand in no bracket, angle brackets included."""
    parts, part, depth = [], [], 0
    for t in tokens:
        if t.text in OPEN or t.text == "<":
            depth += 1
        elif t.text in CLOSE or t.text == ">":
            depth -= 1
        if t.text == separator and depth == 0:
            parts.append(part)
            part = []
        else:
            part.append(t)
    return [p for p in parts + [part] if p]


class Function:
    def __init__(self, crate, file, name, line, owner):
        self.crate, self.file, self.name, self.line, self.owner = crate, file, name, line, owner
        self.params, self.result, self.clauses, self.body = [], [], [], []
        self.is_test = False

    def place(self, point, what, line=None):
        owner = self.owner + "::" if self.owner else ""
        return Place(point, self.file, line or self.line, f"fn {owner}{self.name}: {what}")

    def text(self):
        return joined(self.body)


class Record:
    """An enum or a struct: its fields or variants as (name, type tokens)."""

    def __init__(self, crate, file, kind, name, line, parts):
        self.crate, self.file, self.kind, self.name, self.line, self.parts = crate, file, kind, name, line, parts

    def place(self, point, what):
        return Place(point, self.file, self.line, f"{self.kind} {self.name}: {what}")


def read_params(tokens):
    params = []
    for part in split_top(tokens, ","):
        words = [t for t in part if t.text not in ("mut",)]
        colon = next((i for i, t in enumerate(words) if t.text == ":"), None)
        if colon is None:
            params.append(("self", joined(words)))
        else:
            params.append((words[0].text, "".join(texts(words[colon + 1 :]))))
    return params


def read_clauses(tokens, i):
    """The clauses from place i on, and the place after them."""
    clauses = []
    while i < len(tokens) and tokens[i].text in ("requires", "ensures"):
        kind, i = tokens[i].text, i + 1
        while tokens[i].text != "{":
            i += 1
        end = matching(tokens, i)
        clauses.append((kind, tokens[i + 1 : end]))
        i = end + 1
    return clauses, i


def skip_angles(tokens, i):
    if i >= len(tokens) or tokens[i].text != "<":
        return i
    depth = 0
    while i < len(tokens):
        if tokens[i].text == "<":
            depth += 1
        elif tokens[i].text == ">":
            depth -= 1
        i += 1
        if depth == 0:
            break
    return i


def read_function(tokens, i, crate, file, owner):
    """The function whose `fn` stands at place i, and the place after its head."""
    made = Function(crate, file, tokens[i + 1].text, tokens[i].line, owner)
    made.is_test = "[ test ]" in joined(tokens[max(0, i - 6) : i])
    i = skip_angles(tokens, i + 2)
    end = matching(tokens, i)
    made.params = read_params(tokens[i + 1 : end])
    i = end + 1
    start, depth = i, 0
    while i < len(tokens):
        text = tokens[i].text
        if depth == 0 and text in ("requires", "ensures", "{", ";", "where"):
            break
        depth += (text in ("(", "[")) - (text in (")", "]"))
        i += 1
    made.result = tokens[start + 1 : i]
    made.clauses, i = read_clauses(tokens, i)
    if i < len(tokens) and tokens[i].text == "{":
        made.body = tokens[i + 1 : matching(tokens, i)]
    return made, i


def read_record(tokens, i, crate, file):
    kind, name, line = tokens[i].text, tokens[i + 1].text, tokens[i].line
    i = skip_angles(tokens, i + 2)
    if i >= len(tokens) or tokens[i].text != "{":
        return None, i
    end = matching(tokens, i)
    parts = []
    for part in split_top(tokens[i + 1 : end], ","):
        words = [t for t in part if t.text not in ("pub", "crate", "super")]
        words = drop_attributes(words)
        while len(words) > 1 and words[0].text == "(" and words[1].text == ")":
            words = words[2:]
        if words:
            parts.append((words[0].text, words[1:]))
    return Record(crate, file, kind, name, line, parts), end


def drop_attributes(tokens):
    while len(tokens) > 1 and tokens[0].text == "#":
        tokens = tokens[matching(tokens, 1) + 1 :]
    return tokens


def owner_of(tokens, i):
    """The type that the `impl` at place i is for, and the place of its bracket."""
    start = skip_angles(tokens, i + 1)
    end = start
    while end < len(tokens) and tokens[end].text not in ("{", "where"):
        end += 1
    head = texts(tokens[start:end])
    if "for" in head:
        head = head[head.index("for") + 1 :]
    while end < len(tokens) and tokens[end].text != "{":
        end += 1
    return (head or [""])[0], end


class Source:
    def __init__(self, crate, file, text):
        self.crate, self.file, self.text = crate, file, text
        self.tokens = tokenize(text)
        self.functions, self.records = [], []
        self.read()

    def read(self):
        owner, owner_end, i = "", -1, 0
        while i < len(self.tokens):
            text = self.tokens[i].text
            if i > owner_end:
                owner = ""
            if text in ("impl", "trait") and self.tokens[i].kind == "name":
                owner, i = owner_of(self.tokens, i)
                owner_end = matching(self.tokens, i)
            elif text == "fn" and self.tokens[i + 1].kind == "name":
                made, i = read_function(self.tokens, i, self.crate, self.file, owner)
                self.functions.append(made)
            elif text in ("enum", "struct") and self.tokens[i + 1].kind == "name":
                made, i = read_record(self.tokens, i, self.crate, self.file)
                if made:
                    self.records.append(made)
            i += 1


class Tree:
    def __init__(self, root):
        self.root = root
        self.sources = []
        for path in sorted(root.glob("crates/*/src/**/*.rt")):
            file = str(path.relative_to(root))
            self.sources.append(Source(file.split("/")[1], file, path.read_text(encoding="utf-8")))
        self.functions = [f for s in self.sources for f in s.functions]
        self.records = [r for s in self.sources for r in s.records]


# ---------------------------------------------------------------- point 1


def empty_variants(tree):
    for record in tree.records:
        if record.kind == "enum":
            for name, rest in record.parts:
                if name in EMPTY_NAMES and not rest:
                    yield record.place(1, f"the variant {name} has no data")


def arms_of(tokens):
    """The arms of the first `match` in a body, as (pattern, answer)."""
    for i, t in enumerate(tokens):
        if t.text == "match":
            while tokens[i].text != "{":
                i += 1
            return arms_between(tokens[i + 1 : matching(tokens, i)])
    return []


def matches_of(tokens):
    """The arms of each `match` in a body."""
    return [arms_of(tokens[i:]) for i, t in enumerate(tokens) if t.text == "match"]


def arms_between(tokens):
    arms, i = [], 0
    while i < len(tokens):
        start = i
        while i < len(tokens) and tokens[i].text != "=>":
            i = matching(tokens, i) + 1 if tokens[i].text in OPEN else i + 1
        pattern, i = tokens[start:i], i + 1
        start = i
        while i < len(tokens) and tokens[i].text != ",":
            block = tokens[i].text == "{" and i == start
            i = matching(tokens, i) + 1 if tokens[i].text in OPEN else i + 1
            if block and i < len(tokens) and tokens[i].text not in (",", "."):
                break
        arms.append((pattern, tokens[start:i]))
        if i < len(tokens) and tokens[i].text == ",":
            i += 1
    return [(p, a) for p, a in arms if p]


def is_number(tokens):
    return len(tokens) == 1 and tokens[0].kind == "number"


def starts_with_number(tokens):
    tokens = tokens[1:] if texts(tokens[:1]) == ["return"] else tokens
    if texts(tokens[:1]) == ["("]:
        return len(tokens) > 1 and tokens[1].kind == "number"
    return is_number(tokens)


def number_codes(tree):
    """Numbers that a `match` on an Option or a Result makes, and theorems that answer a number."""
    for f in tree.functions:
        result = texts(f.result)
        if not f.params and is_number(f.body) and result and result[0] in NUMBER_TYPES:
            yield f.place(1, f"answers the number {f.body[0].text}, which means nothing")
            continue
        arms = [arm for match in matches_of(f.body) for arm in match]
        heads = {p[0].text for p, _ in arms}
        if heads & {"Ok", "Err", "Some", "None"} and any(starts_with_number(a) for _, a in arms):
            yield f.place(1, f"makes a number of a {'Result' if 'Ok' in heads else 'Option'}: -> {joined(f.result)}")
        elif NUMBER_TYPES & set(result) and sum(starts_with_number(a) for _, a in arms) >= 2:
            yield f.place(1, f"makes numbers of kinds: -> {joined(f.result)}")


def number_errors(tree):
    for f in tree.functions:
        parts = split_top(f.result[2:-1], ",") if texts(f.result[:1]) == ["Result"] else []
        if len(parts) == 2 and joined(parts[1]) in NUMBER_TYPES:
            yield f.place(1, f"an error that is a bare {joined(parts[1])}")


def sentinels(tree):
    """A number type as the answer of a search that may find nothing."""
    for f in tree.functions:
        if joined(f.result) in NUMBER_TYPES and "for" in texts(f.body) and "return" in texts(f.body):
            if "unreachable" not in texts(f.body)[-4:]:
                yield f.place(1, f"a search that answers {joined(f.result)}, so a number stands for none")


def bytes_for_kinds(tree):
    """A byte parameter, field or answer that is compared with a small number."""
    for f in tree.functions:
        if f.is_test:
            continue
        for name in sorted(compared_names(f, "u8", "number")):
            yield f.place(1, f"the byte `{name}` is compared with numbers of kinds")
        for name in sorted(compared_names(f, "&str", "string")):
            yield f.place(1, f"the text `{name}` says the kind")
        words = texts(f.body)
        for i in range(len(words) - 2):
            if words[i] == ")" and words[i + 1] in ("==", "!=") and f.body[i + 2].kind == "number":
                if re.search(r"\b(colour|byte|number)\w*$", called_before(words, i)):
                    yield f.place(1, f"a byte is compared with {words[i + 2]}", f.body[i].line)


def compared_names(f, kind, literal):
    """The parameters of a type that the body compares with a literal."""
    names = {name for name, of in f.params if of == kind}
    found = set()
    for name, operator, value in windows(f.body, 3):
        if name.text in names and operator.text in ("==", "!=") and value.kind == literal:
            found.add(name.text)
    return found


def literal_kinds(tree):
    """Calls of a crate's own function with a small number for a byte."""
    takers = {(f.crate, f.name): [i for i, (n, k) in enumerate(f.params) if k == "u8"] for f in tree.functions}
    for f in tree.functions:
        if f.is_test:
            continue
        for i in range(len(f.body) - 1):
            at = takers.get((f.crate, f.body[i].text))
            if at and f.body[i + 1].text == "(":
                given = split_top(f.body[i + 2 : matching(f.body, i + 1)], ",")
                for k in at:
                    if k < len(given) and is_number(given[k]):
                        what = f"{f.body[i].text} is told a kind by the number {given[k][0].text}"
                        yield f.place(1, what, f.body[i].line)


def byte_answers(tree):
    """A byte that stands for a kind is handed on as the answer of a function that is no conversion."""
    for f in tree.functions:
        if f.is_test or joined(f.result) != "u8" or len(f.params) < 2:
            continue
        if re.search(r"\. number \( \)|u8 :: from", f.text()):
            yield f.place(1, "answers the number of a kind in place of the kind")


def zeros_for_nothing(tree):
    """A record that is built with 0 in two or more fields."""
    for f in tree.functions:
        for i in range(len(f.body) - 1):
            if f.body[i].text[:1].isupper() and f.body[i + 1].text == "{" and not f.is_test:
                fields = split_top(f.body[i + 2 : matching(f.body, i + 1)], ",")
                idle = [part[0].text for part in fields if texts(part)[1:] == [":", "0"]]
                if len(idle) > 1:
                    what = f"{f.body[i].text} with {' and '.join(idle)} 0, which may stand for none"
                    yield f.place(1, what, f.body[i].line)


def default_elements(tree):
    for f in tree.functions:
        m = re.search(r"if (\w+) < [^{}]+ \{ [^{}]*\[ \1 \][^{}]* \} else \{ 0 \}", f.text())
        if m:
            yield f.place(1, "the number 0 stands for no element")


def called_before(words, close):
    depth = 0
    for i in range(close, -1, -1):
        depth += (words[i] == ")") - (words[i] == "(")
        if depth == 0:
            return words[i - 1] if i else ""
    return ""


def windows(tokens, n):
    return zip(*(tokens[k:] for k in range(n)))


def flags_beside_values(tree):
    for f in tree.functions:
        flags = [name for name, kind in f.params if kind == "bool"]
        words = texts(f.body)
        for flag in flags:
            if words[:3] == ["if", flag, "{"]:
                end = matching(f.body, 2)
                kept = set(words[3:end])
                left = [n for n, k in f.params if n not in kept and n != flag and n != "self"]
                rest = set(words[end:])
                idle = [n for n in left if n in rest]
                if idle and len(kept) <= 3:
                    said = "and" if idle[0] in flags else "says whether"
                    more = "are two flags for one of three kinds" if idle[0] in flags else "is a value"
                    yield f.place(1, f"the flag `{flag}` {said} `{idle[0]}` {more}")
        if texts(f.result)[:2] == ["(", "bool"]:
            yield f.place(1, "answers a flag with a value beside it")


def point1(tree):
    return itertools.chain(
        empty_variants(tree),
        number_codes(tree),
        number_errors(tree),
        sentinels(tree),
        default_elements(tree),
        zeros_for_nothing(tree),
        bytes_for_kinds(tree),
        literal_kinds(tree),
        byte_answers(tree),
        flags_beside_values(tree),
    )


# ---------------------------------------------------------------- point 2


def shape(tokens):
    """The tokens with each name that is no keyword as `i`, and each literal as its kind."""
    return tuple(
        t.text if t.kind == "punct" or t.text in KEYWORDS else ("i" if t.kind == "name" else t.kind) for t in tokens
    )


def renamed(tokens):
    """The tokens with names numbered in the order in which they first stand."""
    seen = {}
    made = []
    for t in tokens:
        if t.kind == "name" and t.text not in KEYWORDS:
            made.append(f"i{seen.setdefault(t.text, len(seen))}")
        else:
            made.append("0" if t.kind in ("number", "string", "char") else t.text)
    return tuple(made)


def alike(a, b, bound):
    if min(len(a), len(b)) < bound * max(len(a), len(b)) / (2 - bound):
        return 0
    matcher = difflib.SequenceMatcher(None, a, b, autojunk=False)
    if matcher.real_quick_ratio() < bound or matcher.quick_ratio() < bound:
        return 0
    return matcher.ratio()


def groups_of(pairs):
    """Groups in which each is like each, the most alike first."""
    groups = []
    for (a, b), _ in sorted(pairs.items(), key=lambda item: -item[1]):
        for x, y in ((a, b), (b, a)):
            home = next((g for g in groups if x in g), None)
            if home is not None and y not in home and all((y, z) in pairs or (z, y) in pairs for z in home):
                home.append(y)
        if not any(a in g and b in g for g in groups):
            groups.append([a, b])
    return [g for g in groups if not any(set(g) < set(other) for other in groups)]


def equal_bodies(functions):
    by_body = collections.defaultdict(list)
    for f in functions:
        if len(f.body) >= 6:
            by_body[renamed(f.body)].append(f)
    return [g for g in by_body.values() if len(g) > 1]


def name_list(functions):
    return ", ".join(f"{f.crate}::{f.name}:{f.line}" for f in functions)


def near_pairs(functions, bound):
    shapes = {f: shape(f.body) for f in functions}
    pairs = {}
    for a, b in itertools.combinations(functions, 2):
        ratio = alike(shapes[a], shapes[b], bound)
        if ratio >= bound:
            pairs[(a, b)] = ratio
    return pairs


def twin_bodies(tree, bound):
    """Equal bodies, and longer ones that are nearly equal; of equal ones only the first is compared again."""
    functions = [f for f in tree.functions if not f.is_test and f.body]
    exact = equal_bodies(functions)
    for group in exact:
        yield group[0].place(2, f"equal bodies after renaming ({len(group)}): {name_list(group)}")
    again = {f for group in exact for f in group[1:]}
    pairs = near_pairs([f for f in functions if len(f.body) >= 26 and f not in again], bound)
    for group in groups_of(pairs):
        most = max(r for p, r in pairs.items() if set(p) <= set(group))
        yield group[0].place(2, f"alike up to {most:.2f} ({len(group)}): {name_list(group)}")


def twin_records(tree):
    structs = [r for r in tree.records if r.kind == "struct"]
    for a, b in itertools.combinations(structs, 2):
        fields_a = {(n, joined(t)) for n, t in a.parts if n != "ghost"}
        fields_b = {(n, joined(t)) for n, t in b.parts if n != "ghost"}
        shared = {n for n, _ in fields_a & fields_b}
        if len(shared) >= 3:
            yield a.place(2, f"shares {len(shared)} fields with {b.name} ({b.file}): {', '.join(sorted(shared))}")
        elif len(fields_a) == len(fields_b) == 2 and len(shared) == 1:
            yield a.place(2, f"differs from {b.name} in one field; both have {', '.join(shared)}")


def twin_constants(tree):
    found = collections.defaultdict(list)
    for source in tree.sources:
        for m in re.finditer(r"(?m)^ *(?:pub(?:\([a-z]+\))? )?const (\w+): [\w&]+ = ([^;{]+);", source.text):
            found[(m.group(1), m.group(2))].append((source.file, source.text.count("\n", 0, m.start()) + 1))
    for (name, value), at in sorted(found.items()):
        if len(at) > 1:
            others = ", ".join(f"{f}:{n}" for f, n in at[1:])
            yield Place(2, at[0][0], at[0][1], f"const {name} = {value} stands again in {others}")


def point2(tree, bound):
    return itertools.chain(twin_bodies(tree, bound), twin_records(tree), twin_constants(tree))


# ---------------------------------------------------------------- point 3


def loops_of(f):
    """The loops of a body as (keyword, head, inner tokens, line)."""
    body = f.body
    for i, t in enumerate(body):
        if t.text in ("for", "while", "loop") and (i == 0 or body[i - 1].text != "impl"):
            j = i
            while j < len(body) and body[j].text != "{":
                j = matching(body, j) + 1 if body[j].text in ("(", "[") else j + 1
            if j < len(body):
                yield t.text, body[i + 1 : j], body[j + 1 : matching(body, j)], t.line


def statements(tokens):
    made, part, i = [], [], 0
    while i < len(tokens):
        if tokens[i].text in OPEN:
            end = matching(tokens, i)
            part += tokens[i : end + 1]
            i = end
            if tokens[i].text == "}" and part[0].text in ("if", "match", "for", "while"):
                if i + 1 >= len(tokens) or tokens[i + 1].text != "else":
                    made.append(part)
                    part = []
        elif tokens[i].text == ";":
            made.append(part)
            part = []
        else:
            part.append(tokens[i])
        i += 1
    return [p for p in made + [part] if p]


def inner_statements(tokens):
    """The statements of a block, those inside `if` and `match` included."""
    for s in statements(tokens):
        if s[0].text in ("if", "match"):
            for i, t in enumerate(s):
                if t.text == "{":
                    yield from inner_statements(s[i + 1 : matching(s, i)])
                    break
            if s[0].text == "match":
                for _, answer in arms_of(s):
                    yield from inner_statements(answer)
        else:
            yield s


ASSIGN = {"=", "+=", "-=", "|=", "&=", "*="}


def deed_of(statement, body_text):
    words = texts(statement)
    if words[0] == "let":
        return None
    if words[0] == "return":
        return "find"
    at = next((i for i, w in enumerate(words) if w in ASSIGN), None)
    if at is None:
        calls = "(" in words and not (len(words) > 1 and words[1] == "!")
        return "calls" if calls else ("prints" if "!" in words[1:2] else None)
    if "[" in words[:at] or words[0] == "*":
        return "writes"
    if words[at] == "+=":
        return "count" if words[at + 1 :] == ["1"] else "sum"
    name = words[0]
    if words[-2:] == ["|", name] or words[-2:] == ["||", name]:
        return "any"
    if words[-2:] == ["&", name] or words[-2:] == ["&&", name]:
        return "all"
    if f"if {name} <" in body_text or f"if {name} >" in body_text:
        return "max"
    return "fold"


def deeds_of(inner):
    text = joined(inner)
    made = [deed_of(s, text) for s in inner_statements(inner)]
    return sorted({d for d in made if d})


def loop_kind(keyword, head, inner):
    words = texts(head)
    if keyword == "while":
        return "while with a hand-counted step" if re.search(r"\w+ [+-]= 1\b", joined(inner)) else None
    if keyword == "for" and "in" in words:
        if ".." in words[words.index("in") :]:
            return "repeats" if words[0].startswith("_") else "range"
        return "for over elements"
    return None


def point3(tree):
    for f in tree.functions:
        for keyword, head, inner, line in loops_of(f):
            kind = loop_kind(keyword, head, inner)
            if kind is None:
                continue
            deeds = deeds_of(inner) or ["nothing"]
            index = head[0].text
            slices = re.search(r"\[ [^\]]*\b%s\b" % re.escape(index), joined(inner)) is not None
            only = not set(deeds) & {"calls", "prints", "writes"}
            if kind == "for over elements" and set(deeds) & {"calls", "prints"}:
                continue
            if kind == "repeats":
                yield f.place(3, f"repeats `{joined(head)}`: no index is used", line)
                continue
            note = "only computes" if only else ("only writes elements" if deeds == ["writes"] else "has effects")
            note += "; indexes slices" if slices else ""
            yield f.place(3, f"{kind} `{joined(head)}`: {'/'.join(deeds)}; {note}", line)


# ---------------------------------------------------------------- point 4


def bare_match(f):
    """The arms of a body that is one `match` and nothing else."""
    if not f.body or f.body[0].text != "match":
        return []
    start = next((i for i, t in enumerate(f.body) if t.text == "{"), None)
    if start is None or matching(f.body, start) != len(f.body) - 1:
        return []
    return arms_between(f.body[start + 1 : -1])


def is_variant(tokens):
    return "::" in texts(tokens) or (len(tokens) == 1 and tokens[0].text[:1].isupper())


def is_literal(tokens):
    return len(tokens) == 1 and (tokens[0].kind in ("number", "string", "char") or tokens[0].text in ("true", "false"))


def conversion(arms):
    patterns, answers = [p for p, _ in arms], [a for _, a in arms]
    if answers and all(len(a) == 1 and a[0].text in ("true", "false") for a in answers):
        return "a test of variants that a derived == or matches! gives"
    if answers and all(len(a) == 1 and a[0].kind == "string" for a in answers):
        return "printing of variants by hand (Display)"
    if answers and all(is_literal(p) or texts(p) == ["_"] for p in patterns) and any(is_variant(a) for a in answers):
        return "a conversion from numbers or bytes (TryFrom)"
    if answers and all(is_variant(p) for p in patterns) and all(is_variant(a) for a in answers):
        return "a map from variants to variants (From, Not or a table)"
    return None


def unwrapping(arms):
    heads = [texts(p)[0] for p, _ in arms]
    if sorted(heads) not in (["Err", "Ok"], ["None", "Some"]):
        return None
    good = next(a for p, a in arms if p[0].text in ("Ok", "Some"))
    bad = next(a for p, a in arms if p[0].text in ("Err", "None"))
    if "unreachable" in texts(bad):
        return "takes a value out that is always there"
    if texts(bad) == ["None"] or texts(bad)[:1] == ["Err"]:
        return "a match that map, ok_or, and_then or `?` gives"
    if len(good) == 1 or texts(good)[:1] == ["Ok"]:
        return "a match that unwrap_or gives"
    return None


WRITTEN_OUT = [
    (r"^self as \w+$", "conversion to a number (From)"),
    (r"^(\w+) \. (\w+) == (\w+) \. \2 && \1 \. (\w+) == \3 \. \4$", "equality field by field (derive PartialEq)"),
    (r"\. number \( \) (==|!=)", "compares by numbers (==)"),
    (r"^same \( \w+ \( (\w+) , \w+ \) , \1 \)$", "an order written out (Ord)"),
    (r"if [^{}]{1,40} == \d+ \{ \w+ :: \w+ \} else if", "a conversion from a number by an if chain (TryFrom)"),
    (r"if \w+ \{ Ok \( (\w+) :: \w+ \) \} else \{ Ok \( \1 :: \w+ \) \}", "a conversion from bool (From)"),
    (r"^if \w+ \{ match", "variants exchanged (Not)"),
    (r"if (\w+) \{ ! (\w+) \} else \{ \2 \}", "exclusive or (!=)"),
    (r"if ([^{}]+) [<>]=? ([^{}]+) \{ (\1|\2) \} else \{ (\1|\2) \}", "a smaller or larger one (min, max)"),
    (r"if (\w+) < \w+ \{ \w+ \} else if \1 > (\w+) \{ \2 \} else \{ \1 \}", "a number kept in range (clamp)"),
    (r"if (\w+) < (\w+) \. len \( \) \{ \2 \[ \1 \] \} else \{ \d+ \}", "an element or a default (get, copied, unwrap_or)"),
    (r"\{ Some \( self \. \w+ \[ \w+ \] \) \} else \{ None \}", "an element or none (get)"),
    (r"(\w+) \[ (\w+) \] = (\w+) \[ \2 \] ;", "copying element by element (copy_from_slice)"),
    (r"if [^{}]+ \+ 1 < [^{}]+ \{ [^{}]+ \+ 1 \} else \{ 0 \}", "a number that goes round (%)"),
    (r"as usize \* 256 \+", "two bytes put together (u16::from_be_bytes)"),
    (r"as usize - \d+|- b'0'|- b'a'", "a digit read (to_digit)"),
    (r"< b'\d' \|\| \w+ > b'\d'", "a range of bytes tested (is_ascii_digit, a range pattern)"),
    (r'println ! \( rt ; "refused', "a fault printed (Display)"),
]


def by_hand(f):
    arms = bare_match(f)
    if arms and f.body[1].text == "(":
        yield "a match on a pair: equality or order"
    elif arms and conversion(arms):
        yield conversion(arms)
    for match in matches_of(f.body):
        note = unwrapping(match) if match else None
        if note:
            yield note
    for pattern, note in WRITTEN_OUT:
        if re.search(pattern, f.text()):
            yield note


def point4(tree):
    for f in tree.functions:
        if f.is_test:
            continue
        for note in dict.fromkeys(by_hand(f)):
            yield f.place(4, note)


# ---------------------------------------------------------------- point 5


def strip_brackets(tokens):
    while tokens and tokens[0].text == "(" and matching(tokens, 0) == len(tokens) - 1:
        tokens = tokens[1:-1]
    return tokens


def conjuncts(tokens):
    """The facts of a clause: the parts between products at the top."""
    tokens = strip_brackets(tokens)
    parts, part, depth = [], [], 0
    for t in tokens:
        depth += (t.text in OPEN) - (t.text in CLOSE)
        if t.text == "×" and depth == 0:
            parts.append(part)
            part = []
        else:
            part.append(t)
    parts = [p for p in parts + [part] if p]
    if len(parts) == 1 or ":" in texts(tokens):
        return [strip_brackets(tokens)]
    return [c for p in parts for c in conjuncts(p)]


def fact(tokens, params):
    """A fact with parameters as their types, so that the same fact of other names is the same."""
    kinds = dict(params)
    made, seen = [], {}
    for t in tokens:
        if t.text in kinds:
            number = seen.setdefault(t.text, sum(1 for s in seen if kinds[s] == kinds[t.text]))
            made.append(f"‹{kinds[t.text]}{number or ''}›")
        elif t.text in ("old", "now"):
            made.append("·")
        else:
            made.append(t.text)
    return " ".join(made)


def names_of(functions):
    return ", ".join(f.name for f in functions)


def repeated_facts(tree):
    found = collections.defaultdict(dict)
    for f in tree.functions:
        for kind, tokens in f.clauses:
            for part in conjuncts(tokens):
                if len(part) > 2 and part[0].text not in ("result",):
                    found[(f.crate, fact(part, f.params))].setdefault((f.file, f.line), f)
    for (crate, text), functions in sorted(found.items(), key=lambda item: (item[0][0], -len(item[1]))):
        if len(functions) >= 3:
            members = list(functions.values())
            yield members[0].place(5, f"{len(members)} functions of {crate} say: {text} [{names_of(members)}]")


def travelling(tree):
    """Largest sets of parameters that three or more functions of a crate take together."""
    for crate, functions in itertools.groupby(tree.functions, key=lambda f: f.crate):
        functions = [f for f in functions if len(f.params) >= 2]
        sets = {frozenset((n, k) for n, k in f.params if n != "self") for f in functions}
        shared = {a & b for a, b in itertools.combinations(sets, 2)} | sets
        counted = {}
        for s in shared:
            members = [f for f in functions if s <= set(f.params)]
            if len(s) >= 2 and len(members) >= 3:
                counted[s] = members
        for s, members in sorted(counted.items(), key=lambda item: (-len(item[1]), sorted(item[0]))):
            if not any(s < other and 3 * len(counted[other]) >= 2 * len(members) for other in counted):
                words = ", ".join(f"{n}: {k}" for n, k in sorted(s))
                yield members[0].place(5, f"{len(members)} functions of {crate} take ({words}) [{names_of(members)}]")


def repeated_words(tree):
    """Words of a crate's own that three or more functions require or promise, with whatever arguments."""
    found = collections.defaultdict(dict)
    for f in tree.functions:
        for kind, tokens in f.clauses:
            for t in tokens:
                if t.kind == "name" and re.fullmatch("[A-Z][a-z]+([A-Z][a-z]+)*", t.text) and t.text not in STD_WORDS:
                    found[(f.crate, kind, t.text)].setdefault((f.file, f.line), f)
    for (crate, kind, word), functions in sorted(found.items()):
        if len(functions) >= 3:
            members = list(functions.values())
            what = f"{len(members)} functions of {crate}: `{kind}` with {word} [{names_of(members)}]"
            yield members[0].place(5, what)


def point5(tree):
    return itertools.chain(repeated_facts(tree), repeated_words(tree), travelling(tree))


# ---------------------------------------------------------------- point 6


def point6(tree):
    for r in tree.records:
        if r.kind == "struct":
            arrays = [(n, joined(t)) for n, t in r.parts if "[" in texts(t)]
            lengths = [n for n, t in r.parts if joined(t) == ": usize" and n in LENGTH_NAMES]
            if arrays and lengths:
                yield r.place(6, f"{arrays[0][0]} with {' and '.join(lengths)} beside it")
            sizes = collections.Counter(a.split(";")[-1] for _, a in arrays if ";" in a)
            for size, n in sizes.items():
                if n > 1:
                    yield r.place(6, f"{n} arrays of {size.strip(' ]')} places side by side")
        else:
            for name, rest in r.parts:
                links = re.findall(r"(left|right|part|next|child|parent) : usize", joined(rest))
                if links:
                    yield r.place(6, f"{name} names others by numbers: {', '.join(links)}")
    yield from fixed_lengths(tree)
    yield from arrays_and_counts(tree)


def fixed_lengths(tree):
    for f in tree.functions:
        for kind, tokens in f.clauses:
            for m in re.finditer(r"length (\w+)(?: \. (\w+))? ≡ (\d+)", joined(tokens)):
                what = f"{kind} length {m.group(1)} ≡ {m.group(3)}: an array of {m.group(3)} places"
                yield f.place(6, what, tokens[0].line)


def arrays_and_counts(tree):
    for f in tree.functions:
        slices = [n for n, k in f.params if re.match(r"&(mut)?\[", k)]
        counts = [n for n, k in f.params if k == "usize" and n in LENGTH_NAMES | {"places", "clauses", "marks"}]
        if slices and counts:
            yield f.place(6, f"the slice `{slices[0]}` with the number `{counts[0]}` beside it")
    for f in tree.functions:
        sizes = collections.Counter(re.findall(r"= \[ [^\[\]]*? ; (\w+) \]", f.text()))
        for size, n in sizes.items():
            if n > 1:
                yield f.place(6, f"{n} local arrays of {size} places")


# ---------------------------------------------------------------- point 7


def call_of(tokens):
    tokens = tokens[:-1] if tokens and tokens[-1].text == ";" else tokens
    if tokens and tokens[0].text == "{" and matching(tokens, 0) == len(tokens) - 1:
        tokens = tokens[1:-1]
    called = len(tokens) > 2 and tokens[0].kind == "name" and tokens[1].text == "("
    if called and matching(tokens, 1) == len(tokens) - 1:
        return tokens[0].text, joined(tokens[2:-1])
    return None


def choices(f):
    for i, t in enumerate(f.body):
        if t.text == "match":
            yield t.line, [a for _, a in arms_of(f.body[i:])]
        elif t.text == "if":
            yield t.line, if_blocks(f.body, i)


def if_blocks(body, i):
    blocks = []
    while i < len(body) and body[i].text == "if":
        while i < len(body) and body[i].text != "{":
            i += 1
        if i >= len(body):
            return blocks
        end = matching(body, i)
        blocks.append(body[i + 1 : end])
        i = end + 1
        if i < len(body) and body[i].text == "else":
            i += 1
            if i < len(body) and body[i].text == "{":
                blocks.append(body[i + 1 : matching(body, i)])
                return blocks
    return blocks


def chosen_by_number(f):
    """A number parameter that is compared with a number to choose what to call."""
    numbers = {n for n, k in f.params if k in NUMBER_TYPES}
    for i in range(len(f.body) - 3):
        if f.body[i].text == "if" and f.body[i + 1].text in numbers and f.body[i + 3].kind == "number":
            block = next((b for b in if_blocks(f.body, i)), [])
            call = call_of(block[1:] if texts(block[:1]) == ["return"] else block)
            if call and call[0] not in ("Err", "Ok", "Some"):
                yield f.body[i].line, f"the number `{f.body[i + 1].text}` says whether {call[0]} runs"


def point7(tree):
    for f in tree.functions:
        for line, what in chosen_by_number(f):
            yield f.place(7, what, line)
        for line, answers in choices(f):
            calls = [c for c in map(call_of, answers) if c]
            names = {name for name, _ in calls}
            for arguments, group in itertools.groupby(sorted(calls, key=lambda c: c[1]), key=lambda c: c[1]):
                steps = sorted({name for name, _ in group})
                if len(steps) > 1 and arguments and not names & {"Ok", "Err", "Some"}:
                    yield f.place(7, f"a switch on which step to run with ({arguments}): {', '.join(steps)}", line)


# ---------------------------------------------------------------- point 8

STATEMENT = re.compile(r"(?m)^(?P<indent> *)(?:pub )?(?P<name>[^\s:{}()]+) : (?P<type>[^\n]*(?:\n(?P=indent)    [^\n]*)*)")


def statement_shape(text):
    """A statement with its names numbered in the order in which they first stand."""
    text = re.sub(r"--[^\n]*", "", text)
    text = re.sub(r"[({][^(){}]*: Type[^(){}]*[)}]", "", text).replace("{", "(").replace("}", ")")
    text = re.sub(r"(\([^()]* : [^()]*\)) →", r"\1", re.sub(r"^[\s→]*", "", text))
    words = re.findall(r"[^\s(){}.,]+|[(){}.,]", text)
    binders = set()
    for group in re.findall(r"[({]([^(){}:]+) :", text):
        binders.update(group.split())
    seen = {}
    plain = [w for w in words if w not in "()"]
    bound = [w in binders or re.fullmatch("[A-Z]", w) is not None for w in plain]
    return " ".join(f"x{seen.setdefault(w, len(seen))}" if b else w for w, b in zip(plain, bound))


def std_lemmas(std):
    """The library's statements by their shape, and the names of its lemmas."""
    shapes, names = {}, set()
    mathematics = std.parent / "antt" / "port" / "mathlib" / "src"
    pages = sorted((std / "lemmas").rglob("*.md")) + sorted(mathematics.rglob("*.antt"))
    for page in pages:
        for m in re.finditer(r"(?m)^ *pub (\S+)(?: \{[^{}]*\})* : (.*)$", page.read_text(encoding="utf-8")):
            if page.suffix == ".md":
                names.add(m.group(1))
            if len(m.group(2)) > 20:
                shapes.setdefault(statement_shape(m.group(2)), m.group(1))
    return shapes, names


def library_words(text):
    """Whether a statement speaks of numbers, lists and Booleans alone."""
    plain = "Bool List Type Option length take drop get_or set map reverse replicate max min"
    plain = (plain + " eqb leb ltb zero suc true false cond not").split()
    words = set(re.findall(r"[A-Za-z_][\w-]*", re.sub(r"[({][^(){}:]* :", " ", text)))
    named = {w for w in words if len(w) > 2 and w not in plain}
    bound = {n for group in re.findall(r"[({]([^(){}:]+) :", text) for n in group.split()}
    return not (named - bound)


def proof_sizes(root):
    for crate in sorted((root / "crates").iterdir()):
        files = sorted(crate.glob("proofs/**/*.antt"))
        if files:
            lines = sum(f.read_text(encoding="utf-8").count("\n") for f in files)
            answers = sum(f.name == "Answers.antt" for f in files)
            loops = sum(f.name == "Invariants.antt" for f in files)
            what = f"{lines} lines, {len(files)} files, {answers} Answers, {loops} Invariants"
            yield Place(8, f"crates/{crate.name}/proofs", 1, what)


def helper_lemmas(root, std):
    known, names = std_lemmas(std) if std.is_dir() else ({}, set())
    for file, line, name, kind in own_statements(root):
        same = known.get(statement_shape(kind))
        if same:
            yield Place(8, file, line, f"lemma {name}: std's {same} says the same")
        elif name in names:
            yield Place(8, file, line, f"lemma {name}: std has a lemma of this name")
        elif "→" in kind and name[0].islower() and library_words(kind):
            yield Place(8, file, line, f"lemma {name}: speaks of numbers, lists and Booleans alone")


def own_statements(root):
    """The statements outside the answers, as (file, line, name, type)."""
    for file in sorted(root.glob("crates/*/proofs/**/*.antt")):
        if file.name not in ("Answers.antt", "Invariants.antt"):
            text = file.read_text(encoding="utf-8")
            for m in STATEMENT.finditer(text):
                yield str(file.relative_to(root)), text.count("\n", 0, m.start()) + 1, m.group("name"), m.group("type")


def twin_lemmas(root):
    found = collections.defaultdict(list)
    for file, line, name, kind in own_statements(root):
        if len(kind) > 30 and "→" in kind:
            found[statement_shape(kind)].append((file, line, name))
    for same in found.values():
        if len(same) > 1:
            others = ", ".join(f"{n} ({f}:{l})" for f, l, n in same[1:])
            yield Place(8, same[0][0], same[0][1], f"lemma {same[0][2]}: says the same as {others}")


def uncited(root):
    words = collections.Counter()
    for file in root.glob("crates/*/*/**/*.antt"):
        for line in file.read_text(encoding="utf-8").splitlines():
            words.update(set(re.findall(r"[^\s(){},.;]+", line)))
    for file, line, name, _ in own_statements(root):
        if words[name] <= 2 and name not in ("pub",):
            yield Place(8, file, line, f"lemma {name}: nothing cites it")


def repeated_answers(root):
    """Lines of answers that stand in three or more files, and answer files that differ in names only."""
    lines, wholes = collections.defaultdict(set), collections.defaultdict(list)
    for file in sorted(root.glob("crates/*/proofs/**/*s.antt")):
        if file.name not in ("Answers.antt", "Invariants.antt"):
            continue
        text = file.read_text(encoding="utf-8")
        at = str(file.relative_to(root))
        body = [l.strip() for l in text.splitlines() if l.strip() and not l.startswith("use ")]
        for l in body:
            if len(l) > 40 and not l.startswith(("--", "pub ")):
                lines[l].add(at)
        wholes[renamed(tokenize("\n".join(body)))].append(at)
    for line, files in sorted(lines.items(), key=lambda item: -len(item[1])):
        if len(files) >= 3:
            yield Place(8, sorted(files)[0], 1, f"a line that {len(files)} answer files repeat: {line[:100]}")
    for files in wholes.values():
        if len(files) > 1:
            yield Place(8, files[0], 1, f"the same but for names as {', '.join(files[1:])}")


def point8(tree, std):
    root = tree.root
    lemmas = itertools.chain(helper_lemmas(root, std), twin_lemmas(root), uncited(root))
    return itertools.chain(proof_sizes(root), lemmas, repeated_answers(root))


# ---------------------------------------------------------------- the command


def places(tree, points, bound, std):
    makers = {
        1: lambda: point1(tree),
        2: lambda: point2(tree, bound),
        3: lambda: point3(tree),
        4: lambda: point4(tree),
        5: lambda: point5(tree),
        6: lambda: point6(tree),
        7: lambda: point7(tree),
        8: lambda: point8(tree, std),
    }
    for point in points:
        yield from dict.fromkeys(makers[point]())


def arguments():
    parser = argparse.ArgumentParser(description=__doc__.split("\n")[0])
    parser.add_argument("--root", default=".", help="the top of the repository")
    parser.add_argument("--points", default="1,2,3,4,5,6,7,8", help="which points, with commas")
    parser.add_argument("--similar", type=float, default=0.85, help="how alike two bodies are at the least")
    parser.add_argument("--std", default="/opt/rattle/rattle/std", help="where the library's pages of lemmas lie")
    parser.add_argument("--count", action="store_true", help="print only how many places each point has")
    return parser.parse_args()


def main():
    args = arguments()
    tree = Tree(pathlib.Path(args.root).resolve())
    points = [int(p) for p in args.points.split(",")]
    counts = collections.Counter()
    for place in places(tree, points, args.similar, pathlib.Path(args.std)):
        counts[place.point] += 1
        if not args.count:
            print(f"{place.point} {place.file}:{place.line} {place.what}")
    if args.count:
        for point in points:
            print(point, counts[point])
    return 0


if __name__ == "__main__":
    sys.exit(main())
