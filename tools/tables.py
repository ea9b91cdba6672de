#!/usr/bin/env python3
"""Table files outside Rattle, written from docs/FORMATS.md and docs/REFUSALS.md: what `vet` must print,
the example files, and the cases that the program `vet_cases` is run on.

  tables.py vet FILE     print what `vet` must print for a file
  tables.py make         write examples/, crates/vet/stdin and stdout, crates/vet_cases/stdin and stdout
  tables.py check        fail if a stored file is not what `make` would write
"""

import os
import random
import sys

ROOT = os.path.dirname(os.path.dirname(os.path.abspath(__file__)))

WORDS = {
    1: "the file must have 14 to 32768 bytes",
    2: "there must be 1 to 128 states and 1 to 16 marks",
    3: "an entry of the contents has a wrong length, an offset below 14 or an end beyond the file",
    4: "two bodies share a byte",
    5: "a byte of a body has a value that is not listed for it",
    6: "a state has no step out of it",
    7: "no state is a start",
}


def refusal(data):
    """The number of the first condition that fails, or None."""
    if not 14 <= len(data) <= 32768:
        return 1
    n, p = data[0], data[1]
    if not (1 <= n <= 128 and 1 <= p <= 16):
        return 2
    spans = []
    for entry, length in enumerate((n * n, n * p, n)):
        at = 2 + 4 * entry
        offset = data[at] << 8 | data[at + 1]
        size = data[at + 2] << 8 | data[at + 3]
        if size != length or offset < 14 or offset + size > len(data):
            return 3
        spans.append((offset, offset + size))
    used = set()
    for start, end in spans:
        here = set(range(start, end))
        if here & used:
            return 4
        used |= here
    steps, marks, starts = (data[a:b] for a, b in spans)
    if any(b not in (0, 1, 2) for b in steps + marks) or any(b not in (0, 1) for b in starts):
        return 5
    if any(not any(steps[s * n : s * n + n]) for s in range(n)):
        return 6
    if not any(starts):
        return 7
    return None


def vetted(data):
    """The lines that `vet` prints."""
    number = refusal(data)
    if number is not None:
        return "refused %d\n%s\n" % (number, WORDS[number])
    n, p = data[0], data[1]
    offsets = [data[2 + 4 * e] << 8 | data[3 + 4 * e] for e in range(3)]
    steps = data[offsets[0] :][: n * n]
    marks = data[offsets[1] :][: n * p]
    starts = data[offsets[2] :][:n]
    exact = 1 not in steps and 0 not in marks
    return (
        "states %d marks %d starts %d\n" % (n, p, sum(starts))
        + "steps sure %d unsure %d none %d\n" % (steps.count(2), steps.count(1), steps.count(0))
        + "marks T %d F %d unknown %d\n" % (marks.count(2), marks.count(1), marks.count(0))
        + ("exact\n" if exact else "partly known\n")
    )


def table(n, p, steps, marks, starts, order=(0, 1, 2), gaps=(b"", b"", b""), tail=b"", entries=None):
    """A file with its bodies in an order, with ignored bytes before each and after the last."""
    bodies = [bytes(steps), bytes(marks), bytes(starts)]
    front, rest, offsets = 14, b"", [0, 0, 0]
    for body, gap in zip(order, gaps):
        rest += gap
        offsets[body] = front + len(rest)
        rest += bodies[body]
    contents = b""
    for entry in range(3):
        offset, size = offsets[entry], len(bodies[entry])
        if entries and entry in entries:
            offset, size = entries[entry](offset, size)
        contents += bytes([offset >> 8 & 255, offset & 255, size >> 8 & 255, size & 255])
    return bytes([n & 255, p & 255]) + contents + rest + tail


J = bytes.fromhex("03 01 00 0E 00 09 00 17 00 03 00 1A 00 03 00 02 00 00 00 02 00 00 02 01 01 02 01 00 00")


def plain(n, p, **more):
    """An exact system whose states lead to themselves, the first a start."""
    steps = [2 if s == t else 0 for s in range(n) for t in range(n)]
    marks = [1 + (s + k) % 2 for s in range(n) for k in range(p)]
    starts = [1 if s == 0 else 0 for s in range(n)]
    return table(n, p, steps, marks, starts, **more)


def pass_store(limit):
    """The pass store written out: state 2k + r, mark 0 received, mark 1 the limit reached."""
    n = 2 * limit + 2
    steps = [0] * (n * n)
    marks = []
    for s in range(n):
        k, r = divmod(s, 2)
        if k < limit:
            steps[s * n + 2 * (k + 1) + r] = 2
            if r == 0:
                steps[s * n + 2 * (k + 1) + 1] = 1
        else:
            steps[s * n + s] = 2
        marks += [2 if r else 1, 2 if k == limit else 1]
    return table(n, 2, steps, marks, [1] + [0] * (n - 1))


def examples():
    """The files of examples/, by name."""
    partly = table(
        4, 2,
        [0, 2, 1, 0,  0, 0, 2, 1,  0, 0, 2, 0,  1, 0, 0, 2],
        [1, 0,  1, 2,  2, 2,  0, 1],
        [1, 0, 0, 1],
    )
    return {
        "j.table": J,
        "partly.table": partly,
        "pass-store-3.table": pass_store(3),
        "refused-1-short.table": J[:13],
        "refused-2-no-marks.table": bytes([3, 0]) + J[2:],
        "refused-3-wrong-length.table": J[:5] + bytes([8]) + J[6:],
        "refused-4-shared-byte.table": J[:7] + bytes([0x16]) + J[8:],
        "refused-5-step-of-3.table": J[:14] + bytes([3]) + J[15:],
        "refused-6-no-step-out.table": J[:22] + bytes([0]) + J[23:],
        "refused-7-no-start.table": J[:26] + bytes(3),
    }


def boundary_cases():
    cases = [J, b"", J[:1], J[:13], J[:14]]
    # the length of the file: 14 is enough for the front, 32,768 the most, and nothing is counted modulo 65,536
    for length in (32767, 32768, 32769, 65535, 65536, 65536 + len(J)):
        cases.append(J + bytes(length - len(J)))
    # the counts
    for n in (0, 1, 2, 127, 128, 129, 255):
        cases.append(plain(n, 1) if n <= 128 else bytes([n]) + plain(2, 1)[1:])
    for p in (0, 1, 15, 16, 17, 255):
        cases.append(plain(2, p) if 1 <= p <= 16 else bytes([2, p]) + plain(2, 1)[2:])
    cases.append(plain(128, 16))
    # each entry: its length, its offset, its end
    for entry in range(3):
        for change in (
            lambda o, z: (o, z - 1), lambda o, z: (o, z + 1), lambda o, z: (o, z + 256), lambda o, z: (o, 0),
            lambda o, z: (13, z), lambda o, z: (14, z), lambda o, z: (0, z), lambda o, z: (65535, z),
            lambda o, z: (o - 1, z), lambda o, z: (o + 1, z), lambda o, z: (o + 2, z), lambda o, z: (65536 - z, z),
        ):
            cases.append(plain(3, 2, entries={entry: change}))
            cases.append(plain(3, 2, entries={entry: change}, tail=bytes(2)))
    # bodies in every order, with and without ignored bytes, which may have any value
    for order in ((0, 1, 2), (0, 2, 1), (1, 0, 2), (1, 2, 0), (2, 0, 1), (2, 1, 0)):
        cases.append(plain(3, 2, order=order))
        cases.append(plain(3, 2, order=order, gaps=(b"\xff", b"\x07\x07", b"\x80"), tail=b"\xfe\x03"))
        # each later body moved back by one byte: it then shares one with the body before
        for moved in order[1:]:
            cases.append(plain(3, 2, order=order, entries={moved: lambda o, z: (o - 1, z)}))
    # values that are not listed, in the first, a middle and the last byte of each body
    good = plain(3, 2)
    for at in (14, 18, 22, 23, 26, 28, 29, 30, 31):
        for value in (0, 1, 2, 3, 128, 255):
            cases.append(good[:at] + bytes([value]) + good[at + 1 :])
    # rows without a step, by an unsure step only, and starts
    for s in range(3):
        cases.append(good[: 14 + 4 * s] + bytes([0]) + good[15 + 4 * s :])
        cases.append(good[: 14 + 4 * s] + bytes([1]) + good[15 + 4 * s :])
    cases.append(good[:29] + bytes([0, 0, 0]))
    cases.append(good[:29] + bytes([1, 1, 1]))
    cases += [pass_store(limit) for limit in (1, 3, 30)]
    return cases


def random_cases(count, seed):
    rng = random.Random(seed)
    cases = []
    for _ in range(count):
        n, p = rng.choice((1, 2, 3, 5, 8, 12)), rng.choice((1, 2, 3, 16))
        steps = [rng.choice((0, 0, 0, 1, 2)) for _ in range(n * n)]
        for s in range(n):
            if rng.random() < 0.95 and not any(steps[s * n : s * n + n]):
                steps[s * n + rng.randrange(n)] = rng.choice((1, 2))
        marks = [rng.choice((0, 1, 2)) for _ in range(n * p)]
        starts = [rng.choice((0, 0, 1)) for _ in range(n)]
        if rng.random() < 0.9:
            starts[rng.randrange(n)] = 1
        order = [0, 1, 2]
        rng.shuffle(order)
        gaps = [bytes(rng.randrange(256) for _ in range(rng.choice((0, 0, 1, 5)))) for _ in range(3)]
        data = bytearray(table(n, p, steps, marks, starts, order=order, gaps=gaps))
        for _ in range(rng.choice((0, 0, 0, 1, 2))):
            data[rng.randrange(len(data))] = rng.choice((0, 1, 2, 3, rng.randrange(256)))
        if rng.random() < 0.1:
            data = data[: rng.randrange(len(data))]
        cases.append(bytes(data))
    return cases


def written(data):
    """A case as a line: pieces in hexadecimal, a run of one byte as the byte, `x` and its length."""
    pieces, at = [], 0
    while at < len(data):
        end = at
        while end < len(data) and data[end] == data[at]:
            end += 1
        if end - at >= 8:
            pieces.append("%02xx%d" % (data[at], end - at))
        elif pieces and "x" not in pieces[-1]:
            pieces[-1] += data[at:end].hex()
        else:
            pieces.append(data[at:end].hex())
        at = end
    return " ".join(pieces) + "\n"


def stored():
    """Every stored file, by its path below the root."""
    files = {"examples/" + name: data for name, data in examples().items()}
    files["crates/vet/stdin"] = J
    files["crates/vet/stdout"] = vetted(J).encode()
    cases = boundary_cases() + list(examples().values()) + random_cases(300, 20261118)
    files["crates/vet_cases/stdin"] = "".join(written(c) for c in cases).encode()
    files["crates/vet_cases/stdout"] = "".join(vetted(c) for c in cases).encode()
    return files


def main():
    if len(sys.argv) == 3 and sys.argv[1] == "vet":
        with open(sys.argv[2], "rb") as f:
            sys.stdout.write(vetted(f.read()))
    elif sys.argv[1:] == ["make"]:
        for path, data in stored().items():
            os.makedirs(os.path.dirname(os.path.join(ROOT, path)), exist_ok=True)
            with open(os.path.join(ROOT, path), "wb") as f:
                f.write(data)
    elif sys.argv[1:] == ["check"]:
        for path, data in stored().items():
            with open(os.path.join(ROOT, path), "rb") as f:
                if f.read() != data:
                    sys.exit("%s is not what tools/tables.py makes" % path)
        print("tables: %d stored files are what the outside tool makes" % len(stored()))
    else:
        sys.exit(__doc__)


if __name__ == "__main__":
    main()
