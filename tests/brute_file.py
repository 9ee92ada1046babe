#!/usr/bin/env python3
"""Runs the program `report` on thousands of table files, lawful and damaged, and compares its exit status and its
whole standard output with what this script works out by itself from docs/FORMAT.md and docs/REFUSALS.md.

    brute_file.py [PROGRAM] [CASES] [RUN]      defaults: crates/report/out/report 2000 1
    brute_file.py --selftest [CASES] [RUN]     checks this script alone, without the program

The same RUN gives the same files."""
import os
import random
import subprocess
import sys
from collections import Counter
from concurrent.futures import ThreadPoolExecutor

MOST = 40960                                     # bytes that the program looks at
SIZE = {1: 1, 2: 6}                              # bytes of one decision: queue, handling
CLASSES = {0: "ordinary", 1: "express", 2: "chilled"}


# what a file means
def number(data, at, length):
    return int.from_bytes(data[at:at + length], "big")


def fault(data, kind):
    """The number and the place of the first refusal, or None."""
    if len(data) < 16:
        return 1, len(data)
    for at, wanted in ((0, 1), (3, 0), (6, 0), (7, 0)):
        if data[at] != wanted:
            return 2, at
    d, n = data[1], number(data, 4, 2)
    if not 1 <= d <= 8:
        return 3, 1
    if data[2] != kind:
        return 4, 2
    if n > 512:
        return 5, 4
    rows, decisions = 16 + d, 16 + d + 8 * d * n
    for at, wanted in ((8, rows), (12, decisions)):
        if number(data, at, 4) != wanted:
            return 6, at
    if len(data) != decisions + SIZE[kind] * n:
        return 7, len(data)
    for at in range(16, 16 + d):
        if not 1 <= data[at] <= 32:
            return 8, at
    for k in range(n * d):
        at = rows + 8 * k
        if not number(data, at, 4) <= number(data, at + 4, 4) <= 2 ** data[16 + k % d] - 1:
            return 9, at
    return None


def parse(data, kind):
    """Kind, widths and rules of a lawful file; a rule is its list of intervals and the bytes of its decision."""
    d, n = data[1], number(data, 4, 2)
    rules = []
    for row in range(n):
        ends = [16 + d + 8 * (d * row + field) for field in range(d)]
        at = 16 + d + 8 * d * n + SIZE[kind] * row
        rules.append(([(number(data, e, 4), number(data, e + 4, 4)) for e in ends], data[at:at + SIZE[kind]]))
    return kind, list(data[16:16 + d]), rules


def written(table):
    """The file of a table."""
    kind, widths, rules = table
    d, n = len(widths), len(rules)
    out = bytes([1, d, kind, 0]) + n.to_bytes(2, "big") + bytes(2)
    out += (16 + d).to_bytes(4, "big") + (16 + d + 8 * d * n).to_bytes(4, "big") + bytes(widths)
    for intervals, _ in rules:
        for low, high in intervals:
            out += low.to_bytes(4, "big") + high.to_bytes(4, "big")
    return out + b"".join(decision for _, decision in rules)


def told(kind, decision):
    """A decision as a line shows it."""
    if kind == 1:
        return f"queue {decision[0]}"
    name = CLASSES.get(decision[1], str(decision[1]))
    return f"queue {decision[0]}, class {name}, keep {number(decision, 2, 2)}, note {number(decision, 4, 2)}"


def judge(data):
    """The refusal or None, and the exit status and the output that the program owes."""
    data = data[:MOST]
    kind = 2 if data[2:3] == b"\x02" else 1
    refusal = fault(data, kind)
    if refusal:
        return refusal, 1, f"refused F {refusal[0]} {refusal[1]}\n".encode()
    _, widths, rules = parse(data, kind)
    lines = [f"table of {'queues' if kind == 1 else 'handlings'}: {len(rules)} rules, {len(widths)} fields"]
    lines += [f"field {k}: {w} bits, 0 to {2 ** w - 1}" for k, w in enumerate(widths, 1)]
    for k, (intervals, decision) in enumerate(rules, 1):
        lines.append(f"rule {k}: {' '.join(f'[{a}, {b}]' for a, b in intervals)} -> {told(kind, decision)}")
    lines.append(f"written again: {len(data)} bytes, the same")
    return None, 0, ("\n".join(lines) + "\n").encode()


# files to try
def interval(r, width):
    top = 2 ** width - 1
    pick = lambda: r.choice((0, top, r.randint(0, top), min(top, r.randint(0, 300))))
    return tuple(sorted((pick(), pick())))


def decision(r, kind):
    if kind == 1:
        return bytes([r.choice((0, 255, r.randrange(256)))])
    return bytes([r.randrange(256), r.choice((0, 1, 2, 3, 9, 255, r.randrange(256)))]) + r.randbytes(4)


def lawful_table(r, n=None):
    kind = r.choice((1, 2))
    widths = [r.choice((1, 8, 16, 31, 32, r.randint(1, 32))) for _ in range(r.randint(1, 8))]
    if n is None:
        few, many = (0, 1, 1, 2, 2, 3, 4, 5, 7, r.randint(8, 40)), (512, 511, r.randint(100, 512))
        n = r.choice(many if r.random() < 0.02 else few)
    return kind, widths, [([interval(r, w) for w in widths], decision(r, kind)) for _ in range(n)]


def poke(data, at, value, length=1):
    return data[:at] + (value % 256 ** length).to_bytes(length, "big") + data[at + length:]


def damage(r, data, table):
    """The file with one fault more. A file that an earlier fault cut short may stay as it is."""
    _, widths, rules = table
    d, n = len(widths), len(rules)
    field, way = r.randrange(d), r.randrange(10)
    if way == 0:                                                      # cut off
        return data[:r.choice((r.randint(0, 16), r.randint(0, len(data)), max(0, len(data) - 1)))]
    if way == 1:                                                      # longer, also past what is looked at
        return data + r.randbytes(r.choice((1, 1, 6, 100, MOST - 1, MOST, MOST + 1)))
    if len(data) < 16 + d:
        return data
    if way == 2:                                                      # any bit of the file
        k = r.randrange(len(data))
        return poke(data, k, data[k] ^ 1 << r.randrange(8))
    if way < 5:                                                       # a part of the header: place, value, length
        return poke(data, *r.choice((
            (r.choice((0, 3, 6, 7)), r.choice((0, 1, 2, 255)), 1), (1, r.choice((0, 9, 255, d - 1, d + 1)), 1),
            (2, r.choice((0, 1, 2, 3, 255)), 1), (4, r.choice((n - 1, n + 1, 512, 513, 65535)), 2),
            (8, 16 + d + r.choice((-1, 1, 256)), 4), (12, 16 + d + 8 * d * n + r.choice((-1, 1, 256)), 4))))
    if way == 5:                                                      # offsets that fit the counts, whatever these are
        return poke(poke(data, 8, 16 + data[1], 4), 12, 16 + data[1] * (1 + 8 * number(data, 4, 2)), 4)
    if way == 6:                                                      # widths: not lawful, or too narrow for the ends
        for k in range(field, d):
            data = poke(data, 16 + k, r.choice((0, 33, 255, 1, widths[k], max(1, widths[k] - 1))))
    at = 16 + d + 8 * (d * r.randrange(n) + field) if n else len(data)
    if way > 6 and at + 8 <= len(data):                               # a pair of ends: swapped, high end just above or
        low, high = number(data, at, 4), number(data, at + 4, 4)      # at the top, low end one above the high end
        low, high = {7: (high, low), 8: (low, 2 ** widths[field] - r.randrange(2)), 9: (high + 1, high)}[way]
        return poke(poke(data, at, low, 4), at + 4, high, 4)
    return data


def case(r):
    pick = r.random()
    if pick < 0.85:
        table = lawful_table(r)
        data = written(table)
        for _ in range(0 if pick < 0.30 else r.choice((1, 1, 1, 2, 3, 4))):
            data = damage(r, data, table)
        return data
    if pick < 0.88:                                                   # whole and consistent, but too many rules
        return written(lawful_table(r, r.randint(513, 520)))
    if pick < 0.94:
        return r.randbytes(r.choice((0, 1, 2, 3, 15, 16, 17, r.randint(0, 64))))
    return bytes([1, r.randint(0, 9), r.randint(0, 3), 0, 0, r.randrange(4), 0, 0]) + r.randbytes(r.randint(0, 40))


# the two ways to run
def summary(verdicts):
    counts = Counter(v[0] for v in verdicts if v)
    refused, per_number = sum(counts.values()), ", ".join(f"F {k}: {counts[k]}" for k in sorted(counts))
    return f"{len(verdicts)} files agreed: {len(verdicts) - refused} accepted, {refused} refused ({per_number})"


def selftest(cases, run):
    swept = bytes.fromhex("01010100000200000000001100000021080000000a0000003c0000003d000000780507")
    known = [(swept, None), (b"", (1, 0)), (b"\1\1\1", (1, 3)), (swept[:-1], (7, 34)), (swept + b"\0", (7, 36)),
             (poke(swept, 2, 2), (7, 35)), (poke(swept, 2, 3), (4, 2)), (poke(swept, 7, 1), (2, 7)),
             (poke(poke(swept, 1, 0), 3, 1), (2, 3)), (poke(swept, 1, 9), (3, 1)), (poke(swept, 4, 513, 2), (5, 4)),
             (poke(swept, 1, 2), (6, 8)), (poke(swept, 5, 1), (6, 12)), (poke(swept, 16, 33), (8, 16)),
             (poke(swept, 16, 6), (9, 25)), (poke(swept, 17, 61, 4), (9, 17)), (poke(swept, 29, 256, 4), (9, 25))]
    for data, verdict in known:
        assert judge(data)[0] == verdict, (data.hex(), verdict, judge(data)[0])
    assert len(written((1, [8], []))) == 17
    assert len(written((2, [32] * 8, [([(0, 1)] * 8, bytes(6))] * 512))) == 35864
    r, verdicts = random.Random(run), []
    for _ in range(cases):
        table = lawful_table(r)
        assert judge(written(table))[0] is None and parse(written(table), table[0]) == table, written(table).hex()
        data = case(r)
        verdicts.append(judge(data)[0])
        if not verdicts[-1]:
            assert written(parse(data, data[2])) == data, data.hex()
    assert {v[0] for v in verdicts if v} == set(range(1, 10)) or cases < 1000, "some refusal never came up"
    print("selftest:", summary(verdicts))


def against(program, cases, run):
    r = random.Random(run)
    files = [case(r) for _ in range(cases)]
    owed = [judge(data) for data in files]
    execute = lambda data: subprocess.run([program], input=data, capture_output=True, timeout=120)
    with ThreadPoolExecutor(os.cpu_count() or 4) as pool:
        for k, (data, (_, status, output), got) in enumerate(zip(files, owed, pool.map(execute, files))):
            if (got.returncode, got.stdout) != (status, output):
                print(f"file {k} of run {run} disagreed, {len(data)} bytes:\n{data.hex()}")
                print(f"expected: status {status}, output {output!r}")
                print(f"got:      status {got.returncode}, output {got.stdout!r}, errors {got.stderr!r}")
                pool.shutdown(cancel_futures=True)
                sys.exit(1)
    print(summary([verdict for verdict, _, _ in owed]))


if __name__ == "__main__":
    words = [w for w in sys.argv[1:] if w != "--selftest"]
    if "--selftest" in sys.argv:
        selftest(*(int(w) for w in (words + ["2000", "1"][len(words):])[:2]))
    else:
        words += ["crates/report/out/report", "2000", "1"][len(words):]
        against(words[0], int(words[1]), int(words[2]))
