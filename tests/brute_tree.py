#!/usr/bin/env python3
"""Runs the program `tree_report` on thousands of lawful table files and compares what it prints about the all-match tree
with what this script works out by itself from docs/RULES.md.

    brute_tree.py [--count N] [--seed S] [--program PATH]   defaults: 2000 1 crates/tree_report/out/tree_report
    brute_tree.py --self [--count N] [--seed S]            checks this script alone, without the program

The same seed gives the same tables. A rule here is a list of pairs of ends, one for each field. Rules and fields count
from 0 in here, and from 1 in what is printed."""
import argparse
import itertools
import os
import random
import subprocess
import sys
from concurrent.futures import ThreadPoolExecutor

sys.dont_write_bytecode = True
sys.path.append(os.path.join(os.path.dirname(os.path.abspath(__file__)), "..", "samples"))
from make_depot import DEPOT, FOUR, file_of

LIMITS = 65536, 1048576                          # branches and marks that a tree may use
EXACT = ((2, 7, 18, 7, 36), 1), ((2, 4, 8, 8, 8, 8), 29)    # grids with exactly so many branches, and so many marks


# the space that rules need, as docs/RULES.md says it; a column is the intervals of all rules at one field
def pieces(column, some):
    """For each piece of some rules at a field, the rules that hold it. Who holds its first value holds all of it."""
    for cut in sorted({column[i][0] for i in some} | {column[i][1] + 1 for i in some}):
        held = tuple([i for i in some if column[i][0] <= cut <= column[i][1]])
        if held:
            yield held


def plain_space(columns, some, m=0):
    """Branches and marks of some rules from field m on."""
    branches, marks = 0, 0
    for held in pieces(columns[m], some):
        below = plain_space(columns, held, m + 1) if m + 1 < len(columns) else (0, len(held))
        branches, marks = branches + 1 + below[0], marks + below[1]
    return branches, marks


def space(columns, some, cap, known, m=0):
    """The same, but equal sets of rules are counted once, and if the branches pass the cap, any number above it."""
    if (m, some) not in known:
        branches, marks = 0, 0
        for held in pieces(columns[m], some):
            below = space(columns, held, cap, known, m + 1) if m + 1 < len(columns) else (0, len(held))
            branches, marks = branches + 1 + below[0], marks + below[1]
            if branches > cap:
                break
        known[m, some] = branches, marks
    return known[m, some]


# what the program owes
def outcome(rules, limits=LIMITS, plain=False):
    """How many rules are in the tree, what the next one lacks or None, and the branches and marks used."""
    columns, known, used = list(zip(*rules)), {}, (0, 0)
    for k in range(1, len(rules) + 1):
        some = tuple(range(k))
        need = plain_space(columns, some) if plain else space(columns, some, limits[0], known)
        if need[0] > limits[0] or need[1] > limits[1]:
            return k - 1, "branches" if need[0] > limits[0] else "marks", *used
        used = need
    return len(rules), None, *used


def owed(rules):
    """What some rule lacks or None, and the lines about the tree."""
    kept, lack, branches, marks = outcome(rules)
    lines = [f"tree: rule {kept + 1} lacks {lack}"] if lack else []
    lines.append(f"tree: {kept} rules, {branches} branches, {marks} marks")
    for i in range(kept):
        corner = [low for low, _ in rules[i]]
        match = [k for k in range(kept) if all(low <= v <= high for (low, high), v in zip(rules[k], corner))]
        lines.append(f"low corner of rule {i + 1}: rules {', '.join(str(k + 1) for k in match)}")
    return lack, lines


# tables to try
def interval(r, top, seen):
    """An interval of 0 to top, often at an edge, or equal to, inside or touching one seen before."""
    low, high = r.choice(seen) if seen else (0, top)
    inside, above, below = r.randint(low, high), min(high + 1, top), max(low - 1, 0)
    value, other = r.choice((0, top, r.randint(0, top))), r.randint(0, top)
    return r.choice(((0, top), (value, value), *[(min(value, other), max(value, other))] * 4, (low, high),
                     (low, inside), (inside, inside), (inside, high), (above, above), (above, r.randint(above, top)),
                     (above, top), (below, below), (r.randint(0, below), below), (0, below)))


def column(r, top, n, way):
    """The intervals of n rules at one field."""
    ends = sorted(r.choice((0, top)) if r.random() < 0.05 else r.randint(0, top) for _ in range(2 * n))
    pairs = {"nested": zip(ends, ends[::-1]), "apart": zip(ends[::2], ends[1::2]), "stairs": zip(ends, ends[n:])}
    if way in pairs:
        return list(pairs[way])[:n]
    if way == "touching":
        cuts = sorted({0, top + 1, *ends[:n]})
        return [(low, past - 1) for low, past in zip(cuts, cuts[1:])][:n] + [(0, top)] * (n + 1 - len(cuts))
    seen = []
    for _ in range(n):
        seen.append(interval(r, top, seen))
    return seen


def some_rules(r, widths, n):
    """Rules made the same way at all fields or not, in any order, some of them repeated or all-holding."""
    ways, full = ("nested", "apart", "stairs", "touching", "mixed", "mixed"), [(0, 2 ** w - 1) for w in widths]
    way, crowd, again = r.choice(ways + (None,) * 6), r.choice((0, 0, 0, 0.1, 0.6)), r.choice((0, 0.1, 0.3))
    rules = [list(rule) for rule in zip(*(column(r, 2 ** w - 1, n, way or r.choice(ways)) for w in widths))]
    rules = r.sample(rules, n) if r.random() < 0.5 else rules
    for i in range(n):
        pick = r.random()
        rules[i] = full if pick < crowd else r.choice(rules) if pick < crowd + again else rules[i]
    return rules


def grid_rules(r, widths, counts, whole):
    """Rules that part each field into so many pieces, and some that hold everything, in any order."""
    full = [(0, 2 ** w - 1) for w in widths]
    rules = [full] * whole
    for m, p in enumerate(counts):
        cuts = [0, *sorted(r.sample(range(1, 2 ** widths[m]), p - 1)), 2 ** widths[m]]
        rules += [full[:m] + [(cuts[i], cuts[i + 1] - 1)] + full[m + 1:] for i in range(1, p, 2)]
    return r.sample(rules, len(rules))


def table(r):
    """Widths and rules."""
    pick = r.random()
    if pick < 0.04:                              # at a limit, or near one, and then perhaps rules more
        counts, whole = r.choice(EXACT + ((EXACT[0][0], r.randint(2, 24)),))
        widths = [r.choice((6, 32, r.randint(6, 32))) for _ in counts]
        rules = grid_rules(r, widths, counts, whole)
        return widths, rules + r.choice(([], [r.choice(rules)], some_rules(r, widths, 2)))
    d, n = r.choice((1, 2, 3, 4, r.randint(1, 8))), r.choice((0, 1, 2, 3, 5, 8, 12, r.randint(0, 42)))
    if pick < 0.24:
        d, n = r.randint(3, 8), r.randint(20, 42)
    widths = [r.choice((1, 8, 16, 31, 32, r.randint(1, 32))) for _ in range(d)]
    return widths, some_rules(r, widths, n)


# the two ways to run
def space_by_messages(rules, widths):
    """A third count: at each field a message slides down as long as the same rules match, and so finds its cell."""
    cells, nodes = {}, set()
    for message in itertools.product(*(range(2 ** w) for w in widths)):
        corner, match = (), rules
        for m, value in enumerate(message):
            holds = lambda v: [rule[m][0] <= v <= rule[m][1] for rule in match]
            while value > 0 and holds(value - 1) == holds(value):
                value -= 1
            corner, match = corner + (value,), list(itertools.compress(match, holds(value)))
            if match:
                nodes.add(corner)
        assert cells.setdefault(corner, match) == match, (rules, message)
    return len(nodes), sum(map(len, cells.values()))


def check_examples(r):
    """What docs/RULES.md and samples/make_depot.py work out, and the two exact grids."""
    two, (four, depot) = [[(2, 9), (3, 5)], [(5, 12), (4, 8)]], ([rule for rule, _ in rules] for rules in (FOUR, DEPOT))
    for rules, limits, *wanted in (
            (four, LIMITS, 4, None, 6, 12), (two, LIMITS, 2, None, 8, 6), ([[(0, 2 ** 32 - 1)]], LIMITS, 1, None, 1, 1),
            (two, (7, 6), 1, "branches", 2, 1), (two, (8, 5), 1, "marks", 2, 1), (two, (7, 5), 1, "branches", 2, 1),
            (two, (8, 6), 2, None, 8, 6), ([], LIMITS, 0, None, 0, 0), (depot, LIMITS, 13, None, 251, 342)):
        assert outcome(rules, limits) == outcome(rules, limits, plain=True) == tuple(wanted), (rules, limits, wanted)
    for line, match in zip(owed(four)[1][1:], ("1", "1, 2, 3", "1, 3", "2, 3, 4"), strict=True):
        assert line.endswith(f": rules {match}"), line
    for what, (counts, whole) in enumerate(EXACT):
        found = outcome(grid_rules(r, [32] * len(counts), counts, whole))
        assert found[1] is None and found[2 + what] == LIMITS[what], found


def self_test(count, seed):
    """The script's own model, without the program."""
    r, lacks = random.Random(seed), []
    check_examples(r)
    for _ in range(count):                       # small tables, counted in three ways, and small limits
        widths = [r.randint(1, 4) for _ in range(r.randint(1, 3))]
        rules, limits = some_rules(r, widths, r.randint(0, 6)), (r.randint(3, 60), r.randint(1, 60))
        assert space_by_messages(rules, widths) == outcome(rules, plain=True)[2:] == outcome(rules)[2:], rules
        assert outcome(rules, limits) == outcome(rules, limits, plain=True), (rules, limits)
    for _ in range(count):                       # the tables of a run
        widths, rules = table(r)
        for rule in rules:
            assert all(0 <= low <= high < 2 ** w for (low, high), w in zip(rule, widths, strict=True)), (widths, rule)
        kept, lack, *used = outcome(rules)
        lacks.append(lack)
        if 0 < used[0] <= 2000:
            assert tuple(used) == plain_space(list(zip(*rules)), range(kept)), rules
    assert {"branches", "marks"} <= set(lacks) or count < 1000, "some lack never came up"
    print(f"self-test: {count} small tables counted in three ways, {count} others tried, none differ")


def against(program, count, seed):
    """The program's output against the model's."""
    r, files, lacks = random.Random(seed), [], []
    tables = [table(r) for _ in range(count)]
    for widths, rules in tables:
        kind, size = r.choice(((1, 1), (2, 6)))
        files.append(file_of(kind, widths, [(rule, r.randbytes(size)) for rule in rules]))
    execute = lambda data: subprocess.run([program], input=data, capture_output=True, timeout=300)
    with ThreadPoolExecutor(os.cpu_count() or 4) as pool:
        for k, ((widths, rules), data, got) in enumerate(zip(tables, files, pool.map(execute, files))):
            lack, lines = owed(rules)
            lines += [""]
            came = got.stdout.decode(errors="replace").split("\n")
            if (got.returncode, came) != (0, lines):
                print(f"table {k} of seed {seed} differs, widths {widths}:")
                for i, rule in enumerate(rules, 1):
                    print(f"rule {i}:", *(f"[{low}, {high}]" for low, high in rule))
                print("expected, status 0:", *lines, sep="\n")
                print(f"got, status {got.returncode}:", *came, got.stderr.decode(errors="replace"), sep="\n")
                pool.shutdown(cancel_futures=True)
                sys.exit(1)
            lacks.append(lack)
    branches, marks = lacks.count("branches"), lacks.count("marks")
    print(f"{count} tables, {branches} lacked branches, {marks} lacked marks, none differ")


if __name__ == "__main__":
    options = argparse.ArgumentParser(description="compares the tree that tree_report prints with a model of it")
    options.add_argument("--self", action="store_true")
    for name, default in (("--count", 2000), ("--seed", 1), ("--program", "crates/tree_report/out/tree_report")):
        options.add_argument(name, type=type(default), default=default)
    chosen = options.parse_args()
    self_test(chosen.count, chosen.seed) if chosen.self else against(chosen.program, chosen.count, chosen.seed)
