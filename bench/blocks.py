#!/usr/bin/env python3
"""Compares pairs, short sets and blocks of 2,000 random systems of one to six equations with all that could be instead.
Usage: bench/blocks.py [SEED]        (after `rt run -- time dense 5` in crates/mp_block_bench, which builds the program)"""
import itertools
import os
import random
import subprocess
import sys

COUNT = 2000
BATCH = 200


def system(rng):
    """The variables of each equation, as many in all as equations."""
    count = rng.randint(1, 6)
    share = rng.choice([0.2, 0.35, 0.5, 0.7])
    rows = [[v for v in range(count) if rng.random() < share] for _ in range(count)]
    if rng.random() < 0.7:
        # some matching, so that most systems have blocks
        for row, v in zip(rows, rng.sample(range(count), count)):
            if v not in row:
                row.append(v)
    for row in rows:
        rng.shuffle(row)
    return rows


def is_matching(rows, variables):
    return all(v in row for row, v in zip(rows, variables))


def least_matching(rows):
    """The first in the order that compares the variable of the first equation, then of the next; None if there is none."""
    every = (p for p in itertools.permutations(range(len(rows))) if is_matching(rows, p))
    return min(every, default=None)


def subsets(numbers):
    return itertools.chain.from_iterable(itertools.combinations(numbers, n) for n in range(len(numbers) + 1))


def occurring(rows, equations):
    return sorted({v for e in equations for v in rows[e]})


def short_set(rows):
    """Of the first equations that have no matching: the set with fewer variables than members that lies in each other."""
    count = len(rows)
    upto = next(i for i in range(1, count + 1)
                if not any(is_matching(rows[:i], p) for p in itertools.permutations(range(count), i)))
    short = [set(es) for es in subsets(range(upto)) if len(occurring(rows, es)) < len(es)]
    least, = [es for es in short if all(es <= other for other in short)]
    return sorted(least), occurring(rows, least)


def classes(rows, variables):
    """Whether one equation needs another one in one step, and the classes that need each other in any number of steps."""
    count = len(rows)
    needs = [[variables[b] in rows[a] for b in range(count)] for a in range(count)]
    reaches = [[a == b or needs[a][b] for b in range(count)] for a in range(count)]
    for middle, a, b in itertools.product(range(count), repeat=3):
        reaches[a][b] = reaches[a][b] or (reaches[a][middle] and reaches[middle][b])
    same = lambda a, b: reaches[a][b] and reaches[b][a]
    return needs, {tuple(b for b in range(count) if same(a, b)) for a in range(count)}


def blocks(rows, variables):
    """Each block after those that it needs; of those that may come, the one with the smallest equation first."""
    needs, left = classes(rows, variables)
    every = range(len(rows))
    placed, order = set(), []
    while left:
        ready = [c for c in left if all(b in placed or b in c for a in c for b in every if needs[a][b])]
        block = min(ready, key=min)
        left.remove(block)
        placed.update(block)
        order.append(block)
    return order


def listed(numbers):
    return ",".join(map(str, numbers)) or "-"


def written(rows):
    word = "/".join(",".join(map(str, row)) for row in rows)
    return word or "-"


def wanted(rows):
    variables = least_matching(rows)
    if variables is None:
        return "short %s of %s" % tuple(map(listed, short_set(rows)))
    return "pairs %s blocks %s" % (listed(variables), "/".join(map(listed, blocks(rows, variables))))


def told(program, cases):
    out = subprocess.run([program, "system"] + list(map(written, cases)), capture_output=True, text=True, check=True).stdout
    return out.split("\n")[:-1]


def main():
    top = os.path.dirname(os.path.dirname(os.path.abspath(__file__)))
    program = os.path.join(top, "crates/mp_block_bench/out/mp_block_bench")
    rng = random.Random(int(sys.argv[1]) if len(sys.argv) > 1 else 24)
    cases = [system(rng) for _ in range(COUNT)]
    kinds = {}
    for start in range(0, COUNT, BATCH):
        batch = cases[start:start + BATCH]
        lines = told(program, batch)
        if len(lines) != len(batch):
            sys.exit("%d lines for %d systems" % (len(lines), len(batch)))
        for rows, got in zip(batch, lines):
            want = wanted(rows)
            if got != want:
                sys.exit("%s: %s instead of %s" % (written(rows), got, want))
            kind = want.split()[0]
            kinds[kind] = kinds.get(kind, 0) + 1
    print("%d systems agree: %s" % (COUNT, ", ".join("%d %s" % (n, k) for k, n in sorted(kinds.items()))))


main()
