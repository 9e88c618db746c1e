#!/usr/bin/env python3
"""Transforms random models, and what it printed again: the second text has to be the first one, byte for byte.

Usage: bench/again.py [ACCEPTED] [SEED]     (after `./modpath transform examples/one.mod`, which builds the program)
"""
import os
import random
import subprocess
import sys
import tempfile

TOP = os.path.dirname(os.path.dirname(os.path.realpath(__file__)))
PROGRAM = os.path.join(TOP, "crates", "modpath", "out", "modpath")


class Model:
    """A random model: names, parameters with values, locals and equations."""

    def __init__(self, rng):
        self.rng = rng
        self.endogenous = [f"x{i}" for i in range(rng.randint(1, 4))]
        self.exogenous = [f"e{i}" for i in range(rng.randint(0, 2))]
        self.parameters = [f"p{i}" for i in range(rng.randint(0, 2))]
        self.locals = []

    def shift(self):
        k = self.rng.choice([0, 0, 0, 1, -1, 2, -2, 3, -4, 7, -9])
        return "" if k == 0 else f"({k:+d})" if self.rng.random() < 0.8 else f"({k})"

    def leaf(self):
        kind = self.rng.random()
        if kind < 0.45:
            return self.rng.choice(self.endogenous) + self.shift()
        if kind < 0.6 and self.exogenous:
            return self.rng.choice(self.exogenous) + self.shift()
        if kind < 0.7 and self.parameters:
            return self.rng.choice(self.parameters)
        if kind < 0.85 and self.locals:
            return self.rng.choice(self.locals)
        return self.rng.choice(["0", "1", "2", "0.5", "1.50", "3e-2", "007"])

    def expression(self, depth):
        if depth == 0 or self.rng.random() < 0.2:
            return self.leaf()
        form = self.rng.randrange(9)
        a, b = self.expression(depth - 1), self.expression(depth - 1)
        if form < 4:
            return f"({a}){'+-*/'[form]}({b})"
        if form == 4:
            return f"-({a})"
        if form == 5:
            return f"({a})^{self.rng.choice(['2', '-1', '(1+2)', '0'])}"
        if form == 6:
            return f"{self.rng.choice(['min', 'max'])}({a}, {b})"
        if form == 7:
            return f"diff({a})"
        return f"{a} {self.rng.choice('+-*/')} {self.leaf()}"

    def text(self):
        lines = [f"var {' '.join(self.endogenous)};"]
        if self.exogenous:
            lines.append(f"varexo {' '.join(self.exogenous)};")
        if self.parameters:
            lines.append(f"parameters {' '.join(self.parameters)};")
            lines += [f"{p} = {self.rng.choice(['1/3', '2', '-0.25', '7'])};" for p in self.parameters]
        lines.append("model;")
        for i, _ in enumerate(self.endogenous):
            if self.rng.random() < 0.5:
                value = self.expression(2)
                lines.append(f"# g{i} = {value};")
                self.locals.append(f"g{i}")
            tag = self.rng.choice(["", f"[name='eq {i}'] ", f"[note='n',name=\"it's {i}\"] "])
            lines.append(f"{tag}{self.expression(3)} = {self.expression(3)};")
        lines.append("end;")
        return "\n".join(lines) + "\n"


def transformed(text, folder):
    path = os.path.join(folder, "m.mod")
    with open(path, "w", encoding="ascii") as file:
        file.write(text)
    ran = subprocess.run([PROGRAM, "transform", "m.mod"], cwd=folder, capture_output=True, check=False)
    return ran.returncode, ran.stdout.decode("ascii")


def main():
    wanted = int(sys.argv[1]) if len(sys.argv) > 1 else 2000
    rng = random.Random(int(sys.argv[2]) if len(sys.argv) > 2 else 1)
    accepted = refused = auxiliaries = 0
    with tempfile.TemporaryDirectory() as folder:
        while accepted < wanted:
            text = Model(rng).text()
            status, once = transformed(text, folder)
            if status != 0:
                refused += 1
                continue
            accepted += 1
            auxiliaries += once.count("AUX_") > 0
            again = transformed(once, folder)
            if again != (0, once):
                sys.exit(f"differs, status {again[0]}:\n{text}\n{once}\n{again[1]}")
    print(f"{accepted} texts transformed twice, {auxiliaries} with auxiliaries, {refused} refused: no difference")


if __name__ == "__main__":
    main()
