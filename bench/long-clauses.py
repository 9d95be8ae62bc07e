#!/usr/bin/env python3
"""How many lines of contracts are longer than 100 columns, by crate.

    bench/long-clauses.py [CRATE..]

A contract's line is one of `crates/*/src/*.rt` in a `requires` or an `ensures`. Each crate has a line: its name, how many of its
contracts' lines are longer, of how many, and that in percent; with CRATE those crates alone, and each long line too. The last
line has the sum.
"""
import glob
import os
import re
import sys

MOST = 100
ROOT = os.path.dirname(os.path.dirname(os.path.abspath(__file__)))
BEGIN = re.compile(r"\s*(?:requires|ensures)\b")


def clause_lines(text):
    """The number and the text of each line that is in a clause: from its word to the brace that closes it."""
    depth = 0
    for number, line in enumerate(text.split("\n"), 1):
        if depth or BEGIN.match(line):
            yield number, line
            depth += line.count("{") - line.count("}")


def main():
    asked = sys.argv[1:]
    total, long_total = 0, 0
    for crate in asked or sorted(os.listdir(os.path.join(ROOT, "crates"))):
        lines = []
        for path in sorted(glob.glob(os.path.join(ROOT, "crates", crate, "src/**/*.rt"), recursive=True)):
            with open(path, encoding="utf-8") as file:
                lines += [(os.path.relpath(path, ROOT), *it) for it in clause_lines(file.read())]
        long = [it for it in lines if len(it[2]) > MOST]
        total, long_total = total + len(lines), long_total + len(long)
        if lines:
            print(f"{crate:16} {len(long):5} of {len(lines):5}  {100 * len(long) / len(lines):4.1f} %")
        if asked:
            for path, number, line in long:
                print(f"    {path}:{number}: {len(line)}: {line.strip()}")
    print(f"{'all':16} {long_total:5} of {total:5}  {100 * long_total / max(total, 1):4.1f} %")


if __name__ == "__main__":
    main()
