#!/usr/bin/env python3
"""Writes what the cases of crates/cases are to print, from the lines that their files expect.

    bench/expect.py             writes crates/cases/stdout
    bench/expect.py --check     writes nothing; the status is 1 where stdout is not what it would write

It looks at the data alone and never at what the program prints. It refuses, with status 1: a case without a comment above it
that says where its expectation comes from, a case without an expected line, a line that is none of the notation, a file of
data/ that args doesn't name, and a file that isn't there. docs/TESTING.md has the notation.
"""
import os
import re
import sys

CRATE = os.path.join(os.path.dirname(os.path.abspath(__file__)), "..", "crates", "cases")

# The lines that a whole run may be given, by their first word, with the form of what follows.
NUMBERS = r"\d+( \d+)*"
GIVEN = {
    "words": r".*", "key": r"\S+ \S+", "nokeys": r"", "keytext": r".*", "pieces": NUMBERS, "clock": NUMBERS,
    "before": NUMBERS, "after": NUMBERS, "stop": r"\d+", "fails": NUMBERS, "unreported": NUMBERS, "connection": r"",
    "sweep": r"", "probe": r"", "nomodel": r"", "brief": r"", "whole": NUMBERS, "etags": NUMBERS,
    "tell": r"calls|left|objects|bodies",
}
# Those that may stand more than once in a case, and those below which lines `>` stand.
OFTEN = {"key", "connection", "tell", "file", "typed", "manifest", "files"}
# The form of a line of a setup that puts a file on its account: container, name and bytes; or container, name, type, and bytes or
# segments.
FILE = re.compile(r"file \S+ \S+ .*|(typed|manifest) \S+ \S+ \S+ .*|files \S+ [0-9]+ \S+ .*")
TAKES_BYTES = {"setup", "connection", "probe"}
BYTES = re.compile(r">|>[.n]? .+|>\* \d+ .+|>x ([0-9a-fA-F]{2})+|>~ \d{8}T\d{6}Z \S+ [0-9a-f]{64}")
VERB = re.compile(r"[a-z][a-z0-9-]*( .+)?")


class Case:
    """A case: its first line, the words of the lines that are given to it, the lines that are expected of it, and whether it is a run
    of the command `sweep`."""

    def __init__(self, where, line):
        self.where = where
        self.first = line
        self.words = [line.partition(" ")[0]]
        self.expected = []
        self.sweeps = False

    def is_run(self):
        return self.first == "setup" or self.first.startswith("case ")

    def has(self, line):
        """Whether a line that isn't expected belongs to this case, and begins no other."""
        return not self.expected and (self.is_run() or line.startswith(">")) and not line.startswith("case ") and line != "setup"

    def give(self, line):
        """Why a line can't be given to this case, or None."""
        if line.startswith(">"):
            if not BYTES.fullmatch(line):
                return "no line of bytes"
            return "a line of bytes below no line that takes it" if self.is_run() and self.words[-1] not in TAKES_BYTES else None
        word, _, text = line.partition(" ")
        if self.first == "setup" and FILE.fullmatch(line):
            self.words.append(word)
            return None
        if (self.first == "setup" and word not in {"words", "clock"}) or word not in GIVEN or not re.fullmatch(GIVEN[word], text):
            return "no line that a run is given"
        if word in self.words and word not in OFTEN:
            return "a word that stands twice in a case"
        self.words.append(word)
        self.sweeps = self.sweeps or (word == "words" and text.split(" ")[0] == "sweep")
        return None


def read_line(where, line, is_sourced, cases, faults):
    """A line that is neither empty nor a comment."""
    if line == "=" or line.startswith("= "):
        if cases:
            cases[-1].expected.append(line)
        else:
            faults.append(f"{where}: an expected line of no case")
    elif cases and cases[-1].has(line):
        fault = cases[-1].give(line)
        if fault:
            faults.append(f"{where}: {fault}")
    else:
        if not is_sourced:
            faults.append(f"{where}: a case without a source above it or its group")
        if not VERB.fullmatch(line) or line == "case":
            faults.append(f"{where}: none of the notation")
        cases.append(Case(where, line))


def read(name, text, faults):
    """The cases of a file."""
    cases, is_sourced = [], False
    for at, line in enumerate(text.split("\n"), 1):
        where = f"{name}:{at}"
        if line != line.rstrip():
            faults.append(f"{where}: a line that ends in a space")
        if line.startswith("#"):
            is_sourced = True
        elif line:
            read_line(where, line, is_sourced, cases, faults)
    for case in cases:
        if not case.expected:
            faults.append(f"{case.where}: a case without an expected line")
        if "sweep" in case.words and "probe" not in case.words:
            faults.append(f"{case.where}: a sweep without a probe")
        if "probe" in case.words and "sweep" not in case.words and not case.sweeps:
            faults.append(f"{case.where}: a probe without a sweep")
    return cases


def told(files, faults):
    """What the program is to print of these files."""
    lines = []
    for name in files:
        lines.append(f"file {name}")
        try:
            with open(f"{CRATE}/data/{name}", encoding="utf-8", newline="") as file:
                cases = read(name, file.read(), faults)
        except FileNotFoundError:
            faults.append(f"{name}: a file that isn't there")
            continue
        for case in cases:
            lines += [case.first, *case.expected]
    return "".join(line + "\n" for line in lines)


def files_by_args(faults):
    """The files that args names, which are all there are."""
    with open(f"{CRATE}/args", encoding="utf-8") as args:
        files = args.read().split("\n")[:-1]
    for name in sorted(set(os.listdir(f"{CRATE}/data")) - set(files)):
        faults.append(f"{name}: a file that args doesn't name")
    return files


def is_stored(path, text):
    try:
        with open(path, encoding="utf-8", newline="") as file:
            return file.read() == text
    except FileNotFoundError:
        return False


def main(words):
    if words not in ([], ["--check"]):
        sys.exit(__doc__)
    faults = []
    text = told(files_by_args(faults), faults)
    path = f"{CRATE}/stdout"
    if words and not is_stored(path, text):
        faults.append("stdout isn't what the cases expect: run bench/expect.py")
    if not words and not faults:
        with open(path, "w", encoding="utf-8", newline="") as file:
            file.write(text)
    for fault in faults:
        print(fault)
    return 1 if faults else 0


if __name__ == "__main__":
    sys.exit(main(sys.argv[1:]))
