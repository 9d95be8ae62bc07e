#!/usr/bin/env python3
"""The pages of the manual, made from docs/OPERATING.md, crates/swiftd/README.md and the words of the programs: writes
packaging/s3gate/s3gate.1 and packaging/swiftd/swiftd.1.

  packaging/man.py            writes the pages
  packaging/man.py --check    says whether they are what it would write, and whether CHANGES.md begins with the version
                              that crates/s3gate/src/version.rt has

A table is found by the row of its names, and a paragraph by its first words, so these may be ordered as their readers want. Where
one isn't there any more, or a page lacks a variable that its program reads, nothing is written.
"""
import os
import re
import sys

ROOT = os.path.dirname(os.path.dirname(os.path.abspath(__file__)))


def fail(text):
    sys.exit(f"man.py: {text}")


def read(path):
    with open(os.path.join(ROOT, path), encoding="utf-8") as file:
        return file.read()


def release():
    """The version, and the day that CHANGES.md gives it in its first heading."""
    version = re.search(r'VERSION: &\[u8\] = b"(\S+)";', read("crates/s3gate/src/version.rt"))[1]
    heading = re.search(r"^## (\S+), (\d{4}-\d{2}-\d{2})$", read("CHANGES.md"), re.M)
    if not heading or heading[1] != version:
        fail(f"the first heading of CHANGES.md isn't `## {version}, YEAR-MONTH-DAY`")
    return version, heading[2]


def table(page, names):
    """The rows below a row of names, each a list of its cells."""
    _, found, rest = read(page).partition(f"\n| {' | '.join(names)} |\n|{'---|' * len(names)}\n")
    if not found:
        fail(f"{page} has no table of {', '.join(names)}")
    lines = rest.split("\n\n", 1)[0].splitlines()
    return [[cell.strip() for cell in line.strip().strip("|").split(" | ")] for line in lines]


def paragraph(page, first):
    """The paragraph that begins with these words."""
    for block in read(page).split("\n\n"):
        if block.startswith(first):
            return block
    return fail(f"{page} has no paragraph that begins with: {first}")


def roff(text):
    """A text as the lines of a page: code and strong words bold, a link its words alone."""
    text = re.sub(r"\[([^][]*)\]\([^()]*\)", r"\1", text).replace("\\", r"\e")
    pieces = re.split(r"(`[^`]*`|\*\*[^*]*\*\*)", text)
    out = "".join(f"\\fB{re.sub('[`*]', '', piece).replace('-', chr(92) + '-')}\\fR" if piece[:1] in ("`", "*") else piece for piece in pieces)
    return re.sub(r"^([.'])", r"\\&\1", re.sub(r"\s*\n\s*", " ", out))


def items(rows):
    """A list: each word with what it means."""
    return [line for word, text in rows for line in (".TP", roff(word), roff(text))]


def page(name, about, source, version, day, sections):
    """A whole page."""
    lines = [rf'.\" Made by packaging/man.py from {source}: change that.', f'.TH {name.upper()} 1 {day} "s3gate {version}" "User Commands"']
    lines += [".SH NAME", f"{name} \\- {about}"]
    for title, text in sections:
        lines += [f".SH {title}", *(text[1:] if text[0] == ".PP" else text)]
    return "\n".join(lines) + "\n"


def synopsis(words):
    """The forms of a command line, each a line of its own."""
    return [line for form in words for line in (roff(f"`{form}`"), ".br")][:-1]


def text_of(blocks):
    """Paragraphs, below a heading or a list."""
    return [line for block in blocks for line in (".PP", roff(block))]


def s3gate(version, day):
    operating = "docs/OPERATING.md"
    words = [row[0].strip("`") for row in table("crates/gateway_cli/README.md", ["words", "command"])]
    given = table(operating, ["what", "meaning"])
    statuses = table(operating, ["status", "what is reported", "meaning"])
    return page("s3gate", "S3 gateway to OpenStack Swift", operating, version, day, [
        ("SYNOPSIS", synopsis([f"s3gate {form}" for form in words])),
        ("DESCRIPTION", text_of(read(operating).split("\n\n")[1:2])),
        ("OPTIONS", items(row for row in given if row[0].startswith("`--"))),
        ("ENVIRONMENT", items(row for row in given if not row[0].startswith("`--"))),
        ("THE KEY FILE", text_of([paragraph(operating, "The key file has a line")])),
        ("A SWEEP", text_of([paragraph(operating, "**Stop `serve` before a sweep")])),
        ("THE LOG", [
            *text_of([paragraph(operating, "`serve` writes a line")]), *items(table(operating, ["field", "meaning"])),
            *text_of([paragraph(operating, "The store has lines")]), *items(table(operating, ["cause", "meaning"]))]),
        ("EXIT STATUS", items((f"`{status}`", f"{meaning}. Reported: {told}.") for status, told, meaning in statuses)),
        ("SEE ALSO", [r"\fBswiftd\fR(1), and in /usr/share/doc/s3gate: OPERATING.md, on all that a service wants, and examples."]),
    ])


def swiftd(version, day):
    operating, own = "docs/OPERATING.md", "crates/swiftd/README.md"
    about = paragraph(own, "`swiftd --token")
    same = {row[0].strip("`"): row[1] for row in table(operating, ["what", "meaning"])}
    rows = [(f"`SWIFTD_{word}`", re.sub(r"^(`\w+`(, )?)+: ", "", same[f"S3GATE_{word}"]).replace("`serve`", "`swiftd`"))
            for word in ("LISTEN", "IDLE", "AHEAD", "LOG")]
    files = [paragraph(own, it) for it in ("**What is on the disk.**", "**For what size.**", "**Backup.**", "**Nothing but swiftd may write")]
    causes = [(cause, f"{meaning}.") for cause, meaning in table(own, ["cause", "what it means"])]
    return page("swiftd", "small Swift store in memory or in a file, for s3gate", own, version, day, [
        ("SYNOPSIS", synopsis([about.split("`")[1]])),
        ("DESCRIPTION", text_of([about])),
        ("ENVIRONMENT", items(rows)),
        ("FILES", text_of(files)),
        ("DIAGNOSTICS", items(causes)),
        ("SEE ALSO", [r"\fBs3gate\fR(1)"]),
    ])


def variables(name):
    """The variables that a program reads."""
    folder = f"crates/{name}/src"
    code = "".join(read(f"{folder}/{file}") for file in sorted(os.listdir(os.path.join(ROOT, folder))))
    return sorted(set(re.findall(r'"((?:S3GATE|SWIFTD)_[A-Z_]+)"', code)))


def main():
    if sys.argv[1:] not in ([], ["--check"]):
        sys.exit(__doc__.strip())
    version, day = release()
    for name, text in (("s3gate", s3gate(version, day)), ("swiftd", swiftd(version, day))):
        for variable in variables(name):
            if rf"\fB{variable}\fR" not in text:
                fail(f"{name}.1 would lack {variable}")
        path = f"packaging/{name}/{name}.1"
        if not sys.argv[1:]:
            with open(os.path.join(ROOT, path), "w", encoding="utf-8") as file:
                file.write(text)
        elif not os.path.exists(os.path.join(ROOT, path)) or read(path) != text:
            fail(f"{path} isn't true of what it is made from: run packaging/man.py")


if __name__ == "__main__":
    main()
