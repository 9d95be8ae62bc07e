#!/usr/bin/env python3
"""What each file is about, made from the comments in src/ and specs/.

  bench/files.py CRATE..    prints it of these crates
  bench/files.py            prints it of all, in the order of crates.txt

Of a crate first what it is by its `lib.rt` or `main.rt`, then each file of its `src/`, with the file of `specs/` that has the same
name behind it, and then the other files of `specs/`, but for `Lib.antt`, which names them. A file of src/ says it by the first
sentence of its `//!` comment, or else of the doc comment of its main item: the one of the file's name, or else the first, a public
one before others and a constant last. One of specs/ says it by that of its first `--` comment.
"""
import os
import re
import sys

sys.dont_write_bytecode = True
from definitions import ROOT, finish

ITEM = re.compile(r"(pub(?:\([a-z]+\))? )?(const (?!fn)|(?:const )?fn |struct |enum |trait |type )(\w+)")


def sentence(text):
    """The first sentence: up to a full stop before a space, outside code, quotes and brackets. Its stop is left out."""
    depth, code, quoted = 0, False, False
    for at, char in enumerate(text):
        code ^= char == "`"
        quoted ^= char == '"' and not code
        if not code and not quoted:
            depth += (char == "(") - (char == ")")
            if char == "." and depth == 0 and text[at + 1:at + 2] in ("", " "):
                return text[:at]
    return text


def comment(lines, mark):
    """The comment that these lines begin with, up to its first empty line."""
    text = []
    for line in lines:
        if not line.startswith(mark) or not line[len(mark):].strip():
            break
        text.append(line[len(mark):].strip())
    return " ".join(text)


def about_source(lines, name):
    best = (9, "")
    for at, line in enumerate(lines):
        if line.startswith("//!"):
            return sentence(comment(lines[at:], "//!"))
        if line.startswith("///") and not (at and lines[at - 1].startswith("///")):
            item = next((found for found in map(ITEM.match, lines[at:]) if found), None)
            if item:
                rank = 2 * (item[2] == "const ") + (item[1] is None) - (item[3].lower() == name)
                if rank < best[0]:
                    best = rank, f"`{item[3]}`: {sentence(comment(lines[at:], '///'))}"
    return best[1]


def about_definitions(lines, _name):
    return next((sentence(comment(lines[at:], "--")) for at, line in enumerate(lines) if line.startswith("-- ")), "")


def files(folder, end, about, silent):
    """The files below a folder that end so, by their path below it, each with what it is about."""
    found = {}
    for top, _, names in os.walk(folder):
        for name in names:
            if name.endswith(end) and name != "Lib.antt":
                path = os.path.join(top, name)
                with open(path, encoding="utf-8") as file:
                    text = about(file.read().split("\n"), name.removesuffix(end).replace("_", ""))
                if not text:
                    silent.append(path)
                found[os.path.relpath(path, folder)] = text
    return found


def crate_part(crate, silent):
    sources = files(f"crates/{crate}/src", ".rt", about_source, silent)
    specs = files(f"crates/{crate}/specs", ".antt", about_definitions, silent)
    own = sources.pop("lib.rt", "") or sources.pop("main.rt", "")
    rows = [f"- **{crate}**: {own}"]
    alike = {name.removesuffix(".antt").lower() + ".rt": name for name in specs}
    for name in sorted(sources):
        row = f"  - `{name}`: {sources[name]}"
        spec = alike.get(name.replace("_", ""))
        if spec:
            row += f". `specs/{spec}`: {specs.pop(spec)}"
        rows.append(row)
    return rows + [f"  - `specs/{name}`: {specs[name]}" for name in sorted(specs)]


def main():
    os.chdir(ROOT)
    asked, known, complaints, heading = sys.argv[1:], [], [], ""
    with open("crates.txt", encoding="utf-8") as file:
        for line in file:
            crate = line.split("#")[0].split(":")[0].strip()
            if line.startswith("#"):
                heading = line.strip("#. \n")
            elif crate:
                known.append(crate)
                if not asked and heading:
                    print(f"\n## {heading}\n" if len(known) > 1 else f"## {heading}\n")
                    heading = ""
                if not asked or crate in asked:
                    print("\n".join(crate_part(crate, complaints)))
    silent = [f"a file that doesn't say what it is about: {path}" for path in complaints]
    finish(silent + [f"no crate of crates.txt has the name {name}" for name in asked if name not in known])


main()
