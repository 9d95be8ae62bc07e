#!/usr/bin/env python3
"""The words of the contracts: each definition in crates/*/specs, with the comment above it and the functions whose clauses name it.

  bench/definitions.py WORD..    prints the definitions of these names: where each stands, its sentence, its text, and the public
                                 functions, traits and impls whose clauses name it
  bench/definitions.py           prints a list of all that such a clause names, by crate and file, without their texts

The sentence of a definition is the comment above it; one comment may stand above several definitions that follow one another. A
case of a `data` is found by its own name too, with the definition that it belongs to.
"""
import os
import re
import sys

ROOT = os.path.join(os.path.dirname(os.path.abspath(__file__)), "..")
HEAD = """# Definitions

The words of the contracts: each definition in `specs/` that a clause of a public function, of a trait or of an impl names, by crate and file, with what the comment above it says and the functions whose clauses name it. The first line of each file says where its definitions come from: RFC 9112 and RFC 9110 (HTTP), the Amazon S3 API Reference, Object Storage API v1 (Swift), or this profile.
"""
DEFINES = re.compile(r"(?:(?:abbrev|unfoldable) )?pub (?:record |data )?([^\s:({]+)")


def crates():
    with open("crates.txt", encoding="utf-8") as file:
        for line in file:
            name = line.split("#")[0].split(":")[0].strip()
            if name:
                yield name


def modules(crate):
    """The files of a crate's definitions, by the name of their module, but for the one that names the others."""
    folder = f"crates/{crate}/specs"
    for name in sorted(os.listdir(folder) if os.path.isdir(folder) else []):
        if name.endswith(".antt") and name != "Lib.antt":
            yield name.removesuffix(".antt"), f"{folder}/{name}"


def is_definition(line):
    return DEFINES.match(line) and not line.startswith(("pub mod", "pub use"))


def text_from(lines, at):
    """The definition that begins there: up to an empty line or the next definition, without the comments at its end."""
    end = at + 1
    while end < len(lines) and lines[end].strip() and not is_definition(lines[end]):
        end += 1
    while lines[end - 1].startswith("--"):
        end -= 1
    return lines[at:end]


def definitions(path):
    """The first comment of a file, and its definitions in order: of each the word, the comment above it, its line and its text."""
    with open(path, encoding="utf-8") as file:
        lines = file.read().split("\n")
    first, found, comment, fresh, at = [], [], "", False, 0
    while at < len(lines) and lines[at].startswith("--"):
        first.append(lines[at][2:].strip())
        at += 1
    for number, line in enumerate(lines[at:], at):
        if line.startswith("-- ----"):
            comment, fresh = "", True
        elif line.startswith("--"):
            text = line[2:].strip()
            comment, fresh = (text if fresh else f"{comment} {text}".strip()), False
        else:
            if is_definition(line):
                found.append((DEFINES.match(line)[1], comment, number + 1, text_from(lines, number)))
            fresh = True
    return " ".join(it for it in first if it), found


def clauses(path):
    """For each public function, trait and impl of a file its name and the text of its clauses; and the words that are brought in."""
    with open(path, encoding="utf-8") as file:
        text = file.read()
    brought = {}
    for crate, module, words in re.findall(r"ghost use Rattle\.(\w+)\.specs\.([\w.]+)\.\{([^}]*)\};", text):
        for word in words.split(","):
            old, _, new = word.strip().partition(" as ")
            brought[new or old] = crate, module, old
    owner, owned, kept = "", False, []
    inside, name, body = False, "", []
    for line in text.split("\n"):
        begun = re.match(r"(pub )?(trait|impl)\b(.*)", line)
        if begun:
            words = re.sub(r"<[^<>]*(?:<[^<>]*>)?[^<>]*>", "", begun[3].split("{")[0])
            owner = words.split(" for ")[-1].strip().split(":")[0].split()[0] if words.strip() else ""
            owned = begun[2] == "impl" and " for " in begun[3] or begun[1] is not None
        elif line == "}":
            owner, owned = "", False
        called = re.match(r"( *)(pub )?(?:const )?fn (\w+)", line)
        if called:
            public = bool(called[2]) or (bool(called[1]) and owned)
            inside, name, body = public, f"{owner}::{called[3]}" if owner and called[1] else called[3], []
        elif inside and re.match(r" *(requires|ensures)|        ", line) and "{" != line.strip():
            body.append(line)
        if inside and (line.strip() in ("{", "{}") or line.rstrip().endswith(";")):
            kept.append((name, " ".join(body)))
            inside = False
    return kept, brought


def citations():
    """Of each word, by its crate and module, the functions whose clauses name it, in order, each with its crate."""
    cited = {}
    for crate in crates():
        for top, _, names in os.walk(f"crates/{crate}/src"):
            for name in sorted(names):
                if name.endswith(".rt"):
                    kept, brought = clauses(os.path.join(top, name))
                    for function, body in kept:
                        for word in re.findall(r"[A-Za-z_][\w']*", body):
                            if word in brought:
                                places = cited.setdefault(brought[word], [])
                                if (crate, function) not in places:
                                    places.append((crate, function))
    return cited


def shown(places, crate):
    return ", ".join(f"`{function}`" if of == crate else f"`{of}`: `{function}`" for of, function in places)


def page(cited):
    missing, text = [], [HEAD]
    for crate in crates():
        parts = []
        for module, path in modules(crate):
            first, found = definitions(path)
            rows = []
            for word, comment, number, _ in found:
                places = cited.get((crate, module, word), [])
                if places:
                    if not comment:
                        missing.append(f"{path}:{number}: {word}")
                    more = f" and {len(places) - 6} more" if len(places) > 6 else ""
                    rows.append(f"- `{word}`: {comment or 'no comment'}. *{shown(places[:6], crate)}{more}*")
            if rows:
                parts.append(f"\n### {module}\n\n{first}\n\n" + "\n".join(rows) + "\n")
        if parts:
            text.append(f"\n## {crate}\n" + "".join(parts))
    return "".join(text), missing


def cases(text):
    """The names of the cases of a `data`."""
    begun = text[0].startswith("pub data ")
    return [line.split(" : ")[0].strip() for line in text[1:] if " : " in line] if begun else []


def told(word, cited):
    """What is printed of a name: each definition of it, or with a case of it."""
    parts = []
    for crate in crates():
        for module, path in modules(crate):
            for name, comment, number, text in definitions(path)[1]:
                if word == name or word in cases(text):
                    places = cited.get((crate, module, word), [])
                    by = f"In clauses of {shown(places, crate)}." if places else "In no clause of a public function, trait or impl."
                    parts.append("\n".join([f"{path}:{number}", "", f"{comment or 'no comment'}.", "", *text, "", by, ""]))
    return parts


def finish(complaints):
    """Prints what there is to complain of, and ends the program."""
    for complaint in complaints:
        print(complaint, file=sys.stderr)
    sys.exit(1 if complaints else 0)


def main():
    os.chdir(ROOT)
    cited, complaints = citations(), []
    if sys.argv[1:]:
        for word in sys.argv[1:]:
            parts = told(word, cited)
            print("\n".join(parts), end="\n" if parts and word != sys.argv[-1] else "")
            if not parts:
                complaints.append(f"no definition in crates/*/specs has the name {word}; `rt lemma {word}` looks among the toolchain's")
    else:
        text, missing = page(cited)
        print(text, end="")
        complaints = [f"a word of a contract has no comment: {place}" for place in missing]
    finish(complaints)


if __name__ == "__main__":
    main()
