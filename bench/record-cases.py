#!/usr/bin/env python3
"""Writes cases of the texts that are kept beside objects: records of uploads, and completions that are sealed.

    bench/record-cases.py > crates/cases/data/upload_texts.txt

What each text reads as comes from the reader below, which knows only what this profile says of them (docs/PROFILE.md): compact
JSON with the names of an object in byte order, each field within its limits, and no spelling but the writer's own. Python's json
writes and parses; nothing is taken from the program. The texts are each kind and version, each field at and past its form, other
spellings of the same value, what is left when a text is cut, and texts of which a byte was changed by chance.
"""
import json
import random
import re

MOMENT_LIMIT = 253402300800
MOST_PARTS = 10000
MOST_BODY = 1073741824
KEPT = ["cache-control", "content-disposition", "content-encoding", "content-language", "expires"]
HEX32 = re.compile(r"[0-9a-f]{32}")
OBJECT_ETAG = re.compile(r"[0-9a-f]{32}(-([1-9]\d{0,3}|10000))?", re.ASCII)
HELLO = "5d41402abc4b2a76b9719d911017c592"
WORLD = "7d793037a0760186574b0282f2f435e7"
JOINED = "0123456789abcdef0123456789abcdef-2"


# ---- the reader


class NotOne(Exception):
    """A text that is none of its kind."""


def ask(holds):
    if not holds:
        raise NotOne


def is_moment(value):
    return type(value) is int and 0 <= value < MOMENT_LIMIT


def is_key(value):
    return type(value) is str and 1 <= len(value.encode()) <= 1024 and "\0" not in value


def is_printable(text):
    return all(32 <= ord(c) < 127 for c in text)


def is_type(value):
    return type(value) is str and 1 <= len(value) <= 256 and is_printable(value) and value == value.strip(" ")


def is_bucket(value):
    if type(value) is not str or not re.fullmatch(r"[a-z0-9][a-z0-9.-]{1,61}[a-z0-9]", value, re.ASCII):
        return False
    return ".." not in value and not re.fullmatch(r"\d{1,3}(\.\d{1,3}){3}", value, re.ASCII)


def is_meta_name(name):
    return bool(re.fullmatch(r"-[a-z0-9!#$%&'*+.^_`|~-]*", name, re.ASCII)) or name in KEPT


def meta_of(value):
    """The entries of metadata."""
    ask(type(value) is list and all(type(pair) is list and len(pair) == 2 for pair in value))
    for name, text in value:
        ask(type(name) is str and type(text) is str and is_meta_name(name) and is_printable(text))
    names = [name for name, _ in value]
    ask(names == sorted(set(names)) and len(names) <= 64)
    ask(sum(len(name.removeprefix("-")) + len(text) for name, text in value) <= 2048)
    return value


def parts_of(value, width):
    """The parts of a completion: each its number, its ETag, and where it has three its size."""
    ask(type(value) is list and 1 <= len(value) <= MOST_PARTS)
    for part in value:
        ask(type(part) is list and len(part) == width)
        ask(type(part[0]) is int and 1 <= part[0] <= 1000)
        ask(type(part[1]) is str and HEX32.fullmatch(part[1]))
        ask(width == 2 or (type(part[2]) is int and 0 <= part[2] <= MOST_BODY))
    return value


def is_object_etag(value):
    return type(value) is str and bool(OBJECT_ETAG.fullmatch(value))


def shown(text):
    """Bytes as the program prints them."""
    data = text.encode() if type(text) is str else text
    return '"' + "".join(chr(b) if 32 <= b < 127 and b not in b'"\\' else f"\\{b:02x}" for b in data) + '"'


def shown_meta(meta):
    pairs = ", ".join(f"Pair {{ name: {shown(name)}, value: {shown(value)} }}" for name, value in meta)
    return f"Meta {{ alloc: Global, entries: [{pairs}] }}"


def open_record(value):
    ask(list(value) == ["at", "key", "meta", "state", "type", "v"] and value["v"] == 1)
    ask(is_moment(value["at"]) and is_key(value["key"]) and is_type(value["type"]))
    meta = shown_meta(meta_of(value["meta"]))
    return f"Open {{ key: {shown(value['key'])}, content_type: {shown(value['type'])}, meta: {meta}, started: {value['at']} }}"


def done_record(value):
    ask(value["v"] in (1, 2))
    ask(list(value) == ["at", *(["done"] if value["v"] == 2 else []), "etag", "key", "list", "state", "v"])
    ask(is_moment(value["at"]) and is_key(value["key"]) and is_object_etag(value["etag"]) and is_moment(value.get("done", 0)))
    parts = ", ".join(f"Listed {{ number: {number}, etag: {shown(etag)} }}" for number, etag in parts_of(value["list"], 2))
    moment = f"Some({value['done']})" if value["v"] == 2 else "None"
    return f"Done {{ key: {shown(value['key'])}, list: [{parts}], etag: {shown(value['etag'])}, started: {value['at']}, moment: {moment} }}"


def record(value):
    ask(value.get("state") in ("open", "done") and type(value.get("v")) is int)
    return open_record(value) if value["state"] == "open" else done_record(value)


def sealed(value):
    ask(list(value) == ["at", "bucket", "etag", "id", "key", "list", "meta", "started", "type", "v"])
    ask(type(value["v"]) is int and value["v"] == 1 and is_moment(value["at"]) and is_moment(value["started"]))
    ask(is_bucket(value["bucket"]) and is_key(value["key"]) and is_object_etag(value["etag"]) and is_type(value["type"]))
    ask(type(value["id"]) is str and HEX32.fullmatch(value["id"]))
    meta = shown_meta(meta_of(value["meta"]))
    parts = ", ".join(
        f"SealedPart {{ number: {number}, etag: {shown(etag)}, size: {size} }}" for number, etag, size in parts_of(value["list"], 3)
    )
    return (
        f"Sealed {{ bucket: {shown(value['bucket'])}, key: {shown(value['key'])}, id: {int(value['id'], 16)}, "
        f"content_type: {shown(value['type'])}, meta: {meta}, list: [{parts}], etag: {shown(value['etag'])}, "
        f"started: {value['started']}, moment: {value['at']} }}"
    )


VERBS = {"record": (record, (1, 2)), "sealed": (sealed, (1,))}


def no_constant(word):
    raise ValueError(word)


def text_of(value):
    """The one text of a value."""
    return json.dumps(value, separators=(",", ":"), ensure_ascii=False, sort_keys=True).encode()


def reading(verb, data):
    """The lines that are expected of a text."""
    read, versions = VERBS[verb]
    try:
        value = json.loads(data.decode(), parse_constant=no_constant)
    except ValueError:
        return ["= Err(NotARecord)"]
    if type(value) is not dict:
        return ["= Err(NotARecord)"]
    version = value.get("v")
    if type(version) is int and 0 <= version < 2**64 and version not in versions:
        return [f"= Err(Version({version}))"]
    try:
        found = read(value)
        ask(text_of(value) == data)
    except NotOne:
        return ["= Err(NotARecord)"]
    return [f"= Ok({found})", "= the same text"]


# ---- the texts


def given(data):
    """The lines that give these bytes; what comes many times in a row is given by one."""
    try:
        text = data.decode()
    except UnicodeDecodeError:
        return [f">x {data.hex()}"]
    if not all(32 <= ord(c) and ord(c) != 127 for c in text):
        return [f">x {data.hex()}"]
    lines = []
    while found := re.search(r'(\[1,"[0-9a-f]{32}"(?:,5)?\],|ü|\w|~)\1{40,}', text):
        lines += spelled_out(text[: found.start()]) + [f">* {len(found[0]) // len(found[1])} {found[1]}"]
        text = text[found.end() :]
    return lines + spelled_out(text)


def spelled_out(text):
    if not text:
        return []
    return [f">x {text.encode().hex()}"] if text != text.rstrip() else [f">. {text}"]


def case(verb, data):
    return [verb, *given(data), *reading(verb, data)]


def with_field(value, name, new):
    return {**value, name: new}


def without(value, name):
    return {key: field for key, field in value.items() if key != name}


OPEN = {"at": 1369353600, "key": "v.bin", "meta": [], "state": "open", "type": "binary/octet-stream", "v": 1}
DONE = {"at": 1369353600, "etag": JOINED, "key": "v.bin", "list": [[1, HELLO], [3, WORLD]], "state": "done", "v": 1}
DATED = {**DONE, "done": 1369353700, "v": 2}
SEALED = {
    "at": 1369353700,
    "bucket": "photos",
    "etag": JOINED,
    "id": f"{10:032x}",
    "key": "v.bin",
    "list": [[1, HELLO, 5], [3, WORLD, 5]],
    "meta": [],
    "started": 1369353600,
    "type": "binary/octet-stream",
    "v": 1,
}
ALL = [("record", OPEN), ("record", DONE), ("record", DATED), ("sealed", SEALED)]

MOMENTS = [0, MOMENT_LIMIT - 1, MOMENT_LIMIT, -1, 2**63, 2**64, 1.5, "1369353600", True, None, [], {}]
KEYS = ["k", "a b/ü%€𝄞", '"\\/', "\x01\n\t\x1f\x7f", "k" * 1024, "ü" * 512, "", "k" * 1025, "ü" * 512 + "k", "a\0b", 1, None, ["k"]]
TYPES = ["text/plain;s3=x", "a", "a b", "~" * 256, "", "~" * 257, " a", "a ", "a\tb", "a\x7f", "ü", 1, None]
FULL = [[f"-{number:02}", "v" * 30] for number in range(63)] + [["expires", "x" * 19]]
METAS = [
    [["-", ""]],
    [["-", "0"], ["--", "1"], ["-a", " x "], ["-a!#$%&'*+-.^_`|~", '"\\'], ["cache-control", "no-cache"], ["expires", "0"]],
    [[name, "1"] for name in KEPT],
    [["-" + "n" * 1000, "v" * 1048]],
    FULL,
    [["-" + "n" * 1000, "v" * 1049]],
    [*FULL[:-1], ["expires", "x"], ["-z", ""]],
    [[f"-{number:02}", ""] for number in range(65)],
    [["-a", "1"], ["-a", "1"]],
    [["-b", "1"], ["-a", "1"]],
    [["a", "1"]],
    [["", "1"]],
    [["-A", "1"]],
    [["-a b", "1"]],
    [["-ü", "1"]],
    [["Expires", "1"]],
    [["-a", "ü"]],
    [["-a", "\n"]],
    [["-a", "\x7f"]],
    [["-a"]],
    [["-a", "1", "2"]],
    [["-a", 1]],
    [[1, "a"]],
    ["-a"],
    [{"-a": "1"}],
    {"-a": "1"},
    "",
    None,
]
ETAGS = [HELLO, HELLO + "-1", HELLO + "-10000", HELLO + "-0", HELLO + "-01", HELLO + "-10001", HELLO + "-", HELLO[:-1], HELLO + "0", HELLO.upper(), f'"{HELLO}"', "", 1, None]
NUMBERS = [1, 1000, 0, 10001, -1, 2**32 + 1, 2**64, 1.0, "1", None]
PART_ETAGS = [HELLO, HELLO + "-1", HELLO[:-1], HELLO + "0", HELLO.upper(), "g" * 32, "", 1]
SIZES = [0, MOST_BODY, MOST_BODY + 1, -1, 1.0, "5", None]
VERSIONS = [0, 2, 3, 10, 2**32, 2**64 - 1, 2**64, -1, 1.0, 1.5, "1", True, None, []]
BUCKETS = ["abc", "a" * 63, "192.168.0.1.a", "ab", "a" * 64, "Photos", "a..b", "192.168.0.1", "photos+uploads", "-ab", "", 1]
IDS = ["0" * 32, "f" * 32, "F" * 32, "0" * 31, "0" * 33, "", "-", 10, None]


def lists_of(widen):
    """Lists of parts, each made of a number and an ETag by `widen`."""
    one = widen(1, HELLO)
    lists = [[one], [widen(2, HELLO), one], [one, one], [widen(number, WORLD) for number in range(1, 11)], [], [one] * 10001]
    lists += [[widen(number, HELLO)] for number in NUMBERS] + [[widen(1, etag)] for etag in PART_ETAGS]
    return lists + [[one[:-1]], [[*one, 5]], [[]], [HELLO], [{"number": 1}], [one, None], "", None, {}]


def wide(number, etag):
    return [number, etag, 5]


def narrow(number, etag):
    return [number, etag]


FIELDS = [
    ("record", OPEN, {"at": MOMENTS, "key": KEYS, "meta": METAS, "type": TYPES, "v": VERSIONS, "state": ["Open", "opened", "", 1, None]}),
    ("record", DONE, {"at": MOMENTS[:6], "key": KEYS[5:9], "etag": ETAGS, "list": lists_of(narrow), "v": VERSIONS, "state": ["Done", "kept", None]}),
    ("record", DATED, {"at": MOMENTS[:4], "done": MOMENTS, "etag": ETAGS[1:4], "list": lists_of(narrow)[:8], "v": VERSIONS}),
    (
        "sealed",
        SEALED,
        {
            "at": MOMENTS,
            "started": MOMENTS,
            "bucket": BUCKETS,
            "key": KEYS,
            "type": TYPES,
            "meta": METAS,
            "etag": ETAGS,
            "id": IDS,
            "list": lists_of(wide) + [[[1, HELLO, size]] for size in SIZES],
            "v": VERSIONS,
        },
    ),
]


def by_fields(verb, value, fields):
    """Each value of each field, and the text without it."""
    for name, values in fields.items():
        for new in values:
            yield case(verb, text_of(with_field(value, name, new)))
        yield case(verb, text_of(without(value, name)))


def spelled(value):
    """Other spellings of a value, none of which is the writer's."""
    text = text_of(value).decode()
    members = [json.dumps(name) + ":" + text_of(field).decode() for name, field in sorted(value.items())]
    yield json.dumps(value, ensure_ascii=False, sort_keys=True)
    yield text + "\n"
    yield " " + text
    yield "\ufeff" + text
    yield "{" + ",".join(reversed(members)) + "}"
    yield "{" + ",".join(members[1:] + members[:1]) + "}"
    yield "{" + ",".join(members + members[:1]) + "}"
    yield "{" + ",".join(['"at":0'] + members) + "}"
    yield "{" + ",".join(members + ['"z":0']) + "}"
    yield "{" + ",".join(['"":0'] + members) + "}"
    yield text.replace("v.bin", "v\\u002ebin")
    yield text.replace("v.bin", "v.bin\\/")
    yield text.replace('"key"', '"k\\u0065y"')
    yield text.replace("1369353600", "1369353600.0")
    yield text.replace("1369353600", "1.3693536e9")
    yield text.replace("1369353600", "01369353600")
    yield text.replace("1369353600", "+1369353600")
    yield text.replace('"v":', '"v":0')
    yield text + text
    yield text + "0"
    yield text + ","
    yield f"[{text}]"
    yield text.replace('"', "'")


def escapes():
    """A key with each way to escape a character that has several: one of them is the writer's."""
    for spelling in ["\\n", "\\u000a", "\\u000A", "\\b", "\\u0008", "\\u001f", "\\u001F", "\\u007f", "\x7f", '\\"', "\\u0022", "\\\\", "/", "\\/", "ü", "\\u00fc", "\\ud834\\udd1e", "𝄞"]:
        yield text_of(OPEN).decode().replace("v.bin", spelling)


def cut(value):
    """What is left of a text that is cut."""
    text = text_of(value)
    places = sorted({0, 1, 2, len(text) - 1, len(text) - 2} | set(range(5, len(text), 9)))
    return [text[:place] for place in places]


def changed(chance, value):
    """A text of which a byte was changed, left out or put in by chance."""
    text = bytearray(text_of(value))
    at = chance.randrange(len(text))
    byte = chance.choice([*b'0123456789abcdef"\\,:[]{}', chance.randrange(256)])
    how = chance.randrange(4)
    if how == 0:
        del text[at]
    elif how == 1:
        text.insert(at, byte)
    else:
        text[at] = byte
    return bytes(text)


OTHERS = [b"", b"null", b"[]", b"{}", b'""', b"0", b"{", b'{"v":1}', b'{"v":2}', b'{"v":3}', b' {"v" : 3 } ', b'{"v":3,"v":1}', b'{"v":1,"v":3}', b'{"V":3}', b'[{"v":3}]', b'{"v":03}', b'{"v":3}x', b'{"v":3,"k":"\xff"}', b"\xff"]


def group(source, cases):
    """The lines of cases below a comment that says what they are."""
    return [f"# {source}", *(line for lines in cases for line in lines), ""]


def main():
    chance = random.Random(1)
    lines = [
        "# Records of uploads, and completions that are sealed: written by bench/record-cases.py, which says where the readings come",
        "# from. Of a text that reads as a value that value is told, and that the text which is written of it is the same.",
        "",
    ]
    lines += group("Each kind and version.", [case(verb, text_of(value)) for verb, value in ALL])
    lines += group("A record is no sealed completion, and the other way round.", [case("sealed", text_of(value)) for value in (OPEN, DONE, DATED)] + [case("record", text_of(SEALED))])
    for verb, value, fields in FIELDS:
        lines += group(f"A {verb} {value.get('state', '')} of version {value['v']}: each field at and past its form.".replace("  ", " "), by_fields(verb, value, fields))
    for verb, value in ALL:
        lines += group("Other spellings of the same.", [case(verb, text.encode()) for text in spelled(value)])
    lines += group("Characters that may be escaped in more ways than one.", [case("record", text.encode()) for text in escapes()])
    for verb, value in ALL:
        lines += group("Cut short.", [case(verb, text) for text in cut(value)])
    for verb in VERBS:
        lines += group("Texts of another form.", [case(verb, text) for text in OTHERS])
    for verb, value in ALL:
        lines += group("A byte changed by chance.", [case(verb, changed(chance, value)) for _ in range(60)])
    print("\n".join(lines[:-1]))


main()
