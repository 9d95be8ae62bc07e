#!/usr/bin/env python3
"""Writes cases of the bodies of DeleteObjects.

    bench/delete-cases.py > crates/cases/data/delete_bodies.txt

What each body is comes from the reader below, which knows only what Amazon S3 API Reference ("DeleteObjects") and this profile say of
such bodies (docs/PROFILE.md, "Bodies that are read"). Whether bytes are of the form, and how many of them can still begin a body,
is told by an automaton whose every state leads on to a body; keys are cut out of a body with Python's re and decoded by its codecs.
Nothing is taken from the program.
"""
import re

MOST_KEYS = 1000
MOST_KEY_BYTES = 1024


# ---- the form, as an automaton: states by number, steps on a byte, and steps on none


class Automaton:
    def __init__(self):
        self.steps = []
        self.free = []
        self.reach = {}

    def state(self):
        self.steps.append([])
        self.free.append([])
        return len(self.steps) - 1

    def closed(self, states):
        """These states and those that no byte is needed for."""
        found, todo = set(states), list(states)
        while todo:
            for other in self.free[todo.pop()]:
                if other not in found:
                    found.add(other)
                    todo.append(other)
        return frozenset(found)

    def after(self, states, byte):
        if (states, byte) not in self.reach:
            self.reach[states, byte] = self.closed({to for it in states for allowed, to in self.steps[it] if byte in allowed})
        return self.reach[states, byte]


def of(allowed):
    def build(machine, start, end):
        machine.steps[start].append((frozenset(allowed), end))
    return build


def but(*bytes_out):
    return of(set(range(256)) - set(b"".join(bytes_out)))


def sequence(*forms):
    def build(machine, start, end):
        for form in forms:
            middle = machine.state()
            form(machine, start, middle)
            start = middle
        machine.free[start].append(end)
    return build


def word(text):
    return sequence(*(of({byte}) for byte in text))


def either(*forms):
    def build(machine, start, end):
        for form in forms:
            form(machine, start, end)
    return build


def many(form):
    def build(machine, start, end):
        hub = machine.state()
        machine.free[start].append(hub)
        form(machine, hub, hub)
        machine.free[hub].append(end)
    return build


def up_to(most, form):
    """1 to so many of a form."""
    return sequence(form, *(either(form, sequence()) for _ in range(most - 1)))


SPACE = many(of(b" \t\r\n"))
DIGITS = b"0123456789"
REFERENCE = sequence(
    word(b"&"),
    either(
        *(word(name) for name in (b"amp", b"lt", b"gt", b"quot", b"apos")),
        sequence(word(b"#"), up_to(7, of(DIGITS))),
        sequence(word(b"#x"), up_to(6, of(DIGITS + b"abcdefABCDEF"))),
    ),
    word(b";"),
)
OBJECT = sequence(
    word(b"<Object>"), SPACE, word(b"<Key>"), many(either(but(b"<&"), REFERENCE)), word(b"</Key>"), SPACE, word(b"</Object>"), SPACE
)
QUIET = sequence(word(b"<Quiet>"), either(word(b"true"), word(b"false")), word(b"</Quiet>"), SPACE)
OBJECTS = sequence(OBJECT, many(OBJECT))
INSIDE = either(
    OBJECTS, sequence(QUIET, OBJECTS), sequence(OBJECTS, QUIET), sequence(OBJECTS, QUIET, OBJECTS)
)
# No `?>` inside: a question mark that no `>` follows.
DECLARATION = sequence(
    word(b"<?xml"), many(either(but(b"?"), sequence(word(b"?"), many(word(b"?")), but(b"?>")))), word(b"?"), many(word(b"?")), word(b">")
)
XMLNS = either(
    sequence(),
    sequence(word(b' xmlns="'), many(but(b'"<&')), word(b'"')),
    sequence(word(b" xmlns='"), many(but(b"'<&")), word(b"'")),
)
BODY = sequence(
    either(DECLARATION, sequence()), SPACE, word(b"<Delete"), XMLNS, word(b">"), SPACE, INSIDE, word(b"</Delete>"), SPACE
)

MACHINE = Automaton()
START, END = MACHINE.state(), MACHINE.state()
BODY(MACHINE, START, END)


def live(body):
    """How many bytes can begin a body, and whether all of them are one."""
    states = MACHINE.closed({START})
    for place, byte in enumerate(body):
        states = MACHINE.after(states, byte)
        if not states:
            return place, False
    return len(body), END in states


# ---- what a body of the form says

NAMED = {b"amp": b"&", b"lt": b"<", b"gt": b">", b"quot": b'"', b"apos": b"'"}


class NoKey(Exception):
    """A text that names no key."""


def character(found):
    name = found[1]
    if name in NAMED:
        return NAMED[name]
    number = int(name[2:], 16) if name.startswith(b"#x") else int(name[1:])
    if number == 0 or 0xD800 <= number <= 0xDFFF or number > 0x10FFFF:
        raise NoKey
    return chr(number).encode()


def key_of(text):
    key = re.sub(rb"&([^;]*);", character, text)
    try:
        key.decode()
    except UnicodeDecodeError:
        raise NoKey
    if not 1 <= len(key) <= MOST_KEY_BYTES or 0 in key:
        raise NoKey
    return key


def shown(data):
    return '"' + "".join(chr(b) if 32 <= b < 127 and b not in b'"\\' else f"\\{b:02x}" for b in data) + '"'


def told(body):
    length, is_one = live(body)
    if not is_one:
        return f"NotTheBody({length})"
    if body.startswith(b"<?xml"):
        body = body[body.index(b"?>") + 2 :]
    texts = re.findall(rb"<Key>([^<]*)</Key>", body)
    if len(texts) > MOST_KEYS:
        return "TooMany"
    try:
        keys = [key_of(text) for text in texts]
    except NoKey:
        return f"NotTheBody({length})"
    named = ", ".join(f"Key {{ name: {shown(key)} }}" for key in keys)
    return f"Deletes {{ keys: [{named}], quiet: {str(b'<Quiet>true</Quiet>' in body).lower()} }}"


# ---- the cases


def escaped(body):
    return "".join(chr(b) if 33 <= b < 127 and b != 92 else f"\\{b:02x}" for b in body)


def case(body):
    return [f"delete {escaped(body)}".rstrip(), f"= {told(body)}"]


def repeated(front, count, middle, end):
    """A case whose middle stands so many times."""
    parts = (f">. {escaped(front)}", f">* {count} {escaped(middle)}", f">. {escaped(end)}")
    return ["delete", *parts, f"= {told(front + middle * count + end)}"]


def object_of(text):
    return b"<Object><Key>" + text + b"</Key></Object>"


def delete(*children):
    return b"<Delete>" + b"".join(children) + b"</Delete>"


QUIETLY = b"<Quiet>true</Quiet>"
LOUDLY = b"<Quiet>false</Quiet>"
A, B = object_of(b"a"), object_of(b"b")

WHOLE = [
    b"<Delete><Object><Key>a&amp;b</Key></Object><Object><Key>c</Key></Object></Delete>",
    b"<?xml version='1.0'?>\n<Delete xmlns=\"http://s3.amazonaws.com/doc/2006-03-01/\">\n <Quiet>true</Quiet> <Object>\t<Key>k</Key>\r\n</Object>\n</Delete> \n",
    b"<Delete xmlns='x'><Object><Key>&#x1F600;&#65;&lt;</Key></Object><Quiet>false</Quiet><Object><Key></Key></Object></Delete>",
]
SHORT = b"<Delete><Object><Key>a&#9;</Key></Object></Delete>"
CHANGES = b"<>&;# /xa9"

FORMS = [
    delete(A), delete(A, B), delete(QUIETLY, A), delete(A, QUIETLY), delete(A, QUIETLY, B), delete(LOUDLY, A, B), delete(A, A),
    b"", delete(), delete(QUIETLY), delete(LOUDLY, LOUDLY), delete(QUIETLY, QUIETLY, A), delete(QUIETLY, A, QUIETLY), delete(A, LOUDLY, B, LOUDLY),
    delete(b"<Quiet>True</Quiet>", A), delete(b"<Quiet> true</Quiet>", A), delete(b"<Quiet>true </Quiet>", A), delete(b"<Quiet/>", A),
    delete(b"<Quiet>1</Quiet>", A), delete(b"<Quiet></Quiet>", A), delete(b"<Quiet>tr&#117;e</Quiet>", A),
    delete(b"<Object></Object>"), delete(b"<Object/>"), delete(b"<Object><Key/></Object>"), delete(b"<Object><Key>a</Key><Key>b</Key></Object>"),
    delete(b"<Object><Key>a</Key><VersionId>1</VersionId></Object>"), delete(b"<Object><VersionId>1</VersionId><Key>a</Key></Object>"),
    delete(b"<Object><Key>a</Key>x</Object>"), delete(b"<Object>x<Key>a</Key></Object>"), delete(b"x", A), delete(A, b"x"), delete(A, b"<!-- -->"),
    delete(b" \t\r\n", A, b" \t\r\n"), delete(b"<Object> \t\r\n<Key>a</Key> \t\r\n</Object>"), delete(b"<Object ><Key>a</Key></Object>"),
    delete(A) + b" \t\r\n", delete(A) + b"x", delete(A) + b" x", b" \t\r\n" + delete(A), b"\x0b" + delete(A), delete(A) + delete(A),
    b"<?xml?>" + delete(A), b"<?xml ??>" + delete(A), b"<?xml ?x?>" + delete(A), b"<?xml <Key>z</Key>?> " + delete(A), b" <?xml?>" + delete(A), b"<?xml?><?xml?>" + delete(A),
    b"<Delete >" + A + b"</Delete>", b"<Delete  xmlns='x'>" + A + b"</Delete>", b"<Delete xmlns=''>" + A + b"</Delete>", b"<Delete xmlns=\"'>&\">" + A + b"</Delete>",
    b"<Delete xmlns='\">'>" + A + b"</Delete>", b"<Delete xmlns='<'>" + A + b"</Delete>", b"<Delete xmlns='a' xmlns='b'>" + A + b"</Delete>", b"<Delete id='a'>" + A + b"</Delete>",
    b"<delete>" + A + b"</delete>", b"<Deletes>" + A + b"</Deletes>", b"<Delete>" + A + b"</Delete >", b"<Delete/>", b"<x:Delete>" + A + b"</x:Delete>",
]

NAMES = [b"&amp;", b"&lt;", b"&gt;", b"&quot;", b"&apos;", b"&#38;", b"&#x26;", b"&amp;amp;", b"&amp;&lt;&gt;&quot;&apos;"]
FIVE = [(b"&amp;", b"&#38;", b"&#x26;", b"&#0000038;", b"&#x000026;"), (b"&lt;", b"&#60;", b"&#x3c;", b"&#x3C;", b"&#060;"), (b"&gt;", b"&#62;", b"&#x3e;", b"&#x3E;", b">"),
    (b"&quot;", b"&#34;", b"&#x22;", b"&#034;", b'"'), (b"&apos;", b"&#39;", b"&#x27;", b"&#x0027;", b"'")]
NO_NAMES = [b"&", b"&;", b"&amp", b"&amp ;", b"&AMP;", b"&am;", b"&ap;", b"&apo;", b"&nbsp;", b"&l;", b"&ltt;", b"&qt;", b"&#;", b"&#x;", b"&#X41;", b"&#x;41", b"&#a;", b"&#-1;", b"&#+1;", b"& #65;",
    b"&#65", b"&#65 ;", b"&#x4g;", b"&#00000065;", b"&#x0000041;", b"&#12345678;", b"&#x1234567;", b"a&b", b"a<b", b"a>b", b"]]>", b"<![CDATA[a]]>"]
NUMBERS = [b"&#0;", b"&#x0;", b"&#0000000;", b"&#1;", b"&#x1F;", b"&#9;&#10;&#13;", b"&#127;", b"&#128;", b"&#x7ff;", b"&#x800;", b"&#55295;", b"&#55296;", b"&#xD7FF;", b"&#xD800;", b"&#xDBFF;", b"&#xDC00;",
    b"&#xDFFF;", b"&#xdfff;", b"&#57343;", b"&#xE000;", b"&#57344;", b"&#xFFFD;", b"&#xFFFE;", b"&#xFFFF;", b"&#x10000;", b"&#65536;", b"&#x10FFFF;", b"&#1114111;", b"&#x110000;", b"&#1114112;", b"&#9999999;",
    b"&#xFFFFFF;", b"&#xD83D;&#xDE00;", b"&#x1F600;", b"&#00065;", b"&#0000065;", b"&#x000041;"]
BYTES = [b"\x00", b"a\x00", b"\x01", b"\x1f", b"\x7f", b"\t", b" ", b" a ", b"\r\n", b"\x80", b"\xc3", b"\xc3\xa9", b"\xc3&#xa9;", b"&#xc3;\xa9", b"\xed\xa0\x80", b"\xed\x9f\xbf", b"\xf4\x8f\xbf\xbf", b"\xf4\x90\x80\x80",
    b"\xc0\x80", b"\xff", b"\xef\xbb\xbf", b"/", b"//", b"a/b", b"../a", b"%41", b"a+b", b"a\"b'c", b""]


def changed(body):
    for place in range(len(body)):
        for byte in CHANGES:
            if body[place] != byte:
                yield body[:place] + bytes([byte]) + body[place + 1 :]


def sized(count):
    """A key of so many bytes, one of whose last ones are a reference."""
    return [
        repeated(b"<Delete><Object><Key>", count - 1, b"k", b"&amp;</Key></Object></Delete>"),
        repeated(b"<Delete><Object><Key>", count // 2, "é".encode(), (b"k" * (count % 2)) + b"</Key></Object></Delete>"),
        repeated(b"<Delete><Object><Key>", count // 4, b"&#x10FFFF;", (b"k" * (count % 4)) + b"</Key></Object></Delete>"),
    ]


def main():
    lines = [
        "# The bodies of DeleteObjects: written by bench/delete-cases.py, which says where the readings come from. NotTheBody has the length of the",
        "# longest prefix that can be continued to a body.",
    ]

    def group(title, cases):
        lines.extend(["", f"# {title}", ""])
        for it in cases:
            lines.extend(it)

    group("What a body says, and what is none.", [case(body) for body in FORMS])
    group("Characters by name.", [case(delete(object_of(b"x" + it + b"y"))) for it in NAMES] + [case(delete(*map(object_of, it))) for it in FIVE])
    group("What is no reference.", [case(delete(object_of(b"x" + it))) for it in NO_NAMES])
    group("Characters by number. A number that no character has is refused at the end of the body, as is 0.", [case(delete(object_of(it))) for it in NUMBERS])
    group("One key that is none, among others.", [case(delete(A, object_of(it), B)) for it in (b"", b"&#0;", b"&#xD800;", b"\xff")])
    group("Keys are UTF-8 without byte 0.", [case(delete(object_of(it))) for it in BYTES])
    group("Keys of 1024 bytes and of 1025.", [it for count in (1023, 1024, 1025) for it in sized(count)])
    group("1000 keys, and 1001. More than 1000 are too many, whether or not they are keys; a fault of the form comes first.", [
        repeated(b"<Delete>", 1000, A, b"</Delete>"),
        repeated(b"<Delete>", 1001, A, b"</Delete>"),
        repeated(b"<Delete>", 999, A, B + QUIETLY + b"</Delete>"),
        repeated(b"<Delete>", 1000, A, QUIETLY + B + b"</Delete>"),
        repeated(b"<Delete>", 1001, object_of(b"&#0;"), b"</Delete>"),
        repeated(b"<Delete>", 1000, A, object_of(b"&#0;") + b"</Delete>"),
        repeated(b"<Delete>", 999, A, object_of(b"&#0;") + b"</Delete>"),
        repeated(b"<Delete>", 1001, A, b"</Delete>x"),
        repeated(b"<Delete>", 1001, A, b"</Delete"),
    ])
    for body in WHOLE:
        group("Each prefix of a body.", [case(body[:length]) for length in range(len(body) + 1)])
    group("A body with one byte changed.", [case(body) for body in changed(SHORT)])
    print("\n".join(lines))


main()
