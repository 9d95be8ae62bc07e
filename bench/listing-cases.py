#!/usr/bin/env python3
"""Writes cases of object listings by chance, each walked to its end in its version, with the whole reply to each page.

    bench/listing-cases.py > crates/cases/data/listings-chance.txt
    bench/listing-cases.py jumps > crates/cases/data/listings-jumps.txt

The keys, prefixes, delimiters and markers come from a generator with a fixed seed, and the replies from the small model below,
which knows only what this profile says of listings (docs/PROFILE.md): keys roll up first, then the marker is looked at, then
the greatest number. Nothing is taken from the program. The requests are signed as bench/sign-cases.py signs them.

With the argument `jumps` it writes listings of thousands of keys under one common prefix, with the number of calls that each
makes: HEAD of the bucket, and the pages of 1000 names that a listing asks for which goes on behind a common prefix.
"""
import hashlib
import random
import sys
from urllib.parse import quote

from case_signing import load_signing

BUCKETS = 5
WALKS = 20
OWNER = "<Owner><ID>s3gate</ID><DisplayName>s3gate</DisplayName></Owner>"
# Pieces of keys: delimiters, texts that begin with each other, UTF-8 of one to four bytes, and what XML and URLs escape.
PIECES = ["a", "b", "ab", "/", "/", "//", "ü", "€", "𝄞", "\uffff", " ", "+", "&", "<", '"', "-", "~", "\n"]


def escaped(text):
    """As the text of an element."""
    text = text.replace("&", "&amp;").replace("<", "&lt;").replace(">", "&gt;").replace('"', "&quot;")
    return "".join(f"&#{ord(c)};" if ord(c) < 32 else c for c in text)


def keys_by(chance, number):
    keys = set()
    while len(keys) < number:
        old = sorted(keys)
        begin = chance.choice(old)[: chance.randrange(1, 5)] if old and chance.random() < 0.6 else ""
        keys.add(begin + "".join(chance.choice(PIECES) for _ in range(chance.randrange(1, 5))))
    return sorted(keys, key=str.encode)


class Asked:
    """What a listing asks for."""

    def __init__(self, chance, keys):
        some = chance.choice(keys)
        self.version = chance.choice([1, 2])
        self.prefix = chance.choice(["", "", some[: chance.randrange(len(some) + 1)], "nothing"])
        self.delimiter = chance.choice(["", "/", "/", "/", "//", "a", "ü", "ab", "€"])
        self.start = chance.choice(["", "", "", chance.choice(keys), some[: chance.randrange(len(some) + 1)], some + "!"])
        self.max = chance.choice([0, 1, 1, 2, 3, 5, 7, None, 2000])
        self.url = chance.random() < 0.3
        self.owner = chance.choice([None, "true", "false"]) if self.version == 2 else None

    def target(self, bucket, marker, token):
        pairs = [("prefix", self.prefix)] if self.prefix else []
        pairs += [("delimiter", self.delimiter)] if self.delimiter else []
        pairs += [("max-keys", str(self.max))] if self.max is not None else []
        pairs += [("encoding-type", "url")] if self.url else []
        if self.version == 1:
            pairs += [("marker", marker)] if marker else []
        else:
            pairs = [("list-type", "2")] + pairs
            pairs += [("start-after", self.start)] if self.start else []
            pairs += [("continuation-token", token)] if token is not None else []
            pairs += [("fetch-owner", self.owner)] if self.owner else []
        query = "&".join(f"{name}={quote(value, safe='')}" for name, value in pairs)
        return f"/{bucket}" + (f"?{query}" if query else "")


def items_of(keys, asked, marker):
    """The texts with whether each is rolled up, and whether one is left over."""
    rolled = {}
    for key in keys:
        if key.startswith(asked.prefix):
            place = key.find(asked.delimiter, len(asked.prefix)) if asked.delimiter else -1
            rolled[key if place < 0 else key[: place + len(asked.delimiter)]] = place >= 0
    after = sorted(((text, up) for text, up in rolled.items() if text.encode() > marker.encode()), key=lambda item: item[0].encode())
    most = min(1000 if asked.max is None else asked.max, 1000)
    return after[:most], most > 0 and len(after) > most


def element(name, text):
    return f"<{name}>{text}</{name}>"


def body_of(bucket, objects, asked, marker, token, items, more):
    """The body of a page of a listing."""
    show = (lambda text: quote(text, safe="-._~/")) if asked.url else escaped
    most = str(min(1000 if asked.max is None else asked.max, 1000))
    parts = [element("Name", bucket), element("Prefix", show(asked.prefix))]
    if asked.version == 1:
        parts.append(element("Marker", show(marker)))
        if more and asked.delimiter:
            parts.append(element("NextMarker", show(items[-1][0])))
    else:
        if asked.start:
            parts.append(element("StartAfter", show(asked.start)))
        if token is not None:
            parts.append(element("ContinuationToken", token))
        parts.append(element("KeyCount", str(len(items))))
    parts.append(element("MaxKeys", most))
    if asked.delimiter:
        parts.append(element("Delimiter", show(asked.delimiter)))
    if asked.url:
        parts.append(element("EncodingType", "url"))
    parts.append(element("IsTruncated", "true" if more else "false"))
    if asked.version == 2 and more:
        parts.append(element("NextContinuationToken", items[-1][0].encode().hex()))
    owner = OWNER if asked.version == 1 or asked.owner == "true" else ""
    for text, up in items:
        if not up:
            content = objects[text]
            etag = hashlib.md5(content).hexdigest()
            parts.append(element("Contents", element("Key", show(text)) + element("LastModified", "2013-05-24T00:00:00.000Z") + element("ETag", f"&quot;{etag}&quot;") + element("Size", str(len(content))) + owner + element("StorageClass", "STANDARD")))
    parts += [element("CommonPrefixes", element("Prefix", show(text))) for text, up in items if up]
    return '<?xml version="1.0" encoding="UTF-8"?>\n<ListBucketResult xmlns="http://s3.amazonaws.com/doc/2006-03-01/">' + "".join(parts) + "</ListBucketResult>"


def walk(bucket, objects, asked):
    """The requests of a walk, each with its body, up to the page that isn't truncated."""
    keys = sorted(objects, key=str.encode)
    marker, token = asked.start, None
    while True:
        items, more = items_of(keys, asked, marker)
        yield asked.target(bucket, marker, token), body_of(bucket, objects, asked, marker, token, items, more)
        if not more:
            return
        marker = items[-1][0]
        token = marker.encode().hex()


def case(bucket, objects, asked, number):
    given, wanted = [], []
    for turn, (target, body) in enumerate(walk(bucket, objects, asked)):
        given += [f"> GET {target} HTTP/1.1", ">~", ">"]
        data = body.encode()
        wanted += [
            # The first of a run settles the store by two calls.
            f"= piece 1 {2 + (turn + 1) * (1 if asked.max == 0 else 2)}",
            "= < HTTP/1.1 200 OK",
            "= < Date: Fri, 24 May 2013 00:00:00 GMT",
            f"= < x-amz-request-id: {2 * turn + 1:032x}",
            "= < Content-Type: application/xml",
            f"= < Content-Length: {len(data)}",
            "= <",
        ]
        first, _, rest = body.partition("\n")
        wanted += [f"= <n {first}", f"= <. {rest}"]
    return [f"case listings by chance, {bucket}, {number}", "pieces 1000", "connection", *given, "= status 0", *wanted, ""]


def setup(chance, bucket, objects):
    """An earlier run that puts the objects."""
    lines = ["setup", f"> PUT /{bucket} HTTP/1.1", ">~", "> Content-Length: 0", ">"]
    for key in chance.sample(sorted(objects), len(objects)):
        content = objects[key]
        lines += [f"> PUT /{bucket}/{quote(key, safe='/')} HTTP/1.1", ">~", f"> Content-Length: {len(content)}", ">"]
        lines += [f">. {content.decode()}"] if content else []
    return lines + ["= served", ""]


def past(name, asked):
    """Where a listing goes on behind a name: behind all keys of the common prefix that it rolls up into."""
    place = name.find(asked.delimiter, len(asked.prefix)) if asked.delimiter and name.startswith(asked.prefix) else -1
    if place < 0:
        return name.encode()
    common = name[: place + len(asked.delimiter)].encode()
    return common + "\U0010ffff".encode() * ((1024 - len(common)) // 4 + 1)


def pages_of(keys, asked, marker):
    """How many pages of names are asked for, until the answer is full or a page is short."""
    named = [key for key in keys if key.startswith(asked.prefix)]
    most = min(1000 if asked.max is None else asked.max, 1000)
    behind, pages, shown = past(marker, asked), 0, []
    while most > 0:
        page = [key for key in named if key.encode() > behind][:1000]
        pages += 1
        for key in page:
            place = key.find(asked.delimiter, len(asked.prefix)) if asked.delimiter else -1
            text = key if place < 0 else key[: place + len(asked.delimiter)]
            if text.encode() > marker.encode() and text not in shown:
                shown.append(text)
        if len(shown) > most or len(page) < 1000:
            break
        behind = past(page[-1], asked)
    return pages


class Listed(Asked):
    """What a listing of those asks for."""

    def __init__(self, version, delimiter, start, most):
        self.version, self.prefix, self.delimiter, self.start, self.max = version, "", delimiter, start, most
        self.url, self.owner = False, None


def jump_case(name, bucket, objects, walks):
    """Walks one after another, with the number of calls that each request ends at; the first settles the store by two."""
    keys = sorted(objects, key=str.encode)
    given, wanted, calls, turn = [], [], 2, 0
    for asked in walks:
        marker, token, more = asked.start, None, True
        while more:
            items, more = items_of(keys, asked, marker)
            data = body_of(bucket, objects, asked, marker, token, items, more)
            calls += 1 + pages_of(keys, asked, marker)
            given += [f"> GET {asked.target(bucket, marker, token)} HTTP/1.1", ">~", ">"]
            wanted += [f"= piece 1 {calls}", "= < HTTP/1.1 200 OK", "= < Date: Fri, 24 May 2013 00:00:00 GMT", f"= < x-amz-request-id: {2 * turn + 1:032x}", "= < Content-Type: application/xml"]
            first, _, rest = data.partition("\n")
            wanted += [f"= < Content-Length: {len(data.encode())}", "= <", f"= <n {first}", f"= <. {rest}"]
            if more:
                marker = items[-1][0]
                token = marker.encode().hex()
            turn += 1
    return [f"case {name}", "pieces 1000", "nomodel", "connection", *given, "= status 0", *wanted, ""]


def jumps():
    """2,500 keys under `a/`, put by plain Swift calls, and others beside them, put by requests, in one run."""
    put = {"a": b"1", "a/": b"", "a/\U0010ffff": b"22", "a/" + "\U0010ffff" * 255: b"333", "a0": b"4444", "b": b"55555"}
    objects = {**put, **{f"a/{n:04}": b"" for n in range(2500)}}
    stamp = f"binary/octet-stream;s3={hashlib.md5(b'').hexdigest()}.1369353600.-"
    lines = ["# Listings that go on behind a common prefix: written by bench/listing-cases.py, which says where the replies and the numbers of", "# calls come from.", ""]
    made = setup(random.Random(1), "photos", put)
    lines += made[:-2] + [f"files photos 2500 {stamp} a/"] + made[-2:]
    last = "a/" + "\U0010ffff" * 255
    walks = [
        Listed(1, "/", "", None),  # thousands of keys under a common prefix, and its next sibling
        Listed(2, "/", "", 1),  # of one item a page
        Listed(2, "/", "a/1234", 2),  # from inside the common prefix on
        Listed(1, "/", "a/", None),  # from the common prefix itself on
        Listed(1, "/", last, None),  # from its last key on
        Listed(1, "a/", "", None),  # a delimiter of two bytes
        Listed(1, "/", "", 0),  # nothing is asked for
    ]
    lines += jump_case("thousands of keys under a common prefix", "photos", objects, walks)
    print("\n".join(load_signing().signed(lines)), end="")


def main():
    chance = random.Random(1)
    lines = ["# Listings by chance: written by bench/listing-cases.py, which says where the replies come from.", ""]
    for at in range(BUCKETS):
        bucket = f"bucket-{at}"
        keys = keys_by(chance, chance.randrange(3, 30))
        objects = {key: str(turn).encode() * chance.randrange(4) for turn, key in enumerate(keys)}
        lines += setup(chance, bucket, objects)
        for number in range(1, WALKS + 1):
            lines += case(bucket, objects, Asked(chance, keys), number)
    print("\n".join(load_signing().signed(lines)), end="")


jumps() if sys.argv[1:] == ["jumps"] else main()
