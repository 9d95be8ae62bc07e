#!/usr/bin/env python3
"""Writes cases of what the headers of a copy mean.

    bench/copy-header-cases.py > crates/cases/data/copy_headers.txt

What each request means comes from the reader below, which knows only what Amazon S3 API Reference ("CopyObject", "UploadPartCopy")
and this profile say of it (docs/PROFILE.md): Python's urllib decodes sources, its codecs find out what is no UTF-8, its re reads
ranges and tags, its datetime reads dates, and its hashlib makes digests. Nothing is taken from the program.
"""
import base64
import datetime
import hashlib
import random
import re
from urllib.parse import unquote_to_bytes

PART = "partNumber=7&uploadId=0a"
OWN = ["cache-control", "content-disposition", "content-encoding", "content-language", "expires"]
META = b"x-amz-meta-"
PLAIN = b"binary/octet-stream"
REFUSED = [b"x-amz-tagging", b"x-amz-website-redirect-location", b"x-amz-security-token"]
CONDITION = b"x-amz-copy-source-if-"
CONDITIONS = [b"match", b"none-match", b"modified-since", b"unmodified-since"]
# the three forms of a date (RFC 9110, section 5.6.7), of which the second has a year of two digits
DATES = ["%a, %d %b %Y %H:%M:%S GMT", "%A, %d-%b-%y %H:%M:%S GMT", "%a %b %d %H:%M:%S %Y"]


# ---- the reader


class Refused(Exception):
    """The code of a refusal."""


def raw(text):
    """The bytes of a text in which `\\HH` stands for a byte."""
    return re.sub(rb"\\([0-9a-f]{2})", lambda found: bytes.fromhex(found[1].decode()), text.encode())


def shown(value):
    return '"' + "".join(chr(b) if 32 <= b < 127 and b not in b'"\\' else f"\\{b:02x}" for b in value) + '"'


def decoded(text):
    """What percent escapes stand for. A `%` is followed by two hexadecimal digits."""
    if re.search(rb"%(?![0-9a-fA-F]{2})", text):
        raise Refused("InvalidArgument")
    return unquote_to_bytes(text)


def is_text(value):
    try:
        return "\0" not in value.decode("utf-8")
    except UnicodeDecodeError:
        return False


def is_bucket(name):
    """3 to 63 lower-case letters, digits, hyphens and dots, a letter or digit at both ends, no two dots in a row, and no IPv4 address
    (Amazon S3 User Guide, "General purpose bucket naming rules")."""
    if not re.fullmatch(rb"[a-z0-9][a-z0-9.-]{1,61}[a-z0-9]", name) or b".." in name:
        return False
    return not re.fullmatch(rb"(\d{1,3}\.){3}\d{1,3}", name)


def source_of(text):
    """The bucket and the key that a source names: one slash before it is left out, it is decoded, and then split."""
    bucket, _, key = decoded(text.removeprefix(b"/")).partition(b"/")
    if not is_text(bucket + b"/" + key) or not is_bucket(bucket) or not 1 <= len(key) <= 1024:
        raise Refused("InvalidArgument")
    return bucket, key


def range_of(value):
    found = value is not None and re.fullmatch(rb"bytes=(\d{1,18})-(\d{1,18})", value)
    if value is not None and (not found or int(found[1]) > int(found[2])):
        raise Refused("InvalidArgument")
    return found and (int(found[1]), int(found[2]))


def replaced_of(fields):
    """The type and the metadata that are put in place of the source's."""
    kind = fields.get(b"content-type") or PLAIN
    entries = {b"-" + name.removeprefix(META): value for name, value in fields.items() if name.startswith(META)}
    entries.update({name.encode(): fields[name.encode()] for name in OWN if name.encode() in fields})
    if len(kind) > 256 or any(not 32 <= b < 127 for value in (kind, *entries.values()) for b in value):
        raise Refused("InvalidArgument")
    return kind, sorted(entries.items())


def size_of(entries):
    return sum(len(name.removeprefix(b"-")) + len(value) for name, value in entries)


def tags_of(value):
    """What an ETag is compared with: none, any, or these. A tag stands between commas, with quotes or without them, and the `W/` of a
    weak one doesn't count (RFC 9110, section 8.8.3)."""
    if value is None:
        return "Absent"
    if value == b"*":
        return "Any"
    tags = [re.sub(rb'^"(.*)"$', rb"\1", tag.strip(b" ").removeprefix(b"W/"), flags=re.S) for tag in value.split(b",")]
    return f"Listed([{', '.join(shown(tag) for tag in tags)}])"


def date_of(value):
    """A date in seconds since 1970, where the text is one."""
    for form in DATES:
        try:
            date = datetime.datetime.strptime((value or b"").decode("latin-1"), form)
        except ValueError:
            continue
        if date.strftime(form) == value.decode():
            return f"Some({int((date - datetime.datetime(1970, 1, 1)).total_seconds())})"
    return "None"


def conditions_of(fields):
    match, none, since, until = (fields.get(CONDITION + it) for it in CONDITIONS)
    return f"Conditions {{ matched: {tags_of(match)}, unmatched: {tags_of(none)}, modified: {date_of(since)}, unmodified: {date_of(until)} }}"


class Asked:
    """A request: who asks, its method and its target, headers in their order, and its body; and whether the profile is extended."""

    def __init__(self, *headers, caller="owner", method="PUT", target="/photos/k", body="", extended=False):
        self.caller, self.method, self.target, self.headers, self.body = caller, method, target, headers, body
        self.extended = extended

    def fields(self):
        fields = {}
        for name, value in self.headers:
            name, value = name.lower().encode(), raw(value)
            fields[name] = fields[name] + b"," + value if name in fields else value
        return fields

    def lines(self):
        lines = [f"{'extended-' if self.extended else ''}meaning {self.caller} {self.method} {self.target}"]
        if self.method in ("PUT", "POST"):
            lines.append(f"> content-length: {len(self.body)}")
        lines += [f"> {name}: {value}".rstrip() for name, value in self.headers]
        return lines + ([">", f">. {self.body}"] if self.body else []) + [f"= {self.meant()}"]

    def meant(self):
        try:
            return f"Op({self.operation()})"
        except Refused as refused:
            return f"Refused({refused.args[0]})"

    def operation(self):
        """The refusals in their order, and what is left where there is none."""
        fields = self.fields()
        number = re.search(r"partNumber=(\d+)", self.target)
        is_copy = self.method == "PUT" and self.target.startswith("/photos/k") and "acl" not in self.target and b"x-amz-copy-source" in fields
        self.need_built(fields, is_copy)
        self.need_digest(fields)
        if number and not 1 <= int(number[1]) <= 10000:
            raise Refused("InvalidArgument")
        told = self.copied(fields, bool(number)) if is_copy else self.put(fields, bool(number))
        if self.caller == "anonymous":
            raise Refused("AccessDenied")
        return told

    def need_built(self, fields, is_copy):
        if not is_copy and b"x-amz-copy-source" in fields or any(name in fields for name in REFUSED):
            raise Refused("NotImplemented")
        if self.method not in ("GET", "HEAD") and (b"if-match" in fields or b"if-none-match" in fields):
            raise Refused("NotImplemented")
        if is_copy and (b"?" in fields[b"x-amz-copy-source"] or any(map(self.is_unbuilt_condition, fields))):
            raise Refused("NotImplemented")
        if fields.get(b"x-amz-acl", b"private") not in (b"private", b"public-read"):
            raise Refused("NotImplemented")
        if fields.get(b"x-amz-storage-class", b"STANDARD") != b"STANDARD":
            raise Refused("InvalidStorageClass")

    def is_unbuilt_condition(self, name):
        return name.startswith(CONDITION) and not (self.extended and name.removeprefix(CONDITION) in CONDITIONS)

    def need_digest(self, fields):
        given = fields.get(b"content-md5")
        if given is not None and not re.fullmatch(rb"[A-Za-z0-9+/]{21}[AQgw]==", given):
            raise Refused("InvalidDigest")
        if given is not None and base64.b64decode(given) != hashlib.md5(self.body.encode()).digest():
            raise Refused("BadDigest")

    def copied(self, fields, is_part):
        from_bucket, from_key = source_of(fields[b"x-amz-copy-source"])
        directive = fields.get(b"x-amz-metadata-directive", b"COPY")
        if directive not in (b"COPY", b"REPLACE"):
            raise Refused("InvalidArgument")
        if not is_part and b"x-amz-copy-source-range" in fields:
            raise Refused("InvalidArgument")
        span = range_of(fields.get(b"x-amz-copy-source-range"))
        replaced = replaced_of(fields) if not is_part and directive == b"REPLACE" else None
        if self.body:
            raise Refused("InvalidRequest")
        if replaced and (len(replaced[1]) > 64 or size_of(replaced[1]) > 2048):
            raise Refused("MetadataTooLarge")
        source = f"from_{place_of(from_bucket, ', from_', from_key)}"
        if is_part:
            of_range = f"range: {f'Some(CopyRange {{ first: {span[0]}, last: {span[1]} }})' if span else None}, conditions: {conditions_of(fields)}"
            return f"OnCopies(CopyPart(PartCopy {{ {PLACE}, {PART_OF}, {source}, {of_range} }}))"
        told = f"Some(Described {{ {taken(*replaced)} }})" if replaced else "None"
        copy = f"{PLACE}, acl: {acl_of(fields)}, {source}, replaced: {told}, conditions: {conditions_of(fields)}, only_if: Always"
        return f"OnCopies(CopyObject(ObjectCopy {{ {copy} }}))"

    def put(self, fields, is_part):
        body = shown(self.body.encode())
        if is_part:
            return f"OnUploads(UploadPart(PartPut {{ {PLACE}, {PART_OF}, body: {body} }}))"
        content = f"Content {{ {taken(*replaced_of(fields))}, body: {body} }}"
        return f"OnObjects(PutObject(ObjectPut {{ {PLACE}, acl: {acl_of(fields)}, content: {content}, only_if: Always }}))"


def place_of(bucket, between, key):
    return f"bucket: BucketName {{ name: {shown(bucket)} }}{between}key: Key {{ name: {shown(key)} }}"


PLACE = 'bucket: BucketName { name: "photos" }, key: Key { name: "k" }'
PART_OF = 'id: "0a", number: PartNumber { number: 7 }'


def acl_of(fields):
    return {None: "None", b"private": "Some(Private)", b"public-read": "Some(PublicRead)"}[fields.get(b"x-amz-acl")]


def taken(kind, entries):
    pairs = ", ".join(f"Pair {{ name: {shown(name)}, value: {shown(value)} }}" for name, value in entries)
    return f"content_type: {shown(kind)}, meta: Meta {{ alloc: Global, entries: [{pairs}] }}"


# ---- the cases


def source(value):
    return "x-amz-copy-source", value


def directive(value):
    return "x-amz-metadata-directive", value


def span(value):
    return "x-amz-copy-source-range", value


def condition(name, value):
    return f"x-amz-copy-source-if-{name}", value


def part(*headers, **more):
    return Asked(*headers, target=f"/photos/k?{PART}", **more)


SOURCES = [
    "/photos/k", "photos/k", "/music/a/b", "/photos/a%2Fb", "photos%2Fk", "photos%2fa%2Fb", "/photos//k", "//photos/k", "%2Fphotos/k", "//k", "/",
    "", "photos", "/photos", "/photos/", "photos%2F", "k", "/k", "/Photos/k", "/ph/k", "/photos.a/k", "/192.168.0.1/k", "/photos/%zz", "/photos/%",
    "/photos/%4", "/photos/%00", "/photos/a%00b", "/%00photos/k", "/photos/%ff", "/photos/\\ff", "/photos/%C3", "/photos/%ed%a0%80", "/photos/%C3%BC",
    "/photos/\\c3\\bc", "/photos/a b", "/photos/a+b", "/photos/a%20b%2B", "/photos/%3F", "/photos/a%3fb", "/photos/?", "/photos/k?versionId=null",
    "/photos/k?versionId=", "photos?/k", "/photos/%?", "/photos/a&b=c", "/photos/%22%5C%3C%3E%26", "/photos/%0A%0d", "/photos/%7F", "/photos/\\22",
    "/photos/k,/photos/k", "/%70hotos/%6B", "/photos/%25zz", "/photos/%2525", "/photos/.", "/photos/..", "/photos/a#b", "arn:aws:s3:::photos/k",
    "/" + "a" * 63 + "/k", "/" + "a" * 64 + "/k", "/photos/" + "k" * 1024, "/photos/" + "k" * 1025, "/photos/" + "%6b" * 1024, "/photos/" + "%6b" * 1025,
]
RANGES = [
    "bytes=0-0", "bytes=3-6", "bytes=00-01", "bytes=0-999999999999999999", "bytes=999999999999999999-999999999999999999", "bytes=000000000000000000-1",
    "", "bytes=", "bytes=-", "bytes=1-0", "bytes=0-", "bytes=-1", "bytes=0", "0-1", "bytes 0-1", "Bytes=0-1", "bytes= 0-1", "bytes=0 -1", "bytes=0-1,",
    "bytes=0-1,3-4", "bytes=+0-1", "bytes=0--1", "bytes=0-a", "bytes=0x0-1", "bytes=0-1000000000000000000", "bytes=0000000000000000000-1",
    "bytes=0-18446744073709551616", "octets=0-1", "bytes=\\d9\\a0-1", "bytes=0-1/2",
]
DIRECTIVES = ["COPY", "REPLACE", "replace", "copy", "Replace", "", "COPY,COPY", "COPY ,REPLACE", "REPLACED", "MOVE"]
TAGS = ["a", '"a"', 'W/"a"', "W/a", "*", '"*"', "", '""', '"', "a,b", '"a", W/"b" ,c', ",", "a b", " a", '"a""', '"5d41402abc4b2a76b9719d911017c592-3"', "\\c3\\bc", "*,a"]
MOMENTS = [
    "Fri, 24 May 2013 00:00:00 GMT", "Thu, 23 May 2013 00:00:00 GMT", "Friday, 24-May-13 00:00:01 GMT", "Fri May 24 00:00:01 2013", "", "0", "1369353600",
    "2013-05-24T00:00:00Z", "Fri, 24 May 2013 00:00:00 UTC", "Fri, 24 May 2013 24:00:00 GMT", "Sat, 24 May 2013 00:00:00", "Fri, 31 Feb 2013 00:00:00 GMT",
    "fri, 24 may 2013 00:00:00 gmt",
]
MANY = [(f"x-amz-meta-{number}", "1") for number in range(65)]
EMPTY_MD5, OTHER_MD5 = (base64.b64encode(hashlib.md5(it).digest()).decode() for it in (b"", b"x"))
REPLACED = [("content-type", "text/plain; charset=utf-8"), ("x-amz-meta-Colour", "red"), ("Cache-Control", "no-cache"), ("x-amz-meta-colour", "blue")]


def groups():
    """Each group's comment, and its requests."""
    yield "Sources: one slash before, escapes, buckets and keys that are none, and a question mark.", [Asked(source(it)) for it in SOURCES]
    yield "The same of a part.", [part(source(it)) for it in SOURCES[:24] + ["/photos/k?versionId=null", "/photos/%3F"]]
    yield "Two headers are one text, joined by a comma. The name may be in any case.", [
        Asked(source("/photos/k"), source("/photos/l")), Asked(source("photos"), source("/photos/l")), Asked(source(""), source("")),
        Asked(source("/photos/k"), source("/photos/l?")), part(source("/photos/k"), source("")), Asked(("X-Amz-Copy-Source", "/photos/K")),
    ]
    yield "What is replaced: nothing, or type and metadata, which are looked at then alone.", [
        *[Asked(source("/photos/l"), directive(it)) for it in DIRECTIVES], *[Asked(source("/photos/l"), directive(it), *REPLACED) for it in DIRECTIVES[:3]],
        Asked(source("/photos/l"), *REPLACED), Asked(source("/photos/l"), directive("REPLACE"), ("content-type", "")),
        Asked(source("/photos/l"), directive("COPY"), directive("COPY")), Asked(source("/photos/l"), ("content-type", "\\7f")),
        Asked(source("/photos/l"), directive("REPLACE"), ("content-type", "\\7f")), Asked(source("/photos/l"), directive("REPLACE"), ("x-amz-meta-a", "\\c3\\bc")),
        Asked(source("/photos/l"), directive("REPLACE"), ("content-type", "a" * 256)), Asked(source("/photos/l"), directive("REPLACE"), ("content-type", "a" * 257)),
        Asked(source("/photos/l"), directive("REPLACE"), *MANY[:64]), Asked(source("/photos/l"), directive("REPLACE"), *MANY), Asked(source("/photos/l"), *MANY),
        Asked(source("/photos/l"), directive("REPLACE"), ("x-amz-meta-a", "x" * 2047)), Asked(source("/photos/l"), directive("REPLACE"), ("x-amz-meta-a", "x" * 2048)),
        Asked(source("/photos/l"), directive("COPY"), ("x-amz-meta-a", "x" * 2048)),
    ]
    yield "A part takes a directive that is one, and has neither type nor metadata.", [
        *[part(source("/photos/l"), directive(it), *REPLACED) for it in DIRECTIVES], part(source("/photos/l"), directive("REPLACE"), ("x-amz-meta-a", "\\7f"), *MANY),
    ]
    yield "Ranges of a part: from one byte to another, each of 1 to 18 digits. An object's copy has none.", [
        *[part(source("/photos/l"), span(it)) for it in RANGES], part(source("/photos/l"), span("bytes=0-1"), span("bytes=0-1")),
        *[Asked(source("/photos/l"), span(it)) for it in ("bytes=0-1", "", "bytes=1-0")],
    ]
    yield "Conditions on the source are refused, and where nothing is copied they are nothing. So are the directive and the range there.", [
        *[Asked(source("/photos/l"), (f"x-amz-copy-source-if-{it}", "a")) for it in ("match", "none-match", "modified-since", "unmodified-since", "x", "")],
        part(source("/photos/l"), ("x-amz-copy-source-if-match", "a")), Asked(source("/photos/l"), ("X-Amz-Copy-Source-If-Match", "")),
        Asked(source("/photos/l"), ("x-amz-copy-source-if", "a"), ("x-amz-copy-source-iffy", "a"), ("x-amz-copy-sources", "a")),
        Asked(("x-amz-copy-source-if-match", "a")), part(("x-amz-copy-source-if-none-match", "a")), Asked(directive("replace"), span("bytes=1-0")),
        part(directive(""), span("0")), Asked(("x-amz-copy-source-server-side-encryption-customer-key", "a"), source("/photos/l")),
        Asked(source("/photos/l"), ("x-amz-tagging-directive", "REPLACE"), ("x-amz-object-ownership", "a"), ("range", "bytes=0-1")),
        Asked(source("/photos/l"), ("if-modified-since", "0")),
    ]
    yield "With the extended profile four conditions are read, of both copies, as those of a GET; any other stays refused.", extended_conditions()
    yield "A copy has no body.", [
        Asked(source("/photos/l"), body="x"), part(source("/photos/l"), body="x"), part(source("/photos/l"), span("bytes=0-1"), body="hello"),
        Asked(source("/photos/l"), directive("REPLACE"), body="x"), Asked(body="x"), part(body="x"), Asked(source("/photos/l"), ("content-md5", EMPTY_MD5)),
    ]
    yield "Any other request that has a source is refused.", [
        Asked(source(it), method=method, target=target) for it in ("/photos/l", "") for method, target in (
            ("GET", "/photos/k"), ("HEAD", "/photos/k"), ("DELETE", "/photos/k"), ("GET", "/photos/k?acl"), ("POST", "/photos/k?uploads"), ("PUT", "/photos"),
            ("GET", "/photos"), ("DELETE", "/photos"), ("PUT", "/photos?acl"), ("GET", "/"), ("GET", "/photos/k?uploadId=0a"), ("DELETE", "/photos/k?uploadId=0a"),
            ("POST", "/photos/k?uploadId=0a"), ("POST", "/photos?delete"),
        )
    ]
    yield "Each refusal before the one behind it.", neighbours()
    yield "Nobody copies, but what can't be a copy is told first.", [
        Asked(source("/photos/l"), caller="anonymous"), part(source("/photos/l"), caller="anonymous"), Asked(source("photos"), caller="anonymous"),
        Asked(source("/photos/l"), body="x", caller="anonymous"), Asked(source("/photos/l"), directive("REPLACE"), *MANY, caller="anonymous"),
        part(source("/photos/l"), span("bytes=0-"), caller="anonymous"), Asked(source("/photos/l?"), caller="anonymous"),
    ]
    yield "By chance, from a generator with a fixed seed.", by_chance(random.Random(18), 150)


def extended_conditions():
    """Tags and dates of many forms, one condition and several, and what the extended profile refuses."""
    source_of_all = source("/photos/l")
    for name in ("match", "none-match"):
        for value in TAGS:
            yield Asked(source_of_all, condition(name, value), extended=True)
    for name in ("modified-since", "unmodified-since"):
        for value in MOMENTS:
            yield Asked(source_of_all, condition(name, value), extended=True)
    given = [condition(name, value) for name, value in (("match", '"a"'), ("none-match", "b"), ("modified-since", MOMENTS[0]), ("unmodified-since", MOMENTS[1]))]
    yield Asked(source_of_all, *given, extended=True)
    yield part(source_of_all, *given, extended=True)
    yield part(source_of_all, span("bytes=0-1"), given[3], given[0], extended=True)
    yield Asked(source_of_all, directive("REPLACE"), *REPLACED, given[1], extended=True)
    yield Asked(source_of_all, ("X-Amz-Copy-Source-If-Match", "a"), ("x-amz-copy-source-if-match", "b"), extended=True)
    yield Asked(source_of_all, ("if-match", "a"), ("if-modified-since", MOMENTS[0]), extended=True)
    yield Asked(source_of_all, ("if-unmodified-since", MOMENTS[0]), ("if-modified-since", MOMENTS[0]), extended=True)
    for name in ("x", "", "range", "matched", "match-"):
        yield Asked(source_of_all, condition(name, "a"), extended=True)
        yield part(source_of_all, given[0], condition(name, "a"), extended=True)
    yield Asked(source("/photos/l?versionId=null"), given[0], extended=True)
    yield Asked(source("photos"), given[0], extended=True)
    yield Asked(source_of_all, given[0], body="x", extended=True)
    yield Asked(source_of_all, given[0], caller="anonymous", extended=True)
    yield Asked(source_of_all, extended=True)
    yield part(source_of_all, extended=True)
    yield Asked(given[0], extended=True)
    yield part(given[1], extended=True)


def neighbours():
    """What is refused for two causes, and without the first of them for the second."""
    faults = [
        [source("/photos/l?")], [("x-amz-storage-class", "GLACIER")], [("content-md5", "a")], [("content-md5", OTHER_MD5)],
        [directive("no")], [directive("REPLACE"), *MANY],
    ]
    for first, second in zip(faults, faults[1:]):
        for given in (first + second, second):
            if sum(name == "content-md5" for name, _ in given) < 2:
                yield Asked(*(it for it in [source("/photos/l")] if not given[0][0].endswith("source")), *given)
    yield Asked(source("photos"), body="x")
    yield Asked(source("/photos/l"), directive("REPLACE"), *MANY, body="x")
    yield Asked(source("/photos/l"), directive("REPLACE"), ("content-type", "\\7f"), *MANY, body="x")
    yield Asked(source("/photos/l"), ("x-amz-acl", "authenticated-read"), ("x-amz-storage-class", "GLACIER"))
    yield Asked(source("/photos/l"), ("x-amz-acl", "public-read"), ("x-amz-storage-class", "STANDARD"))
    yield Asked(source("photos"), ("x-amz-tagging", "a=b"))
    yield Asked(source("photos"), target=f"/photos/k?{PART.replace('7', '0')}", body="x")
    yield Asked(source("/photos/l?"), target=f"/photos/k?{PART.replace('7', '10001')}")


def by_chance(chance, count):
    pieces = ["/", "photos", "music", "%2F", "k", "a b", "%20", "%C3%BC", "+", "%", "?", "%3F", "%00", "%ff", ",", "/", "/photos/", "//"]
    for _ in range(count):
        text = "".join(chance.choice(pieces) for _ in range(chance.randrange(1, 6))).strip()
        if chance.random() < 0.6:
            text = chance.choice(["/photos/", "photos/", "/music%2F", "/photos/k"]) + text
        headers = [source(text)]
        headers += [directive(chance.choice(DIRECTIVES[:3]))] if chance.random() < 0.4 else []
        headers += [span(chance.choice(RANGES))] if chance.random() < 0.2 else []
        headers += [chance.choice(REPLACED)] if chance.random() < 0.3 else []
        headers += [("x-amz-acl", chance.choice(["private", "public-read", "other"]))] if chance.random() < 0.2 else []
        chance.shuffle(headers)
        body, caller = ("x" if chance.random() < 0.05 else ""), ("anonymous" if chance.random() < 0.1 else "owner")
        yield (part if chance.random() < 0.4 else Asked)(*headers, body=body, caller=caller)


def main():
    lines = [
        "# What the headers of a copy mean, by bench/copy-header-cases.py: a reader of its own, from what this profile says of them",
        '# (docs/PROFILE.md), and Amazon S3 API Reference, "CopyObject" and "UploadPartCopy".',
    ]
    for comment, requests in groups():
        lines += ["", f"# {comment}"]
        for asked in requests:
            lines += asked.lines()
    print("\n".join(lines))


if __name__ == "__main__":
    main()
