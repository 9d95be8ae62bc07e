#!/usr/bin/env python3
"""Writes cases of the two calls on lists of segments, PutManifest and GetManifest, and of their answers.

    bench/manifest-cases.py > crates/cases/data/swift_manifests.txt

What each request and each answer says comes from the reader below, which knows only what Object Storage API v1 ("Static large
objects") and this profile say of them (docs/PROFILE.md, "Swift's calls and answers"). What is written comes from the writer below.
Python's json parses and writes, hashlib makes the ETags; nothing is taken from the program.
"""
import hashlib
import json
import re
from urllib.parse import quote, unquote_to_bytes

HELLO = hashlib.md5(b"hello").hexdigest()
WORLD = hashlib.md5(b"world").hexdigest()
TOKEN = ("X-Auth-Token", "t")
PLAIN = ("Content-Type", "text/plain")


# ---- how things are told


def shown(text):
    data = text.encode() if type(text) is str else text
    return '"' + "".join(chr(b) if 32 <= b < 127 and b not in b'"\\' else f"\\{b:02x}" for b in data) + '"'


def shown_list(items):
    return "[" + ", ".join(items) + "]"


def shown_segment(segment):
    container, name, etag, size = segment
    return f"Segment {{ container: {shown(container)}, name: {shown(name)}, etag: {shown(etag)}, size: {size} }}"


def shown_segments(segments):
    return shown_list(shown_segment(it) for it in segments)


# ---- segments


class NotOne(Exception):
    """What says nothing."""


def ask(holds):
    if not holds:
        raise NotOne


FIELDS = {"put": ("etag", "path", "size_bytes"), "got": ("hash", "name", "bytes")}


def segments_of(form, body):
    """The segments that a text lists, each as its container, name, ETag and size."""
    try:
        value = json.loads(body.decode())
    except ValueError:
        raise NotOne
    ask(type(value) is list and len(value) <= 1000)
    segments = []
    for entry in value:
        ask(type(entry) is dict)
        etag, path, size = (entry.get(it) for it in FIELDS[form])
        ask(type(etag) is str and re.fullmatch(r"[0-9a-f]{32}", etag))
        ask(type(path) is str and type(size) is int and 0 < size < 1 << 63)
        container, _, name = path.removeprefix("/").partition("/")
        ask(container and name)
        segments.append((container, name, etag, size))
    return segments


def text_of(form, segments):
    entries = []
    for container, name, etag, size in segments:
        path = f"/{container}/{name}"
        if form == "put":
            entries.append({"etag": etag, "path": path, "size_bytes": size})
        else:
            more = {"content_type": "application/octet-stream", "last_modified": "1970-01-01T00:00:00.000000"}
            entries.append({"bytes": size, "hash": etag, "name": path} | more)
    return json.dumps(entries, separators=(",", ":"), sort_keys=True, ensure_ascii=False).encode()


# ---- calls


def is_name(text, most):
    return 1 <= len(text) <= most and b"\0" not in text


def call_of(request):
    """The call that a request spells, as its name and its fields."""
    method, target, headers, body = request
    path, _, query = target.partition("?")
    account, container, name = (unquote_to_bytes(it) for it in path.removeprefix("/v1/").split("/", 2))
    name.decode()
    ask(account == b"a" and is_name(container, 256) and is_name(name, 1024))
    word, is_there, value = query.partition("=")
    ask(word == "multipart-manifest" and is_there and "&" not in value)
    value = unquote_to_bytes(value)
    if method == "PUT":
        ask(value == b"put")
        given = {}
        for field, text in headers:
            given.setdefault(field.lower(), []).append(text.strip(" \t"))
        ask(len(given.get("content-type", [])) == 1 and 1 <= len(given["content-type"][0]) <= 512)
        meta = []
        while (pieces := given.get(f"x-object-meta-s3-{len(meta)}")) is not None:
            ask(len(pieces) == 1 and len(meta) < 11 and 1 <= len(pieces[0]) <= 256)
            meta.append(pieces[0])
        segments = segments_of("put", body)
        for container_of, name_of, _, _ in segments:
            ask(is_name(container_of.encode(), 256) and is_name(name_of.encode(), 1024))
        return "PutManifest", container, name, given["content-type"][0], meta, segments
    ask(method == "GET" and value == b"get" and body == b"")
    return "GetManifest", container, name


def told_call(call):
    kind, container, name, *more = call
    text = f"{kind} {{ container: {shown(container)}, name: {shown(name)}"
    if more:
        content_type, meta, segments = more
        text += f", content_type: {shown(content_type)}, meta: {shown_list(map(shown, meta))}, segments: {shown_segments(segments)}"
    return text + " }"


def written_call(call):
    kind, container, name, *more = call
    target = f"/v1/a/{quote(container, safe='-._~')}/{quote(name, safe='-._~/')}"
    method, query, own, body = "GET", "get", [], b""
    if more:
        content_type, meta, segments = more
        method, query, body = "PUT", "put", text_of("put", segments)
        own = [("Content-Type", content_type), *((f"X-Object-Meta-S3-{i}", it) for i, it in enumerate(meta))]
    fields = [("Host", "h"), TOKEN, *own, ("Content-Length", str(len(body)))]
    head = f"{method} {target}?multipart-manifest={query} HTTP/1.1\r\n" + "".join(f"{n}: {v}\r\n" for n, v in fields) + "\r\n"
    return head.encode() + body


def lines(method, target, headers, body):
    """A request, or an answer, as lines of a case."""
    out = [f"{method} {target} HTTP/1.1" if target else method, *(f"{n}: {v}".rstrip() for n, v in headers)]
    if not any(n.lower() in ("content-length", "transfer-encoding") for n, _ in headers) and (body or method == "PUT" or not target):
        out.append(f"Content-Length: {len(body)}")
    return [f"> {it}" for it in out] + [">"] + body_lines(body)


def body_lines(body):
    many = re.fullmatch(rb"\[((\{[^{}]*\},)\2{99,})(\{[^{}]*\}\]?)", body)
    if many:
        return [">. [", f">* {len(many[1]) // len(many[2])} {many[2].decode()}", f">. {many[3].decode()}"]
    if all(32 < b < 127 for b in body[:1] + body[-1:]) and all(32 <= b < 127 for b in body) and len(body) <= 1000:
        return [f">. {body.decode()}"] if body else []
    return [">x " + body[i : i + 60].hex() for i in range(0, len(body), 60)]


def put(target="/v1/a/photos/k?multipart-manifest=put", segments=None, body=None, more=(), content_type=PLAIN):
    if body is None:
        body = text_of("put", segments if segments is not None else [("photos+segments", "00ab/00001", HELLO, 5)])
    return "PUT", target, [TOKEN, *([content_type] if content_type else []), *more], body if type(body) is bytes else body.encode()


def get(target="/v1/a/photos/k?multipart-manifest=get", method="GET", more=(), body=b""):
    return method, target, [TOKEN, *more], body


def say(comment=None):
    print()
    for it in (comment or []):
        print("# " + it)


def case_call(request, comment=None):
    say(comment)
    print("read-call")
    print("\n".join(lines(*request)))
    print("= true")
    try:
        call = call_of(request)
    except NotOne:
        return print("= Err(NotACall)")
    print(f"= Ok({told_call(call)})")
    print(f"= Ok({shown(written_call(call))})")


# ---- answers


def reply_of(kind, status, headers, body):
    """The reply that an answer spells to PutManifest or GetManifest."""
    given = {}
    for field, text in headers:
        given.setdefault(field.lower(), []).append(text)
    ask("transfer-encoding" not in given)
    if status != 204:
        ask(given.get("content-length", [str(len(body))]) == [str(len(body))])
    if status == 404:
        return "NotFound"
    if kind == "put":
        if status == 400:
            return "BadManifest"
        ask(status == 201 and len(given.get("etag", [])) == 1)
        etag = given["etag"][0]
        if len(etag) >= 2 and etag[0] == etag[-1] == '"':
            etag = etag[1:-1]
        ask(all(32 < ord(c) != 127 and c != '"' for c in etag))
        return f"Stored {{ etag: {shown(etag)} }}"
    ask(status == 200)
    large = given.get("x-static-large-object", [])
    ask(len(large) <= 1)
    return f"Manifest({shown_segments(segments_of('got', body))})" if large == ["True"] else "NotFound"


PHRASES = {200: "OK", 201: "Created", 202: "Accepted", 204: "No Content", 206: "Partial Content", 412: "Precondition Failed", 400: "Bad Request", 404: "Not Found"}
PHRASES |= {401: "Unauthorized", 409: "Conflict", 413: "Content Too Large", 416: "Range Not Satisfiable", 422: "Unprocessable Content"}
PHRASES |= {500: "Internal Server Error", 503: "Service Unavailable"}


# The verb takes for the request what stands before the first empty line, and that line. So the lines of this request end in LF,
# and the empty line is the end of its body, where it is white space of JSON.
PUT = [">n PUT /v1/a/photos/k?multipart-manifest=put HTTP/1.1", ">n X-Auth-Token: t", ">n Content-Type: text/plain", ">n Content-Length: 6", ">x 0a", ">. []", ">", ">"]


def case_answer(kind, status, headers=(), body=b"", comment=None, fresh=False):
    say(comment)
    body = body if type(body) is bytes else body.encode()
    print("read-answer")
    print("\n".join(PUT[:3] + [">n If-None-Match: *"] * fresh + PUT[3:] if kind == "put" else lines(*get())))
    print("\n".join(lines(f"HTTP/1.1 {status} {PHRASES[status]}", "", list(headers), body)))
    try:
        print(f"= Ok({reply_of(kind, status, headers, body)})")
    except NotOne:
        print("= Err(NotAnAnswer)")


def answer_text(status, fields=(), body=b""):
    fields = [("Content-Length", str(len(body))), *fields]
    return (f"HTTP/1.1 {status} {PHRASES[status]}\r\n" + "".join(f"{n}: {v}\r\n" for n, v in fields) + "\r\n").encode() + body


def case_written(requests, expected, words="", comment=None):
    """The reply to the last request but one, as the answer to the last."""
    say(comment)
    made = len(requests) - 2
    words = words or (f"made {made}" if made else "")
    print(f"write-answer {words}".rstrip())
    for it in requests:
        print("\n".join(lines(*it)))
    print(f"= Ok({shown(expected)})")


# ---- the cases

BOTH = [("photos+segments", "00ab/00001", HELLO, 5), ("photos+segments", "00ab/00003", WORLD, 5)]
JOINED = hashlib.md5((HELLO + WORLD).encode()).hexdigest()
TRUE = ("X-Static-Large-Object", "True")


def entry(**fields):
    whole = {"etag": HELLO, "path": "/photos+segments/00ab/00001", "size_bytes": 5} | fields
    return json.dumps([{name: value for name, value in whole.items() if value is not None}])


def got(**fields):
    whole = {"bytes": 5, "content_type": "a/b", "hash": HELLO, "last_modified": "2024-05-01T10:00:00.000000", "name": "/photos+segments/00ab/00001"}
    whole |= fields
    return json.dumps([{name: value for name, value in whole.items() if value is not None}])


def calls():
    case_call(put(segments=BOTH, more=[("X-Object-Meta-S3-0", "[2.0.-a]"), ("X-Object-Meta-S3-1", "[b]")]),
              ["Calls, each as the last line writes it."])
    case_call(get())
    case_call(put(segments=[]), ["A list without segments, which a store refuses."])
    case_call(put("/v1/a/photos/a%20b/%C3%BC?multipart-manifest=put", [("a b%", 'ü"\\\n/x', WORLD, (1 << 63) - 1)]),
              ["Names with bytes that JSON and targets escape; the greatest size."])
    case_call(get("/v1/a/a%20b%2F/%C3%BC%3F/x?multipart-manifest=get"))
    case_call(put(body=entry(path="photos+segments/00ab/00001")), ["Read in other spellings than it is written: a path without its first slash, further fields, a field twice (the",
              "last counts), white space; the query's value with escapes; further headers, a Range among them."])
    case_call(put(body=entry(range="0-1", data=None, more=[1])))
    case_call(put(body='[{"size_bytes":7,"etag":"%s","path":"/c/n","size_bytes":5}]' % HELLO))
    case_call(put(body=" [ ] "))
    case_call(put("/v1/a/photos/k?multipart-manifest=%70u%74"))
    case_call(get("/v1/a/photos/k?multipart-manifest=%67et", more=[("Range", "bytes=0-1"), ("X-Newest", "true")]))
    case_call(put(segments=[("c" * 256, "n" * 1024, HELLO, 1)]), ["Names at and past their limits, and with byte 0."])
    case_call(put(segments=[("c" * 257, "n", HELLO, 1)]))
    case_call(put(segments=[("c", "n" * 1025, HELLO, 1)]))
    case_call(put(body=entry(path="/c/a\0b")))
    case_call(put("/v1/a/photos/a%00b?multipart-manifest=put"))
    case_call(get("/v1/a/" + "c" * 257 + "/k?multipart-manifest=get"))
    comment = ["What is no list of segments."]
    for body in ("", "{}", "[", "[1]", "[null]", "[[]]", '"x"', b"[\xff]", entry(etag=None), entry(path=None), entry(size_bytes=None),
                 entry(etag=HELLO.upper()), entry(etag=HELLO[1:]), entry(etag=5), entry(path="/photos"), entry(path="/photos/"),
                 entry(path="//k"), entry(path=7), entry(size_bytes=0), entry(size_bytes=-1), entry(size_bytes="5"), entry(size_bytes=1 << 63),
                 entry(size_bytes=5.0), got(), text_of("put", BOTH)[:-1], text_of("put", BOTH) + b","):
        case_call(put(body=body), comment)
        comment = None
    case_call(put(segments=[("c", "n", HELLO, 1)] * 1001), ["One segment more than a list may have."])
    case_call(put(body=b"[" + b"{}," * 1000 + b"{}]"), ["More entries than that which are no segments, and a list of such that has no end."])
    case_call(put(body=b"[" + b"{}," * 1000 + b"{}"))
    comment = ["Other queries, methods, and bodies; no Content-Type, or two; a piece of metadata twice."]
    for query in ("multipart-manifest=put&x=1", "x=1&multipart-manifest=put", "multipart-manifest=get", "multipart-manifest=PUT", "multipart-manifest",
                  "multipart-manifest=", "Multipart-Manifest=put", "multipart%2Dmanifest=put", "multipart-manifest=put&"):
        case_call(put("/v1/a/photos/k?" + query), comment)
        comment = None
    for query in ("multipart-manifest=put", "multipart-manifest=get&format=raw", "format=raw&multipart-manifest=get", "multipart-manifest=delete"):
        case_call(get("/v1/a/photos/k?" + query))
    for method in ("HEAD", "DELETE", "POST"):
        case_call(get(method=method))
    case_call(get("/v1/a/photos/k?multipart-manifest=delete", "DELETE"))
    case_call(get(body=b"x"))
    case_call(put(content_type=None))
    case_call(put(more=[PLAIN]))
    case_call(put(more=[("X-Object-Meta-S3-0", "a"), ("X-Object-Meta-S3-0", "a")]))
    case_call(put("/v1/b/photos/k?multipart-manifest=put"))


def answers():
    comment = ["Answers to PutManifest. Swift's to a list that may not be put is of text. The lines of the request end in LF, and its body in the",
               "first empty line."]
    for etag in (JOINED, f'"{JOINED}"', f'W/"{JOINED}"', f'"{JOINED}', ""):
        case_answer("put", 201, [("Last-Modified", "Wed, 01 May 2024 10:00:00 GMT"), ("Etag", etag)], comment=comment)
        if comment:
            case_answer("put", 412, comment=["That an object is there, which only a PUT of bytes may be answered with (this profile)."], fresh=True)
        comment = None
    case_answer("put", 201)
    case_answer("put", 201, [("Etag", JOINED), ("ETag", JOINED)])
    case_answer("put", 400, [("Content-Type", "text/plain")], "Errors:\n/photos+segments/00ab/00001, Etag Mismatch\n")
    case_answer("put", 400, [("Transfer-Encoding", "chunked")], "0\r\n\r\n")
    for status in (404, 200, 202, 204, 401, 409, 413, 422, 500, 503):
        case_answer("put", status, [("Etag", JOINED)])
    case_answer("get", 200, [TRUE], text_of("got", BOTH), ["Answers to GetManifest. Swift's have fields more, and the type that each segment has."])
    case_answer("get", 200, [("x-static-LARGE-object", "True"), ("Content-Type", "application/json; charset=utf-8"), ("Etag", f'"{JOINED}"')], got(sub_slo=True, range=None))
    case_answer("get", 200, [TRUE], "[]")
    case_answer("get", 200, [TRUE], got(name="photos+segments/00ab/00001", content_type=None, last_modified=None))
    comment = ["An object with its own bytes: no such header, or another value."]
    for headers in ([], [("X-Static-Large-Object", "False")], [("X-Static-Large-Object", "true")], [("X-Static-Large-Object", "")]):
        case_answer("get", 200, headers, "hello", comment)
        comment = None
    case_answer("get", 200, [], text_of("got", BOTH))
    case_answer("get", 200, [TRUE, TRUE], text_of("got", BOTH), ["The header twice, what is no list, and other statuses."])
    for body in ("", "hello", entry(), got(bytes=0), got(hash=None), got(hash=f'"{HELLO}"'), got(name="/photos"), got(bytes=None), got(bytes=1 << 63)):
        case_answer("get", 200, [TRUE], body)
    case_answer("get", 200, [TRUE], text_of("got", [("c", "n", HELLO, 1)] * 1001))
    case_answer("get", 200, [TRUE, ("Content-Length", "3")], "[]")
    for status in (404, 204, 206, 201, 400, 401, 416, 503):
        case_answer("get", status, [TRUE], "" if status == 204 else "[]")


def container(name):
    return "PUT", f"/v1/a/{name}", [TOKEN, ("X-Container-Read", ""), ("X-Container-Meta-S3-Created", "7")], b""


def object_(name, body):
    return "PUT", f"/v1/a/{name}", [TOKEN, PLAIN], body


def written():
    first = object_("photos%2Bsegments/00ab/00001", b"hello")
    second = object_("photos%2Bsegments/00ab/00003", b"world")
    there = [container("photos"), container("photos%2Bsegments"), first, second]
    listed = put(segments=BOTH)
    plain = object_("photos/k", b"hello")
    read = ("GET", "/v1/a/photos/k", [TOKEN], b"")
    case_written([*there, listed, listed], answer_text(201, [("Etag", JOINED)]), comment=["Answers written: the reply of a store in memory to the last call but one, as the answer to the last."])
    case_written([*there[:3], listed, listed], answer_text(400))
    case_written([there[0], put(segments=[]), put(segments=[])], answer_text(400))
    case_written([listed, listed], answer_text(404))
    case_written([*there, listed, get(), get()], answer_text(200, [TRUE], text_of("got", BOTH)))
    case_written([there[0], plain, get(), get()], answer_text(404))
    case_written([there[0], get(), get()], answer_text(404))
    odd = [("a b", 'ü"', hashlib.md5(b"x").hexdigest(), 1)]
    case_written([there[0], container("a%20b"), object_("a%20b/%C3%BC%22", b"x"), put(segments=odd), get(), get()], answer_text(200, [TRUE], text_of("got", odd)))
    wrong = answer_text(500)
    case_written([*there[:3], listed, plain], wrong, comment=["Replies that have no spelling to the call."])
    case_written([*there, listed, get(), read], wrong)
    case_written([*there, listed, get()], wrong)
    case_written([there[0], plain, read, get()], wrong)
    case_written([there[0], there[0], listed], wrong)


print("# Calls on lists of segments and their answers, by bench/manifest-cases.py: a reader and a writer of its own, from Object Storage API")
print("# v1, \"Static large objects\", and this profile. The place has the host `h`, the account `a` and the token `t`.")
calls()
answers()
written()
