#!/usr/bin/env python3
"""Writes cases of DeleteObjects: what is answered, how many calls of the store each request makes, and what is left.

    bench/delete-many-cases.py > crates/cases/data/many_keys.txt

The replies and the accounts come from a small model of its own, which knows only what this profile says of a deletion of many keys
and of settling (docs/PROFILE.md), by Amazon S3 API Reference, "DeleteObjects"; the MD5s are those of Python's hashlib. Nothing is
taken from the program. The requests are signed as bench/sign-cases.py signs them.
"""
import base64
import hashlib
from urllib.parse import quote

from case_signing import load_signing
from case_uploads import CLOCK, NAMESPACE, PLAIN, STARTED, TELL, Writer, md5, refusal, reply, request, shown, tag

BUCKET = "/photos"
TARGET = f"{BUCKET}?delete"
SETTLES = 2
NO_BUCKET = ("404 Not Found", "NoSuchBucket", "The bucket does not exist.")
MALFORMED = ("400 Bad Request", "MalformedXML", "The body is malformed.")
ESCAPES = {"&": "&amp;", "<": "&lt;", ">": "&gt;", '"': "&quot;"}


# ---- texts


def escaped(text):
    """A text of XML: the four characters by name, and a byte below 32 by its number."""
    return "".join(ESCAPES.get(c) or (f"&#{ord(c)};" if ord(c) < 32 else c) for c in text)


def body_of(keys, quiet=None):
    items = "".join(f"<Object><Key>{escaped(key)}</Key></Object>" for key in keys)
    told = "" if quiet is None else f"<Quiet>{quiet}</Quiet>"
    return f"<Delete>{told}{items}</Delete>"


def result(keys):
    items = "".join(f"<Deleted><Key>{escaped(key)}</Key></Deleted>" for key in keys)
    return f'<DeleteResult xmlns="{NAMESPACE}">{items}</DeleteResult>'


def delete(body, *headers, target=TARGET):
    return request("POST", target, *headers, body=body)


def path(key):
    return f"{BUCKET}/{quote(key)}"


# ---- the account, and a run


class Bucket:
    """The one bucket, and the bytes of each object in it, all of which an earlier run put."""

    def __init__(self, **objects):
        self.objects = objects

    def setup(self, to):
        to.lines += ["setup", *request("PUT", BUCKET, body="")]
        for key, body in self.objects.items():
            to.lines += request("PUT", path(key), body=body)
        to.end(["served"])

    def without(self, keys):
        return Bucket(**{key: body for key, body in self.objects.items() if key not in keys})

    def left(self):
        names = ["+gateway", "photos", "photos+segments", "photos+uploads"]
        lines = ["left [" + ", ".join(shown(name) for name in names) + "]"]
        for name in names:
            files = self.objects if name == "photos" else {}
            created = f"Some({STARTED})" if name == "photos" else "None"
            lines += [f"Readers {{ readers: Nobody, created: {created} }}", f"objects {len(files)}"]
            for key, body in sorted(files.items(), key=lambda file: file[0].encode()):
                kind = tag(PLAIN, md5(body.encode()), STARTED, "-")
                lines += [f"object {shown(key)} {shown(kind)} []", f"body {shown(body)}"]
        return lines


class Run:
    """The requests of one connection, each with the calls that it makes and its reply."""

    def __init__(self):
        self.calls, self.turn, self.requests, self.expected = SETTLES, 0, [], []

    def ask(self, calls, asked, status, *headers, **rest):
        self.calls += calls
        self.requests += asked
        self.expected += reply(f"1 {self.calls}", self.turn, status, *headers, **rest)
        self.turn += 1

    def refuse(self, calls, asked, status, code, message, resource=BUCKET):
        self.ask(calls, asked, status, body=refusal(code, message, resource, self.turn))

    def delete(self, keys, quiet=None, asked=None):
        told = [] if quiet == "true" else keys
        self.ask(1 + len(keys), asked or delete(body_of(keys, quiet)), "200 OK", body=result(told))

    def end(self, to, name, bucket, given=()):
        to.case(name, [*given, *TELL], self.requests, ["status 0", f"calls {self.calls}", *self.expected, *bucket.left()])


# ---- the groups


def plain(to):
    to.note(
        "One key is there and one isn't: both are told as deleted. HEAD of the bucket and a DELETE for each key, behind the two calls",
        "that settle.",
    )
    bucket = Bucket(**{"a&b": "one", "z": "stays"})
    bucket.setup(to)
    run = Run()
    run.delete(["a&b", "c"])
    run.end(to, "one key that is there and one that isn't", bucket.without(["a&b"]))
    run = Run()
    run.delete(["a&b", "c"], "true")
    run.end(to, "quiet", bucket.without(["a&b"]))
    run = Run()
    run.delete(["a&b", "c"], "false")
    run.end(to, "not quiet", bucket.without(["a&b"]))
    run = Run()
    run.delete(["c", "a&b", "z"])
    run.refuse(2, request("GET", path("a&b")), "404 Not Found", "NoSuchKey", "The key does not exist.", path("a&b"))
    run.delete(["c", "a&b", "z"])
    run.end(to, "the same again", bucket.without(["a&b", "z"]))


def repeated(to):
    to.note("A key that is listed twice is deleted twice, and told twice.")
    bucket = Bucket(a="1", b="2", c="3")
    bucket.setup(to)
    run = Run()
    run.delete(["a", "a", "b"])
    run.end(to, "the same key twice", bucket.without("ab"))
    run = Run()
    run.delete(["c", "b", "a"])
    run.end(to, "the keys are told in the order of the body", bucket.without("abc"))


def special_keys(to):
    to.note("A key with a line feed, one of 1024 bytes, and one with all that is escaped.")
    long = "k" * 1024
    bucket = Bucket(**{"a\nb": "1", long: "2", "<\"'ü &amp;>": "3"})
    bucket.setup(to)
    run = Run()
    run.delete(["a\nb", long, "<\"'ü &amp;>"])
    run.end(to, "keys that are escaped, and the longest", bucket.without(bucket.objects))
    run = Run()
    run.delete([*bucket.objects], asked=delete(
        f"<Delete><Object><Key>a&#x0A;b</Key></Object><Object><Key>{long}</Key></Object>"
        "<Object><Key>&#60;&quot;&apos;&#xFC; &amp;amp;></Key></Object></Delete>",
    ))
    run.end(to, "the same keys by other references", bucket.without(bucket.objects))


def refusals(to):
    to.note("A bucket that is missing is found by one call. What isn't the body of a deletion makes none.")
    bucket = Bucket(a="1")
    bucket.setup(to)
    run = Run()
    run.refuse(1, delete(body_of(["a"]), target="/music?delete"), *NO_BUCKET, "/music")
    run.end(to, "the bucket is missing", bucket)

    run = Run()
    run.calls = 0
    for body in ["<Delete></Delete>", "<Delete><Quiet>true</Quiet></Delete>", "", body_of(["a"])[:-1], body_of(["a"]) + "x",
                 "<Delete><Object><Key></Key></Object></Delete>", body_of(["a", "k" * 1025]),
                 "<Delete><Object><Key>a</Key><VersionId>1</VersionId></Object></Delete>", body_of(f"k{n}" for n in range(1001))]:
        run.refuse(0, delete(body), *MALFORMED)
    to.case("bodies that are none of a deletion", TELL, run.requests, ["status 0", "calls 0", *run.expected, *bucket.left()])

    to.note("Content-MD5 is asked of the body where it is given.")
    body = body_of(["a"])
    right = base64.b64encode(hashlib.md5(body.encode()).digest()).decode()
    wrong = base64.b64encode(hashlib.md5(b"").digest()).decode()
    requests = delete(body, f"Content-MD5: {wrong}") + delete(body, "Content-MD5: x") + delete(body, f"Content-MD5: {right}")
    expected = ["status 0", "calls 4", "piece 1 0 400 BadDigest", "piece 1 0 400 InvalidDigest", "piece 1 4 200"]
    to.case("Content-MD5", ["brief", *TELL], requests, expected + bucket.without("a").left())

    to.note("Who didn't sign may not delete (docs/PROFILE.md).")
    anonymous = [f"> POST {TARGET} HTTP/1.1", "> Host: localhost", f"> Content-Length: {len(body)}", ">", f">. {body}"]
    to.case("nobody may delete", ["brief", *TELL], anonymous, ["status 0", "calls 0", "piece 1 0 403 AccessDenied", *bucket.left()])


def losses(to):
    """Each of the four calls for three keys is lost, and each of the two that settle: the request, the answer, or the store from it
    on. Call 3 is HEAD, and the calls 4 to 6 delete one key each."""
    to.note(
        "Each call for three keys is lost: its request, its answer, or the store from it on. The calls 1 and 2 settle, 3 is HEAD of the",
        "bucket, and 4 to 6 delete one key each. What stands behind a lost answer was deleted. No call follows one that failed.",
    )
    keys = ["a", "b", "c"]
    bucket = Bucket(a="1", b="2", c="3", d="stays")
    bucket.setup(to)
    asked = delete(body_of(keys))
    for number in range(1, 7):
        for word in ("before", "after", "stop"):
            effects = number if word == "after" else number - 1
            gone = keys[: max(0, effects - 3)]
            left = bucket.without(gone).left()
            first = f"piece 1 {number} 503 ServiceUnavailable"
            given = [f"{word} {number}", "brief", *TELL, "nomodel"]
            to.case(f"three keys, {word} {number}", given, asked, ["status 0", f"calls {number}", first, *left])
    to.note("The same is asked for again, and all are gone. A store that wasn't settled is settled first.")
    for number in range(1, 7):
        for word in ("before", "after"):
            ends = number + (0 if number > SETTLES else SETTLES) + 4
            first = f"piece 1 {number} 503 ServiceUnavailable"
            given = [f"{word} {number}", "brief", *TELL, "nomodel"]
            to.case(f"three keys, {word} {number}, and again", given, asked * 2, ["status 0", f"calls {ends}", first, f"piece 1 {ends} 200", *bucket.without(keys).left()])


def swept(to):
    to.note("A deletion of one key, with each loss of each call: a new run sees it as not done, or as done.")
    bucket = Bucket(a="1", b="2")
    bucket.setup(to)
    probe = request("GET", path("a")) + request("GET", path("b")) + delete(body_of(["a"])) + request("HEAD", path("a"))
    to.lines += ["case one key", CLOCK, "brief", "connection", *delete(body_of(["a"])), "sweep", "probe", *probe]
    to.end(["status 0", "piece 1 4 200", "before 200 200 200 404", "after 404 200 200 404"])


def many(to):
    to.note("As many keys as may be listed: a call for each, and one for the bucket.")
    bucket = Bucket(k500="1", other="2")
    bucket.setup(to)
    keys = [f"k{n}" for n in range(1000)]
    calls = SETTLES + 1 + len(keys)
    given = ["pieces 1024", "brief", *TELL]
    to.case("a thousand keys", given, delete(body_of(keys, "true")), ["status 0", f"calls {calls}", f"piece 1 {calls} 200", *bucket.without(keys).left()])


def main():
    to = Writer()
    to.note(
        "The deletion of many keys, by bench/delete-many-cases.py: a small model of its own, from what this profile says of it and of its",
        'calls (docs/PROFILE.md), and Amazon S3 API Reference, "DeleteObjects". Settling makes two calls before the first operation of a',
        "run.",
    )
    to.lines.append("")
    plain(to)
    repeated(to)
    special_keys(to)
    refusals(to)
    losses(to)
    swept(to)
    many(to)
    print("\n".join(load_signing().signed(to.lines)).rstrip("\n"))


if __name__ == "__main__":
    main()
