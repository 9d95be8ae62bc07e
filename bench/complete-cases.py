#!/usr/bin/env python3
"""Writes cases of the completion of uploads: what is answered, how many calls of the store each request makes, and what is left.

    bench/complete-cases.py > crates/cases/data/completions.txt

The texts, the accounts and the replies come from a small model (bench/case_uploads.py), which knows only what this profile says of
a completion, of settling and of the files that are kept (docs/PROFILE.md), by Amazon S3 API Reference, "CompleteMultipartUpload";
the MD5s are those of Python's hashlib. Nothing is taken from the program. The requests are signed as bench/sign-cases.py signs them.
"""
from case_signing import load_signing
from case_uploads import (
    CLOCK, ID, NAMESPACE, NO_UPLOADS, OBJECT, OTHER, PLAIN, STARTED, TELL, UPLOAD, Account, Completion, Writer, md5, read_in_brief,
    read_reply, refusal, reply, request, shown, tag,
)

MOMENT = 1369353700
PUT_NOW = "Fri, 24 May 2013 00:01:40 GMT"
LEAST = "words session --least-part 1"
MISSING = ("404 Not Found", "NoSuchUpload", "The upload does not exist.")


class Completed(Completion):
    """A completion that is asked for at the moment of the cases."""

    def __init__(self, parts, kind=PLAIN, meta=(), key="v.bin"):
        super().__init__(parts, kind, meta)
        self.key = key

    def sealed(self, **other):
        return super().sealed(**{"at": MOMENT, "key": self.key, **other})

    def open(self):
        return super().open().replace('"key":"v.bin"', f'"key":"{self.key}"')

    def done(self):
        return super().done().replace('"done":1369353607', f'"done":{MOMENT}').replace('"key":"v.bin"', f'"key":"{self.key}"')

    def tag(self):
        return tag(self.kind, self.etag, MOMENT, ID)


def listed(parts):
    """The body of a completion by these numbers and ETags."""
    items = "".join(f"<Part><PartNumber>{number}</PartNumber><ETag>{etag}</ETag></Part>" for number, etag in parts)
    return f"<CompleteMultipartUpload>{items}</CompleteMultipartUpload>"


def body_of(done):
    return listed((number, md5(body.encode())) for number, body in done.parts)


def complete(body, target=UPLOAD):
    return request("POST", target, body=body)


def result(done, path=OBJECT):
    return (
        f'<CompleteMultipartUploadResult xmlns="{NAMESPACE}"><Location>{path}</Location><Bucket>photos</Bucket><Key>{done.key}</Key>'
        f"<ETag>&quot;{done.etag}&quot;</ETag></CompleteMultipartUploadResult>"
    )


def head_now(done):
    return [
        f"Last-Modified: {PUT_NOW}", f'ETag: "{done.etag}"', "Accept-Ranges: bytes", f"Content-Type: {done.kind}",
        *(f"x-amz-meta-{name[1:]}: {value}" for name, value in done.meta),
    ]


class Asked:
    """Requests of one connection, each with the calls that it makes and its reply."""

    def __init__(self, calls=2):
        self.calls, self.turn, self.requests, self.expected = calls, 0, [], []

    def ask(self, calls, asked, status, *headers, **rest):
        self.calls += calls
        self.requests += asked
        self.expected += reply(f"1 {self.calls}", self.turn, status, *headers, **rest)
        self.turn += 1

    def refuse(self, calls, asked, status, code, message, path=OBJECT):
        self.ask(calls, asked, status, body=refusal(code, message, path, self.turn))

    def complete(self, calls, done, asked=None, path=OBJECT):
        self.ask(calls, asked or complete(body_of(done)), "200 OK", body=result(done, path))

    def read(self, *headers, body):
        self.calls += 2 + bool(body)
        self.requests += request("GET", OBJECT)
        self.expected += read_reply(1, self.calls, self.turn, "200 OK", *headers, body=body)
        self.turn += 1

    def end(self, to, name, account, given=(LEAST, *TELL)):
        to.case(name, list(given), self.requests, ["status 0", f"calls {self.calls}", *self.expected, *account.left()])


def opened(done, parts=None):
    """The account where the upload is open: nothing is sealed."""
    account = Account(done, "", parts)
    account.containers["+gateway"] = {}
    return account


def finished(done, parts=None):
    """The account once the completion is done."""
    return Account(done, done.sealed(), parts).after(5)


def stages(done):
    """The accounts of a completion by how many of its seven calls had their effect."""
    sealed = Account(done, done.sealed())
    return [opened(done)] * 4 + [sealed.after(2), sealed.after(3), sealed.after(4), sealed.after(5)]


def plain_run(to, done):
    to.note("The upload's first part came twice. The completion is done by seven calls, and its repetition is answered by two.")
    first = Completed([(1, "abc"), (3, "world")])
    to.lines += ["setup", *request("PUT", "/photos", body="")] + request("HEAD", "/photos") * 3 + request("POST", f"{OBJECT}?uploads")
    for number, body in [(1, "abc"), (3, "world"), (1, "hello")]:
        to.lines += request("PUT", f"{OBJECT}?partNumber={number}&uploadId={ID}", body=body)
    to.end(["served"])
    assert first.parts != done.parts
    run = Asked()
    run.complete(7, done)
    run.complete(2, done)
    run.read(*head_now(done), body=done.body)
    run.ask(3, request("GET", "/photos?uploads"), "200 OK", body=NO_UPLOADS)
    run.refuse(2, request("GET", UPLOAD), *MISSING)
    run.refuse(2, request("PUT", f"{OBJECT}?partNumber=1&uploadId={ID}", body="again"), *MISSING)
    run.end(to, "an upload is completed, and completed again", finished(done))


def kept_otherwise(to, done):
    """What isn't the completion that is kept."""
    one = [(1, md5(b"hello"))]
    three = [*one, (3, md5(b"world"))]
    run = Asked()
    run.complete(7, done)
    run.refuse(2, complete(listed(one)), *MISSING)
    run.refuse(2, complete(listed([*one, (3, md5(b"hello"))])), *MISSING)
    run.refuse(2, complete(listed([*one, (2, md5(b"world"))])), *MISSING)
    run.refuse(2, complete(listed([*three, (4, OTHER)])), *MISSING)
    run.refuse(2, request("DELETE", UPLOAD), *MISSING)
    run.refuse(2, complete(listed(three), f"/photos/w.bin?uploadId={ID}"), *MISSING, "/photos/w.bin")
    run.complete(2, done, complete(listed([(1, f'"{md5(b"hello")}"'), (3, f'&#34;{md5(b"world")}&#34;')])))
    run.end(to, "another list, another key and an abort of what is completed", finished(done))


def refusals(to, done):
    """Completions that are refused by the parts of the upload, each after the pages of them, but for the order of the numbers."""
    hello, world = md5(b"hello"), md5(b"world")
    run = Asked()
    order = ("400 Bad Request", "InvalidPartOrder", "The parts are not in ascending order.")
    part = ("400 Bad Request", "InvalidPart", "A part is missing or differs.")
    run.refuse(2, complete(listed([(3, world), (1, hello)])), *order)
    run.refuse(2, complete(listed([(1, hello), (1, hello)])), *order)
    run.refuse(2, complete(listed([(3, OTHER), (1, OTHER)])), *order)
    run.refuse(3, complete(listed([(1, hello), (2, world)])), *part)
    run.refuse(3, complete(listed([(1, hello), (3, hello)])), *part)
    run.refuse(3, complete(listed([(1, hello), (3, world), (4, world)])), *part)
    run.refuse(3, complete(listed([(1000, hello)])), *part)
    run.refuse(2, complete(body_of(done), f"{OBJECT}?uploadId={OTHER}"), *MISSING)
    run.refuse(1, complete(body_of(done), f"{OBJECT}?uploadId=a"), *MISSING)
    run.refuse(2, complete(body_of(done), f"/photos/w.bin?uploadId={ID}"), *MISSING, "/photos/w.bin")
    run.refuse(1, complete(body_of(done), f"/music/v.bin?uploadId={ID}"), "404 Not Found", "NoSuchBucket", "The bucket does not exist.", "/music/v.bin")
    run.end(to, "completions that are refused", opened(done))

    run = Asked(0)
    bad = ("400 Bad Request", "MalformedXML", "The body is malformed.")
    for body in ["", "<CompleteMultipartUpload></CompleteMultipartUpload>", listed([(0, "")]), body_of(done)[:-1], body_of(done) + "x"]:
        run.refuse(0, complete(body), *bad)
    bare = Account(done, "")
    del bare.containers["+gateway"]["sealed"]
    run.end(to, "bodies that are no completion make no call", bare)


def sizes(to):
    """The least size of a part that isn't the last."""
    done = Completed([(1, "hello"), (2, "world")])
    small = ("400 Bad Request", "EntityTooSmall", "A part is too small.")
    hello, world = md5(b"hello"), md5(b"world")
    to.note("Two parts of five bytes, where a part that isn't the last has at least six; and where nothing else is said, 5 MiB.")
    to.setup(done)
    alone = Completed([(1, "hello")])
    run = Asked()
    run.refuse(2, complete(listed([(2, world), (1, hello)])), "400 Bad Request", "InvalidPartOrder", "The parts are not in ascending order.")
    run.refuse(3, complete(listed([(1, hello), (2, hello)])), "400 Bad Request", "InvalidPart", "A part is missing or differs.")
    run.refuse(3, complete(listed([(1, hello), (2, world)])), *small)
    run.complete(7, alone, complete(body_of(alone)))
    run.read(*head_now(alone), body=alone.body)
    run.end(to, "the last part alone may be small", finished(alone, done.parts), ["words session --least-part 6", *TELL])
    run = Asked()
    run.refuse(3, complete(body_of(done)), *small)
    run.end(to, "a part below the usual least size", opened(done), TELL)
    run = Asked()
    run.complete(7, done)
    run.end(to, "parts of the least size", finished(done), ["words session --least-part 5", *TELL])


def contents(to):
    """Parts without a byte, and what the object is put with."""
    done = Completed([(1, "hello"), (2, "")])
    assert done.store_etag() == "69a329523ce1ec88bf63061863d9cb14"
    to.note("An empty part is no segment of the object, and counts in its ETag.")
    to.setup(done)
    run = Asked()
    run.complete(7, done)
    run.read(*head_now(done), body=done.body)
    run.end(to, "a part that is filled and an empty one", finished(done))

    done = Completed([(7, "")], "text/plain", [("-a", "b"), ("-colour", "red")])
    assert done.etag == "59adb24ef3cdbe0297f05b395827453f-1"
    to.note("Where all parts are empty the object is a plain one without a byte. The upload's type and metadata are the object's.")
    to.setup(done)
    run = Asked()
    run.complete(7, done)
    run.read(*head_now(done), body=done.body)
    run.ask(2, request("HEAD", OBJECT), "200 OK", *head_now(done), size=0)
    run.end(to, "an empty part alone", finished(done))
    losses(to, done, "an empty part alone")

    parts = [(1, ""), (2, "hello"), (3, ""), (1000, "world")]
    every = Completed(parts, "text/plain", [("-a", "b")])
    done = Completed([parts[1], parts[3]], "text/plain", [("-a", "b")])
    to.note("An empty part before others is too small, whatever the least size. Metadata beside segments, and the greatest number of a part.")
    to.setup(every)
    run = Asked()
    run.refuse(3, complete(body_of(every)), "400 Bad Request", "EntityTooSmall", "A part is too small.")
    run.complete(7, done)
    run.read(*head_now(done), body=done.body)
    run.end(to, "empty parts between others", finished(done, parts))


def unlisted(to):
    """An object is there, and a part isn't listed."""
    done = Completed([(1, "hello")])
    extra = Completed([(1, "hello"), (2, "unlisted")])
    to.note("The object takes the place of one that is there; parts that the completion doesn't list stay beside it, and are seen by nobody.")
    to.setup(extra, second=request("PUT", OBJECT, "x-amz-meta-old: 1", body="old"))
    run = Asked()
    run.complete(7, done)
    run.read(*head_now(done), body=done.body)
    run.refuse(2, request("GET", UPLOAD), *MISSING)
    account = finished(done, extra.parts)
    run.end(to, "an object is there, and a part isn't listed", account)
    to.note("What is put under the key behind it takes its place; the completion stays kept, and its repetition changes nothing.")
    run = Asked()
    run.complete(7, done)
    etag = md5(b"other")
    run.ask(2, request("PUT", OBJECT, body="other"), "200 OK", f'ETag: "{etag}"', size=0)
    run.complete(2, done)
    headers = [f"Last-Modified: {PUT_NOW}", f'ETag: "{etag}"', "Accept-Ranges: bytes", f"Content-Type: {PLAIN}"]
    run.read(*headers, body="other")
    put = account.having("photos", "v.bin", (tag(PLAIN, etag, MOMENT, "-"), [], None, "other"))
    run.end(to, "an object is put behind a completion, which is repeated", put)


def special_keys(to):
    """A key that is escaped in what is answered."""
    done = Completed([(1, "hello")], key="a b/ü%")
    path = "/photos/a%20b/%C3%BC%25"
    to.note("The place of the object is its path, escaped.")
    to.lines += ["setup", *request("PUT", "/photos", body="")] + request("HEAD", "/photos") * 3 + request("POST", f"{path}?uploads")
    to.lines += request("PUT", f"{path}?partNumber=1&uploadId={ID}", body="hello")
    to.end(["served"])
    run = Asked()
    run.complete(7, done, complete(body_of(done), f"{path}?uploadId={ID}"), path)
    run.expected = [line for line in run.expected]
    account = finished(done)
    account.containers["photos"] = {done.key: account.containers["photos"].pop("v.bin")}
    run.end(to, "a key with a space and a percent sign", account)


def losses(to, done, name):
    """Each of the seven calls is lost: its request, its answer, or the store from it on. The same completion follows on the same
    connection, and then a GET."""
    at = stages(done)
    # The calls behind a loss: what the next operation settles, and the completion that it is.
    for call in range(1, 8):
        number = 2 + call
        for word, effect in [("before", call - 1), ("after", call), ("stop", call - 1)]:
            status = "503 ServiceUnavailable" if call <= 4 else "200"
            given = [LEAST, f"{word} {number}", "brief", *TELL, "nomodel"]
            requests = complete(body_of(done)) * 2 + request("GET", OBJECT)
            first = f"piece 1 {number} {status}"
            if word == "stop":
                ends = number + 2
                expected = [f"calls {ends}", first, f"piece 1 {number + 1} 503 ServiceUnavailable", f"piece 1 {ends} 503 ServiceUnavailable"]
                to.case(f"{name}, {word} {number}", given, requests, ["status 0", *expected, *at[effect].left()])
                continue
            sealed = 4 <= effect <= 6
            settles = 0 if call <= 3 else 5 if sealed else 2
            again = number + settles + (7 if effect <= 3 else 2)
            ends = again + 2 + bool(done.body)
            expected = [f"calls {ends}", first, f"piece 1 {again} 200", *read_in_brief(1, ends, len(done.body), f'"{done.etag}"')]
            to.case(f"{name}, {word} {number}", ["etags 3", *given], requests, ["status 0", *expected, *at[7].left()])


def sweeps(to, done):
    """A completion with each loss of each call, and a new run over the account after each number of calls."""
    to.note(
        "Each loss of each call of a completion, and a new run over the account after each number of calls: it reads the object, asks",
        "for its head, lists objects, uploads and parts, aborts, completes, and reads again.",
    )
    probe = [
        *request("GET", OBJECT), *request("HEAD", OBJECT), *request("GET", "/photos?list-type=2"), *request("GET", "/photos?uploads"),
        *request("GET", UPLOAD), *complete(body_of(done)), *request("DELETE", UPLOAD), *request("GET", OBJECT),
    ]
    for name, asked, answer, before, after in [
        ("a completion", complete(body_of(done)), "piece 1 9 200", "404 404 200 200 200 200 404 200", "200 200 200 200 404 200 404 200"),
        (
            "a completion that is refused", complete(listed([(1, OTHER)])), "piece 1 5 400 InvalidPart",
            "404 404 200 200 200 200 404 200", "404 404 200 200 200 200 404 200",
        ),
    ]:
        to.lines += [f"case {name}", CLOCK, LEAST, "brief", "connection", *asked, "sweep", "probe", *probe]
        to.end(["status 0", answer, f"before {before}", f"after {after}"])


def across_connections(to, done):
    """What a completion leaves unsure is settled before the next operation, also of another connection."""
    at = stages(done)
    to.note("What is left behind a completion is finished before the next operation, on whatever connection; a refusal finishes nothing.")
    requests = complete(body_of(done)) + ["connection"] + request("GET", "/photos?versions") + request("GET", OBJECT) + request("GET", OBJECT)
    expected = ["status 0", "calls 18", "piece 1 7 200", "piece 2 7 501 NotImplemented"]
    for calls in (15, 18):
        expected += read_in_brief(2, calls, len(done.body), f'"{done.etag}"')
    to.case("the object isn't put, and another connection reads it", [LEAST, "after 7", "brief", "etags 3 4", *TELL, "nomodel"], requests, expected + at[7].left())
    to.note("Without another operation it stays as it is.")
    requests = complete(body_of(done)) + ["connection"] + request("GET", "/photos?versions")
    expected = ["status 0", "calls 7", "piece 1 7 200", "piece 2 7 501 NotImplemented"]
    to.case("the object isn't put, and nothing follows", [LEAST, "before 7", "brief", *TELL, "nomodel"], requests, expected + at[4].left())


def others_may_not(to, done):
    """Who didn't sign may not complete, but what can't be read is told first."""
    to.note("A request that nobody signed is refused behind its body (docs/PROFILE.md).")
    anonymous = lambda body: [f"> POST {UPLOAD} HTTP/1.1", "> Host: localhost", f"> Content-Length: {len(body)}", ">", f">. {body}"]
    requests = anonymous(body_of(done)) + anonymous("<x/>")
    bare = opened(done)
    to.case(
        "nobody may complete", [LEAST, "brief", *TELL], requests,
        ["status 0", "calls 0", "piece 1 0 403 AccessDenied", "piece 1 0 400 MalformedXML", *bare.left()],
    )


def main():
    to = Writer()
    to.note(
        "The completion of uploads, by bench/complete-cases.py: a small model of its own, from what this profile says of a completion, of",
        "the calls that it makes and of the files that are kept (docs/PROFILE.md), and Amazon S3 API Reference,",
        '"CompleteMultipartUpload". Settling makes two calls before the first operation of a run. The calls of a completion are HEAD of the',
        "bucket, GET of the record, a listing of the segments, PUT of what is sealed, PUT of the object, PUT of the record with its moment,",
        "and DELETE of what is sealed.",
    )
    to.lines.append("")
    done = Completed([(1, "hello"), (3, "world")])
    plain_run(to, done)
    kept_otherwise(to, done)
    refusals(to, done)
    to.setup(done)
    to.note("Each of the seven calls is lost, its request, its answer, or the store from it on. The same completion follows, and a GET.")
    losses(to, done, "a completion")
    across_connections(to, done)
    others_may_not(to, done)
    sweeps(to, done)
    sizes(to)
    contents(to)
    unlisted(to)
    special_keys(to)
    print("\n".join(load_signing().signed(to.lines)).rstrip("\n"))


if __name__ == "__main__":
    main()
