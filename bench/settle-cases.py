#!/usr/bin/env python3
"""Writes cases of completions that are sealed, each with what settling leaves and what is answered over it.

    bench/settle-cases.py > crates/cases/data/settling.txt

The texts, the accounts after each call and the replies come from the small model below, which knows only what this profile says
of settling and of the files that are kept (docs/PROFILE.md); the MD5s are those of Python's hashlib. Nothing is taken from the
program. The requests are signed as bench/sign-cases.py signs them.
"""
import json

from case_signing import load_signing
from case_uploads import (
    ID, NO_UPLOADS, OBJECT, OTHER, PLAIN, PUT_AT, TELL, UPLOAD, Account, Completion, Writer, head_of, listing, md5, read_in_brief,
    read_reply, refusal, reply, request, tag,
)

STORE = "s3gate: store"
BAD = "s3gate: inconsistent %2Bgateway sealed"


def put_file(done):
    return f"manifest photos v.bin {done.tag()} {done.segments()}"


def keep_file(done):
    return f"file photos+uploads {ID} {done.done()}"


def seal_file(text):
    return f"file +gateway sealed {text}"


def read_whole(calls, turn, done):
    return read_reply(1, calls, turn, "200 OK", *head_of(done), body=done.body)


def each_beginning(to, done, sealed):
    """What the first operation finds: the record open, the object there, object and record there."""
    beginnings = [
        ("a completion is sealed", []),
        ("its object is there", [put_file(done)]),
        ("its object and its record are there", [put_file(done), keep_file(done)]),
    ]
    account = Account(done, sealed)
    for name, files in reversed(beginnings):
        to.setup(done, *files, seal_file(sealed))
        given = [*TELL, "nomodel"]
        requests = request("GET", OBJECT) + request("GET", OBJECT)
        expected = ["status 0", "calls 11", *read_whole(8, 0, done), *read_whole(11, 1, done), *account.after(5).left()]
        to.case(f"{name}, and is read", given, requests, expected)
        to.recover(f"{name}, and recovered", account.after(5), 5)


def each_operation(to, done, account):
    """Requests over the object that settling puts."""
    length = len(done.body)
    at, turn, requests, expected = [5], [0], [], []

    def ask(calls, asked, status, *headers, **rest):
        at[0] += calls
        requests.extend(asked)
        expected.extend(reply(f"1 {at[0]}", turn[0], status, *headers, **rest))
        turn[0] += 1

    def read(asked, status, *headers, body):
        at[0] += 3
        requests.extend(asked)
        expected.extend(read_reply(1, at[0], turn[0], status, *headers, body=body))
        turn[0] += 1

    def refuse(calls, asked, status, code, message, path=OBJECT):
        ask(calls, asked, status, body=refusal(code, message, path, turn[0]))

    def part(given, first, last):
        headers = [*head_of(done), f"Content-Range: bytes {first}-{last}/{length}"]
        read(request("GET", OBJECT, f"Range: bytes={given}"), "206 Partial Content", *headers, body=done.body[first : last + 1])

    missing = ("404 Not Found", "NoSuchUpload", "The upload does not exist.")
    ask(2, request("HEAD", OBJECT), "200 OK", *head_of(done), size=length)
    part("0-9", 0, 9)
    part("3-6", 3, 6)
    part("-3", 7, 9)
    part("5-", 5, 9)
    refuse(2, request("GET", OBJECT, "Range: bytes=10-"), "416 Range Not Satisfiable", "InvalidRange", "The range is not satisfiable.")
    read(request("GET", OBJECT, "Range: bytes=0-1,3-4"), "200 OK", *head_of(done), body=done.body)
    ask(2, request("GET", "/photos?list-type=2"), "200 OK", body=listing(done, length, 2))
    ask(2, request("GET", "/photos"), "200 OK", body=listing(done, length, 1))
    ask(3, request("GET", "/photos?uploads"), "200 OK", body=NO_UPLOADS)
    refuse(2, request("GET", UPLOAD), *missing)
    refuse(2, request("PUT", f"{OBJECT}?partNumber=1&uploadId={ID}", body="again"), *missing)
    refuse(2, request("DELETE", UPLOAD), *missing)
    ask(2, request("GET", OBJECT, f'If-None-Match: "{done.etag}"'), "304 Not Modified", f'ETag: "{done.etag}"', f"Last-Modified: {PUT_AT}")
    expected[:0] = ["status 0", f"calls {at[0]}"]
    to.case("the object of a sealed completion", [*TELL, "nomodel"], requests, [*expected, *account.after(5).left()])


def other_firsts(to, done, account):
    """Other first operations."""
    final = account.after(5)
    given = ["brief", *TELL, "nomodel"]
    requests = request("DELETE", OBJECT) + request("GET", OBJECT) + request("DELETE", "/photos")
    expected = ["status 0", "calls 10", "piece 1 7 204", "piece 1 9 404 NoSuchKey", "piece 1 10 204"]
    gone = final.without("photos", "v.bin")
    del gone.containers["photos"]
    to.case("the object is deleted, and its bucket", given, requests, expected + gone.left())

    plain = (tag(PLAIN, md5(b"other"), 1369353700, "-"), [], None, "other")
    requests = request("PUT", OBJECT, body="other") + request("GET", OBJECT) + request("GET", UPLOAD)
    etag = f'"{md5(b"other")}"'
    expected = ["status 0", "calls 12", f"piece 1 7 200 {etag}", *read_in_brief(1, 10, 5, etag), "piece 1 12 404 NoSuchUpload"]
    put = final.having("photos", "v.bin", plain)
    to.case("the object is put anew", ["etags 1 2", *given], requests, expected + put.left())

    requests = request("HEAD", "/music") + request("GET", "/")
    to.case("an operation on no bucket, and on all", given, requests, ["status 0", "calls 8", "piece 1 6 404", "piece 1 8 200"] + final.left())

    to.note("A run settles once: the next connection finds the store as the one before left it.")
    requests = request("GET", OBJECT) + ["connection"] + request("GET", OBJECT)
    size = len(done.body)
    expected = ["status 0", "calls 11", *read_in_brief(1, 8, size), *read_in_brief(2, 11, size)]
    to.case("two connections", given, requests, expected + final.left())
    expected = ["status 0", "calls 12", "piece 1 4 503 ServiceUnavailable", *read_in_brief(2, 12, size)]
    to.case("two connections, after 4", ["after 4", *given], requests, expected + final.left())

    to.note("What is refused before it is an operation settles nothing: no call is made.")
    requests = request("GET", "/photos?versions") + ["> GET /photos/v.bin?acl HTTP/1.1", "> Host: localhost", ">"]
    to.case(
        "no operation", given, requests,
        ["status 0", "calls 0", "piece 1 0 501 NotImplemented", "piece 1 0 403 AccessDenied"] + account.left(),
    )


def each_loss(to, done, account):
    """Each call of settling is lost."""
    to.note(
        "Each of the five calls is lost, its request, its answer, or the store from it on. What is left then is an account from which",
        "a new run begins above, or the settled one.",
    )
    for call in range(1, 6):
        for word, effect in [("before", call - 1), ("after", call), ("stop", call - 1)]:
            to.recover(f"recover, {word} {call}", account.after(effect), call, 4, STORE, [f"{word} {call}"])
    to.note(
        "The first reply is ServiceUnavailable, and the next operation of the run settles the store: by five calls as long as the",
        "completion is sealed, else by two.",
    )
    for call in range(1, 6):
        for word, again in [("before", 5), ("after", 5 if call < 5 else 2)]:
            requests = request("GET", OBJECT) * 2 + request("GET", "/photos?uploads")
            ends = call + again + 3
            expected = ["status 0", f"calls {ends + 3}", f"piece 1 {call} 503 ServiceUnavailable"]
            expected += read_in_brief(1, ends, len(done.body), f'"{done.etag}"')
            expected += [f"piece 1 {ends + 3} 200"] + account.after(5).left()
            to.case(f"a request, {word} {call}", [f"{word} {call}", "brief", "etags 2", *TELL, "nomodel"], requests, expected)
    to.note("Two calls are lost, one in each operation.")
    requests = request("GET", OBJECT) * 3
    expected = ["status 0", "calls 16", "piece 1 3 503 ServiceUnavailable", "piece 1 8 503 ServiceUnavailable"]
    expected += read_in_brief(1, 16, len(done.body), f'"{done.etag}"')
    given = ["after 3", "before 8", "brief", "etags 3", *TELL, "nomodel"]
    to.case("a request, after 3, and the next, before 8", given, requests, expected + account.after(5).left())
    requests = request("GET", OBJECT) * 2
    for call, left in [(3, 2), (5, 4)]:
        expected = ["status 0", f"calls {call + 1}", f"piece 1 {call} 503 ServiceUnavailable", f"piece 1 {call + 1} 503 ServiceUnavailable"]
        to.case(f"requests, stop {call}", [f"stop {call}", "brief", *TELL, "nomodel"], requests, expected + account.after(left).left())


def sweeps(to, done):
    """Requests with each loss of each call."""
    to.note(
        "Each loss of each call of a request that settles, and a new run over the account after each number of calls: it reads the",
        "object, asks for its head, lists objects and uploads, asks for the parts, aborts, deletes, and reads again.",
    )
    probe = [
        *request("GET", OBJECT), *request("HEAD", OBJECT), *request("GET", "/photos?list-type=2"), *request("GET", "/photos?uploads"),
        *request("GET", UPLOAD), *request("DELETE", UPLOAD), *request("DELETE", OBJECT), *request("GET", OBJECT),
    ]
    seen = "200 200 200 200 404 404 204 404"
    gone = "404 404 200 200 404 404 204 404"
    for name, asked, answer, after in [
        ("HEAD", request("HEAD", OBJECT), "piece 1 7 200", seen),
        ("an abort", request("DELETE", UPLOAD), "piece 1 7 404 NoSuchUpload", seen),
        ("PUT", request("PUT", OBJECT, body="other"), "piece 1 7 200", seen),
        ("DELETE", request("DELETE", OBJECT), "piece 1 7 204", gone),
    ]:
        given = ["brief", "nomodel", "sweep", "probe", *probe]
        to.case(f"{name} over what is sealed", given, [], [])
        del to.lines[-1]
        at = to.lines.index("sweep", len(to.lines) - len(probe) - 2)
        to.lines[at:at] = ["connection", *asked]
        to.end(["status 0", answer, f"before {seen}", f"after {after}"])


def empty_parts(to):
    """Parts without a byte."""
    done = Completion([(1, "hello"), (2, "")])
    assert done.store_etag() == "69a329523ce1ec88bf63061863d9cb14"
    account = Account(done, done.sealed())
    to.note("An empty part is no segment of the object, and counts in its ETag.")
    to.setup(done, seal_file(done.sealed()))
    to.case(
        "a part that is filled and an empty one", [*TELL, "nomodel"], request("GET", OBJECT),
        ["status 0", "calls 8", *read_whole(8, 0, done), *account.after(5).left()],
    )
    to.recover("a part that is filled and an empty one, recovered", account.after(5), 5)

    done = Completion([(7, "")], "text/plain", [("-a", "b"), ("-colour", "red")])
    assert done.etag == "59adb24ef3cdbe0297f05b395827453f-1"
    account = Account(done, done.sealed())
    to.note("Where all parts are empty the object is a plain one without a byte. The upload's type and metadata are the object's.")
    to.setup(done, seal_file(done.sealed()))
    requests = request("GET", OBJECT) + request("HEAD", OBJECT) + request("GET", OBJECT, "Range: bytes=0-9") + request("GET", "/photos")
    expected = ["status 0", "calls 13", *read_whole(7, 0, done)]
    expected += reply("1 9", 1, "200 OK", *head_of(done), size=0)
    expected += reply("1 11", 2, "416 Range Not Satisfiable", body=refusal("InvalidRange", "The range is not satisfiable.", OBJECT, 2))
    expected += reply("1 13", 3, "200 OK", body=listing(done, 0, 1))
    to.case("an empty part alone", [*TELL, "nomodel"], requests, expected + account.after(5).left())
    to.recover("an empty part alone, recovered", account.after(5), 5)
    for call in (3, 4, 5):
        for word, effect in [("before", call - 1), ("after", call)]:
            to.recover(f"an empty part alone, recover, {word} {call}", account.after(effect), call, 4, STORE, [f"{word} {call}"])
    sweeps(to, done)

    done = Completion([(1, ""), (2, "hello"), (3, ""), (1000, "world")], "text/plain", [("-a", "b")])
    account = Account(done, done.sealed())
    to.note("Empty parts before and between others, metadata beside segments, and the greatest number of a part.")
    to.setup(done, seal_file(done.sealed()))
    to.case(
        "empty parts between others", [*TELL, "nomodel"], request("GET", OBJECT),
        ["status 0", "calls 8", *read_whole(8, 0, done), *account.after(5).left()],
    )


def overwritten(to):
    """The key has an object already."""
    done = Completion([(1, "hello")])
    to.note("The object takes the place of one that is there; parts that the completion doesn't list stay beside it.")
    extra = Completion([(1, "hello"), (2, "unlisted")])
    account = Account(done, done.sealed(), extra.parts)
    to.setup(extra, seal_file(done.sealed()), second=request("PUT", OBJECT, "x-amz-meta-old: 1", body="old"))
    to.case(
        "an object is there", [*TELL, "nomodel"], request("GET", OBJECT),
        ["status 0", "calls 8", *read_whole(8, 0, done), *account.after(5).left()],
    )


def what_is_none(to, done):
    """What is sealed can't be finished."""
    good = json.loads(done.sealed())
    other_etag = [[1, OTHER, 5], good["list"][1]]
    other_size = [[1, good["list"][0][1], 6], good["list"][1]]
    no_part = [good["list"][0], [2, good["list"][1][1], 5]]
    spaced = json.dumps(good)
    for name, calls, sealed in [
        ("of another version", 2, done.sealed(v=2)),
        ("with a version that is a text", 2, done.sealed(v="1")),
        ("in another spelling", 2, spaced),
        ("cut short", 2, done.sealed()[:-1]),
        ("without a part", 2, done.sealed(list=[])),
        ("with a part that isn't there", 3, done.sealed(list=no_part)),
        ("with another ETag of a part", 3, done.sealed(list=other_etag)),
        ("with another size of a part", 3, done.sealed(list=other_size)),
        ("of another upload", 3, done.sealed(id=OTHER)),
        ("of a bucket that isn't there", 3, done.sealed(bucket="music")),
    ]:
        account = Account(done, sealed)
        to.setup(done, seal_file(sealed))
        to.recover(f"what is sealed {name}", account, calls, 7, BAD)
        requests = request("GET", OBJECT) + request("GET", "/")
        to.case(
            f"requests over what is sealed {name}", ["brief", *TELL, "nomodel"], requests,
            ["status 0", f"calls {2 * calls}", f"piece 1 {calls} 500 InconsistentStore", f"piece 1 {2 * calls} 500 InconsistentStore"]
            + account.left(),
        )


def main():
    to = Writer()
    to.note(
        "Completions that are sealed, by bench/settle-cases.py: a small model of its own, from what this profile says of settling, of",
        "the calls that it makes and of the files that are kept (docs/PROFILE.md). The calls are PUT of the gateway's container, GET of",
        "what is sealed, PUT of the object, PUT of the record with its moment, and DELETE of what is sealed. The machine isn't asked",
        "where a file stands that no request made.",
    )
    to.lines.append("")
    done = Completion([(1, "hello"), (3, "world")])
    sealed = done.sealed()
    account = Account(done, sealed)
    each_beginning(to, done, sealed)
    each_operation(to, done, account)
    other_firsts(to, done, account)
    each_loss(to, done, account)
    sweeps(to, done)
    empty_parts(to)
    overwritten(to)
    to.note(
        "What is sealed is no completion, or one that can't be finished: accounts that no run of the gateway leaves. Nothing is",
        "written, and each operation finds it again: settling ends at the answer that no consistent account gives, to GET of what is",
        "sealed or to PUT of the object, whose segments have to be there as they are listed (Object Storage API v1, \"Static large",
        "objects\").",
    )
    what_is_none(to, done)
    print("\n".join(load_signing().signed(to.lines)).rstrip("\n"))


if __name__ == "__main__":
    main()
