#!/usr/bin/env python3
"""Writes cases of the command `trial`, and a session with each operation.

    bench/trial-cases.py > crates/cases/data/trial.txt

The reports of trials are those of bench/trial.py, a second implementation. What calls the session makes is what this profile says of
each request (docs/PROFILE.md). Nothing is taken from the program. The requests are signed as bench/sign-cases.py signs them.
"""
import itertools

from case_signing import load_signing
from case_uploads import CLOCK, Writer, md5, request
from trial import report, request_bytes, requests_of

USAGE = "usage: s3gate session|serve|recover|sweep|check|sign|trial|presign"
SETTLES = 2
MOST = 2**64 - 1


def trial(number, count):
    return f"words trial --number {number} --requests {count}"


class Cases(Writer):
    """The lines of the file. Each trial is told as it comes by one read's size."""

    def trial(self, name, words, given, status, text, *expected, requests=()):
        self.lines += [f"case {name}", words, "pieces 1024", *given, *(["connection", *requests] if requests else [])]
        told = ["report", f"<n {text}"] if text else []
        self.end([f"status {status}", *told, *expected])


def lines_known_from_outside(to):
    to.note("A trial reports its number of requests, and of the replies the bytes and the SHA-256: here of none.")
    to.trial("no request", trial(7, 0), ["tell calls", "tell left"], 0, report(7, 0), "calls 0", "left []")
    to.note("It is the same over each store, and in each run.")
    for number, count in ((7, 2000), (1, 2000), (MOST, 100), (0, 1)):
        to.trial(f"{count} of {number}", trial(number, count), [], 0, report(number, count))


def shown_by_lines(data):
    """Bytes as the program prints them: lines that CR and LF end, and others."""
    lines = data.decode().split("\r\n")
    return [f"< {line}".rstrip() for line in lines[:-1]] + ([f"<. {lines[-1]}"] if lines[-1] else [])


def number_with_each_kind(count):
    """A number among whose first requests is each kind, with one of an upload that began and one of none."""
    for number in itertools.count():
        requests = list(requests_of(number, count))
        ids = {(request.kind, request.upload_id == 0) for request in requests}
        if len({request.kind for request in requests}) == 10 and {("part", False), ("complete", False), ("abort", True)} <= ids:
            return number


def inputs(to):
    count = 20
    number = number_with_each_kind(count)
    to.note("The bytes of requests, with each kind among them.")
    to.lines.append(f"trial-input {number} {count}")
    to.end(shown_by_lines(b"".join(request_bytes(index, request) for index, request in enumerate(requests_of(number, count)))))


def left_alone(to):
    to.note("What clients have sent stays on the line, no call of which is made that could fail; nor is a key wanted, or a moment.")
    waits = request("PUT", "/photos", body="")
    to.trial("a request that waits", trial(7, 20), ["fails 1", "nokeys", "nomodel"], 0, report(7, 20), requests=waits)


def not_done(to):
    to.note("A report that can't be written; a key text that is refused; and words that are.")
    to.trial("a report that fails", trial(7, 20), ["unreported 1"], 6, "")
    to.trial("a key text that is refused", trial(7, 20), ["keytext A\\0a", "tell calls", "tell left"], 2, USAGE, "calls 0", "left []")
    for words in ("trial", "trial --number 7", "trial --requests 0", "trial --number 7 --requests 100001", "trial --number 18446744073709551616 --requests 0"):
        to.trial(words.replace("--", ""), f"words {words}", ["tell calls"], 2, USAGE, "calls 0")


def number_with_a_read():
    """A number whose first three requests make a bucket, put an object and read it."""
    for number in itertools.count():
        made, put, read = requests_of(number, 3)
        kinds = [made.kind, put.kind, read.kind]
        if kinds == ["create bucket", "put", "get"] and made.bucket == put.bucket and put.path == read.path:
            return number


def broken_reads(to):
    number = number_with_a_read()
    make_bucket, put, heads = 6, 2, 2
    last = SETTLES + make_bucket + put + heads + 1
    to.note(
        f"The third request of {number} reads the object that its second puts. Settling makes {SETTLES} calls, the first request {make_bucket}, the second",
        f"{put}, and the third {heads} before the head of its reply is written: so the GET is call {last}, and a trial that loses it is cut short.",
    )
    for loss in ("before", "after", "stop"):
        to.trial(f"a read that breaks off, {loss}", trial(number, 3), [f"{loss} {last}", "tell calls"], 4, "s3gate: store", f"calls {last}")
    to.trial("a read", trial(number, 3), ["tell calls"], 0, report(number, 3), f"calls {last}")


# ---- a session with each operation


ID, OTHER = f"{2 * 11 + 2:032x}", f"{2 * 17 + 2:032x}"


def completion(*etags):
    parts = "".join(f"<Part><PartNumber>{n}</PartNumber><ETag>{etag}</ETag></Part>" for n, etag in enumerate(etags, 1))
    return f"<CompleteMultipartUpload>{parts}</CompleteMultipartUpload>"


def deletion(*keys):
    return "<Delete>" + "".join(f"<Object><Key>{key}</Key></Object>" for key in keys) + "</Delete>"


def operations():
    """Requests in order, each with the calls that it makes, its status, and the bytes of an object that its reply has."""
    hello = md5(b"hello")
    copied = "x-amz-copy-source: /photos/k"
    return [
        (request("PUT", "/photos", body=""), 6, 200, 0),
        (request("GET", "/"), 2, 200, 0),
        (request("HEAD", "/photos"), 1, 200, 0),
        (request("GET", "/photos?location"), 1, 200, 0),
        (request("GET", "/photos?acl"), 1, 200, 0),
        (request("PUT", "/photos?acl", "x-amz-acl: public-read", body=""), 1, 200, 0),
        (request("PUT", "/photos/k", body="hello"), 2, 200, 0),
        (request("GET", "/photos/k"), 3, 200, 5),
        (request("HEAD", "/photos/k"), 2, 200, 0),
        (request("GET", "/photos/k?acl"), 2, 200, 0),
        (request("PUT", "/photos/c", copied, body=""), 5, 200, 0),
        (request("POST", "/photos/v?uploads", body=""), 4, 200, 0),
        (request("PUT", f"/photos/v?partNumber=1&uploadId={ID}", body="hello"), 3, 200, 0),
        (request("PUT", f"/photos/v?partNumber=2&uploadId={ID}", copied, body=""), 6, 200, 0),
        (request("GET", f"/photos/v?uploadId={ID}"), 3, 200, 0),
        (request("GET", "/photos?uploads"), 3, 200, 0),
        (request("POST", f"/photos/v?uploadId={ID}", body=completion(hello, hello)), 7, 200, 0),
        (request("POST", "/photos/w?uploads", body=""), 4, 200, 0),
        (request("DELETE", f"/photos/w?uploadId={OTHER}"), 4, 204, 0),
        (request("GET", "/photos/v"), 3, 200, 10),
        (request("GET", "/photos"), 2, 200, 0),
        (request("GET", "/photos?list-type=2"), 2, 200, 0),
        (request("POST", "/photos?delete", body=deletion("c", "k")), 3, 200, 0),
        (request("DELETE", "/photos/v"), 2, 204, 0),
        (request("DELETE", "/photos"), 1, 204, 0),
    ]


def session(to):
    to.note(
        "Each operation once or more, none of which is refused; one of two uploads is completed and one aborted. The machine answers the",
        "same, byte for byte.",
    )
    lines, expected, calls = [], [], SETTLES
    for sent, made, status, size in operations():
        lines += sent
        calls += made
        expected.append(f"piece 1 {calls - bool(size)} {status}")
        if size:
            expected.append(f"piece 1 {calls} bytes {size}")
    to.lines += ["case each operation", CLOCK, "words session --least-part 1", "brief", "tell calls", "connection", *lines]
    to.end(["status 0", f"calls {calls}", *expected])


def main():
    to = Cases()
    to.note("The command `trial`, by bench/trial-cases.py: its reports are those of bench/trial.py.")
    to.lines.append("")
    inputs(to)
    lines_known_from_outside(to)
    left_alone(to)
    not_done(to)
    broken_reads(to)
    session(to)
    print("\n".join(load_signing().signed(list(to.lines))).rstrip("\n"))


if __name__ == "__main__":
    main()
