#!/usr/bin/env python3
"""Writes cases of objects that are read in pieces: whole and by ranges, with each call of the store and each write lost.

    bench/read-cases.py > crates/cases/data/reads.txt

The replies come from the small model below, which knows only what this profile says of a read and of its calls (docs/PROFILE.md):
HEAD of the bucket and HEAD of the object, the head of the reply, and then for each MiB of what is asked for one GET and one piece.
The MD5s are those of Python's hashlib. Nothing is taken from the program. The requests are signed as bench/sign-cases.py signs them.
"""
from case_signing import load_signing
from case_uploads import OBJECT, PLAIN, TELL, Completion, Writer, head_of, md5, refusal, reply, request

MIB = 1_048_576
# No MiB begins with the text that another one begins with.
TEXT = "0123456789abcdefg"
SETTLES = 2
PUT_AT = "Fri, 24 May 2013 00:00:00 GMT"
GIVEN = ["pieces 100000", "tell calls"]
UNAVAILABLE = ("503 Service Unavailable", "ServiceUnavailable", "The store is unavailable.")


class Lost(Exception):
    """A call of the store that failed, or a write."""


class File:
    """An object, by its bytes; its head is that of a plain one."""

    def __init__(self, size=0, body=None, head=None):
        self.body = body if body is not None else (TEXT * (size // len(TEXT) + 1))[:size]
        self.etag = md5(self.body.encode())
        self.head = head or [f"Last-Modified: {PUT_AT}", f'ETag: "{self.etag}"', "Accept-Ranges: bytes", f"Content-Type: {PLAIN}"]


class Run:
    """Requests over some objects. A call of the store is lost, or a write fails, counted from 1."""

    def __init__(self, files, word=None, number=0, failing=0):
        self.files, self.word, self.number, self.failing = files, word, number, failing
        self.calls, self.writes, self.turn, self.connection, self.is_over = 0, 0, 0, 1, False
        self.requests, self.expected = [], []

    def call(self):
        self.calls += 1
        if self.calls == self.number or self.word == "stop" and self.number < self.calls:
            raise Lost

    def write(self, lines):
        self.writes += 1
        if self.writes == self.failing:
            raise Lost
        self.expected += lines

    def next(self):
        self.requests.append("connection")
        self.connection, self.is_over = self.connection + 1, False

    def find(self):
        """The calls before the reply: settling, where nothing was called yet, HEAD of the bucket and HEAD of the object."""
        for _ in range(2 + (SETTLES if not self.calls else 0)):
            self.call()

    def send(self, status, *headers, **rest):
        self.write(reply(f"{self.connection} {self.calls}", self.turn, status, *headers, **rest))

    def refuse(self, status, code, message, path):
        self.send(status, body=refusal(code, message, path, self.turn))

    def asked(self, method, key, headers, answer):
        """A request, unless the connection ended before it. What fails before the reply is that the store is unavailable."""
        self.requests += request(method, f"/photos/{key}", *headers)
        if self.is_over:
            return
        try:
            try:
                self.find()
            except Lost:
                self.refuse(*UNAVAILABLE, f"/photos/{key}")
            else:
                answer()
        except Lost:
            self.is_over = True
        self.turn += 1

    def read(self, key, *headers, first=None, last=None, closing=False):
        """All of an object, or the bytes from the first to the last."""
        file = self.files[key]
        body = file.body if first is None else file.body[first : last + 1]
        status = "200 OK" if first is None else "206 Partial Content"
        told = file.head + ([f"Content-Range: bytes {first}-{last}/{len(file.body)}"] if first is not None else [])

        def answer():
            self.send(status, *told, f"Content-Length: {len(body)}", *["Connection: close"] * closing)
            for at in range(0, len(body), MIB):
                self.call()
                self.write([f"piece {self.connection} {self.calls}", line_of(body[at : at + MIB])])
            self.is_over = closing

        self.asked("GET", key, [*headers, *["Connection: close"] * closing], answer)

    def head(self, key):
        file = self.files[key]
        self.asked("HEAD", key, [], lambda: self.send("200 OK", *file.head, size=len(file.body)))

    def read_none(self, key, status, *told, headers, refused=None):
        """A read that is answered with no byte of the object."""
        answer = (lambda: self.refuse(status, *refused, f"/photos/{key}")) if refused else (lambda: self.send(status, *told))
        self.asked("GET", key, headers, answer)

    def end(self, to, name, *given):
        words = [f"{self.word} {self.number}"] if self.word else [f"fails {2 + self.failing}"] if self.failing else []
        to.case(name, [*GIVEN, *words, *given], self.requests, ["status 0", f"calls {self.calls}", *self.expected])


def line_of(piece):
    """A piece as it is told, which has no line end."""
    return f"<# {len(piece)} {md5(piece.encode())}" if 65_536 < len(piece) else f"<. {piece}"


# ---- the groups


def setup(to, files):
    to.lines += ["setup", *request("PUT", "/photos", body="")]
    for key, file in files.items():
        to.lines += request("PUT", f"/photos/{key}", body=file.body)
    to.end(["served"])


def wholes(to, files):
    to.note("Whole: a head, and then a piece for each MiB, the last with what is left; of no byte none. The calls are 2, and one a piece.")
    setup(to, files)
    run = Run(files)
    for key in files:
        run.read(key)
    run.end(to, "objects of 0 bytes, 1 byte, 1 MiB, 1 MiB and a byte, 2 MiB and 3")
    run = Run(files)
    run.read("over", closing=True)
    run.read("one")
    run.end(to, "a connection ends behind the last piece")


def ranges(to, files):
    to.note("A range is cut from its first byte on, wherever that stands in the object.")
    last = len(files["two"].body) - 1
    run = Run(files)
    for first, end, given in [
        (0, 0, "0-0"), (MIB - 1, MIB, f"{MIB - 1}-{MIB}"), (1, MIB, f"1-{MIB}"), (1, MIB + 1, f"1-{MIB + 1}"),
        (last - MIB, last, f"-{MIB + 1}"), (MIB, last, f"{MIB}-"), (2 * MIB, last, f"{2 * MIB}-"), (5, last, f"5-{last}"),
        (2, last, f"2-{last}"), (0, last, "0-99999999"), (last, last, "-1"), (0, last, f"-{9 * MIB}"),
    ]:
        run.read("two", f"Range: bytes={given}", first=first, last=end)
    run.end(to, "ranges that begin and end in several pieces")


def no_pieces(to, files):
    to.note("HEAD, and what conditions and range decide by the head: no GET, and no piece.")
    run = Run(files)
    for key in files:
        run.head(key)
    etag = f'ETag: "{files["two"].etag}"'
    run.read_none("two", "304 Not Modified", etag, f"Last-Modified: {PUT_AT}", headers=[f'If-None-Match: "{files["two"].etag}"'])
    failed = ("PreconditionFailed", "A precondition failed.")
    run.read_none("two", "412 Precondition Failed", headers=[f'If-Match: "{files["one"].etag}"'], refused=failed)
    outside = ("InvalidRange", "The range is not satisfiable.")
    run.read_none("two", "416 Range Not Satisfiable", headers=[f"Range: bytes={2 * MIB + 3}-"], refused=outside)
    run.read_none("empty", "416 Range Not Satisfiable", headers=["Range: bytes=0-0"], refused=outside)
    run.read("over", f'If-Match: "{files["over"].etag}"')
    run.end(to, "heads, conditions and ranges without a byte")


def three_pieces(to, files):
    to.note("An object of 2 MiB and a byte is read by 5 calls, behind the two that settle. Its first piece is lost, and its third.")
    setup(to, files)
    run = Run(files)
    run.read("k")
    run.end(to, "2 MiB and a byte")
    for number in (5, 7):
        run = Run(files, "before", number)
        run.read("k")
        run.next()
        run.head("k")
        run.end(to, f"2 MiB and a byte, before {number}", "nomodel")


def lost_calls(to, files):
    to.note("An object of 1 MiB and a byte is read by 4 calls, behind the two that settle.")
    setup(to, files)
    to.note(
        "Each call is lost. One before the head is ServiceUnavailable. One behind it ends the connection: what was written stays as it",
        "is, a request behind it isn't answered, and the next connection is served.",
    )
    for number in range(3, 7):
        for word in ("before", "after", "stop"):
            run = Run(files, word, number)
            run.read("k")
            run.head("k") if number > 4 or word != "stop" else run.read("k")
            run.next()
            run.head("k") if word != "stop" else run.read("k", "Range: bytes=0-0", first=0, last=0)
            run.end(to, f"1 MiB and a byte, {word} {number}", "nomodel")
    to.note("The same of a range, whose second piece is lost.")
    run = Run(files, "before", 6)
    run.read("k", f"Range: bytes=0-{MIB}", first=0, last=MIB)
    run.next()
    run.head("k")
    run.end(to, "a range of two pieces, before 6", "nomodel")


def lost_writes(to, files):
    to.note(
        "Each write fails: that of the head, and of each piece. Nothing of it is sent, no further piece is asked for, and the connection",
        "ends. The line's calls before them are the next connection and one read.",
    )
    for failing in range(1, 4):
        run = Run(files, failing=failing)
        run.read("k")
        run.head("k")
        run.next()
        run.head("k")
        run.end(to, f"1 MiB and a byte, write {failing} fails", "nomodel")


def swept(to, files):
    to.note("Each loss of each call: the read is ServiceUnavailable, whole, or cut short behind the head or a piece; a new run reads it whole.")
    run = Run(files)
    run.read("k")
    probe = request("GET", "/photos/k", "Range: bytes=-1") + request("HEAD", "/photos/k")
    to.lines += ["case 1 MiB and a byte, swept", "clock 1369353700", "pieces 100000", "connection", *run.requests, "sweep", "probe", *probe]
    to.end(["status 0", *run.expected, "before 206 200", "after 206 200"])


def segments(to):
    to.note("An object over two segments: its pieces are cut by themselves, and one of them has the end of the first segment in it.")
    parts = [(1, (TEXT * 45_000)[:700_000]), (2, (TEXT[::-1] * 45_000)[:700_001])]
    done = Completion(parts)
    files = {"v.bin": File(body=done.body, head=head_of(done))}
    to.setup(done, f"manifest photos v.bin {done.tag()} {done.segments()}")
    run = Run(files)
    run.read("v.bin")
    run.read("v.bin", "Range: bytes=699990-700009", first=699_990, last=700_009)
    run.read("v.bin", f"Range: bytes=-{MIB + 1}", first=1_400_000 - MIB, last=1_400_000)
    run.end(to, "an object over two segments", "nomodel")


def in_short(lines):
    """The lines, where each long body is told by the text that it repeats."""
    for line in lines:
        size = len(line) - 3
        if line.startswith(">. ") and 65_536 < size:
            text, count = line[3 : 3 + len(TEXT)], size // len(TEXT)
            assert (text * (count + 1))[:size] == line[3:]
            yield f">* {count} {text}"
            if size % len(TEXT):
                yield f">. {text[: size % len(TEXT)]}"
        else:
            yield line


def main():
    assert OBJECT == "/photos/v.bin" and TELL[0] == GIVEN[1]
    to = Writer()
    to.note(
        "Objects that are read in pieces, by bench/read-cases.py: a small model of its own, from what this profile says of a read and of",
        'its calls (docs/PROFILE.md), and Amazon S3 API Reference, "GetObject". Settling makes two calls before the first operation of a',
        "run.",
    )
    to.lines.append("")
    files = {"empty": File(0), "one": File(1), "mib": File(MIB), "over": File(MIB + 1), "two": File(2 * MIB + 3)}
    wholes(to, files)
    ranges(to, files)
    no_pieces(to, files)
    three_pieces(to, {"k": File(2 * MIB + 1)})
    files = {"k": File(MIB + 1)}
    lost_calls(to, files)
    lost_writes(to, files)
    swept(to, files)
    segments(to)
    print("\n".join(load_signing().signed(list(in_short(to.lines)))).rstrip("\n"))


if __name__ == "__main__":
    main()
