#!/usr/bin/env python3
"""Writes cases of copies: what is answered, how many calls of the store each request makes, and what is left.

    bench/copy-cases.py > crates/cases/data/copies.txt
    bench/copy-cases.py lost > crates/cases/data/copies-lost.txt            the losses of each call
    bench/copy-cases.py extended > crates/cases/data/copies-extended.txt    conditions on sources, which the extended profile has

The replies and the accounts come from a small model (bench/case_copies.py), which knows only what this profile says of copies, of
uploads and of settling (docs/PROFILE.md), by Amazon S3 API Reference, "CopyObject" and "UploadPartCopy". Nothing is taken from the
program. The requests are signed as bench/sign-cases.py signs them.
"""
import sys

from case_copies import BAD_ARGUMENT, BAD_REQUEST, DENIED, HOME, LARGE_META, NOT_BUILT, PLAIN, SETTLES, File, Run, listed, path_of
from case_signing import load_signing
from case_uploads import CLOCK, STARTED, TELL, Writer, md5, request

LEAST = "words session --least-part 1"
EXTENDED = "words session --extended"
OTHER = "music"
OPEN = "public"
TEXT = "text/plain; charset=utf-8"
META = [("-colour", "red"), ("-size", "2 by 3"), ("cache-control", "no-cache")]
TWO = [(1, "hello"), (3, "world")]


class Cases(Writer):
    """The lines of the file, and the account that the next cases begin on."""

    def begin(self, *parts):
        """A setup: each part makes requests of its own. What the last of them gives back is given back."""
        run, given = Run(moment=STARTED), None
        run.make(HOME)
        for part in parts:
            given = part(run)
        self.lines += ["setup", *run.requests, *run.files]
        self.end(["served"])
        self.store = run.store
        return given

    def run(self, word=None, number=0):
        return Run(self.store, word, number)

    def told(self, name, run, *given, is_brief=False):
        """A case of the requests of a run. Its replies are told whole, or in brief."""
        given = [f"{run.word} {run.number}"] * bool(run.word) + list(given)
        if is_brief:
            etags = [f"etags {' '.join(map(str, run.etags()))}"] if run.etags() else []
            given = ["pieces 1024", "brief", *etags, *given]
        expected = ["status 0", f"calls {run.store.calls}", *(run.brief() if is_brief else run.whole()), *run.store.left()]
        self.case(name, [*given, *TELL], run.requests, expected)

    def swept(self, name, run, probe, before, after, *given):
        """The one request of a run with each loss of each of its calls, and what a new run sees before it and after it."""
        self.lines += [f"case {name}", CLOCK, *given, "brief", "connection", *run.requests, "sweep", "probe", *probe.requests]
        self.end(["status 0", *run.brief(), f"before {before}", f"after {after}"])


# ---- setups


def an_object(run):
    run.put("k", "hello", TEXT, META)


def other_buckets(run):
    run.make(OTHER)
    run.make(OPEN, "Everybody")


def uploaded(key, parts, kind=PLAIN, meta=()):
    """An upload of these parts, whose id is given back."""
    def made(run):
        number = run.begin(key, kind, meta)
        for part, body in parts:
            run.part(key, number, part, body)
        return number

    return made


def joined(key, parts, kind=PLAIN):
    """An object of these parts, as a completion leaves it. A setup gives its file no metadata, and a type without a space."""
    def made(run):
        number = uploaded(key, parts, kind)(run)
        run.completed(key, number, parts)
        return number

    return made


def stays(count):
    """So many requests that take a turn."""
    def made(run):
        for _ in range(count):
            run.head()

    return made


# ---- objects whose bytes are their own


def plain(to):
    to.note(
        "An object is copied by five calls behind the two that settle: HEAD of the target's bucket, HEAD of the source's, HEAD and GET of",
        "the source, and PUT of the target. The copy has the source's ETag, type and metadata, and the moment at which it was made.",
    )
    to.begin(an_object, other_buckets)
    run = to.run()
    run.copy("c", "k")
    run.get("c")
    run.get("k")
    run.delete("k")
    run.get("c")
    to.told("an object is copied, and its source is deleted", run)
    run = to.run()
    run.copy("k", "k", bucket=OTHER)
    run.get("k", bucket=OTHER)
    run.copy("a/b c", "k", bucket=HOME, from_bucket=OTHER)
    run.get("a/b c")
    to.told("an object is copied into another bucket, and back under another key", run)
    to.note("What is given beside a copy that replaces nothing isn't looked at.")
    run = to.run()
    run.copy("c", "k", "x-amz-metadata-directive: COPY", "Content-Type: image/png", "x-amz-meta-colour: blue")
    run.get("c")
    run.copy("d", "k", "x-amz-meta-long: " + "x" * 2049, "x-amz-tagging-directive: COPY", "x-amz-copy-source-if: 1")
    run.get("d")
    to.told("the type and the metadata are the source's", run)
    to.note("Type and metadata are replaced, by none too.")
    run = to.run()
    run.copy("c", "k", replace=("image/png", [("-colour", "blue")]))
    run.get("c")
    run.copy("d", "k", replace=(PLAIN, []))
    run.get("d")
    to.told("the type and the metadata are replaced", run)


def onto(to):
    to.note("An object is copied onto itself only where something of it is replaced, be it by the same. It then has a new moment.")
    run = to.run()
    run.copy("k", "k")
    run.copy("k", "k", source="photos/k")
    run.copy("k", "k", "x-amz-metadata-directive: COPY", source="photos%2F%6B")
    run.get("k")
    run.copy("k", "k", replace=(TEXT, META))
    run.copy("k", "k", replace=("image/png", []))
    run.get("k")
    to.told("an object is copied onto itself", run)
    run = to.run()
    run.put("c", "other", "image/png", [("-old", "1")])
    run.copy("c", "k")
    run.get("c")
    to.told("an object is copied over another", run)


def refusals(to):
    to.note(
        "What is missing is found in this order: the target's bucket, the list that the target may have, the source's bucket, the source;",
        "and last that source and target are one.",
    )
    run = to.run()
    run.copy("c", "k", bucket="nothing")
    run.copy("c", "k", bucket="nothing", from_bucket="neither")
    run.copy("c", "k", from_bucket="nothing")
    run.copy("c", "missing")
    run.copy("missing", "missing")
    run.copy("c", "k", acl="public-read")
    run.copy("c", "k", acl="public-read", from_bucket="nothing")
    run.copy("c", "k", acl="public-read", bucket="nothing")
    run.copy("k", "k", acl="public-read")
    run.copy("k", "k", bucket=OPEN)
    run.copy("c", "k", acl="private", bucket=OPEN, from_bucket=OPEN)
    to.told("copies that are refused", run)
    run = to.run()
    run.copy("c", "k", acl="private")
    run.copy("k", "k", bucket=OPEN, acl="public-read")
    run.copy("d", "k", from_bucket=OPEN)
    run.get("d")
    to.told("the list that the target's bucket has", run)


def unasked(to):
    """What is refused before the store is asked for anything."""
    to.note("A copy that can't be one makes no call, and neither does one that nobody signed.")
    run = to.run()
    copy_of = lambda *headers, source="/photos/k", body="", method="PUT", target="/photos/c": request(
        method, target, f"x-amz-copy-source: {source}", *headers, body=body if method == "PUT" else None
    )
    for source in ("photos", "/photos/", "/", "//k", "/Photos/k", "/photos/%00", "/photos/%ff", "/photos/%zz", "/photos/" + "k" * 1025):
        run.refuse(copy_of(source=source), "/photos/c", BAD_ARGUMENT)
    run.refuse(copy_of("x-amz-metadata-directive: replace"), "/photos/c", BAD_ARGUMENT)
    run.refuse(copy_of("x-amz-copy-source-range: bytes=0-1"), "/photos/c", BAD_ARGUMENT)
    run.refuse(copy_of("x-amz-metadata-directive: REPLACE", "x-amz-meta-a: " + "x" * 2049), "/photos/c", LARGE_META)
    run.refuse(copy_of(body="x"), "/photos/c", BAD_REQUEST)
    run.refuse(copy_of(source="/photos/k?versionId=null"), "/photos/c", NOT_BUILT)
    run.refuse(copy_of(f'x-amz-copy-source-if-match: {md5(b"hello")}'), "/photos/c", NOT_BUILT)
    run.refuse(copy_of(method="GET"), "/photos/c", NOT_BUILT)
    run.refuse(copy_of(method="DELETE"), "/photos/c", NOT_BUILT)
    run.refuse(copy_of(method="POST", target="/photos/c?uploads"), "/photos/c", NOT_BUILT)
    part = f"/photos/c?partNumber=1&uploadId={'0' * 32}"
    for range_ in ("bytes=1-0", "bytes=0-", "bytes=-1", "0-1", "bytes=0-1,2-3", "bytes=0-" + "1" * 19):
        run.refuse(copy_of(f"x-amz-copy-source-range: {range_}", target=part), "/photos/c", BAD_ARGUMENT)
    run.refuse(copy_of(target=part, body="x"), "/photos/c", BAD_REQUEST)
    run.refuse(copy_of(target=part.replace("partNumber=1", "partNumber=0")), "/photos/c", BAD_ARGUMENT)
    for target in ("/photos/c", part):
        lines = [f"> PUT {target} HTTP/1.1", "> Host: localhost", "> x-amz-copy-source: /photos/k", "> Content-Length: 0", ">"]
        run.refuse(lines, "/photos/c", DENIED)
    to.told("copies that make no call", run)


def odd_keys(to):
    to.note("Keys that are escaped, in the source as in the target, and the longest.")
    keys = ["a&b", "<\"'>", "a\nb", "a b/ü%", "a+b?c", "k" * 1024, "/k", "a//b"]
    to.begin(lambda run: [run.put(key, f"of {number}") for number, key in enumerate(keys)])
    run = to.run()
    for key in keys:
        run.copy(key[::-1] if len(key) < 9 else "z" * 1024, key)
    run.get("b\na")
    run.get("z" * 1024)
    run.get("c?b+a")
    to.told("keys that are escaped, and the longest", run)
    to.note("The source is decoded first, and its bucket ends at the first slash of what that gives; one slash before it is left out.")
    run = to.run()
    for number, (key, source) in enumerate([
        ("a b/ü%", "/photos/a%20b/%C3%BC%25"), ("a b/ü%", "photos/a b/ü%25"), ("a b/ü%", "photos%2Fa%20b%2F%c3%bc%25"),
        ("a+b?c", "photos/a+b%3Fc"), ("a+b?c", "/photos/a%2Bb%3fc"), ("/k", "/photos//k"), ("/k", "photos%2f%2fk"), ("a//b", "photos/a//b"),
        ("a&b", "photos/%61&b"),
    ]):
        run.copy(f"c{number}", key, source=source)
        run.get(f"c{number}")
    to.told("sources that are spelled otherwise", run)


def contents(to):
    to.note("An object without a byte, one with all that metadata may have, and one with all that is its own header.")
    long = [(f"-{'n' * 20}{at:02}", "v" * 40) for at in range(30)]
    own = [("cache-control", "a"), ("content-disposition", "b"), ("content-encoding", "gzip"), ("content-language", "de"), ("expires", "0")]
    to.begin(lambda run: [run.put("empty", "", TEXT), run.put("long", "hello", PLAIN, long), run.put("own", "hello", "a/b;s3=x", own)])
    run = to.run()
    for key in ("empty", "long", "own"):
        run.copy(f"{key}-copy", key)
        run.get(f"{key}-copy")
    run.copy("own", "empty", replace=("a/b;s3=x", own))
    run.get("own")
    run.copy("empty", "empty", replace=(PLAIN, long))
    to.told("what objects may have", run)


# ---- objects of parts


def of_parts(to):
    to.note(
        "An object of parts is copied segment by segment under an id of its own: the three HEADs, the list of its segments, the search of",
        "the id by two calls, GET and PUT of each segment, and PUT of the list. With two segments these are 11 calls. The numbers are those",
        "that the segments had.",
    )
    number = to.begin(stays(3), uploaded("v.bin", [(1, "abc"), (3, "world"), (1, "hello")]))
    assert number == f"{10:032x}"
    run = to.run()
    run.complete("v.bin", number, TWO)
    run.copy("w.bin", "v.bin")
    run.delete("v.bin")
    run.get("w.bin")
    run.get("v.bin")
    assert run.pieces[1][0] - run.pieces[0][0] == 11
    assert md5(bytes.fromhex("5d41402abc4b2a76b9719d911017c5927d793037a0760186574b0282f2f435e7")) + "-2" in str(run.pieces[1])
    to.told("an object of two parts is copied, and its source is deleted", run, LEAST)


def parts_over(to):
    to.note("Copies onto themselves, of copies, over others, and those that are refused.")
    to.begin(other_buckets, joined("v.bin", TWO, "text/plain"))
    run = to.run("before", 12)
    run.copy("w.bin", "v.bin")
    run.get("w.bin")
    run.copy("v.bin", "v.bin")
    run.copy("v.bin", "v.bin", replace=("image/png", [("-a", "b")]))
    run.get("v.bin")
    to.told("the second segment can't be put; and copies onto itself", run, "nomodel")
    run = to.run()
    run.copy("w.bin", "v.bin", bucket=OTHER)
    run.copy("x.bin", "w.bin", bucket=OPEN, from_bucket=OTHER)
    run.delete("v.bin")
    run.delete("w.bin", bucket=OTHER)
    run.get("x.bin", bucket=OPEN)
    to.told("a copy of a copy, each in another bucket", run, "nomodel")
    run = to.run()
    run.copy("w.bin", "v.bin", replace=("image/png", [("-a", "b")]))
    run.get("w.bin")
    run.copy("w.bin", "v.bin")
    run.get("w.bin")
    run.put("w.bin", "plain")
    run.copy("v.bin", "w.bin")
    run.get("v.bin")
    to.told("copies over an object of parts, and one over its source", run, "nomodel")
    run = to.run()
    run.copy("w.bin", "v.bin", bucket="nothing")
    run.copy("w.bin", "v.bin", acl="public-read")
    run.copy("v.bin", "v.bin")
    to.told("copies of an object of parts that are refused", run, "nomodel")


def filled_parts(to):
    to.note("Type and metadata are the upload's, or replaced.")
    number = to.begin(uploaded("v.bin", TWO, TEXT, META))
    run = to.run()
    run.complete("v.bin", number, TWO)
    run.copy("w.bin", "v.bin")
    run.get("w.bin")
    run.copy("v.bin", "v.bin", replace=("image/png", [("-a", "b")]))
    run.get("v.bin")
    to.told("the type and the metadata of an object of parts", run, LEAST)
    to.note("An empty part is no segment, and counts in the ETag that the copy keeps. The greatest number of a part.")
    for parts in ([(2, "hello"), (9, "")], [(1, "hello"), (7, "-"), (1000, "world")]):
        to.begin(joined("v.bin", parts))
        run = to.run()
        run.copy("w.bin", "v.bin")
        run.get("w.bin")
        to.told(f"an object of the parts {' and '.join(str(number) for number, _ in parts)}", run, "nomodel")
    to.note("An object whose part is empty is a plain file without a byte. It lists nothing, so its list isn't asked for: six calls.")
    number = to.begin(stays(1), uploaded("v.bin", [(7, "")], TEXT, META))
    run = to.run()
    run.complete("v.bin", number, [(7, "")])
    run.copy("w.bin", "v.bin")
    run.get("w.bin")
    run.copy("x.bin", "w.bin", replace=(PLAIN, []))
    run.get("x.bin")
    assert run.pieces[1][0] - run.pieces[0][0] == 6
    to.told("an object of one part, which is empty", run, LEAST)


def free_ids(to):
    to.note(
        "The id of a copy is the first from the word of chance on that has neither a record nor a segment. A record that is there needs",
        "no look at segments. The word is 2 here, and the completed upload has the id 4.",
    )
    to.begin(joined("v.bin", TWO))
    run = to.run()
    run.head()
    run.copy("w.bin", "v.bin")
    run.get("w.bin")
    to.told("the id is a record's", run, "nomodel")

    def taken(run):
        joined("v.bin", TWO)(run)
        for number in (2, 3):
            name = f"{number:032x}/00001"
            run.store.containers[f"{HOME}+segments"].files[name] = File("application/json", "left")
            run.files.append(f"file {HOME}+segments {name} left")

    to.begin(taken)
    run = to.run()
    run.copy("w.bin", "v.bin")
    run.get("w.bin")
    assert f"{5:032x}" in run.store.containers[HOME].files["w.bin"].type()
    to.told("the ids are those of segments that were left, and of a record", run, "nomodel")


# ---- parts that are copied


def parts(to):
    to.note(
        "A part is copied by six calls: HEAD of the target's bucket, GET of the record, HEAD of the source's bucket, HEAD and GET of the",
        "source, and PUT of the segment. Its ETag is the MD5 of its bytes. Of no byte nothing is asked for.",
    )
    number = to.begin(other_buckets, joined("v.bin", TWO, "text/plain"), uploaded("u", [(2, "old")]), an_object, lambda run: run.put("empty", ""))
    number = f"{14:032x}"
    assert number in to.store.containers[f"{HOME}+uploads"].files
    run = to.run()
    run.copy_part("u", number, 1, "v.bin", first=3, last=6)
    run.copy_part("u", number, 1, "v.bin", first=3, last=10)
    run.complete("u", number, [(1, "lowo")])
    run.get("u")
    to.told("a part is copied out of an object of parts, and completed alone", run, LEAST, "nomodel")
    run = to.run()
    run.copy_part("u", number, 1, "v.bin")
    run.copy_part("u", number, 2, "k", first=1, last=4)
    run.copy_part("u", number, 3, "k", first=0, last=0)
    run.copy_part("u", number, 4, "empty")
    run.copy_part("u", number, 1000, "k")
    run.complete("u", number, [(1, "helloworld"), (2, "ello"), (3, "h"), (1000, "hello")])
    run.get("u")
    run.copy("w", "u")
    run.delete("u")
    run.get("w")
    to.told("an object of parts that were copied is copied", run, LEAST, "nomodel")
    run = to.run()
    run.copy_part("u", number, 1, "v.bin", first=0, last=9)
    run.copy_part("u", number, 1, "v.bin", first=9, last=9)
    run.copy_part("u", number, 1, "k", first=4, last=4, source="photos%2Fk")
    run.copy_part("u", number, 1, "k", "x-amz-metadata-directive: REPLACE", "Content-Type: image/png", "x-amz-meta-a: b")
    run.copy_part("u", number, 1, "k", "x-amz-acl: public-read")
    run.copy_part("u", number, 2, "empty")
    to.told("a part is copied in the place of another", run, "nomodel")


def parts_refused(to):
    to.note("What is missing is found in this order: the target's bucket, the upload, the source's bucket, the source, the range.")
    number = f"{14:032x}"
    run = to.run()
    run.copy_part("u", number, 1, "k", bucket="nothing")
    run.copy_part("u", "f" * 32, 1, "k", from_bucket="nothing")
    run.copy_part("u", "x", 1, "k", from_bucket="nothing")
    run.copy_part("other", number, 1, "k")
    run.copy_part("v.bin", f"{8:032x}", 1, "k")
    run.copy_part("u", number, 1, "k", bucket=OTHER)
    run.copy_part("u", number, 1, "k", from_bucket="nothing")
    run.copy_part("u", number, 1, "missing")
    run.copy_part("u", number, 1, "missing", first=0, last=999999999999999999)
    run.copy_part("u", number, 1, "k", first=0, last=5)
    run.copy_part("u", number, 1, "k", first=5, last=5)
    run.copy_part("u", number, 1, "k", first=0, last=999999999999999999)
    run.copy_part("u", number, 1, "empty", first=0, last=0)
    to.told("copies of parts that are refused", run, "nomodel")
    to.note("No part that is copied has more bytes than `--largest-body` says, of the whole source or of a range of it; a copy of an object may.")
    run = to.run()
    run.most = 9
    run.copy_part("u", number, 1, "v.bin")
    run.copy_part("u", number, 1, "v.bin", first=0, last=8)
    run.copy_part("u", number, 1, "v.bin", first=0, last=9)
    run.copy_part("u", number, 1, "v.bin", first=0, last=10)
    run.copy_part("u", number, 2, "k")
    run.copy("w.bin", "v.bin")
    to.told("copies of parts of more bytes than the largest body", run, "words session --largest-body 9", "nomodel")


# ---- losses


def lose(to, name, calls, request_of, seen, words=("before", "after")):
    """Each call of a request is lost, behind the two that settle: its request, its answer, or the store from it on. What is seen then
    is read, and the request made again."""
    for number in range(1, SETTLES + calls + 1):
        for word in words:
            run = to.run(word, number)
            request_of(run)
            seen(run)
            if word != "stop":
                request_of(run)
                seen(run)
            to.told(f"{name}, {word} {number}", run, "nomodel", is_brief=True)


def losses(to):
    to.note(
        "Each call of a copy is lost, and of the two that settle: the request, the answer, or the store from it on. The target is read, the",
        "copy is made again, and the target is read again. What was put before a call that failed stays beside the bucket.",
    )
    to.begin(an_object, lambda run: run.put("c", "old"))
    lose(to, "a copy", 5, lambda run: run.copy("c", "k"), lambda run: run.get("c"))
    to.begin(joined("v.bin", TWO, "text/plain"), lambda run: run.put("w.bin", "old"))
    lose(to, "a copy of parts", 11, lambda run: run.copy("w.bin", "v.bin"), lambda run: run.get("w.bin"), ("before", "after", "stop"))
    to.begin(joined("v.bin", TWO), uploaded("u", [(1, "old")]))
    number = f"{10:032x}"
    assert number in to.store.containers[f"{HOME}+uploads"].files
    lose(to, "a copy of a part", 6, lambda run: run.copy_part("u", number, 1, "v.bin", first=3, last=6), lambda run: None)


def sweeps(to):
    to.note(
        "Each loss of each call of a copy, and a new run over the account after each number of calls: it sees the copy as not made, or as",
        "made. It reads the target and the source, lists objects and uploads, copies, and reads again.",
    )
    to.begin(an_object, lambda run: run.put("c", "old"))
    run = to.run()
    run.copy("c", "k")
    to.swept("a copy", run, probe_of("c", "k"), "200 200 200 200 200 200", "200 200 200 200 200 200")
    run = to.run()
    run.copy("d", "k", replace=("image/png", []))
    to.swept("a copy that replaces, of a key that wasn't there", run, probe_of("d", "k"), "404 200 200 200 200 200", "200 200 200 200 200 200")
    run = to.run()
    run.copy("d", "missing")
    to.swept("a copy of nothing", run, probe_of("d", "k"), "404 200 200 200 200 200", "404 200 200 200 200 200")
    to.note("The same of an object of one part, which requests of a setup complete.")
    to.begin(uploaded("v.bin", [(5, "hello")], TEXT, META), lambda run: run.complete("v.bin", f"{4:032x}", [(5, "hello")]))
    run = to.run()
    run.copy("w.bin", "v.bin")
    to.swept("a copy of a part", run, probe_of("w.bin", "v.bin"), "404 200 200 200 200 200", "200 200 200 200 200 200")
    run = to.run()
    run.copy("v.bin", "v.bin", replace=("image/png", []))
    to.swept("a copy of a part onto itself", run, probe_of("w.bin", "v.bin"), "404 200 200 200 200 200", "404 200 200 200 200 200")
    to.begin(joined("v.bin", [(1, "hello"), (9, "world"), (10, "")], "text/plain"), lambda run: run.put("w.bin", "old"))
    run = to.run()
    run.copy("w.bin", "v.bin")
    to.swept("a copy of parts", run, probe_of("w.bin", "v.bin"), "200 200 200 200 200 200", "200 200 200 200 200 200", "nomodel")
    to.begin(uploaded("v.bin", [(1, "")]), lambda run: run.complete("v.bin", f"{4:032x}", [(1, "")]))
    run = to.run()
    run.copy("w.bin", "v.bin")
    to.swept("a copy of an empty part", run, probe_of("w.bin", "v.bin"), "404 200 200 200 200 200", "200 200 200 200 200 200")


def probe_of(target, source):
    run = Run(moment=STARTED)
    run.requests += request("GET", path_of(HOME, target)) + request("GET", path_of(HOME, source)) + request("GET", f"/{HOME}?list-type=2")
    run.requests += request("GET", f"/{HOME}?uploads")
    run.requests += request("PUT", path_of(HOME, target), f"x-amz-copy-source: {path_of(HOME, source)}", body="")
    run.requests += request("GET", path_of(HOME, target))
    return run


def part_sweeps(to):
    to.note("The same of a copy of a part: the parts are listed, the upload is completed by the new part and by the old one, and read.")
    to.begin(uploaded("u", [(1, "old")]), an_object)
    number = f"{4:032x}"
    upload = f"/{HOME}/u?uploadId={number}"
    run = to.run()
    run.copy_part("u", number, 1, "k", first=1, last=3)
    probe = Run(moment=STARTED)
    probe.requests += request("GET", upload) + request("POST", upload, body=listed([(1, "ell")]))
    probe.requests += request("POST", upload, body=listed([(1, "old")])) + request("GET", f"/{HOME}/u") + request("GET", f"/{HOME}?uploads")
    to.swept("a copy of a range as a part", run, probe, "200 400 200 200 200", "200 200 404 200 200")
    run = to.run()
    run.copy_part("u", number, 1, "k", first=1, last=5)
    to.swept("a copy past the end as a part", run, probe, "200 400 200 200 200", "200 400 200 200 200")


# ---- conditions on a source


MET = [
    {"match": '"{etag}"'}, {"match": "{etag}"}, {"match": 'W/"{etag}"'}, {"match": "*"}, {"match": '"other", "{etag}"'}, {"none-match": '"other"'},
    {"none-match": ""}, {"modified-since": -1}, {"unmodified-since": 0}, {"unmodified-since": 1}, {"modified-since": "yesterday"},
    {"unmodified-since": ""}, {"match": '"{etag}"', "unmodified-since": -1}, {"none-match": '"other"', "modified-since": 0},
    {"match": '"{etag}"', "none-match": '"other"', "modified-since": 1, "unmodified-since": -1},
]
UNMET = [
    {"match": '"other"'}, {"match": ""}, {"match": '"{etag}-1"'}, {"none-match": '"{etag}"'}, {"none-match": 'a, W/"{etag}"'}, {"none-match": "*"},
    {"modified-since": 0}, {"modified-since": 1}, {"unmodified-since": -1}, {"match": '"other"', "unmodified-since": 1},
    {"none-match": '"{etag}"', "modified-since": -1}, {"match": '"{etag}"', "none-match": '"{etag}"'}, {"match": '"{etag}"', "modified-since": 0},
    {"none-match": '"other"', "unmodified-since": -1},
]


def of_source(to, key, only):
    """Conditions by the ETag of a source, and by moments as they differ from its own."""
    file = to.store.containers[HOME].files[key]
    return {name: value.format(etag=file.etag) if isinstance(value, str) else file.moment + value for name, value in only.items()}


def conditions(to):
    to.note(
        "A source that meets the conditions is copied by the calls of any copy. One that doesn't is refused after HEAD of it, also where a",
        "GET of it would be told that it is known. Conditions are read as those of a GET: RFC 9110, section 13.2.2.",
    )
    to.begin(an_object, other_buckets)
    run = to.run()
    for only in MET:
        run.copy("c", "k", only=of_source(to, "k", only))
    run.get("c")
    to.told("copies of a source that meets the conditions", run, EXTENDED)
    run = to.run()
    for only in UNMET:
        run.copy("c", "k", only=of_source(to, "k", only))
    run.get("c")
    to.told("copies of a source that doesn't meet them", run, EXTENDED)
    run = to.run()
    held, met = of_source(to, "k", UNMET[0]), of_source(to, "k", MET[0])
    run.copy("c", "k", bucket="nothing", only=held)
    run.copy("c", "k", acl="public-read", only=held)
    run.copy("c", "k", from_bucket="nothing", only=held)
    run.copy("c", "missing", only=held)
    run.copy("c", "missing", only={"match": "*"})
    run.copy("c", "missing", only={"none-match": "*"})
    run.copy("k", "k", only=held)
    run.copy("k", "k", only=met)
    run.copy("k", "k", replace=(TEXT, []), only=held)
    run.copy("k", "k", replace=(TEXT, []), only=met)
    run.copy("k", "k", replace=(TEXT, []), only={"modified-since": to.store.containers[HOME].files["k"].moment})
    to.told("what is refused before the conditions, and what behind them", run, EXTENDED)


def conditions_of_parts(to):
    to.note("The same of a source that was completed from parts, whose ETag says how many they were, and of the copy of a part.")
    to.begin(other_buckets, joined("v.bin", TWO, "text/plain"), uploaded("u", []), an_object)
    number = next(name for name, it in to.store.containers[f"{HOME}+uploads"].files.items() if it.is_open)
    run = to.run()
    for only in MET[:2] + UNMET[:4]:
        run.copy("c", "v.bin", only=of_source(to, "v.bin", only))
    to.told("copies of an object of parts, under conditions", run, EXTENDED, "nomodel")
    run = to.run()
    for at, only in enumerate(MET):
        run.copy_part("u", number, at + 1, "k", only=of_source(to, "k", only))
    for only in UNMET:
        run.copy_part("u", number, 100, "k", only=of_source(to, "k", only))
    held, met = of_source(to, "k", UNMET[0]), of_source(to, "k", MET[0])
    run.copy_part("u", number, 100, "k", bucket="nothing", only=held)
    run.copy_part("u", "f" * 32, 100, "k", only=held)
    run.copy_part("u", number, 100, "k", from_bucket="nothing", only=held)
    run.copy_part("u", number, 100, "missing", only=held)
    run.copy_part("u", number, 100, "k", first=0, last=5, only=held)
    run.copy_part("u", number, 100, "k", first=0, last=5, only=met)
    run.copy_part("u", number, 100, "k", first=0, last=4, only=met)
    to.told("copies of parts under conditions", run, EXTENDED, "nomodel")


PLAIN_GROUPS = [plain, onto, refusals, unasked, odd_keys, contents, of_parts, parts_over, filled_parts, free_ids, parts, parts_refused]
LOST_GROUPS = [losses, sweeps, part_sweeps]
EXTENDED_GROUPS = [conditions, conditions_of_parts]


def main(words):
    if words not in ([], ["lost"], ["extended"]):
        sys.exit(__doc__)
    groups = {"": PLAIN_GROUPS, "lost": LOST_GROUPS, "extended": EXTENDED_GROUPS}[" ".join(words)]
    to = Cases()
    to.note(
        "Copies, by bench/copy-cases.py: a small model of its own, from what this profile says of them and of their calls",
        '(docs/PROFILE.md), and Amazon S3 API Reference, "CopyObject" and "UploadPartCopy". Settling makes two calls before the first',
        "operation of a run.",
    )
    to.lines.append("")
    for made in groups:
        made(to)
    print("\n".join(load_signing().signed(to.lines)).rstrip("\n"))


if __name__ == "__main__":
    main(sys.argv[1:])
