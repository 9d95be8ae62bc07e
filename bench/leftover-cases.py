#!/usr/bin/env python3
"""Writes cases of the commands `sweep` and `check`: what is left over on an account, what is removed of it, and what is counted.

    bench/leftover-cases.py > crates/cases/data/leftovers.txt

The accounts, the counts and the calls come from the small model below, which knows only what this profile says of the two commands,
of settling and of the files that are kept (docs/PROFILE.md); the MD5s are those of Python's hashlib. Nothing is taken from the
program. The requests are signed as bench/sign-cases.py signs them.
"""
from case_signing import load_signing
from case_uploads import (
    ID, OBJECT, OTHER, PLAIN, SEALED, STARTED, TELL, UPLOAD, Account, Completion, Writer, compact, md5, read_in_brief, reply, request, tag,
)

STORE = "s3gate: store"
USAGE = "usage: s3gate session|serve|recover|sweep|check|sign|trial|presign"
SEGMENT = "application/octet-stream"
JSON = "application/json"
LEAST = "words session --least-part 1"
# The calls before the first of a sweep's own: PUT of the gateway's container and GET of what is sealed.
SETTLING = 2


def swept(segments=0, records=0, containers=0, migrated=0, forgotten=0):
    return f"swept segments {segments} records {records} containers {containers} migrated {migrated} forgotten {forgotten}"


def counted(buckets=0, objects=0, uploads=0, kept=0, orphans=0, sealed="no"):
    return f"buckets {buckets} objects {objects} uploads {uploads} kept {kept} orphans {orphans} sealed {sealed}"


def account(**containers):
    """An account by its containers, in whose names `_up` and `_seg` stand for `+uploads` and `+segments`; the gateway's own is there."""
    made = Account(Completion([]), "")
    made.containers = {"+gateway": {}}
    for name, files in containers.items():
        made.containers[name.replace("_up", "+uploads").replace("_seg", "+segments")] = dict(files)
    return made


def bucket(name="photos", objects=(), records=(), segments=()):
    return {name: dict(objects), f"{name}_up": dict(records), f"{name}_seg": dict(segments)}


def segment(number, part, body):
    return f"{number}/{part:05}", (tag(SEGMENT, md5(body.encode()), STARTED, number), [], None, body)


def record(number, text):
    return number, (JSON, [], None, text)


def plain(key, body):
    return key, (tag(PLAIN, md5(body.encode()), STARTED, "-"), [], None, body)


def open_record(key):
    return compact({"at": STARTED, "key": key, "meta": [], "state": "open", "type": PLAIN, "v": 1})


def done_record(key, parts, started, done=None):
    etag = Completion(parts).etag
    fields = {"at": started} if done is None else {"at": started, "done": done}
    fields |= {"etag": etag, "key": key, "list": [[number, md5(body.encode())] for number, body in parts], "state": "done"}
    return compact({**fields, "v": 1 if done is None else 2})


def begin(*then):
    """The bucket, and an upload that the fifth request begins: its id is 10."""
    return request("PUT", "/photos", body="") + request("HEAD", "/photos") * 3 + request("POST", f"{OBJECT}?uploads") + list(then)


def part(number, body):
    return request("PUT", f"{OBJECT}?partNumber={number}&uploadId={ID}", body=body)


def complete(parts):
    listed = "".join(f"<Part><PartNumber>{number}</PartNumber><ETag>{md5(body.encode())}</ETag></Part>" for number, body in parts)
    return request("POST", UPLOAD, body=f"<CompleteMultipartUpload>{listed}</CompleteMultipartUpload>")


def typed(segments):
    """The lines of a setup that put segments."""
    return [f"typed photos+segments {name} {file[0]} {file[3]}" for name, file in segments]


class Cases(Writer):
    def account(self, *lines):
        self.lines += ["setup", *lines]
        self.end(["served"])

    def run(self, name, words, report, left=None, status=0, calls=None, given=()):
        """A run of one of the two commands: its report, which may fail, and what it leaves."""
        tell = (["tell calls"] if calls is not None else []) + (TELL[1:] if left else [])
        expected = [f"status {status}"] + (["report", f"<n {report}"] if report else [])
        expected += ([f"calls {calls}"] if calls is not None else []) + (left.left() if left else [])
        self.lines += [f"case {name}", f"words {words}", "pieces 1024", *given, *tell]
        self.end(expected)

    def served(self, name, requests, expected, given=()):
        self.lines += [f"case {name}", "clock 1369353700", LEAST, "nomodel", *given, "connection", *requests]
        self.end(["status 0", *expected])


def empty_account(to):
    to.note("An account on which nothing stands: a sweep makes the gateway's container, and a survey makes nothing.")
    to.account()
    to.run("a sweep of nothing", "sweep", swept(), account())
    nothing = account()
    del nothing.containers["+gateway"]
    to.run("a survey of nothing", "check", counted(), nothing)
    to.run("a sweep that forgets of nothing", "sweep --forget-before 0", swept(), account())
    to.run("the latest moment", "sweep --forget-before 253402300799", swept())
    to.run("a moment as an option with an equals sign", "sweep --forget-before=1369353600", swept())
    for name, words in [
        ("a moment behind the latest", "sweep --forget-before 253402300800"),
        ("a moment that is none", "sweep --forget-before 1s"),
        ("a moment below 0", "sweep --forget-before -1"),
        ("no moment", "sweep --forget-before"),
        ("two moments", "sweep --forget-before 1 --forget-before 1"),
        ("a word too many for a sweep", "sweep x"),
        ("a region for a sweep", "sweep --region us-east-1"),
        ("a word too many for a survey", "check x"),
        ("a moment for a survey", "check --forget-before 1"),
    ]:
        to.run(name, words, USAGE, nothing, 2, 0)
    for words in ("sweep", "check"):
        to.run(f"{words} by no key", words, swept() if words == "sweep" else counted(), given=["nokeys"])
        to.run(f"{words} by a key text that is refused", words, USAGE, nothing, 2, 0, ["keytext A\\0a"])
        to.run(f"{words} whose report fails", words, None, None, 6, None, ["unreported 1"])
        to.run(f"{words} with a line that fails", words, swept() if words == "sweep" else counted(), given=["fails 1"])
    to.note("The first call of a sweep's own is the third, behind the two of settling; that of a survey is the first.")
    for words, call, left in (("sweep", 1, nothing), ("sweep", 2, account()), ("sweep", 3, account()), ("check", 1, nothing)):
        for loss in ("before", "after", "stop"):
            after = account() if (words, call, loss) == ("sweep", 1, "after") else left
            to.run(f"{words}, {loss} {call}", words, STORE, after, 4, call, [f"{loss} {call}"])
        to.run(f"{words}, before {call}, and a report that fails", words, None, left, 4, call, [f"before {call}", "unreported 1"])


def left_by_uploads(to):
    """An upload of three parts is completed with two of them, and its key put anew; of another one that was aborted the first DELETE
    of a segment failed, and its two segments stay. So there are five segments that nothing names."""
    parts = [(1, "hello"), (2, "world"), (3, "again")]
    other = f"{16:032x}"
    kept = record(ID, done_record("v.bin", parts[:2], STARTED, STARTED))
    lost = [segment(other, 1, "one"), segment(other, 2, "two")]
    mine = [segment(ID, number, body) for number, body in parts]
    setup = begin()
    for number, body in parts:
        setup += part(number, body)
    setup += complete(parts[:2]) + request("PUT", OBJECT, body="plain")
    objects = [plain("v.bin", "plain")]
    before = account(**bucket(objects=objects, records=[kept], segments=mine + lost))
    after = account(**bucket(objects=objects, records=[kept]))
    to.note("Five segments that nothing names: three of an upload that was completed and whose key was put anew, and two of one that was",
            "aborted, whose first DELETE of a segment failed.")
    to.account(*setup, LEAST, *typed(lost))
    to.run("a survey of what uploads left", "check", counted(1, 1, 0, 1, 5), before)
    to.run("a sweep of what uploads left", "sweep", swept(5), after)
    to.account(*begin(), *[line for number, body in parts[:2] for line in part(number, body)], *complete(parts[:2]), LEAST)
    listed = Completion(parts[:2])
    object_ = ("v.bin", (tag(PLAIN, listed.etag, STARTED, ID), [], listed.store_etag(), listed.body))
    held = account(**bucket(objects=[object_], records=[kept], segments=mine[:2]))
    to.note("Segments that an object lists, and those of an upload that is open, stay.")
    to.run("a survey of segments that are listed", "check", counted(1, 1, 0, 1), held)
    to.run("a sweep of segments that are listed", "sweep", swept(), held)
    opened = account(**bucket(records=[record(ID, open_record("v.bin"))], segments=mine[:2]))
    to.account(*begin(), *[line for number, body in parts[:2] for line in part(number, body)])
    to.run("a survey of an open upload", "check", counted(1, 0, 1), opened)
    to.run("a sweep of an open upload", "sweep --forget-before 253402300799", swept(), opened)
    to.note("Nothing is left over where the same was swept before.")
    to.account(*request("PUT", "/photos", body=""), *request("PUT", OBJECT, body="plain"), f"file photos+uploads {ID} {kept[1][3]}")
    to.run("a sweep of what was swept", "sweep", swept(), after)


def left_by_buckets(to):
    """A bucket with an open upload is deleted; another one stays."""
    gone = begin(*part(1, "hello"), *request("DELETE", "/photos"))
    files = [record(ID, open_record("v.bin"))], [segment(ID, 1, "hello")]
    before = account(photos_up=files[0], photos_seg=files[1])
    to.note("A bucket with an open upload of one part is deleted: its two side containers stay, with a record and a segment.")
    to.account(*gone)
    to.run("a survey beside a bucket that was deleted", "check", counted(orphans=1), before)
    to.run("a sweep beside a bucket that was deleted", "sweep", swept(1, 1, 2), account())
    more = account(**bucket("music"), photos_up=files[0], photos_seg=files[1])
    to.account(*gone, *request("PUT", "/music", body=""))
    to.run("a survey beside another bucket", "check", counted(1, orphans=1), more)
    to.run("a sweep beside another bucket", "sweep", swept(1, 1, 2), account(**bucket("music")))


def sealed(to):
    """A completion is sealed: a survey counts the account as it stands, and a sweep settles it first."""
    done = Completion([(1, "hello"), (3, "world")])
    stands = Account(done, done.sealed())
    to.note("A completion is sealed, and nothing more of it done: the upload is open still. A survey leaves it; a sweep finishes it first.")
    to.setup(done, f"file +gateway sealed {done.sealed()}")
    to.run("a survey of what is sealed", "check", counted(1, 0, 1, sealed="yes"), stands)
    to.run("a sweep of what is sealed", "sweep", swept(), stands.after(5))
    to.run(
        "a sweep of what is sealed, which forgets it", f"sweep --forget-before {SEALED + 1}", swept(forgotten=1),
        forgotten_of(stands.after(5)),
    )


def forgotten_of(stands):
    del stands.containers["photos+uploads"][ID]
    return stands


def ages(to):
    """A completion whose record doesn't have its moment: a sweep gives it the start of its upload, unless that is forgotten."""
    done = Completion([(1, "hello"), (3, "world")])
    was = done_record("v.bin", done.parts, STARTED)
    now = done_record("v.bin", done.parts, STARTED, STARTED)
    put = f"manifest photos v.bin {tag(PLAIN, done.etag, STARTED, ID)} {done.segments()}"
    stands = Account(done, "")
    del stands.containers["+gateway"]["sealed"]
    stands.containers["photos"]["v.bin"] = (tag(PLAIN, done.etag, STARTED, ID), [], done.store_etag(), done.body)

    def having(text):
        made = stands.after(0)
        made.containers["photos+uploads"] = {ID: (JSON, [], None, text)} if text else {}
        return made

    again = complete(done.parts)
    result = (
        f'<CompleteMultipartUploadResult xmlns="http://s3.amazonaws.com/doc/2006-03-01/"><Location>/photos/v.bin</Location><Bucket>photos</Bucket>'
        f"<Key>v.bin</Key><ETag>&quot;{done.etag}&quot;</ETag></CompleteMultipartUploadResult>"
    )
    to.note("A completion of 1369353600 whose record is of version 1: a sweep writes it anew in version 2, with the start of its upload as its",
            "moment; or forgets it, where that is below the one that is given.")
    to.setup(done, put, f"file photos+uploads {ID} {was}")
    to.run("a record without its moment", "sweep", swept(migrated=1), having(now))
    to.run("a record without its moment, of the moment that is given", f"sweep --forget-before {STARTED}", swept(migrated=1), having(now))
    to.run("a record without its moment, of before it", f"sweep --forget-before {STARTED + 1}", swept(forgotten=1), having(""))
    to.run("a survey of a record without its moment", "check", counted(1, 1, 0, 1), having(was))
    to.setup(done, put, f"file photos+uploads {ID} {now}")
    to.run("a record with its moment", "sweep", swept(), having(now))
    to.run("a record of the moment that is given", f"sweep --forget-before {STARTED}", swept(), having(now))
    to.run("a record of before it", f"sweep --forget-before {STARTED + 1}", swept(forgotten=1), having(""))
    to.served("the completion again", again, reply("1 4", 0, "200 OK", body=result))
    to.note("Without the record the repetition finds no upload, and the object stands.")
    segments = [segment(ID, number, body) for number, body in done.parts]
    to.account(*request("PUT", "/photos", body=""), *typed(segments), put)
    expected = ["piece 1 4 404 NoSuchUpload", *read_in_brief(1, 7, len(done.body))]
    to.served("the completion again, which was forgotten", again + request("GET", OBJECT), expected, ["brief"])


def in_order(to):
    """Three completions of moment 5: they go by their ids in byte order, and a fault leaves those that had not gone."""
    ids = [f"{number:032x}" for number in (1, 2, 3)]
    texts = [done_record(f"k{number}", [(1, "x")], 4, 5) for number in (1, 2, 3)]
    files = [f"file photos+uploads {number} {text}" for number, text in zip(ids, texts)]
    every = [record(number, text) for number, text in zip(ids, texts)]
    to.note(
        "Three kept completions of moment 5, in a bucket without an object. Behind the two calls of settling and the names of the",
        "containers come, for the bucket's records, their names, and of each GET and DELETE: the second DELETE is the eighth call.",
    )
    to.account(*request("PUT", "/photos", body=""), *files)
    whole = account(**bucket(records=every))
    to.run("a survey of three completions", "check", counted(1, kept=3), whole)
    to.run("three completions of the moment that is given", "sweep --forget-before 5", swept(), whole)
    to.run("three completions of before it", "sweep --forget-before 6", swept(forgotten=3), account(**bucket()))
    to.run("the second of three completions isn't deleted", "sweep --forget-before 6", STORE, account(**bucket(records=every[1:])), 4, 8, ["before 8"])
    to.run("its answer is lost", "sweep --forget-before 6", STORE, account(**bucket(records=every[2:])), 4, 8, ["after 8"])
    to.run("the store is gone from there on", "sweep --forget-before 6", STORE, account(**bucket(records=every[1:])), 4, 8, ["stop 8"])


def entry(path, body):
    """A segment as a PUT of a list has it."""
    return {"etag": md5(body.encode()), "path": path, "size_bytes": len(body)}


def lists_that_lie(to):
    """Objects whose lists say what no list of the gateway says, and a finished upload whose object's tag hides that it lists its parts:
    nothing is deleted, and the file at fault is named."""
    done = Completion([(1, "hello"), (3, "world")])
    mine = f"/photos+segments/{ID}/"
    given, kept = [segment(ID, number, body) for number, body in done.parts], record(ID, done_record("v.bin", done.parts, STARTED, STARTED))
    at_fault = "s3gate: inconsistent photos v.bin"
    to.note(
        "Lists of segments that the gateway writes for no object: a sweep and a survey take none of them, nothing is deleted, and the file",
        "is named. So it is where a finished upload's object has a list of which a segment would go, since its tag doesn't say that it has one.",
    )
    for name, id_, entries, more, both in (
        ("under another id", OTHER, [entry(f"{mine}00001", "hello"), entry(f"{mine}00003", "world")], [], True),
        ("whose numbers fall", ID, [entry(f"{mine}00003", "world"), entry(f"{mine}00001", "hello")], [], True),
        ("with one part twice", ID, [entry(f"{mine}00001", "hello"), entry(f"{mine}00001", "hello")], [], True),
        ("of another container", ID, [entry(f"{mine}00001", "hello"), entry("/photos/x", "plain")], [plain("x", "plain")], True),
        ("with a name that is cut", ID, [entry(f"{mine}0001", "hello"), entry(f"{mine}00003", "world")], [segment(ID, 1, "hello")], True),
        ("under no id", "-", [entry(f"{mine}00001", "hello"), entry(f"{mine}00003", "world")], [], False),
    ):
        body = "".join({"00001": "hello", "00003": "world", "0001": "hello", "x": "plain"}[it["path"].rsplit("/", 1)[1]] for it in entries)
        kind = tag(PLAIN, done.etag, STARTED, id_)
        lists = md5("".join(it["etag"] for it in entries).encode())
        objects, segments, lines = [("v.bin", (kind, [], lists, body))], dict(given), []
        if "container" in name:
            objects.append(more[0])
            lines.append(f"typed photos x {more[0][1][0]} plain")
        if "cut" in name:
            segments[f"{ID}/0001"] = given[0][1]
            lines.append(f"typed photos+segments {ID}/0001 {given[0][1][0]} hello")
        put = f"manifest photos v.bin {kind} {compact(entries)}"
        to.account(*request("PUT", "/photos", body=""), LEAST, *typed(given), *lines, put, f"file photos+uploads {ID} {kept[1][3]}")
        stands = account(**bucket(objects=objects, records=[kept], segments=segments))
        to.run(f"a sweep over a list {name}", "sweep", at_fault if both else f"s3gate: inconsistent photos%2Buploads {ID}", stands, 7)
        to.run(f"a survey over a list {name}", "check", at_fault if both else counted(1, 1, 0, 1, 2), stands, 7 if both else 0)


def what_is_none(to):
    """Accounts that no run of the gateway leaves."""
    to.note("A record that is none, and what is sealed and is none: accounts that no run of the gateway leaves.")
    to.account(*request("PUT", "/photos", body=""), f"file photos+uploads {ID} {{}}")
    stands = account(**bucket(records=[record(ID, "{}")]))
    for words in ("sweep", "check"):
        to.run(f"{words} over a record that is none", words, f"s3gate: inconsistent photos%2Buploads {ID}", stands, 7)
        to.run(f"{words} over a record that is none, whose report fails", words, None, stands, 7, None, ["unreported 1"])
    to.account("file +gateway sealed {}")
    to.run("a sweep over what is sealed and is none", "sweep", "s3gate: inconsistent %2Bgateway sealed", None, 7, SETTLING)
    to.run("a survey beside what is sealed and is none", "check", "s3gate: inconsistent %2Bgateway sealed", None, 7)


def main():
    to = Cases()
    to.note(
        "What is left over on an account, by bench/leftover-cases.py: a small model of its own, from what this profile says of the",
        "commands sweep and check, of settling and of the files that are kept (docs/PROFILE.md).",
    )
    to.lines.append("")
    empty_account(to)
    left_by_uploads(to)
    left_by_buckets(to)
    sealed(to)
    ages(to)
    in_order(to)
    lists_that_lie(to)
    what_is_none(to)
    print("\n".join(load_signing().signed(to.lines)).rstrip("\n"))


if __name__ == "__main__":
    main()
