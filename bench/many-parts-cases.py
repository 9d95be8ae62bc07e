#!/usr/bin/env python3
"""Writes cases of an object of more parts than a list of segments may have.

    bench/many-parts-cases.py > crates/cases/data/many-parts.txt

The replies and the accounts come from a small model of its own, over that of bench/case_copies.py, which knows only what this profile
says of uploads, of copies, of settling and of the files that are kept (docs/PROFILE.md), by Object Storage API v1, "Static large
objects": a list of segments has at most 1000. The MD5s are those of Python's hashlib. Nothing is taken from the program. The
requests are signed as bench/sign-cases.py signs them.
"""
from case_copies import HOME, NAMESPACE, SEGMENT, File, Run, done_record, joined_etag, listed, path_of, segment_name, time_of
from case_signing import load_signing
from case_uploads import CLOCK, STARTED, TELL, Writer, md5, request

LEAST = "words session --least-part 1"
KEY = "v.bin"
MOST = 1000
PARTS = [(number, "x") for number in range(1, 1002)]
ETAG = "9dd4e461268c8034f5c8564e155c67a6"
assert md5(b"x") == ETAG


def runs(entries):
    """The entries of a list in runs of as many as it may have, where there are more; else none."""
    return [entries[at : at + MOST] for at in range(0, len(entries), MOST)] if len(entries) > MOST else []


def listing(entries):
    """The ETag and the size that a store gives a list of these."""
    return md5("".join(etag for _, etag, _ in entries).encode()), sum(size for _, _, size in entries)


class Many(Run):
    """A run whose objects list their parts through sub-manifests, where there are more than a list may have."""

    def put_runs(self, bucket, number, entries, body):
        """What the object lists, behind the PUT of its sub-manifests."""
        subs, at = [], 0
        for turn, run in enumerate(runs(entries), 1):
            etag, size = listing(run)
            name = f"{number}/m{turn:05}"
            self.store.put(f"{bucket}+segments", name, File(SEGMENT, body[at : at + size], etag, self.moment, number, (), run))
            subs.append((f"/{bucket}+segments/{name}", etag, size))
            at += size
        return subs or entries

    def object(self, bucket, number, entries, kind, meta, body, etag):
        """The file of an object of these parts."""
        file = File(kind, body, etag, self.moment, number, meta, self.put_runs(bucket, number, entries, body))
        file.entries = entries
        return file

    def complete(self, key, number, parts, bucket=HOME):
        def plan(_draw):
            self.need_bucket(bucket)
            begun = self.need_upload(bucket, key, number)
            names = [name for name in self.store.containers[f"{bucket}+segments"].files if name.startswith(f"{number}/")]
            for _ in range(len(names) // MOST + 1):
                self.store.call()
            self.store.call()
            etag = joined_etag([body for _, body in parts])
            entries = [(f"/{bucket}+segments/{segment_name(number, part)}", md5(body.encode()), len(body)) for part, body in parts if body]
            self.store.put(bucket, key, self.object(bucket, number, entries, *begun.given, "".join(body for _, body in parts), etag))
            self.store.put(f"{bucket}+uploads", number, done_record(begun, parts, etag, self.moment))
            self.store.call()
            body = f'<CompleteMultipartUploadResult xmlns="{NAMESPACE}"><Location>{path_of(bucket, key)}</Location><Bucket>{bucket}</Bucket>'
            return "200 OK", {"body": f"{body}<Key>{key}</Key><ETag>&quot;{etag}&quot;</ETag></CompleteMultipartUploadResult>"}

        self.ask(request("POST", f"{path_of(bucket, key)}?uploadId={number}", body=listed(parts)), path_of(bucket, key), plan)

    def joined_copy(self, file, kind, meta, bucket, draw):
        self.store.call()
        for _ in runs(file.entries):
            self.store.call()
        number, entries, at = self.free_id(bucket, draw), [], 0
        for path, etag, size in file.entries:
            name = f"{number}/{path[-5:]}"
            self.store.call()
            self.store.put(f"{bucket}+segments", name, File(SEGMENT, file.body[at : at + size], etag, self.moment, number))
            entries.append((f"/{bucket}+segments/{name}", etag, size))
            at += size
        return self.object(bucket, number, entries, kind, meta, file.body, file.etag)

    def parts_behind(self, key, number, marker, bucket=HOME):
        """ListParts behind a part, of which fewer follow than a page has."""
        def plan(_draw):
            self.need_bucket(bucket)
            self.need_upload(bucket, key, number)
            self.store.call()
            found = [(part, body) for part, body in PARTS if part > marker]
            assert len(found) < MOST
            owner = "<ID>s3gate</ID><DisplayName>s3gate</DisplayName>"
            head = f'<ListPartsResult xmlns="{NAMESPACE}"><Bucket>{bucket}</Bucket><Key>{key}</Key><UploadId>{number}</UploadId>'
            head += f"<Initiator>{owner}</Initiator><Owner>{owner}</Owner><StorageClass>STANDARD</StorageClass>"
            head += f"<PartNumberMarker>{marker}</PartNumberMarker><MaxParts>1000</MaxParts><IsTruncated>false</IsTruncated>"
            at = f"<LastModified>{time_of(STARTED)}.000Z</LastModified>"
            items = "".join(f"<Part><PartNumber>{part}</PartNumber>{at}<ETag>&quot;{ETAG}&quot;</ETag><Size>1</Size></Part>" for part, _ in found)
            return "200 OK", {"body": f"{head}{items}</ListPartsResult>"}

        target = f"{path_of(bucket, key)}?part-number-marker={marker}&uploadId={number}"
        self.ask(request("GET", target), path_of(bucket, key), plan)

    def span(self, key, first, last, bucket=HOME):
        """GET of a range."""
        def plan(_draw):
            self.need_bucket(bucket)
            file = self.need_object(bucket, key)
            self.behind = file.body[first : last + 1]
            head = [*self.head_of(file), f"Content-Range: bytes {first}-{last}/{len(file.body)}"]
            return "206 Partial Content", *head, {"size": len(self.behind)}

        self.ask(request("GET", path_of(bucket, key), f"Range: bytes={first}-{last}"), path_of(bucket, key), plan)


class Cases(Writer):
    def begin(self):
        """The upload of all parts. Its id is given back."""
        run = Many(moment=STARTED)
        run.make(HOME)
        for _ in range(3):
            run.head()
        number = run.begin(KEY)
        for part, body in PARTS:
            run.part(KEY, number, part, body)
        self.lines += ["setup", *run.requests]
        self.end(["served"])
        self.store = run.store
        return number

    def told(self, name, run, *given, tell=TELL):
        etags = [f"etags {' '.join(map(str, run.etags()))}"] if run.etags() else []
        given = [*given, "pieces 1024", "brief", *etags, *tell]
        left = run.store.left() if "tell left" in tell else []
        self.case(name, given, run.requests, ["status 0", f"calls {run.store.calls}", *run.brief(), *left])


def completed(to, number):
    to.note(
        "1001 parts of a byte each. The completion makes ten calls behind the two that settle: HEAD of the bucket, GET of the record, two pages",
        "of the names of the parts, PUT of what is sealed, PUT of two sub-manifests, of 1000 entries and of one, PUT of the object, PUT of the",
        "record, and DELETE of what is sealed. No part follows the last.",
    )
    run = Many(to.store)
    run.parts_behind(KEY, number, 1001)
    run.parts_behind(KEY, number, 999)
    run.complete(KEY, number, PARTS)
    run.span(KEY, 999, 1000)
    run.get(KEY)
    to.told("an upload of 1001 parts is completed and read", run, LEAST, tell=["tell calls"])


def copied(to, number):
    to.note(
        "A copy of it: the three HEADs, the list of the object and of each of its sub-manifests, the search of the id by two calls, GET and PUT",
        "of each of the 1001 segments, PUT of two sub-manifests, and PUT of the object. The copy stays where the source is deleted.",
    )
    run = Many(to.store)
    run.complete(KEY, number, PARTS)
    before = run.store.calls
    run.copy("w.bin", KEY)
    assert run.store.calls - before == 7 + 2 * 1001 + 2 * 2
    run.delete(KEY)
    run.span("w.bin", 999, 1000)
    run.get("w.bin")
    to.told("an object of 1001 parts is copied", run, LEAST, "nomodel", tell=["tell calls"])


def swept(to, number):
    to.note(
        "Each loss of each call of the completion, and a new run over the account after each number of calls: it settles what was sealed, reads",
        "over the seam of the sub-manifests, and completes the upload, again or for the first time.",
    )
    run = Many(to.store)
    run.complete(KEY, number, PARTS)
    probe = Many(moment=STARTED)
    over_the_seam = request("GET", path_of(HOME, KEY), "Range: bytes=999-1000")
    probe.requests += over_the_seam + request("POST", f"{path_of(HOME, KEY)}?uploadId={number}", body=listed(PARTS)) + over_the_seam
    to.lines += ["case a completion of 1001 parts", CLOCK, LEAST, "nomodel", "brief", "connection", *run.requests, "sweep", "probe", *probe.requests]
    to.end(["status 0", *run.brief(), "before 404 200 206", "after 206 200 206"])


def main():
    to = Cases()
    to.note(
        "An object of more parts than a list of segments may have, by bench/many-parts-cases.py: a small model of its own, from what this profile",
        'says of it (docs/PROFILE.md), and Object Storage API v1, "Static large objects".',
    )
    to.lines.append("")
    number = to.begin()
    completed(to, number)
    copied(to, number)
    swept(to, number)
    print("\n".join(load_signing().signed(to.lines)).rstrip("\n"))


if __name__ == "__main__":
    main()
