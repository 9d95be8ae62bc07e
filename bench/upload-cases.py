#!/usr/bin/env python3
"""Writes cases of uploads in parts by chance, over two buckets with four keys, with what each request is to be answered.

    bench/upload-cases.py > crates/cases/data/uploads-chance.txt

The requests come from a generator with a fixed seed, and the replies from the small model below, which knows only what this
profile says of the operations (docs/PROFILE.md): status, code or ETag, the whole body where an upload begins or is listed, and
how many calls of the store each makes. Nothing is taken from the program. The requests are signed as bench/sign-cases.py signs
them, each for its own second.
"""
import hashlib
import random

from case_signing import load_signing

MOMENT = 1369353600
KEYS = [("k", "k"), ("k/1", "k/1"), ("a b/ü%", "a%20b/%C3%BC%25"), ("x&y", "x%26y")]
BUCKETS = ["music", "photos", "photos", "photos"]
PREFIXES = ["", "", "", "k", "k/", "a", "x&", "z"]
CASES = 4
REQUESTS = 100
PERSON = "<ID>s3gate</ID><DisplayName>s3gate</DisplayName>"
PEOPLE = f"<Initiator>{PERSON}</Initiator><Owner>{PERSON}</Owner><StorageClass>STANDARD</StorageClass>"
ACTS = ["BUCKET"] * 6 + ["BEGIN"] * 16 + ["PART"] * 30 + ["PARTS"] * 18 + ["UPLOADS"] * 20 + ["ABORT"] * 6 + ["DROP"]


def escaped(text):
    """As the text of an element."""
    return text.replace("&", "&amp;").replace("<", "&lt;").replace(">", "&gt;").replace('"', "&quot;")


def element(name, text):
    return f"<{name}>{text}</{name}>"


def time_of(second):
    return f"2013-05-24T00:{second // 60:02}:{second % 60:02}.000Z"


def quoted(text):
    return "".join(chr(b) if chr(b).isalnum() and b < 128 or chr(b) in "-._~" else f"%{b:02X}" for b in text.encode())


class Upload:
    """An upload that is open: its key, the second of its start, and by number the ETag, the size and the second of each part."""

    def __init__(self, key, started):
        self.key = key
        self.started = started
        self.parts = {}


class Service:
    """The uploads of each bucket by their ids, and of each bucket that was dropped how many files stay beside it."""

    def __init__(self):
        self.buckets = {}
        self.left = {}
        # The first operation of a run settles the store.
        self.calls = 2

    def begin(self, bucket, key, second, turn):
        """The id is the second word of chance of the request, which nobody had."""
        self.calls += 3
        number = f"{2 * turn + 2:032x}"
        self.buckets[bucket][number] = Upload(key, second)
        body = element("Bucket", bucket) + element("Key", escaped(key)) + element("UploadId", number)
        return "200", document("InitiateMultipartUploadResult", body)

    def create(self, bucket):
        """Both containers beside it are made, listed and emptied."""
        self.calls += 1
        if bucket in self.buckets:
            return "409 BucketAlreadyOwnedByYou", None
        self.calls += 5 + sum(self.left.pop(bucket, (0, 0)))
        self.buckets[bucket] = {}
        return "200", None

    def drop(self, bucket):
        """Its records and segments stay beside it."""
        self.calls += 1
        if bucket not in self.buckets:
            return "404 NoSuchBucket", None
        uploads = self.buckets.pop(bucket)
        self.left[bucket] = (len(uploads), sum(len(upload.parts) for upload in uploads.values()))
        return "204", None

    def find(self, bucket, key, number):
        """The upload of that id and key. One of another form makes no call."""
        if len(number) == 32 and all(c in "0123456789abcdef" for c in number):
            self.calls += 1
        upload = self.buckets[bucket].get(number)
        return upload if upload and upload.key == key else None

    def answer(self, asked, bucket, key, second, turn):
        """The status and the code or ETag of a request, and the body that is told whole."""
        if asked.act == "BUCKET":
            return self.create(bucket)
        if asked.act == "DROP":
            return self.drop(bucket)
        self.calls += 1
        if bucket not in self.buckets:
            return "404 NoSuchBucket", None
        if asked.act == "BEGIN":
            return self.begin(bucket, key, second, turn)
        if asked.act == "UPLOADS":
            return self.uploads(asked, bucket)
        upload = self.find(bucket, key, asked.number)
        if not upload:
            return "404 NoSuchUpload", None
        return self.on_upload(asked, bucket, upload, second)

    def on_upload(self, asked, bucket, upload, second):
        # No page is asked for behind the greatest number.
        self.calls += 0 if asked.act == "PARTS" and (asked.part_marker or 0) >= 10000 else 1
        if asked.act == "PART":
            etag = hashlib.md5(asked.body.encode()).hexdigest()
            upload.parts[asked.part] = (etag, len(asked.body), second)
            return f'200 "{etag}"', None
        if asked.act == "ABORT":
            self.calls += 1 + len(upload.parts)
            del self.buckets[bucket][asked.number]
            return "204", None
        return "200", listed_parts(asked, bucket, upload)

    def uploads(self, asked, bucket):
        self.calls += 1 + len(self.buckets[bucket])
        found = sorted(self.buckets[bucket].items(), key=lambda item: (item[1].key.encode(), item[0].encode()))
        after = [(number, upload) for number, upload in found if upload.key.startswith(asked.prefix) and asked.is_after(upload.key, number)]
        items, more = after[: asked.most or 1000], asked.most is not None and len(after) > asked.most
        parts = [element("Bucket", bucket), element("Prefix", escaped(asked.prefix)), element("KeyMarker", escaped(asked.key_marker or ""))]
        parts.append(element("UploadIdMarker", asked.id_marker or ""))
        if more:
            number, upload = items[-1]
            parts += [element("NextKeyMarker", escaped(upload.key)), element("NextUploadIdMarker", number)]
        parts += [element("MaxUploads", str(asked.most or 1000)), element("IsTruncated", "true" if more else "false")]
        for number, upload in items:
            text = element("Key", escaped(upload.key)) + element("UploadId", number) + PEOPLE + element("Initiated", time_of(upload.started))
            parts.append(element("Upload", text))
        return "200", document("ListMultipartUploadsResult", "".join(parts))


def listed_parts(asked, bucket, upload):
    above = [item for item in sorted(upload.parts.items()) if item[0] > (asked.part_marker or 0)]
    items, more = above[: asked.most or 1000], asked.most is not None and len(above) > asked.most
    parts = [element("Bucket", bucket), element("Key", escaped(upload.key)), element("UploadId", asked.number), PEOPLE]
    parts.append(element("PartNumberMarker", str(asked.part_marker or 0)))
    if more:
        parts.append(element("NextPartNumberMarker", str(items[-1][0])))
    parts += [element("MaxParts", str(asked.most or 1000)), element("IsTruncated", "true" if more else "false")]
    for number, (etag, size, second) in items:
        text = element("PartNumber", str(number)) + element("LastModified", time_of(second)) + element("ETag", f"&quot;{etag}&quot;")
        parts.append(element("Part", text + element("Size", str(size))))
    return document("ListPartsResult", "".join(parts))


def document(root, body):
    return f'<{root} xmlns="http://s3.amazonaws.com/doc/2006-03-01/">{body}</{root}>'


class Asked:
    """What a request asks for, but for its bucket and its key."""

    def __init__(self, chance, numbers, turn):
        self.act = chance.choice(ACTS) if 2 <= turn else "BUCKET"
        others = ["0" * 32, "f" * 32, "A", ""]
        self.number = chance.choice(numbers) if numbers and chance.random() < 0.9 else chance.choice(others)
        self.part = chance.choice([1, 2, 3, 4, 5, 10000])
        self.body = ".".join(str(number) for number in range(chance.randrange(20)))
        self.most = chance.choice([None, 1, 1, 2, 3, 1000])
        self.part_marker = chance.choice([None, None, 0, 1, 2, 4, 10000])
        self.prefix = chance.choice(PREFIXES)
        self.key_marker = chance.choice([None, None, None, "k", "a b/ü%", "k/", "x&y"])
        self.id_marker = chance.choice([None, None, "0", "g", *(numbers[-3:] or [None])])

    def is_after(self, key, number):
        """Whether an upload stands behind the markers. That of an id counts behind that of a key alone."""
        if not self.key_marker:
            return True
        marker = self.key_marker.encode()
        return key.encode() > marker or (key.encode() == marker and bool(self.id_marker) and number > self.id_marker)

    def query(self):
        """What stands behind the place."""
        pairs = {"BEGIN": ["uploads"], "UPLOADS": ["uploads"], "PART": [f"partNumber={self.part}"]}.get(self.act, [])
        if self.act in ("PART", "PARTS", "ABORT"):
            pairs.append(f"uploadId={self.number}")
        if self.act == "UPLOADS":
            pairs += [f"prefix={quoted(self.prefix)}"] if self.prefix else []
            pairs += [f"key-marker={quoted(self.key_marker)}"] if self.key_marker is not None else []
            pairs += [f"upload-id-marker={self.id_marker}"] if self.id_marker is not None else []
            pairs += [f"max-uploads={self.most}"] if self.most else []
        if self.act == "PARTS":
            pairs += [f"max-parts={self.most}"] if self.most else []
            pairs += [f"part-number-marker={self.part_marker}"] if self.part_marker is not None else []
        return "?" + "&".join(pairs) if pairs else ""

    def lines(self, bucket, path, turn):
        """The lines that give the request, made so many seconds after the midnight of 24 May 2013."""
        method = {"BUCKET": "PUT", "BEGIN": "POST", "PART": "PUT", "ABORT": "DELETE", "DROP": "DELETE"}.get(self.act, "GET")
        place = f"/{bucket}" if self.act in ("BUCKET", "DROP", "UPLOADS") else f"/{bucket}/{path}"
        lines = [f"> {method} {place}{self.query()} HTTP/1.1", f">~ 20130524T{turn // 3600:02}{turn // 60 % 60:02}{turn % 60:02}Z"]
        body = self.body if self.act == "PART" else ""
        return lines + ([f"> Content-Length: {len(body)}"] if method == "PUT" else []) + [">"] + ([f">. {body}"] if body else [])


def whole(status, body, turn):
    """The lines of a reply that is told whole."""
    text = '<?xml version="1.0" encoding="UTF-8"?>'
    size = len(f"{text}\n{body}".encode())
    return [
        "= < HTTP/1.1 200 OK",
        f"= < Date: Fri, 24 May 2013 00:{turn // 60:02}:{turn % 60:02} GMT",
        f"= < x-amz-request-id: {2 * turn + 1:032x}",
        "= < Content-Type: application/xml",
        f"= < Content-Length: {size}",
        "= <",
        f"= <n {text}",
        f"= <. {body}",
    ]


def left(service):
    """What is left on the store, as it is told."""
    lines = {"+gateway": ("None", 0)}
    for bucket, uploads in service.buckets.items():
        service.left[bucket] = (len(uploads), sum(len(upload.parts) for upload in uploads.values()))
        lines[bucket] = (f"Some({service.made[bucket]})", 0)
    for bucket, (records, segments) in service.left.items():
        lines[f"{bucket}+uploads"] = ("None", records)
        lines[f"{bucket}+segments"] = ("None", segments)
    names = ", ".join(f'"{name}"' for name in sorted(lines))
    told = [f"= left [{names}]"]
    for _, (created, objects) in sorted(lines.items()):
        told += [f"= Readers {{ readers: Nobody, created: {created} }}", f"= objects {objects}"]
    return told


def likely(chance, service, asked, bucket, key, path):
    """Most often the bucket and the key are those of the upload that is asked for."""
    for name, uploads in service.buckets.items():
        if asked.number in uploads and chance.random() < 0.9:
            return (name, *next(pair for pair in KEYS if pair[0] == uploads[asked.number].key))
    return bucket, key, path


def case(chance, name):
    service = Service()
    service.made = {}
    given, wanted, etags, wholes, numbers = [], [], [], [], []
    for turn in range(REQUESTS):
        asked = Asked(chance, numbers[-6:], turn)
        bucket, (key, path) = BUCKETS[turn] if turn < 2 else chance.choice(BUCKETS), chance.choice(KEYS)
        bucket, key, path = likely(chance, service, asked, bucket, key, path)
        given += asked.lines(bucket, path, turn)
        reply, body = service.answer(asked, bucket, key, turn, turn)
        if reply == "200" and asked.act == "BUCKET":
            service.made[bucket] = MOMENT + turn
        if reply == "200" and asked.act == "BEGIN":
            numbers.append(f"{2 * turn + 2:032x}")
        if reply.endswith('"'):
            etags.append(str(turn + 1))
        if body:
            wholes.append(str(turn + 1))
            wanted += [f"= piece 1 {service.calls}", *whole(reply, body, turn)]
        else:
            wanted.append(f"= piece 1 {service.calls} {reply}")
    clock = " ".join(str(MOMENT + turn) for turn in range(REQUESTS))
    told = ["brief", f"whole {' '.join(wholes)}", f"etags {' '.join(etags)}", "tell left"]
    return [f"case {name}", "pieces 1000", f"clock {clock}", *told, "connection", *given, "= status 0", *wanted, *left(service)]


def main():
    chance = random.Random(1)
    lines = ["# Uploads in parts by chance: written by bench/upload-cases.py, which says where the replies come from.", ""]
    for number in range(1, CASES + 1):
        lines += [*case(chance, f"uploads by chance, {number}"), ""]
    print("\n".join(load_signing().signed(lines[:-1])))


main()
