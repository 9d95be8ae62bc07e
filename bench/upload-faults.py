#!/usr/bin/env python3
"""Sends requests of uploads by chance to `s3gate serve` over a scripted store that loses calls, and says where a reply isn't one
that a small model of its own allows.

    bench/upload-faults.py S3GATE [REQUESTS [SEED]]

Two buckets, a few keys; uploads are begun, get parts, are listed, completed, completed again and aborted; objects are put, read,
copied and deleted, and parts are copied of them. In about every third request one call of the store is lost: its request, its answer, or all from it on until the request
ends. Then the reply is ServiceUnavailable, and the request is done or not; or it is the ordinary one, and the request is done. What
follows has to fit one of the two. The model knows only what docs/PROFILE.md says. It takes a minute for 10,000 requests.
"""
import copy
import hashlib
import importlib.util
import os
import random
import sys

HERE = os.path.dirname(os.path.abspath(__file__))


def load(name):
    spec = importlib.util.spec_from_file_location(name.replace("-", "_"), os.path.join(HERE, name + ".py"))
    module = importlib.util.module_from_spec(spec)
    sys.modules[spec.name] = module
    spec.loader.exec_module(module)
    return module


def md5(body):
    return hashlib.md5(body).hexdigest()


def joined_etag(bodies):
    return md5(b"".join(hashlib.md5(it).digest() for it in bodies)) + f"-{len(bodies)}"


class Bucket:
    def __init__(self):
        self.objects, self.uploads, self.kept = {}, {}, {}


class Service:
    """Buckets, each with its objects (ETag and bytes), its open uploads (key and parts) and its kept completions."""

    def __init__(self):
        self.buckets = {}

    def same(self, other):
        plain = lambda it: {name: (b.objects, b.uploads, b.kept) for name, b in it.buckets.items()}
        return plain(self) == plain(other)

    def answer(self, asked):
        """The reply to what is asked: a status, or status and code, and what is told; and the state changes."""
        act, name = asked["act"], asked["bucket"]
        if act == "MAKE":
            if name in self.buckets:
                return 409, "BucketAlreadyOwnedByYou"
            self.buckets[name] = Bucket()
            return (200,)
        bucket = self.buckets.get(name)
        if not bucket:
            return 404, "NoSuchBucket"
        if act == "DROP":
            if bucket.objects:
                return 409, "BucketNotEmpty"
            del self.buckets[name]
            return (204,)
        return getattr(self, act.lower())(bucket, asked)

    def put(self, bucket, asked):
        bucket.objects[asked["key"]] = (md5(asked["body"]), asked["body"])
        return 200, md5(asked["body"])

    def get(self, bucket, asked):
        found = bucket.objects.get(asked["key"])
        return (200, *found) if found else (404, "NoSuchKey")

    def delete(self, bucket, asked):
        bucket.objects.pop(asked["key"], None)
        return (204,)

    def source(self, asked):
        """The object that is copied: its ETag and its bytes; or the refusal."""
        bucket = self.buckets.get(asked["from_bucket"])
        if not bucket:
            return None, (404, "NoSuchBucket")
        return bucket.objects.get(asked["from_key"]), (404, "NoSuchKey")

    def copy(self, bucket, asked):
        found, refusal = self.source(asked)
        if not found:
            return refusal
        if not asked["replace"] and (asked["bucket"], asked["key"]) == (asked["from_bucket"], asked["from_key"]):
            return 400, "InvalidRequest"
        bucket.objects[asked["key"]] = found
        return 200, found[0]

    def copy_part(self, bucket, asked):
        upload = self.found(bucket, asked)
        if not upload:
            return 404, "NoSuchUpload"
        found, refusal = self.source(asked)
        if not found:
            return refusal
        first, last = asked["range"] or (0, len(found[1]) - 1)
        if asked["range"] and last >= len(found[1]):
            return 416, "InvalidRange"
        upload[1][asked["number"]] = found[1][first : last + 1]
        return 200, md5(upload[1][asked["number"]])

    def begin(self, bucket, asked):
        bucket.uploads[asked["new"]] = (asked["key"], {})
        return (200,)

    def found(self, bucket, asked):
        upload = bucket.uploads.get(asked["id"])
        return upload if upload and upload[0] == asked["key"] else None

    def part(self, bucket, asked):
        upload = self.found(bucket, asked)
        if not upload:
            return 404, "NoSuchUpload"
        upload[1][asked["number"]] = asked["body"]
        return 200, md5(asked["body"])

    def parts(self, bucket, asked):
        upload = self.found(bucket, asked)
        if not upload:
            return 404, "NoSuchUpload"
        return 200, [(number, md5(body), len(body)) for number, body in sorted(upload[1].items())]

    def uploads(self, bucket, asked):
        return 200, sorted((upload[0], id_) for id_, upload in bucket.uploads.items())

    def objects(self, bucket, asked):
        return 200, sorted((key, etag, len(body)) for key, (etag, body) in bucket.objects.items())

    def abort(self, bucket, asked):
        if not self.found(bucket, asked):
            return 404, "NoSuchUpload"
        del bucket.uploads[asked["id"]]
        return (204,)

    def complete(self, bucket, asked):
        kept = bucket.kept.get(asked["id"])
        if kept and kept[:2] == (asked["key"], asked["list"]):
            return 200, kept[2]
        upload = self.found(bucket, asked)
        if not upload:
            return 404, "NoSuchUpload"
        numbers = [number for number, _ in asked["list"]]
        if any(b <= a for a, b in zip(numbers, numbers[1:])):
            return 400, "InvalidPartOrder"
        if any(number not in upload[1] or md5(upload[1][number]) != etag for number, etag in asked["list"]):
            return 400, "InvalidPart"
        bodies = [upload[1][number] for number in numbers]
        if any(len(body) < LEAST for body in bodies[:-1]):
            return 400, "EntityTooSmall"
        etag = joined_etag(bodies)
        bucket.objects[asked["key"]] = (etag, b"".join(bodies))
        del bucket.uploads[asked["id"]]
        bucket.kept[asked["id"]] = (asked["key"], asked["list"], etag)
        return 200, etag


LEAST = 3
BUCKETS = ["music", "photos", "photos"]
KEYS = ["k", "a b", "x&y"]
ACTS = (
    ["MAKE"] * 3 + ["DROP"] * 2 + ["PUT"] * 5 + ["GET"] * 12 + ["DELETE"] * 4 + ["BEGIN"] * 10 + ["PART"] * 24 + ["PARTS"] * 8
    + ["UPLOADS"] * 6 + ["OBJECTS"] * 6 + ["ABORT"] * 4 + ["COMPLETE"] * 24 + ["COPY"] * 16 + ["COPY_PART"] * 10
)


class Chance:
    """Requests by chance, by what the service may have."""

    def __init__(self, seed):
        self.random = random.Random(seed)
        self.ids = []

    def body(self):
        return bytes(self.random.choice(b"ab") for _ in range(self.random.choice([0, 1, 2, 3, 4, 5, 9])))

    def request(self, service):
        pick = self.random.choice
        asked = {"act": pick(ACTS), "bucket": pick(BUCKETS), "key": pick(KEYS), "number": pick([1, 2, 3, 1000]), "body": self.body()}
        asked["id"] = pick(self.ids[-12:]) if self.ids else "0" * 32
        bucket = service.buckets.get(asked["bucket"])
        known = bucket and (bucket.uploads.get(asked["id"]) or bucket.kept.get(asked["id"]))
        if known and self.random.random() < 0.9:
            asked["key"] = known[0]
        asked["list"] = self.list_of(bucket, asked["id"])
        self.add_source(service, asked)
        return asked

    def add_source(self, service, asked):
        """Of what is copied: most often an object that is there, and all of it or a range."""
        pick, there = self.random.choice, [(name, key) for name, it in service.buckets.items() for key in it.objects]
        wanted = pick(there) if there and self.random.random() < 0.85 else (pick(BUCKETS), pick(KEYS))
        asked["from_bucket"], asked["from_key"] = wanted
        asked["replace"] = self.random.random() < 0.3
        first = self.random.choice([0, 0, 1, 2, 5])
        asked["range"] = (first, first + self.random.choice([0, 1, 2, 5])) if self.random.random() < 0.6 else None

    def list_of(self, bucket, id_):
        if bucket and id_ in bucket.kept and self.random.random() < 0.8:
            return bucket.kept[id_][1]
        parts = dict(bucket.uploads[id_][1]) if bucket and id_ in bucket.uploads else {}
        numbers = sorted(it for it in parts if self.random.random() < 0.8) or [1]
        if self.random.random() < 0.1:
            numbers.reverse()
        return [(number, md5(parts.get(number, b"")) if self.random.random() < 0.95 else md5(b"other")) for number in numbers]


def path_of(bucket, key):
    return f"/{bucket}/" + "".join(c if c.isalnum() else f"%{ord(c):02X}" for c in key)


def target(asked):
    place = f"/{asked['bucket']}"
    key = path_of(asked["bucket"], asked["key"]).removeprefix(place)
    source = [("x-amz-copy-source", path_of(asked["from_bucket"], asked["from_key"]))]
    replace = [("x-amz-metadata-directive", "REPLACE")] if asked["replace"] else []
    span = [("x-amz-copy-source-range", "bytes=%d-%d" % asked["range"])] if asked["range"] else []
    query = f"uploadId={asked['id']}"
    items = "".join(f"<Part><PartNumber>{n}</PartNumber><ETag>{e}</ETag></Part>" for n, e in asked["list"])
    return {
        "MAKE": ("PUT", place), "DROP": ("DELETE", place), "PUT": ("PUT", place + key, [], asked["body"]), "GET": ("GET", place + key),
        "DELETE": ("DELETE", place + key), "BEGIN": ("POST", f"{place}{key}?uploads"),
        "PART": ("PUT", f"{place}{key}?partNumber={asked['number']}&{query}", [], asked["body"]), "PARTS": ("GET", f"{place}{key}?{query}"),
        "UPLOADS": ("GET", f"{place}?uploads"), "OBJECTS": ("GET", f"{place}?list-type=2"), "ABORT": ("DELETE", f"{place}{key}?{query}"),
        "COPY": ("PUT", place + key, source + replace), "COPY_PART": ("PUT", f"{place}{key}?partNumber={asked['number']}&{query}", source + span),
        "COMPLETE": ("POST", f"{place}{key}?{query}", [], f"<CompleteMultipartUpload>{items}</CompleteMultipartUpload>".encode()),
    }[asked["act"]]


def told(box, asked, reply):
    """The reply as the model gives it, and the id of an upload that it begins."""
    code = box.brief(reply)
    if isinstance(code, tuple):
        return code, None
    act, plain = asked["act"], lambda text: text.replace("&amp;", "&")
    texts = lambda name: [plain(it).strip('"').replace("&quot;", "") for it in box.text_of(name, reply.body)]
    if act == "BEGIN":
        return (reply.status,), texts(b"UploadId")[0]
    if act in ("PUT", "PART"):
        return (reply.status, reply.headers["etag"].strip('"')), None
    if act == "GET":
        return (reply.status, reply.headers["etag"].strip('"'), reply.body), None
    if act in ("COMPLETE", "COPY", "COPY_PART"):
        return (reply.status, texts(b"ETag")[0]), None
    if act == "PARTS":
        return (reply.status, [(int(n), e, int(s)) for n, e, s in zip(texts(b"PartNumber"), texts(b"ETag"), texts(b"Size"))]), None
    if act == "UPLOADS":
        return (reply.status, sorted(zip(texts(b"Key"), texts(b"UploadId")))), None
    if act == "OBJECTS":
        return (reply.status, sorted((k, e, int(s)) for k, e, s in zip(texts(b"Key"), texts(b"ETag"), texts(b"Size")))), None
    return (reply.status,), None


def main():
    gate, requests, seed = (sys.argv[1:] + ["10000", "1"][len(sys.argv) - 2 :])[:3]
    requests, seed = int(requests), int(seed)
    box = load("black-box")
    box.S3GATE = os.path.abspath(gate)
    chance, differ, lost, cut, done, copied, unavailable = Chance(seed), 0, 0, 0, 0, 0, 0
    with box.Store() as store, box.Gate(store.text, words=("--least-part", str(LEAST))) as program, program.client() as client:
        may = [Service()]
        for turn in range(requests):
            asked = chance.request(may[0])
            fault = chance.random.random() < 0.33
            script = {}
            if fault:
                at, how = chance.random.randint(1, 16 if asked["act"] == "COPY" else 10), chance.random.choice(["request", "answer", "gone"])
                script = {at: box.lose_request if how != "answer" else box.lose_answer}
                if how == "gone":
                    script = {it: box.lose_request for it in range(at, at + 400)}
            store.begin(script)
            client.send(box.request(*target(asked)))
            try:
                reply = client.reply()
            except (AssertionError, ConnectionError):
                # A read whose bytes are lost behind its head ends the connection, and changes nothing.
                if asked["act"] != "GET" or not any(it <= len(store.calls) for it in script):
                    raise
                client, cut, lost = program.client(), cut + 1, lost + 1
                continue
            came, new = told(box, asked, reply)
            hit = any(it <= len(store.calls) for it in script)
            lost += hit
            asked["new"] = new or f"unknown-{turn}"
            if new:
                chance.ids.append(new)
            after = []
            for state in may:
                other = copy.deepcopy(state)
                due = other.answer(asked)
                if came == (503, "ServiceUnavailable"):
                    if hit:
                        after += [state, other]
                elif due == came:
                    after.append(other)
            unavailable += came == (503, "ServiceUnavailable")
            done += came[0] == 200 and asked["act"] == "COMPLETE"
            copied += came[0] == 200 and asked["act"] in ("COPY", "COPY_PART")
            if not after:
                differ += 1
                print(f"request {turn} {target(asked)[:2]} with {sorted(script)[:1]} lost: {came}, but {[copy.deepcopy(it).answer(asked) for it in may]}")
                return 1
            may = []
            for state in after:
                if not any(state.same(it) for it in may):
                    may.append(state)
            if len(may) > 1:
                may = [settled_by(box, store, client, may, asked, chance)]
                if may[0] is None:
                    print(f"request {turn} {target(asked)[:2]} with {sorted(script)[:1]} lost: {came}, and what is seen then fits neither")
                    return 1
    print(f"{requests} requests, {lost} of them with a lost call, {unavailable} ServiceUnavailable, {cut} reads cut short, {done} completions, {copied} copies: no difference")
    return 0


def settled_by(box, store, client, may, asked, chance):
    """Which of the states the service has, by listings without a fault."""
    store.begin({})
    probes = [{**asked, "act": it, "bucket": name} for name in set(BUCKETS) for it in ("OBJECTS", "UPLOADS")]
    for upload in [*chance.ids[-12:]]:
        probes.append({**asked, "act": "PARTS", "id": upload})
    for probe in probes:
        client.send(box.request(*target(probe)))
        came, _ = told(box, probe, client.reply())
        fits = []
        for state in may:
            other = copy.deepcopy(state)
            if probe["act"] == "UPLOADS" and came[0] == 200:
                learn(other, probe, came[1], chance)
            if other.answer(probe) == came:
                fits.append(other)
        may = fits
    return may[0] if may else None


def learn(state, probe, seen, chance):
    """The id of an upload whose beginning wasn't answered."""
    bucket = state.buckets.get(probe["bucket"])
    for id_ in [it for it in (bucket.uploads if bucket else {}) if it.startswith("unknown-")]:
        for key, found in seen:
            if key == bucket.uploads[id_][0] and found not in bucket.uploads:
                bucket.uploads[found] = bucket.uploads.pop(id_)
                chance.ids.append(found)
                break


if __name__ == "__main__":
    sys.exit(main())
