#!/usr/bin/env python3
"""A second implementation of a trial: its requests, and the replies of a service whose store never fails.

    bench/trial.py NUMBER REQUESTS              prints the line that `s3gate trial` reports
    bench/trial.py NUMBER REQUESTS --input      writes the bytes of the requests
    bench/trial.py NUMBER REQUESTS --output     writes the bytes of the replies
    bench/trial.py --check                      tries the generator and the signatures on vectors published elsewhere

It knows what docs/PROFILE.md says of the requests, of the machine and of the bytes of its replies, PCG32 (XSH RR 64/32) with the way
in which a number becomes its seed, and Signature Version 4. Nothing is taken from the program.
"""
import hashlib
import hmac
import sys
from datetime import datetime, timezone

FIRST_MOMENT = 1369353600  # 24 May 2013, 00:00:00
REGION = "us-east-1"
KEY_ID = "TRIAL"
SECRET = "trial"
PART_ETAG = hashlib.md5(b"hello").hexdigest()
COMPLETION = (
    "<CompleteMultipartUpload><Part><PartNumber>1</PartNumber>"
    f'<ETag>"{PART_ETAG}"</ETag></Part></CompleteMultipartUpload>'
).encode()


# ---- words


class Pcg32:
    """PCG32, whose state is one word of 64 bits and whose increment is odd."""

    MULTIPLIER = 6364136223846793005
    MASK = 2**64 - 1

    def __init__(self, state, increment):
        self.increment = increment | 1
        self.state = (state + self.increment) & self.MASK
        self._step()

    @classmethod
    def of_number(cls, number):
        """The generator of a number: four words of another PCG32 with a fixed increment are its seed of 16 bytes."""
        seed, state = b"", number
        for _ in range(4):
            state = (state * cls.MULTIPLIER + 11634580027462260723) & cls.MASK
            seed += cls._output(state).to_bytes(4, "little")
        return cls(int.from_bytes(seed[:8], "little"), int.from_bytes(seed[8:], "little"))

    @staticmethod
    def _output(state):
        word = (((state >> 18) ^ state) >> 27) & 0xFFFFFFFF
        turn = state >> 59
        return (word >> turn | word << (32 - turn)) & 0xFFFFFFFF

    def _step(self):
        self.state = (self.state * self.MULTIPLIER + self.increment) & self.MASK

    def next(self):
        word = self._output(self.state)
        self._step()
        return word


# ---- requests


class Request:
    """A request but for its headers: what it asks for, of which bucket, key and upload, and its body."""

    def __init__(self, kind, method, bucket, key=None, query=(), body=b"", upload_id=None):
        self.kind, self.method, self.bucket, self.key = kind, method, bucket, key
        self.query, self.body, self.upload_id = query, body, upload_id

    @property
    def path(self):
        return f"/{self.bucket}" + (f"/{self.key}" if self.key is not None else "")

    def target(self):
        pairs = [name + ("=" + value if value else "") for name, value in self.query]
        return self.path + ("?" + "&".join(pairs) if pairs else "")


def hex32(number):
    return f"{number:032x}"


def request_without_upload(kind, index, bucket, key):
    if kind <= 1:
        return Request("create bucket", "PUT", bucket)
    if kind <= 3:
        return Request("put", "PUT", bucket, key, body=str(index).encode())
    if kind == 4:
        return Request("get", "GET", bucket, key)
    if kind == 5:
        return Request("delete", "DELETE", bucket, key)
    if kind == 6:
        return Request("list", "GET", bucket, query=[("list-type", "2"), ("max-keys", "2")])
    if kind == 7:
        return Request("delete bucket", "DELETE", bucket)
    return Request("create upload", "POST", bucket, key, query=[("uploads", "")])


def request_of_upload(kind, bucket, key, upload_id):
    named = ("uploadId", hex32(upload_id))
    if kind == 9:
        return Request("part", "PUT", bucket, key, [("partNumber", "1"), named], b"hello", upload_id)
    if kind == 10:
        return Request("complete", "POST", bucket, key, [named], COMPLETION, upload_id)
    return Request("abort", "DELETE", bucket, key, [named], b"", upload_id)


def requests_of(number, count):
    """The requests of a trial, in order."""
    words, latest = Pcg32.of_number(number), None
    for index in range(count):
        kind = words.next() % 12
        bucket = f"trial-{words.next() % 3}"
        key = f"k{words.next() % 8}"
        if kind == 8:
            latest = (bucket, key, draw_of(index))
        if kind <= 8:
            yield request_without_upload(kind, index, bucket, key)
        else:
            yield request_of_upload(kind, *(latest or (bucket, key, 0)))


def moment_of(index):
    return FIRST_MOMENT + index


def request_id_of(index):
    """Each request takes two draws, and the draws count up from 1: the first is its id."""
    return 2 * index + 1


def draw_of(index):
    return 2 * index + 2


# ---- signatures


def utc(moment):
    return datetime.fromtimestamp(moment, timezone.utc)


def digest(data):
    return hashlib.sha256(data).hexdigest()


def hmac_sha256(key, text):
    return hmac.new(key, text.encode(), hashlib.sha256).digest()


SIGNING_KEYS = {}


def signing_key(secret, date, region):
    """The key that signs what is of a day, a region and S3."""
    if (secret, date, region) not in SIGNING_KEYS:
        key = hmac_sha256(b"AWS4" + secret.encode(), date)
        for word in (region, "s3", "aws4_request"):
            key = hmac_sha256(key, word)
        SIGNING_KEYS[secret, date, region] = key
    return SIGNING_KEYS[secret, date, region]


def signature_of(method, path, query, headers, body_hash, secret, time, region):
    """The signature of a request, all of whose headers are signed; they stand in the order of their names."""
    canonical = "\n".join([
        method,
        path,
        "&".join(sorted(f"{name}={value}" for name, value in query)),
        *(f"{name}:{value}" for name, value in headers),
        "",
        ";".join(name for name, _ in headers),
        body_hash,
    ])
    scope = f"{time[:8]}/{region}/s3/aws4_request"
    text = "\n".join(["AWS4-HMAC-SHA256", time, scope, digest(canonical.encode())])
    return hmac_sha256(signing_key(secret, time[:8], region), text).hex()


def request_bytes(index, request):
    """The bytes of a request, signed at its own moment."""
    time = utc(moment_of(index)).strftime("%Y%m%dT%H%M%SZ")
    body_hash = digest(request.body)
    signed = [("host", "trial"), ("x-amz-content-sha256", body_hash), ("x-amz-date", time)]
    signature = signature_of(request.method, request.path, request.query, signed, body_hash, SECRET, time, REGION)
    names = ";".join(name for name, _ in signed)
    credential = f"{KEY_ID}/{time[:8]}/{REGION}/s3/aws4_request"
    lines = [f"{request.method} {request.target()} HTTP/1.1"]
    lines += [f"{name}: {value}" for name, value in signed]
    lines += [f"Content-Length: {len(request.body)}"]
    lines += [f"Authorization: AWS4-HMAC-SHA256 Credential={credential},SignedHeaders={names},Signature={signature}"]
    return "".join(line + "\r\n" for line in [*lines, ""]).encode() + request.body


# ---- the machine


class Refusal(Exception):
    """A code of S3, with its status and this profile's message."""

    def __init__(self, status, code, message):
        super().__init__(code)
        self.status, self.code, self.message = status, code, message


NO_BUCKET = ("404 Not Found", "NoSuchBucket", "The bucket does not exist.")
NO_KEY = ("404 Not Found", "NoSuchKey", "The key does not exist.")
NO_UPLOAD = ("404 Not Found", "NoSuchUpload", "The upload does not exist.")
NO_PART = ("400 Bad Request", "InvalidPart", "A part is missing or differs.")
IS_THERE = ("409 Conflict", "BucketAlreadyOwnedByYou", "You own this bucket already.")
IS_FILLED = ("409 Conflict", "BucketNotEmpty", "The bucket is not empty.")


class Object:
    def __init__(self, body, etag, moment):
        self.body, self.etag, self.moment = body, etag, moment


class Upload:
    """An upload: its key, whether its one part is there, and the ETag by which it was completed."""

    def __init__(self, key):
        self.key, self.has_part, self.completed = key, False, None


class Bucket:
    def __init__(self):
        self.objects, self.uploads = {}, {}

    def upload(self, request):
        """The upload of a request, open or completed."""
        upload = self.uploads.get(request.upload_id)
        if upload is None or upload.key != request.key:
            raise Refusal(*NO_UPLOAD)
        return upload

    def open_upload(self, request):
        upload = self.upload(request)
        if upload.completed is not None:
            raise Refusal(*NO_UPLOAD)
        return upload


class Reply:
    """A reply: its status, its own headers, its body, and whether the body is one of XML."""

    def __init__(self, status="200 OK", headers=(), body=b"", is_xml=False):
        self.status, self.headers, self.body, self.is_xml = status, headers, body, is_xml


GONE = Reply("204 No Content")


class Machine:
    """S3 as this profile has it, for what a trial asks: each method answers a request of its kind."""

    def __init__(self):
        self.buckets = {}

    def answer(self, index, request):
        try:
            if request.kind == "create bucket":
                return self.create_bucket(request)
            if request.bucket not in self.buckets:
                raise Refusal(*NO_BUCKET)
            bucket = self.buckets[request.bucket]
            return getattr(self, request.kind.replace(" ", "_"))(bucket, index, request)
        except Refusal as refusal:
            return refused(refusal, index, request)

    def create_bucket(self, request):
        if request.bucket in self.buckets:
            raise Refusal(*IS_THERE)
        self.buckets[request.bucket] = Bucket()
        return Reply(headers=[("Location", request.path)])

    def delete_bucket(self, bucket, _index, request):
        if bucket.objects:
            raise Refusal(*IS_FILLED)
        del self.buckets[request.bucket]
        return GONE

    def put(self, bucket, index, request):
        etag = hashlib.md5(request.body).hexdigest()
        bucket.objects[request.key] = Object(request.body, etag, moment_of(index))
        return stored(etag)

    def get(self, bucket, _index, request):
        found = bucket.objects.get(request.key)
        if found is None:
            raise Refusal(*NO_KEY)
        headers = [("Last-Modified", http_date(found.moment)), ("ETag", f'"{found.etag}"'), ("Accept-Ranges", "bytes")]
        return Reply(headers=[*headers, ("Content-Type", "binary/octet-stream")], body=found.body)

    def delete(self, bucket, _index, request):
        bucket.objects.pop(request.key, None)
        return GONE

    def list(self, bucket, _index, request):
        return xml("ListBucketResult", listing(request.bucket, bucket.objects, 2))

    def create_upload(self, bucket, index, request):
        bucket.uploads[draw_of(index)] = Upload(request.key)
        upload_id = ("UploadId", hex32(draw_of(index)))
        return xml("InitiateMultipartUploadResult", elements(("Bucket", request.bucket), ("Key", request.key), upload_id))

    def part(self, bucket, _index, request):
        bucket.open_upload(request).has_part = True
        return stored(PART_ETAG)

    def complete(self, bucket, index, request):
        upload = bucket.upload(request)
        if upload.completed is None:
            if not upload.has_part:
                raise Refusal(*NO_PART)
            upload.completed = hashlib.md5(bytes.fromhex(PART_ETAG)).hexdigest() + "-1"
            bucket.objects[request.key] = Object(b"hello", upload.completed, moment_of(index))
        named = [("Location", request.path), ("Bucket", request.bucket), ("Key", request.key)]
        return xml("CompleteMultipartUploadResult", elements(*named, ("ETag", quoted(upload.completed))))

    def abort(self, bucket, _index, request):
        bucket.open_upload(request)
        del bucket.uploads[request.upload_id]
        return GONE


# ---- the bytes of a reply


def http_date(moment):
    return utc(moment).strftime("%a, %d %b %Y %H:%M:%S GMT")


def quoted(etag):
    return f"&quot;{etag}&quot;"


def elements(*pairs):
    return "".join(f"<{name}>{text}</{name}>" for name, text in pairs)


def document(text):
    return ('<?xml version="1.0" encoding="UTF-8"?>\n' + text).encode()


def xml(root, text):
    body = document(f'<{root} xmlns="http://s3.amazonaws.com/doc/2006-03-01/">{text}</{root}>')
    return Reply(body=body, is_xml=True)


def stored(etag):
    return Reply(headers=[("ETag", f'"{etag}"')])


def refused(refusal, index, request):
    named = [("Code", refusal.code), ("Message", refusal.message), ("Resource", request.path)]
    text = elements(*named, ("RequestId", hex32(request_id_of(index))))
    return Reply(refusal.status, body=document(f"<Error>{text}</Error>"), is_xml=True)


def listing(bucket, objects, most):
    """The second version of a listing, without prefix, delimiter and marker."""
    keys = sorted(objects)
    taken, is_cut = keys[:most], most < len(keys)
    text = elements(("Name", bucket), ("Prefix", ""), ("KeyCount", len(taken)), ("MaxKeys", most))
    text += elements(("IsTruncated", "true" if is_cut else "false"))
    if is_cut:
        text += elements(("NextContinuationToken", taken[-1].encode().hex()))
    return text + elements(*(("Contents", contents(key, objects[key])) for key in taken))


def contents(key, found):
    time = utc(found.moment).strftime("%Y-%m-%dT%H:%M:%S.000Z")
    named = [("Key", key), ("LastModified", time), ("ETag", quoted(found.etag)), ("Size", len(found.body))]
    return elements(*named, ("StorageClass", "STANDARD"))


def reply_bytes(index, reply):
    headers = [("Date", http_date(moment_of(index))), ("x-amz-request-id", hex32(request_id_of(index))), *reply.headers]
    if reply.is_xml:
        headers.append(("Content-Type", "application/xml"))
    if reply is not GONE:
        headers.append(("Content-Length", len(reply.body)))
    lines = [f"HTTP/1.1 {reply.status}", *(f"{name}: {value}" for name, value in headers), ""]
    return "".join(line + "\r\n" for line in lines).encode() + reply.body


# ---- a trial


def replies_of(number, count):
    machine = Machine()
    for index, request in enumerate(requests_of(number, count)):
        yield reply_bytes(index, machine.answer(index, request))


def report(number, count):
    size, output = 0, hashlib.sha256()
    for reply in replies_of(number, count):
        size += len(reply)
        output.update(reply)
    return f"requests {count} output {size} {output.hexdigest()}"


def check():
    """The first words of the generator that PCG's own demonstration prints, and the signature of Amazon's example of a GET."""
    words = Pcg32(42, 54 << 1)
    shown = [0xA15C02B7, 0x7B47F409, 0xBA1D3330, 0x83D2F293, 0xBFA4784B, 0xCBED606E]
    empty = digest(b"")
    headers = [("host", "examplebucket.s3.amazonaws.com"), ("range", "bytes=0-9"), ("x-amz-content-sha256", empty), ("x-amz-date", "20130524T000000Z")]
    signature = signature_of("GET", "/test.txt", [], headers, empty, "wJalrXUtnFEMI/K7MDENG/bPxRfiCYEXAMPLEKEY", "20130524T000000Z", REGION)
    faults = []
    if [words.next() for _ in shown] != shown:
        faults.append("the generator's words aren't those of PCG's demonstration")
    if signature != "f0e8bdb87c964420e857bd35b5d6ed310bd44f0170aba48dd91039c6036bdb41":
        faults.append("the signature isn't that of Amazon's example")
    return faults


def main(words):
    if words == ["--check"]:
        faults = check()
        print("\n".join(faults) or "ok")
        return 1 if faults else 0
    if not (2 <= len(words) <= 3 and all(word.isdecimal() for word in words[:2]) and words[2:] in ([], ["--input"], ["--output"])):
        sys.exit(__doc__)
    number, count = int(words[0]), int(words[1])
    if words[2:] == ["--input"]:
        for index, request in enumerate(requests_of(number, count)):
            sys.stdout.buffer.write(request_bytes(index, request))
    elif words[2:] == ["--output"]:
        for reply in replies_of(number, count):
            sys.stdout.buffer.write(reply)
    else:
        print(report(number, count))
    return 0


if __name__ == "__main__":
    sys.exit(main(sys.argv[1:]))
