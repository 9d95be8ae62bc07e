"""Bodies in chunks, as clients have sent them since 2025: the three forms with their signatures and trailers, written and signed here.

By Amazon S3 API Reference, "Signature calculations for the Authorization header: transferring a payload in multiple chunks (chunked
upload)" and the same "including trailing headers"; the checksums by Amazon S3 User Guide, "Checking object integrity". The head is
signed by examples/sign.py. Only Python's own libraries are used.
"""
import base64
import hashlib
import hmac
import random
import re
import zlib

UNSIGNED = "STREAMING-UNSIGNED-PAYLOAD-TRAILER"
SIGNED = "STREAMING-AWS4-HMAC-SHA256-PAYLOAD"
SIGNED_TRAILER = "STREAMING-AWS4-HMAC-SHA256-PAYLOAD-TRAILER"
FORMS = (UNSIGNED, SIGNED, SIGNED_TRAILER)
NOTHING = hashlib.sha256(b"").hexdigest()


def reflected_crc(width, polynomial):
    """The CRC of so many bits with that polynomial, its bits in turn, all ones before and behind."""
    table, ones = [], (1 << width) - 1
    for byte in range(256):
        for _ in range(8):
            byte = byte >> 1 ^ (polynomial if byte & 1 else 0)
        table.append(byte)

    def crc(data):
        left = ones
        for byte in data:
            left = left >> 8 ^ table[(left ^ byte) & 255]
        return (left ^ ones).to_bytes(width // 8, "big")

    return crc


CHECKSUMS = {
    "crc32": lambda data: zlib.crc32(data).to_bytes(4, "big"),
    "crc32c": reflected_crc(32, 0x82F63B78),
    "crc64nvme": reflected_crc(64, 0x9A6C9329AC4BC9B5),
    "sha1": lambda data: hashlib.sha1(data).digest(),
    "sha256": lambda data: hashlib.sha256(data).digest(),
}
# The published check values, and that of CRC-64/NVME.
assert [CHECKSUMS[name](b"123456789").hex() for name in ("crc32", "crc32c", "crc64nvme")] == ["cbf43926", "e3069283", "ae8b14860a799888"]


def checksum(name, data):
    """The header or the trailer of that checksum of these bytes."""
    return f"x-amz-checksum-{name}", base64.b64encode(CHECKSUMS[name](data)).decode()


def cut(data, sizes):
    """The data in pieces of these sizes, of which the last is repeated to the end. No piece is empty."""
    sizes, pieces, at = list(sizes), [], 0
    while at < len(data):
        size = sizes.pop(0) if len(sizes) > 1 else sizes[0]
        pieces.append(data[at : at + size])
        at += size
    return pieces


def cut_by_chance(data, seed, most=70_000):
    chance = random.Random(seed)
    pieces, at = [], 0
    while at < len(data):
        size = chance.randrange(1, most)
        pieces.append(data[at : at + size])
        at += size
    return pieces


class Chunks:
    """A request whose body comes in chunks: `head`, and the pieces of `body`, each with the name of what it is."""

    def __init__(self, sign, method, target, form, chunks, now, trailers=(), headers=(), announced=None, named=None, owner=True, digits="%x"):
        self.sign, self.form, self.now = sign, form, now
        self.key, self.secret = sign.first_key()
        size = sum(map(len, chunks))
        lines = [f"{method} {target} HTTP/1.1", "Content-Encoding: aws-chunked", *(f"{name}: {value}" for name, value in headers)]
        if announced != "":
            lines.append(f"x-amz-decoded-content-length: {size if announced is None else announced}")
        names = [name for name, _ in trailers] if named is None else named
        if names:
            lines.append(f"x-amz-trailer: {','.join(names)}")
        self.lines = lines
        if owner:
            signed = sign.signed("\r\n".join(lines), self.key, self.secret, now, form)
            self.signature = re.search(r"Signature=([0-9a-f]{64})", signed)[1]
        else:
            signed = "\r\n".join([*lines, "Host: localhost", f"x-amz-content-sha256: {form}"])
            self.signature = "0" * 64
        self.signed = signed
        self.body = self.pieces(chunks, trailers, digits)

    def scope(self):
        return f"{self.now:%Y%m%d}/{self.sign.REGION}/s3/aws4_request"

    def seal(self, kind, *texts):
        """The next signature, over the one before and these texts."""
        text = "\n".join([f"AWS4-HMAC-SHA256-{kind}", f"{self.now:%Y%m%dT%H%M%SZ}", self.scope(), self.signature, *texts])
        key = ("AWS4" + self.secret).encode()
        for word in self.scope().split("/"):
            key = hmac.digest(key, word.encode(), "sha256")
        self.signature = hmac.digest(key, text.encode(), "sha256").hex()
        return self.signature.encode()

    def chunk(self, data, digits):
        head = [("length", (digits % len(data)).encode())]
        if self.form != UNSIGNED:
            head += [("word", b";chunk-signature="), ("signature", self.seal("PAYLOAD", NOTHING, hashlib.sha256(data).hexdigest()))]
        return head + [("line end", b"\r\n")]

    def pieces(self, chunks, trailers, digits):
        pieces = []
        for data in chunks:
            pieces += self.chunk(data, digits) + [("data", data), ("line end", b"\r\n")]
        pieces += self.chunk(b"", digits)
        for name, value in trailers:
            pieces += [("name", name.encode()), ("colon", b":"), ("value", value.encode()), ("line end", b"\r\n")]
        if self.form == SIGNED_TRAILER:
            lines = "".join(f"{name.lower()}:{value.strip()}\n" for name, value in trailers)
            pieces += [("seal's name", b"x-amz-trailer-signature:"), ("seal", self.seal("TRAILER", hashlib.sha256(lines.encode()).hexdigest())), ("line end", b"\r\n")]
        return pieces + [("end", b"\r\n")]

    def joined(self):
        return b"".join(piece for _, piece in self.body)

    def head(self, length=None):
        return f"{self.signed}\r\nContent-Length: {len(self.joined()) if length is None else length}\r\n\r\n".encode()

    def text(self, body=None):
        """The whole request, with that body in place of its own."""
        body = self.joined() if body is None else body
        return self.head(len(body)) + body

    def changed(self, kind, which, change):
        """The same with one piece of that kind changed, by its number."""
        at = [place for place, (name, _) in enumerate(self.body) if name == kind][which]
        pieces = [piece for _, piece in self.body]
        pieces[at] = change(pieces[at])
        return self.text(b"".join(pieces))
