#!/usr/bin/env python3
"""Signs the requests of a file for this moment, with the first key of keys.txt, by Signature Version 4 of Amazon S3.

    examples/sign.py REQUESTS.http | S3GATE_KEYS=examples/keys.txt s3gate session

The file has requests of HTTP/1.1, one behind the other, with CR LF as the end of each line of a head. Each gets the headers
that sign its method, its target, its host and its headers x-amz-*, for any body. A request with an Authorization header is
left as it is. Only Python's own libraries are used.
"""
import datetime
import hashlib
import hmac
import os
import sys
from urllib.parse import quote, unquote

REGION = "us-east-1"


def requests_of(data):
    """Each request of the bytes: its head without the empty line, and its body."""
    while data:
        head, _, rest = data.partition(b"\r\n\r\n")
        size = 0
        for line in head.split(b"\r\n")[1:]:
            name, _, value = line.partition(b":")
            if name.lower() == b"content-length":
                size = int(value)
        yield head.decode(), rest[:size]
        data = rest[size:]


def canonical_query(query):
    """The query of a canonical request: its pairs escaped and in order."""
    pairs = [piece.partition("=") for piece in query.split("&") if piece]
    return "&".join("=".join(pair) for pair in sorted((quote(unquote(name), safe=""), quote(unquote(value), safe="")) for name, _, value in pairs))


def signed(head, key_id, secret, now, payload="UNSIGNED-PAYLOAD"):
    """The head with the headers that sign it, for any body or for the one with this hash."""
    lines = head.split("\r\n")
    method, target, _ = lines[0].split(" ")
    path, _, query = target.partition("?")
    time = now.strftime("%Y%m%dT%H%M%SZ")
    fields = [line.partition(":") for line in lines[1:]]
    if any(name.lower() == "authorization" for name, _, _ in fields):
        return head
    headers = {name.lower(): value.strip() for name, _, value in fields if name.lower() == "host" or name.lower().startswith("x-amz-")}
    added = {"x-amz-content-sha256": payload, "x-amz-date": time}
    if "host" not in headers:
        added["host"] = "localhost"
    headers.update(added)
    names = sorted(headers)
    canonical = [method, quote(unquote(path), safe="/"), canonical_query(query)]
    canonical += [f"{name}:{headers[name]}" for name in names] + ["", ";".join(names), payload]
    scope = f"{time[:8]}/{REGION}/s3/aws4_request"
    text = "\n".join(["AWS4-HMAC-SHA256", time, scope, hashlib.sha256("\n".join(canonical).encode()).hexdigest()])
    signing = ("AWS4" + secret).encode()
    for word in scope.split("/"):
        signing = hmac.digest(signing, word.encode(), "sha256")
    signature = hmac.digest(signing, text.encode(), "sha256").hex()
    added["Authorization"] = f"AWS4-HMAC-SHA256 Credential={key_id}/{scope},SignedHeaders={';'.join(names)},Signature={signature}"
    return "\r\n".join(lines + [f"{name}: {value}" for name, value in added.items()])


def first_key():
    """The id and the secret of the first line of keys.txt."""
    with open(os.path.join(os.path.dirname(os.path.abspath(__file__)), "keys.txt"), encoding="ascii") as keys:
        return keys.readline().split()


def main():
    if len(sys.argv) != 2:
        sys.exit("usage: sign.py REQUESTS.http")
    key_id, secret = first_key()
    now = datetime.datetime.now(datetime.timezone.utc)
    with open(sys.argv[1], "rb") as file:
        for head, body in requests_of(file.read()):
            sys.stdout.buffer.write(signed(head, key_id, secret, now).encode() + b"\r\n\r\n" + body)


if __name__ == "__main__":
    main()
