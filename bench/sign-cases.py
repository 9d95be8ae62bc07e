#!/usr/bin/env python3
"""Signs the requests of case files, each in its place.

    bench/sign-cases.py FILE..             writes what is missing or wrong
    bench/sign-cases.py --check FILE..     writes nothing; the status is 1 where a line is not what it would write

A line `>~`, right behind a request line `> METHOD TARGET VERSION`, stands for the four headers Host, X-Amz-Content-Sha256,
X-Amz-Date and Authorization of a request that the example key signs for region us-east-1 (see docs/TESTING.md). An author
writes `>~`, or `>~ TIME` where the request is of another time than 20130524T000000Z; this makes it `>~ TIME NAMES SIGNATURE`.
Signed are the host, localhost, the payload, UNSIGNED-PAYLOAD, the time, and each other header x-amz-* of the head (Amazon S3
API Reference, "Authenticating requests: using the Authorization header"). Only Python's own libraries are used.
"""
import hashlib
import hmac
import re
import sys
from urllib.parse import quote, unquote_to_bytes

SECRET = "wJalrXUtnFEMI/K7MDENG/bPxRfiCYEXAMPLEKEY"
REGION = "us-east-1"
TIME = "20130524T000000Z"


def canonical_query(query):
    """The query of a canonical request: its pairs escaped and in order."""
    pairs = [piece.partition("=") for piece in query.split("&") if piece]
    escaped = sorted((quote(unquote_to_bytes(name), safe=""), quote(unquote_to_bytes(value), safe="")) for name, _, value in pairs)
    return "&".join("=".join(pair) for pair in escaped)


def signature(request_line, fields, time):
    """The names of the headers that are signed, and the signature."""
    method, target, _ = request_line.split(" ")
    path, _, query = target.partition("?")
    headers = {"host": "localhost", "x-amz-content-sha256": "UNSIGNED-PAYLOAD", "x-amz-date": time}
    for name, _, value in fields:
        name = name.lower()
        if name.startswith("x-amz-") and name not in headers:
            headers[name] = value.strip()
    names = sorted(headers)
    canonical = [method, quote(unquote_to_bytes(path), safe="/"), canonical_query(query)]
    canonical += [f"{name}:{headers[name]}" for name in names] + ["", ";".join(names), "UNSIGNED-PAYLOAD"]
    scope = f"{time[:8]}/{REGION}/s3/aws4_request"
    text = "\n".join(["AWS4-HMAC-SHA256", time, scope, hashlib.sha256("\n".join(canonical).encode()).hexdigest()])
    signing = ("AWS4" + SECRET).encode()
    for word in scope.split("/"):
        signing = hmac.digest(signing, word.encode(), "sha256")
    return ";".join(names), hmac.digest(signing, text.encode(), "sha256").hex()


def unescaped(text):
    """The text with a byte for each `\\HH`."""
    return re.sub(r"\\([0-9a-fA-F]{2})", lambda found: chr(int(found[1], 16)), text)


def text_given(line):
    """The bytes that a line `>` gives, as text."""
    mark, _, text = line.partition(" ")
    if mark == ">":
        return text + "\r\n"
    if mark == ">n":
        return text + "\n"
    if mark == ">.":
        return text
    if mark == ">*":
        count, _, text = text.partition(" ")
        return unescaped(text) * int(count)
    if mark == ">x":
        return bytes.fromhex(text).decode("latin-1")
    return ""


def fields_below(lines, at):
    """The header fields of the head whose `>~` stands at that line: up to the first empty line, or the end of the bytes."""
    text = ""
    for line in lines[at + 1 :]:
        if line and not line.startswith((">", "#")):
            break
        if line.startswith(">~"):
            break
        if line.startswith(">"):
            text += text_given(line)
        if text.startswith("\r\n") or "\r\n\r\n" in text:
            break
    head = text.partition("\r\n\r\n")[0]
    return [line.partition(":") for line in head.split("\r\n") if ":" in line]


def signed(lines):
    """The lines with each `>~` whole."""
    made = list(lines)
    for at, line in enumerate(lines):
        if line.startswith(">~"):
            words = line.split(" ")
            time = words[1] if 1 < len(words) else TIME
            names, digits = signature(lines[at - 1].removeprefix("> "), fields_below(lines, at), time)
            made[at] = f">~ {time} {names} {digits}"
    return made


def main(words):
    check = "--check" in words
    files = [word for word in words if word != "--check"]
    if not files:
        sys.exit(__doc__)
    status = 0
    for name in files:
        with open(name, encoding="utf-8", newline="") as file:
            lines = file.read().split("\n")
        made = signed(lines)
        for number, (line, due) in enumerate(zip(lines, made), 1):
            if line != due and check:
                print(f"{name}:{number}: expected {due}")
                status = 1
        if made != lines and not check:
            with open(name, "w", encoding="utf-8", newline="") as file:
                file.write("\n".join(made))
    return status


if __name__ == "__main__":
    sys.exit(main(sys.argv[1:]))
