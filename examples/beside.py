#!/usr/bin/env python3
"""Shows each request of a file beside its reply: a line of a request begins with `>`, one of a reply with `<`.

    examples/beside.py REQUESTS.http REPLIES

The requests are shown as they stand in the file, without the headers that sign them. The replies come one behind the other, in the
order of the requests. What stands before the first of them, or is left behind the last, is shown as it is. Only Python's own
libraries are used.
"""
import re
import sys

sys.dont_write_bytecode = True
from sign import requests_of

# Replies that have no body, whatever their head says.
BODILESS = (b"1", b"204", b"304")


def taken(data, bodiless):
    """The first reply of the bytes, head and body, and the rest; an interim reply goes with the one behind it."""
    head, _, rest = data.partition(b"\r\n\r\n")
    status = head.split(b" ", 2)[1]
    if status.startswith(b"1"):
        reply, rest = taken(rest, bodiless)
        return head + b"\r\n\r\n" + reply, rest
    length = re.search(rb"^content-length: *(\d+)\r?$", head, re.I | re.M)
    size = 0 if bodiless or status.startswith(BODILESS) or not length else int(length[1])
    return head + b"\r\n\r\n" + rest[:size], rest[size:]


def show(mark, data):
    """The lines of a message, each behind the mark."""
    for line in data.rstrip(b"\r\n").split(b"\n"):
        print(mark, line.decode("utf-8", "backslashreplace").rstrip("\r"))


def main():
    if len(sys.argv) != 3:
        sys.exit("usage: beside.py REQUESTS.http REPLIES")
    with open(sys.argv[1], "rb") as file:
        requests = file.read()
    with open(sys.argv[2], "rb") as file:
        before, found, left = file.read().partition(b"HTTP/1.1 ")
    left = found + left
    sys.stdout.write(before.decode("utf-8", "backslashreplace"))
    for head, body in requests_of(requests):
        show(">", head.encode() + b"\r\n\r\n" + body)
        if left.startswith(b"HTTP/1.1 "):
            reply, left = taken(left, head.startswith("HEAD "))
            show("<", reply)
        else:
            print("no reply")
        print()
    sys.stdout.write(left.decode("utf-8", "backslashreplace"))


if __name__ == "__main__":
    main()
