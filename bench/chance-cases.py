#!/usr/bin/env python3
"""Writes cases of requests by chance, over two buckets with three keys, with what each is to be answered.

    bench/chance-cases.py > crates/cases/data/chance.txt

The requests come from a generator with a fixed seed, and the replies from the small model below, which knows only what this
profile says of twelve operations: status, code or ETag, and how many calls of the store each makes (docs/PROFILE.md). Nothing is
taken from the program. The requests are signed as bench/sign-cases.py signs them, each for its own second, but for some of
those that read, which nobody signs.
"""
import hashlib
import random

from case_signing import load_signing

MOMENT = 1369353600
KEYS = [("k", "k"), ("a b/ü%", "a%20b/%C3%BC%25"), ("k/", "k/")]
CASES = 4
REQUESTS = 100


# What is asked of a bucket, and of an object: method, and what stands behind the place.
OF_BUCKETS = {
    "CREATE": ("PUT", ""),
    "DROP": ("DELETE", ""),
    "LOOK": ("HEAD", ""),
    "WHERE": ("GET", "?location"),
    "LIST OF": ("GET", "?acl"),
    "SET": ("PUT", "?acl"),
}
OF_OBJECTS = {"PUT": ("PUT", ""), "GET": ("GET", ""), "HEAD": ("HEAD", ""), "DELETE": ("DELETE", ""), "LIST OF KEY": ("GET", "?acl")}


class Bucket:
    """The moment of its making, whether everybody may read it, and by key the MD5s and the sizes of its objects."""

    def __init__(self, made, is_open):
        self.made = made
        self.is_open = is_open
        self.objects = {}


class Service:
    """The buckets by name, and the names of all that were ever made, beside which two containers stay."""

    def __init__(self):
        self.buckets = {}
        self.made = set()
        # The first operation of a run settles the store: the gateway's container is made, and a sealed completion looked for.
        self.calls = 2

    def answer(self, act, bucket, key, body, moment, acl, is_signed):
        """The status and the code or ETag of a request."""
        self.calls += 1
        if act == "LIST":
            self.calls += len(self.buckets)
            return "200"
        if act == "CREATE":
            return self.create(bucket, moment, acl)
        if bucket not in self.buckets:
            return "404" if act in ("HEAD", "LOOK") else "404 NoSuchBucket"
        found = self.buckets[bucket]
        if not is_signed and not found.is_open:
            return "403" if act in ("HEAD", "LOOK") else "403 AccessDenied"
        if act == "DROP":
            return self.drop(bucket)
        if act == "SET":
            found.is_open = acl == "public-read"
        if act in OF_BUCKETS:
            return "200"
        return self.answer_object(found, act, key, body, acl)

    def create(self, bucket, moment, acl):
        if bucket in self.buckets:
            return "409 BucketAlreadyOwnedByYou"
        # Both containers beside it are made, and listed to find them empty; then the bucket is made.
        self.calls += 5
        self.buckets[bucket] = Bucket(moment, acl == "public-read")
        self.made.add(bucket)
        return "200"

    def drop(self, bucket):
        if self.buckets[bucket].objects:
            return "409 BucketNotEmpty"
        del self.buckets[bucket]
        return "204"

    def answer_object(self, found, act, key, body, acl):
        objects = found.objects
        if act == "PUT" and acl and (acl == "public-read") != found.is_open:
            return "501 NotImplemented"
        self.calls += 1
        if act == "PUT":
            objects[key] = hashlib.md5(body.encode()).hexdigest(), len(body)
            return f'200 "{objects[key][0]}"'
        if act == "DELETE":
            objects.pop(key, None)
            return "204"
        if key not in objects:
            return "404" if act == "HEAD" else "404 NoSuchKey"
        return "200" if act == "LIST OF KEY" else f'200 "{objects[key][0]}"'

    def size_read(self, act, bucket, key, reply):
        """How many bytes of an object follow the head of a reply, which are got by one call."""
        size = self.buckets[bucket].objects[key][1] if act == "GET" and reply.startswith("200") else 0
        self.calls += bool(size)
        return size


def target_of(act, bucket, path):
    """The method and the target of a request."""
    if act == "LIST":
        return "GET", "/"
    if act in OF_BUCKETS:
        method, behind = OF_BUCKETS[act]
        return method, f"/{bucket}{behind}"
    method, behind = OF_OBJECTS[act]
    return method, f"/{bucket}/{path}{behind}"


def request_lines(act, bucket, path, body, turn, acl, is_signed):
    """The lines that give a request, made so many seconds after the midnight of 24 May 2013."""
    method, target = target_of(act, bucket, path)
    lines = [f"> {method} {target} HTTP/1.1"]
    if is_signed:
        lines += [f">~ 20130524T{turn // 3600:02}{turn // 60 % 60:02}{turn % 60:02}Z"]
    if acl:
        lines += [f"> X-Amz-Acl: {acl}"]
    if act == "PUT":
        lines += ["> Content-Type: text/plain", f"> X-Amz-Meta-Count: {body.count('.')}", f"> Content-Length: {len(body)}", ">"]
        return lines + ([f">. {body}"] if body else [])
    return lines + (["> Content-Length: 0"] if method == "PUT" else []) + [">"]


def choices(chance):
    """An act, the access control list that it names, and whether it is signed."""
    often = ["CREATE", "CREATE", "CREATE", "PUT", "PUT", "PUT", "PUT", "GET", "GET", "GET", "HEAD", "HEAD", "DELETE", "DELETE"]
    act = chance.choice(often + ["DROP", "LOOK", "WHERE", "LIST OF", "SET", "LIST OF KEY", "LIST"])
    acl = chance.choice(["private", "public-read"]) if act == "SET" else None
    if act in ("CREATE", "PUT"):
        acl = chance.choice([None, None, "private", "public-read"])
    is_signed = act not in ("GET", "HEAD", "LOOK") or chance.randrange(3) > 0
    return act, acl, is_signed


def case(chance, name):
    service = Service()
    given = []
    replies = []
    wanted = []
    for turn in range(REQUESTS):
        act, acl, is_signed = choices(chance)
        bucket = chance.choice(["music", "photos", "photos", "photos"])
        key, path = chance.choice(KEYS)
        body = ".".join(str(number) for number in range(chance.randrange(40)))
        given += request_lines(act, bucket, path, body, turn, acl, is_signed)
        reply = service.answer(act, bucket, key, body, MOMENT + turn, acl, is_signed)
        replies.append(reply)
        wanted.append(f"= piece 1 {service.calls} {reply}")
        size = service.size_read(act, bucket, key, reply)
        wanted += [f"= piece 1 {service.calls} bytes {size}"] if size else []
    clock = " ".join(str(MOMENT + turn) for turn in range(REQUESTS))
    etags = " ".join(str(turn) for turn, reply in enumerate(replies, 1) if reply.endswith('"'))
    told = ["brief", f"etags {etags}", "tell left"]
    return [f"case {name}", "pieces 1000", f"clock {clock}", *told, "connection", *given, "= status 0", *wanted, *left(service)]


def left(service):
    """What is left on the store, as it is told."""
    beside = [name + behind for name in service.made for behind in ("+segments", "+uploads")]
    containers = sorted(["+gateway", *beside, *service.buckets])
    names = ", ".join(f'"{name}"' for name in containers)
    lines = [f"= left [{names}]"]
    for name in containers:
        bucket = service.buckets.get(name)
        readers = "Everybody" if bucket and bucket.is_open else "Nobody"
        created = f"Some({bucket.made})" if bucket else "None"
        lines += [f"= Readers {{ readers: {readers}, created: {created} }}", f"= objects {len(bucket.objects) if bucket else 0}"]
    return lines


def main():
    chance = random.Random(1)
    lines = ["# Requests by chance: written by bench/chance-cases.py, which says where the replies come from.", ""]
    for number in range(1, CASES + 1):
        lines += [*case(chance, f"requests by chance, {number}"), ""]
    print("\n".join(load_signing().signed(lines)), end="")


main()
