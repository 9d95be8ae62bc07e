#!/usr/bin/env python3
"""Turns a bit at random places of the files that swiftd keeps, and looks what a start and the reads behind it make of it.

    bench/damage-swiftd.py SWIFTD [TURNS [SEED]]

A store of objects of all sizes is made and killed by signal 9, so that its last writes stand in the log. In each turn, 1000 of them unless
told otherwise, all files are copied, one bit of the tables, the log or a larger body is turned, and swiftd is started over the copy. It may
refuse it, by name; or it serves, and then each object is what was put, or 503. What is neither, or gone without a word, is wrong. Status 0:
nothing is. Only Python's own libraries are used.
"""
import collections
import contextlib
import http.client
import os
import random
import shutil
import signal
import socket
import subprocess
import sys
import tempfile
import time

TOKEN, PATIENCE = {"X-Auth-Token": "t"}, 120
SIZES = [0, 1, 100, 256, 257, 1000, 5000, 65536, 65537, 200000]


class Store:
    def __init__(self, swiftd, file):
        with socket.create_server(("127.0.0.1", 0)) as it:
            self.place = it.getsockname()
        words = [swiftd, "--token", "t", "--account", "a", "--connections", "1000000000", "--file", file]
        self.report = open(file + ".said", "w+b")
        self.process = subprocess.Popen(words, env={"SWIFTD_LISTEN": "%s:%d" % self.place, "SWIFTD_LOG": "off"}, stdout=subprocess.DEVNULL, stderr=self.report)
        end = time.monotonic() + PATIENCE
        self.listens = False
        while self.process.poll() is None and time.monotonic() < end and not self.listens:
            with contextlib.suppress(ConnectionRefusedError), socket.create_connection(self.place):
                self.listens = True
            time.sleep(0.002)
        self.line = None

    def ask(self, method, target, body=None, headers=()):
        for _ in range(2):
            self.line = self.line or http.client.HTTPConnection("%s:%d" % self.place, timeout=60)
            try:
                self.line.request(method, target, body, {**TOKEN, **({"Content-Type": "t"} if body is not None else {}), **dict(headers)})
                reply = self.line.getresponse()
                it = reply.status, reply.read()
                if it[0] == 503:
                    self.line = None
                return it
            except (OSError, http.client.HTTPException):
                self.line = None
        return 0, b""

    def end(self):
        with contextlib.suppress(ProcessLookupError):
            self.process.send_signal(signal.SIGKILL)
        status = self.process.wait()
        self.report.seek(0)
        said = self.report.read()
        self.report.close()
        return status, said


def main():
    if not 2 <= len(sys.argv) <= 4:
        sys.exit(__doc__.strip())
    swiftd, turns = os.path.abspath(sys.argv[1]), int(sys.argv[2]) if len(sys.argv) > 2 else 1000
    chance, ends, wrong = random.Random(int(sys.argv[3]) if len(sys.argv) > 3 else 1), collections.Counter(), 0
    with tempfile.TemporaryDirectory() as folder:
        made, copy = os.path.join(folder, "made"), os.path.join(folder, "copy")
        os.mkdir(made)
        file, put, deleted = os.path.join(made, "store.db"), {}, set()
        store = Store(swiftd, file)
        store.ask("PUT", "/v1/a/b", b"", [("X-Container-Read", "")])
        # More than a thousand pages, so that some stand in the tables and the last in the log.
        for at in range(500):
            name, body = f"k{at % 150}", chance.randbytes(SIZES[at % len(SIZES)])
            if at % 11 == 10:
                if store.ask("DELETE", f"/v1/a/b/{name}")[0] == 204:
                    put.pop(name)
                    deleted.add(name)
            elif store.ask("PUT", f"/v1/a/b/{name}", body)[0] == 201:
                put[name] = body
                deleted.discard(name)
        status, said = store.end()
        if said:
            sys.exit(f"the store that was made said {said!r}")
        for turn in range(turns):
            shutil.rmtree(copy, ignore_errors=True)
            shutil.copytree(made, copy)
            held = os.path.join(copy, "store.db-bodies")
            kind = chance.choice(["tables", "log", "log", "body"])
            path = {"tables": os.path.join(copy, "store.db"), "log": os.path.join(copy, "store.db-wal"), "body": os.path.join(held, chance.choice(sorted(os.listdir(held))))}[kind]
            with open(path, "r+b") as it:
                text = it.read()
                # Behind its last frame a log has zeros, of which nothing is read.
                at, bit = chance.randrange(len(text.rstrip(b"\0")) if kind == "log" else len(text)), 1 << chance.randrange(8)
                it.seek(at)
                it.write(bytes([text[at] ^ bit]))
            store = Store(swiftd, os.path.join(copy, "store.db"))
            if not store.listens:
                status, said = store.end()
                named = status == 9 and said.startswith(b"swiftd: setup\n--file: ")
                ends[f"{kind}: " + (said.decode().split("--file: ")[-1].strip() if named else f"status {status}, {said!r}")] += 1
                wrong += not named
                continue
            reads, bad = collections.Counter(), []
            for name, body in put.items():
                answer = store.ask("GET", f"/v1/a/b/{name}")
                reads[answer[0]] += 1
                if answer != (200, body) and answer[0] != 503:
                    bad.append((name, answer[0], len(answer[1])))
            bad += [(name, "deleted") for name in deleted if store.ask("GET", f"/v1/a/b/{name}")[0] not in (404, 503)]
            status, said = store.end()
            if bad:
                wrong += 1
                print(f"turn {turn}: bit {bit} at {at} of {len(text)} bytes of {os.path.basename(path)}: {bad[:3]}, said {said!r}", flush=True)
            ends[f"{kind}: serves, " + (f"{reads[503]} unread" if reads[503] else "all read") + (f", and said {said!r}" if said else "")] += 1
    for it, count in sorted(ends.items()):
        print(f"{count:5} {it}")
    print(f"{turns} turns, {wrong} wrong")
    return 1 if wrong else 0


sys.exit(main())
