#!/usr/bin/env python3
"""Kills swiftd over a file, and s3gate, while clients write through them, and looks whether what was answered is there.

    bench/kill-swiftd.py S3GATE SWIFTD [TURNS [SEED]]

In each turn, 100 of them unless told otherwise, four clients put, overwrite and delete objects, some of them in parts, and ask nothing
twice. Then swiftd is killed by signal 9, or s3gate, or both, and started again. Each object that was written in the turn is read back,
and every tenth time all are, beside the listing: an object is what the last write that was answered left it, or what one left that was
cut off behind it, whole or not at all. Every tenth time too all files are copied while clients write and swiftd is held by SIGSTOP, as a
snapshot of a file system has them, and a second swiftd over the copy is asked the same. No start may say anything, and at the end each
larger body has its file, and no other file is there. At the end SQLite reads the tables: its own check, and of each row whether size and
hash are those of its body. Status 0: nothing is lost. Only Python's own libraries are used.
"""
import collections
import concurrent.futures
import contextlib
import datetime
import hashlib
import http.client
import importlib.util
import os
import random
import re
import shutil
import signal
import socket
import sqlite3
import subprocess
import sys
import tempfile
import threading
import time

sys.dont_write_bytecode = True
ROOT = os.path.dirname(os.path.dirname(os.path.abspath(__file__)))
spec = importlib.util.spec_from_file_location("sign", os.path.join(ROOT, "examples/sign.py"))
sign = importlib.util.module_from_spec(spec)
spec.loader.exec_module(sign)
KEYS, KEY = os.path.join(ROOT, "examples/keys.txt"), sign.first_key()
CLIENTS, NAMES = 4, 60
# What a name holds where it holds nothing.
GONE = None
# How many seconds a program may take to listen.
PATIENCE = 120


def free_place():
    with socket.create_server(("127.0.0.1", 0)) as it:
        return it.getsockname()


class Served:
    """A program that listens, which can be killed and started again at the same place."""

    def __init__(self, words, place, **variables):
        self.words, self.place, self.variables, self.process, self.waits, self.said = words, place, variables, None, [], b""
        self.start()

    def start(self):
        begun = time.monotonic()
        self.process = subprocess.Popen(self.words, env=self.variables, stdout=subprocess.DEVNULL, stderr=subprocess.PIPE)
        while True:
            with contextlib.suppress(ConnectionRefusedError), socket.create_connection(self.place):
                break
            if self.process.poll() is not None or time.monotonic() - begun > PATIENCE:
                sys.exit(f"{self.words[0]} doesn't listen: status {self.process.poll()}, {self.process.stderr.read()!r}")
            time.sleep(0.005)
        self.waits.append(time.monotonic() - begun)

    def kill(self):
        self.process.kill()
        self.process.wait()
        self.said += self.process.stderr.read()
        self.process.stderr.close()


class Client:
    """A client of S3 that asks nothing twice."""

    def __init__(self, place):
        self.host = "%s:%d" % place
        self.line = http.client.HTTPConnection(self.host, timeout=60)

    def ask(self, method, target, body=b""):
        """Status and body of the answer; a status of 0 where there is none."""
        head = f"{method} {target} HTTP/1.1\r\nhost: {self.host}"
        lines = sign.signed(head, *KEY, datetime.datetime.now(datetime.timezone.utc)).split("\r\n")[1:]
        headers = dict(line.split(": ", 1) for line in lines)
        try:
            self.line.request(method, target, body, {**headers, "Content-Length": str(len(body))})
            answer = self.line.getresponse()
            return answer.status, answer.read()
        except (OSError, http.client.HTTPException):
            self.line.close()
            return 0, b""

    def put(self, name, body, parts):
        """Whether the object was put, in so many parts, or by one request where there are none."""
        target = f"/box/{name}"
        if not parts:
            return self.ask("PUT", target, body)[0] == 200
        status, text = self.ask("POST", f"{target}?uploads=")
        if status != 200:
            return False
        upload, tags, size = re.search(rb"<UploadId>([^<]*)<", text)[1].decode(), [], len(body) // parts
        for at in range(parts):
            piece = body[at * size : None if at == parts - 1 else (at + 1) * size]
            if self.ask("PUT", f"{target}?partNumber={at + 1}&uploadId={upload}", piece)[0] != 200:
                return False
            tags.append(hashlib.md5(piece).hexdigest())
        listed = "".join(f"<Part><PartNumber>{at + 1}</PartNumber><ETag>&quot;{tag}&quot;</ETag></Part>" for at, tag in enumerate(tags))
        status, text = self.ask("POST", f"{target}?uploadId={upload}", f"<CompleteMultipartUpload>{listed}</CompleteMultipartUpload>".encode())
        return status == 200 and b"<CompleteMultipartUploadResult" in text


def hash_of(body):
    return hashlib.sha256(body).hexdigest()


class Model:
    """What each name may hold: one hash where its last write was answered, and more where one was not."""

    def __init__(self):
        self.may, self.lock, self.written, self.count = collections.defaultdict(lambda: {GONE}), threading.Lock(), set(), 0

    def begins(self, name, value):
        with self.lock:
            self.may[name] = self.may[name] | {value}
            self.written.add(name)

    def done(self, name, value):
        with self.lock:
            self.may[name] = {value}
            self.count += 1

    def copy(self):
        with self.lock:
            return dict(self.may)


def write(place, model, who, turn, stop):
    """A client's writes until the end of a turn. No other client writes its names."""
    chance, client = random.Random(f"{turn} {who}"), Client(place)
    while not stop.is_set():
        name = f"c{who}-{chance.randrange(NAMES)}"
        if chance.random() < 0.2:
            model.begins(name, GONE)
            if client.ask("DELETE", f"/box/{name}")[0] == 204:
                model.done(name, GONE)
            continue
        size = chance.choice([0, 1, 100, 1000, 5000, chance.randrange(20000), chance.randrange(300000)])
        body, parts = chance.randbytes(size), chance.choice([0, 0, 0, 0, 0, 0, 2, 3]) if size >= 100 else 0
        model.begins(name, hash_of(body))
        if client.put(name, body, parts):
            model.done(name, hash_of(body))


def read_back(place, may, names, say):
    """What each of the names holds; says which holds what it can't."""
    client, found, wrong = Client(place), {}, 0
    for name in sorted(names):
        status, body = client.ask("GET", f"/box/{name}")
        if status not in (200, 404):
            status, body = client.ask("GET", f"/box/{name}")
        found[name] = hash_of(body) if status == 200 else GONE
        if status not in (200, 404) or found[name] not in may[name]:
            wrong += 1
            print(f"{say}: {name} is answered {status}, {found[name]}, and may be {may[name]}", flush=True)
    return found, wrong


def listed(place):
    _, text = Client(place).ask("GET", "/box?list-type=2")
    return sorted(it.decode() for it in re.findall(rb"<Key>([^<]*)</Key>", text))


def gate_words(s3gate):
    return [s3gate, "serve", "--connections", "1000000000", "--least-part", "1"]


def gate_variables(place, store):
    return {"S3GATE_KEYS": KEYS, "S3GATE_LISTEN": "%s:%d" % place, "S3GATE_STORE": "%s:%d" % store, "S3GATE_ACCOUNT": "a", "S3GATE_TOKEN": "t", "S3GATE_LOG": "off"}


def store_over(swiftd, file):
    place = free_place()
    return Served([swiftd, "--token", "t", "--account", "a", "--connections", "1000000000", "--file", file], place, SWIFTD_LISTEN="%s:%d" % place, SWIFTD_LOG="off")


def gate_before(s3gate, store):
    place = free_place()
    return Served(gate_words(s3gate), place, **gate_variables(place, store.place))


def snapshot(store, model, file, to):
    """Copies all files while no byte of them changes, and gives what each name may hold in the copy."""
    before = model.copy()
    store.process.send_signal(signal.SIGSTOP)
    # The signal is delivered once the system shows the process as stopped.
    while not re.search(r"\) T ", open(f"/proc/{store.process.pid}/stat", encoding="utf-8").read()):
        time.sleep(0.001)
    for end in ("", "-wal", "-commits"):
        shutil.copyfile(file + end, to + end)
    shutil.copytree(file + "-bodies", to + "-bodies")
    after = model.copy()
    store.process.send_signal(signal.SIGCONT)
    return {name: before.get(name, {GONE}) | after[name] for name in after}


def main():
    if not 3 <= len(sys.argv) <= 5:
        sys.exit(__doc__.strip())
    s3gate, swiftd = map(os.path.abspath, sys.argv[1:3])
    turns, chance = int(sys.argv[3]) if len(sys.argv) > 3 else 100, random.Random(int(sys.argv[4]) if len(sys.argv) > 4 else 1)
    wrong, killed, copies, model = 0, collections.Counter(), 0, Model()
    with tempfile.TemporaryDirectory() as folder, concurrent.futures.ThreadPoolExecutor(CLIENTS) as clients:
        file = os.path.join(folder, "store.db")
        store = store_over(swiftd, file)
        gate = gate_before(s3gate, store)
        if Client(gate.place).ask("PUT", "/box")[0] != 200:
            sys.exit("no bucket")
        for turn in range(turns):
            is_tenth, stop = turn % 10 == 9, threading.Event()
            model.written = set()
            under_way = [clients.submit(write, gate.place, model, who, turn, stop) for who in range(CLIENTS)]
            time.sleep(chance.uniform(0.05, 1))
            if is_tenth:
                may = snapshot(store, model, file, os.path.join(folder, "copy.db"))
                time.sleep(chance.uniform(0.01, 0.2))
            which = chance.choice(["swiftd", "swiftd", "s3gate", "both"])
            killed[which] += 1
            for program in {"swiftd": [store], "s3gate": [gate], "both": chance.sample([store, gate], 2)}[which]:
                program.kill()
            stop.set()
            if which != "s3gate":
                store.start()
            if which != "swiftd":
                gate.start()
            for it in under_way:
                it.result()
            found, bad = read_back(gate.place, model.may, model.may if is_tenth else model.written, f"turn {turn}, {which}")
            wrong += bad
            for name, value in found.items():
                model.may[name] = {value}
            if is_tenth:
                there = sorted(name for name, value in found.items() if value is not GONE)
                if listed(gate.place) != there:
                    wrong += 1
                    print(f"turn {turn}: the listing isn't the {len(there)} objects that are there", flush=True)
                copied = store_over(swiftd, os.path.join(folder, "copy.db"))
                second = gate_before(s3gate, copied)
                wrong += read_back(second.place, may, may, f"turn {turn}, the copy")[1]
                copies += 1
                for it in (second, copied):
                    it.kill()
                if copied.said:
                    wrong += 1
                    print(f"turn {turn}, the copy: {copied.said!r}")
                shutil.rmtree(os.path.join(folder, "copy.db-bodies"))
                for end in ("", "-wal", "-commits"):
                    os.remove(os.path.join(folder, "copy.db" + end))
        sizes = [os.path.getsize(file + end) for end in ("", "-wal")]
        for it in (gate, store):
            it.kill()
        with contextlib.closing(sqlite3.connect(file)) as database:
            check = database.execute("PRAGMA integrity_check").fetchall()
            rows = database.execute("SELECT kind, size, hash, body FROM objects").fetchall()
        if check != [("ok",)]:
            wrong += 1
            print(f"SQLite says {check[:3]}")
        half, files = 0, set(os.listdir(file + "-bodies"))
        for kind, size, tag, body in rows:
            if kind == 2:
                held = os.path.join(file + "-bodies", body.hex())
                files.discard(body.hex())
                body = open(held, "rb").read()[:size] if os.path.exists(held) else b""
            half += kind != 1 and (size != len(body) or tag != hashlib.md5(body).hexdigest().encode())
        wrong += half + len(files)
        if files:
            print(f"files of which no row tells: {sorted(files)[:5]}")
        if store.said:
            wrong += 1
            print(f"a start said {store.said[:500]!r}")
        waits = sorted(store.waits)
        print(f"{turns} turns, killed {dict(killed)}; {model.count} writes were answered; {len(rows)} rows, {half} of them not whole; {copies} copies")
        print(f"a start of swiftd took {waits[0]:.3f} to {waits[-1]:.3f} s; the file has {sizes[0]} bytes, its log {sizes[1]}; SQLite says {check[0][0]}")
        print(f"{wrong} wrong")
        return 1 if wrong else 0


sys.exit(main())
