#!/usr/bin/env bash
# What `s3gate check` and `s3gate sweep` take over `swiftd`, for an account of 10,000 and one of 100,000 objects in one bucket: of
# each tenth object its bytes are a segment that it lists, there is a kept completion for each of these, and half as many
# segments are listed by nothing.
#
#   bench/sweep.sh [FOLDER] [OBJECTS..]
#
# FOLDER has the programs s3gate and swiftd; without it those of crates/*/out are taken (README.md, "Run it"). The files are put by
# plain Swift calls, as the gateway puts them (docs/PROFILE.md). For each command: its line, seconds, calls of the store and the
# most memory of s3gate; and whether the line is what the account has. Ten times as many objects should take ten times as long.
# Only Python's own libraries are used.
set -euo pipefail
cd "$(dirname "$0")/.."
exec python3 - "$@" <<'PYTHON'
import contextlib, hashlib, http.client, json, os, socket, subprocess, sys, threading, time

FOLDER = sys.argv[1] if len(sys.argv) > 1 else None
SIZES = [int(it) for it in sys.argv[2:]] or [10000, 100000]
TOKEN, ACCOUNT, MOMENT = "benchtoken", "bench", 1369353600
BAD = []


def program(name):
    path = os.path.abspath(f"{FOLDER}/{name}" if FOLDER else f"crates/{name}/out/{name}")
    if not os.access(path, os.X_OK):
        sys.exit(f"no program {path}: run (cd crates/{name} && rt run) first, or name a folder")
    return path


def free_port():
    with socket.create_server(("127.0.0.1", 0)) as it:
        return it.getsockname()[1]


def put(client, path, kind, body=b"", query="", **headers):
    client.request("PUT", f"/v1/{ACCOUNT}/{path}{query}", body, {"X-Auth-Token": TOKEN, "Content-Type": kind, "Content-Length": str(len(body)), **headers})
    answer = client.getresponse()
    text = answer.read()
    if answer.status not in (201, 202):
        sys.exit(f"PUT {path} is answered {answer.status}: {text[:300]}")


def fill(port, objects):
    """The account: so many objects, a tenth of them with a segment and a kept completion, and half of these again listed by nothing."""
    client = http.client.HTTPConnection("127.0.0.1", port, timeout=60)
    for side in ("", "%2Buploads", "%2Bsegments"):
        created = {"X-Container-Meta-S3-Created": str(MOMENT)} if not side else {}
        put(client, f"photos{side}", "text/plain", **{"X-Container-Read": "", **created})
    empty = hashlib.md5(b"").hexdigest()
    part = hashlib.md5(b"x")
    etag = hashlib.md5(part.digest()).hexdigest() + "-1"
    for at in range(objects):
        if at % 10:
            put(client, f"photos/k{at:06}", f"binary/octet-stream;s3={empty}.{MOMENT}.-")
            continue
        id_ = f"{at + 1:032x}"
        put(client, f"photos%2Bsegments/{id_}/00001", f"application/octet-stream;s3={part.hexdigest()}.{MOMENT}.{id_}", b"x")
        listed = json.dumps([{"path": f"/photos+segments/{id_}/00001", "etag": part.hexdigest(), "size_bytes": 1}]).encode()
        put(client, f"photos/k{at:06}", f"binary/octet-stream;s3={etag}.{MOMENT}.{id_}", listed, "?multipart-manifest=put")
        done = {"at": MOMENT, "done": MOMENT, "etag": etag, "key": f"k{at:06}", "list": [[1, part.hexdigest()]], "state": "done", "v": 2}
        put(client, f"photos%2Buploads/{id_}", "application/json", json.dumps(done, separators=(",", ":")).encode())
        if at % 20 == 0:
            lost = f"{at + 2:032x}"
            put(client, f"photos%2Bsegments/{lost}/00001", f"application/octet-stream;s3={part.hexdigest()}.{MOMENT}.{lost}", b"x")
    client.close()


class Counter(threading.Thread):
    """Hands the bytes of a connection on to the store, and counts the requests, each of whose heads is a piece of its own."""

    def __init__(self, port):
        super().__init__(daemon=True)
        self.port, self.calls, self.server = port, 0, socket.create_server(("127.0.0.1", 0))

    def run(self):
        while True:
            client, _ = self.server.accept()
            store = socket.create_connection(("127.0.0.1", self.port))
            for it in (client, store):
                it.setsockopt(socket.IPPROTO_TCP, socket.TCP_NODELAY, 1)
            threading.Thread(target=self.hand, args=(client, store, True), daemon=True).start()
            threading.Thread(target=self.hand, args=(store, client, False), daemon=True).start()

    def hand(self, source, sink, counts):
        with contextlib.suppress(OSError):
            while piece := source.recv(1 << 16):
                self.calls += counts and piece.count(b" HTTP/1.1\r\n")
                sink.sendall(piece)
        for it in (source, sink):
            it.close()


def ran(words, port):
    """What a command printed, its seconds, its calls, and its most memory in MB."""
    counter = Counter(port)
    counter.start()
    settings = {**os.environ, "S3GATE_STORE": "127.0.0.1:%d" % counter.server.getsockname()[1], "S3GATE_ACCOUNT": ACCOUNT, "S3GATE_TOKEN": TOKEN}
    settings.pop("S3GATE_KEYS", None)
    begun = time.perf_counter()
    process = subprocess.Popen([program("s3gate"), *words], env=settings, stdout=subprocess.PIPE, stderr=subprocess.DEVNULL)
    most = 0
    while process.poll() is None:
        with contextlib.suppress(OSError, StopIteration), open(f"/proc/{process.pid}/status", encoding="ascii") as status:
            most = max(most, next(int(line.split()[1]) / 1000 for line in status if line.startswith("VmHWM")))
        time.sleep(0.02)
    took = time.perf_counter() - begun
    said = process.stdout.read().decode().strip()
    return f"{said} (status {process.returncode})", took, counter.calls, most


def main():
    print("| objects | command | line | seconds | calls | of at most | s3gate's most memory, MB |\n|---|---|---|---|---|---|---|")
    for objects in SIZES:
        port = free_port()
        words = [program("swiftd"), "--token", TOKEN, "--account", ACCOUNT, "--connections", "1000000"]
        store = subprocess.Popen(words, env={**os.environ, "SWIFTD_LISTEN": f"127.0.0.1:{port}"}, stdout=subprocess.DEVNULL, stderr=subprocess.DEVNULL)
        try:
            for _ in range(200):
                with contextlib.suppress(ConnectionRefusedError), socket.create_connection(("127.0.0.1", port)):
                    break
                time.sleep(0.05)
            fill(port, objects)
            listed, lost = objects // 10, objects // 20
            clean = f"buckets 1 objects {objects} uploads 0 kept {listed} orphans 0 sealed no (status 0)"
            for words, due, files in (
                (["check"], clean.replace("orphans 0", f"orphans {lost}"), lost),
                (["sweep"], f"swept segments {lost} records 0 containers 0 migrated 0 forgotten 0 (status 0)", lost),
                (["check"], clean, 0),
                (["sweep", "--forget-before", str(MOMENT + 1)], f"swept segments 0 records 0 containers 0 migrated 0 forgotten {listed} (status 0)", 0),
                (["check"], clean.replace(f"kept {listed}", "kept 0"), 0),
            ):
                line, took, calls, most = ran(words, port)
                bound = 4 + 16 * (3 + objects + 2 * listed + files) + 5
                good = line == due and calls <= bound
                print(f"| {objects:,} | {' '.join(words)} | {line} | {took:.1f} | {calls:,} | {bound:,} | {most:.1f} |{'' if good else ' BAD: ' + due}", flush=True)
                if not good:
                    BAD.append(line)
        finally:
            store.kill()
            store.wait()
    sys.exit(1 if BAD else 0)


main()
PYTHON
