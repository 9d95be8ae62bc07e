#!/usr/bin/env bash
# Requests a second, and milliseconds at the middle and at 99 of 100, of one client on one connection: for `s3gate serve` over
# `swiftd` in memory and over a file, for plain Swift calls to such a `swiftd`, and for `moto_server` where it is installed. They take
# turns within one run, so that a busy machine is busy for all of them. The files are in a folder of their own, and are removed.
# Behind these stand the milliseconds to the first byte of an answer's body, at the middle; and of the server alone, not of a store
# behind it, the milliseconds of processor that a request takes, and the most memory that it had for one of the kind.
#
#   bench/serve.sh [FOLDER] [REQUESTS]
#
# FOLDER has the programs s3gate and swiftd; without it those of crates/*/out are taken (README.md, "Run it"). Each kind of
# request is made 1,000 times unless told otherwise, those of 1 and 16 MiB a fiftieth as often. Only Python's own libraries are used.
set -euo pipefail
cd "$(dirname "$0")/.."
exec python3 - "$@" <<'PYTHON'
import contextlib, datetime, hashlib, http.client, importlib.util, os, random, shutil, socket, subprocess, sys, tempfile, time

sys.dont_write_bytecode = True
spec = importlib.util.spec_from_file_location("sign", "examples/sign.py")
sign = importlib.util.module_from_spec(spec)
spec.loader.exec_module(sign)

FOLDER = sys.argv[1] if len(sys.argv) > 1 else None
REQUESTS = int(sys.argv[2]) if len(sys.argv) > 2 else 1000
TURNS = 5
BODIES = {"small": random.Random(1).randbytes(1 << 10), "medium": random.Random(3).randbytes(1 << 20), "large": random.Random(2).randbytes(1 << 24)}
# The part of the large body that is asked for by a range.
RANGE = (5 << 20, 6 << 20)
TOKEN, ACCOUNT = "benchtoken", "bench"
KEY = sign.first_key()


def program(name):
    path = os.path.abspath(f"{FOLDER}/{name}" if FOLDER else f"crates/{name}/out/{name}")
    if not os.access(path, os.X_OK):
        sys.exit(f"no program {path}: run (cd crates/{name} && rt run) first, or name a folder")
    return path


def free_place():
    with socket.create_server(("127.0.0.1", 0)) as it:
        return "127.0.0.1:%d" % it.getsockname()[1]


@contextlib.contextmanager
def started(words, place, **variables):
    with subprocess.Popen(words, env={**os.environ, **variables}, stdout=subprocess.DEVNULL, stderr=subprocess.DEVNULL) as process:
        host, _, port = place.rpartition(":")
        for _ in range(200):
            with contextlib.suppress(ConnectionRefusedError), socket.create_connection((host, int(port))):
                break
            time.sleep(0.05)
        try:
            yield process
        finally:
            process.kill()


class Target:
    """One server, one connection to it, and how its requests are written."""

    def __init__(self, name, process, place, root, swift=False):
        self.name, self.process, self.place, self.root, self.swift = name, process, place, root, swift
        self.client = http.client.HTTPConnection(place, timeout=60)
        self.begin_kind()

    def begin_kind(self):
        """The requests of another kind begin: the most memory is counted anew (Linux, `clear_refs`)."""
        self.times, self.firsts, self.processor = [], [], 0
        with open(f"/proc/{self.process.pid}/clear_refs", "w", encoding="ascii") as it:
            it.write("5")

    def busy(self):
        """The milliseconds of processor that the server took so far, by all its threads."""
        spent = 0
        for task in os.listdir(f"/proc/{self.process.pid}/task"):
            with contextlib.suppress(FileNotFoundError, ProcessLookupError), open(f"/proc/{self.process.pid}/task/{task}/schedstat", encoding="ascii") as it:
                spent += int(it.read().split()[0])
        return spent / 1e6

    def peak(self):
        """The most memory of the requests of this kind, in MiB."""
        with open(f"/proc/{self.process.pid}/status", encoding="ascii") as it:
            return next(int(line.split()[1]) / 1024 for line in it if line.startswith("VmHWM:"))

    def headers(self, method, path, body, part):
        more = {"Range": f"bytes={part[0]}-{part[1] - 1}"} if part else {}
        if self.swift:
            return {"X-Auth-Token": TOKEN, "X-Container-Read": "", "Content-Length": str(len(body)), "Content-Type": "binary/octet-stream", **more}
        head = f"{method} {path} HTTP/1.1\r\nhost: {self.place}"
        lines = sign.signed(head, *KEY, datetime.datetime.now(datetime.timezone.utc)).split("\r\n")[1:]
        return {**dict(line.split(": ", 1) for line in lines), "Content-Length": str(len(body)), **more}

    def ask(self, method, name, body=b"", part=None, wanted=(200, 201, 202, 204, 206)):
        """The seconds of a request, from its first byte to the last of its answer, and to the first of its answer's body."""
        path = self.root + name
        headers = self.headers(method, path, body, part)
        begun = time.perf_counter()
        self.client.request(method, path, body, headers)
        answer = self.client.getresponse()
        got = [answer.read(1)]
        first = time.perf_counter() - begun
        got.append(answer.read())
        took = time.perf_counter() - begun
        if answer.status not in wanted:
            sys.exit(f"{self.name}: {method} {path} is answered {answer.status}")
        return took, first, b"".join(got)


KINDS = [
    ("PUT of 1 KiB", "PUT", "small", None, 1),
    ("GET of 1 KiB", "GET", "small", None, 1),
    ("HEAD", "HEAD", "small", None, 1),
    ("PUT of 1 MiB", "PUT", "medium", None, 50),
    ("GET of 1 MiB", "GET", "medium", None, 50),
    ("PUT of 16 MiB", "PUT", "large", None, 50),
    ("GET of 16 MiB", "GET", "large", None, 50),
    ("GET of 1 MiB out of 16", "GET", "large", RANGE, 50),
]


def measured(targets):
    for title, method, name, part, rarer in KINDS:
        body, whole = BODIES[name] if method == "PUT" else b"", BODIES[name][slice(*part)] if part else BODIES[name]
        for target in targets:
            target.begin_kind()
        for _ in range(TURNS):
            for target in targets:
                begun = target.busy()
                for _ in range(max(1, REQUESTS // rarer // TURNS)):
                    took, first, got = target.ask(method, f"/photos/{name}", body, part)
                    target.times.append(took)
                    target.firsts.append(first)
                    if method == "GET" and got != whole:
                        sys.exit(f"{target.name}: {title} gives other bytes")
                target.processor += target.busy() - begun
        for target in targets:
            yield title, target


def main():
    s3gate, swiftd = program("s3gate"), program("swiftd")
    moto = shutil.which("moto_server")
    load = " ".join(f"{it:.1f}" for it in os.getloadavg())
    print(f"{datetime.datetime.now(datetime.timezone.utc):%Y-%m-%d %H:%M} UTC, {os.cpu_count()} processors, load {load}; {REQUESTS} requests of each kind, {max(1, REQUESTS // 50)} of 1 and 16 MiB")
    other, many, targets = free_place(), ["--connections", "1000000"], []
    with contextlib.ExitStack() as stack:
        folder = stack.enter_context(tempfile.TemporaryDirectory())
        # The gateway and the plain calls each have a store of their own: it serves one request at a time.
        for title, files in (("memory", ([], [])), ("a file", [["--file", f"{folder}/{at}.db"] for at in range(2)])):
            store, plain, gate, stores = free_place(), free_place(), free_place(), []
            for place, file in zip((store, plain), files):
                stores.append(stack.enter_context(started([swiftd, "--token", TOKEN, "--account", ACCOUNT, *many, *file], place, SWIFTD_LISTEN=place)))
            gateway = stack.enter_context(started([s3gate, "serve", *many], gate, S3GATE_KEYS=os.path.abspath("examples/keys.txt"), S3GATE_LISTEN=gate, S3GATE_STORE=store, S3GATE_ACCOUNT=ACCOUNT, S3GATE_TOKEN=TOKEN))
            targets += [Target(f"s3gate over swiftd, {title}", gateway, gate, ""), Target(f"swiftd, {title}, plain calls", stores[1], plain, f"/v1/{ACCOUNT}", swift=True)]
        if moto:
            host, _, port = other.rpartition(":")
            targets.append(Target("moto_server", stack.enter_context(started([moto, "-H", host, "-p", port], other)), other, ""))
        for target in targets:
            target.ask("PUT", "/photos")
        print("| request | server | a second | ms, middle | ms, 99 of 100 | first byte, ms | processor, ms | peak, MiB |\n|---|---|---|---|---|---|---|---|")
        for title, target in measured(targets):
            times, firsts = sorted(target.times), sorted(target.firsts)
            count = len(times)
            figures = [times[count // 2], times[min(count - 1, count * 99 // 100)], firsts[count // 2]]
            milliseconds = " | ".join(f"{it * 1000:.2f}" for it in figures)
            print(f"| {title} | {target.name} | {count / sum(times):.0f} | {milliseconds} | {target.processor / count:.2f} | {target.peak():.1f} |", flush=True)


main()
PYTHON
