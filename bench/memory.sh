#!/usr/bin/env bash
# What comes where memory is refused: runs s3gate again and again, and each time another one of its allocations fails.
#
#   bench/memory.sh S3GATE SWIFTD [STEP]     each allocation, or only each STEP-th of them
#
# `trial`: the status is 0 and the line is that of a run with memory, or the status is 5 and the line says so or there is none.
# `serve`, over a swiftd that has memory: up to the failure each reply is the one of a run with memory; behind it comes the reply for
# want of memory, or first bytes of the right one, or nothing. Then another s3gate reads the account: it is as before the request
# that failed, or as after it. Times, ids of requests and ids of uploads are left out where replies are compared.
#
# The library that makes an allocation fail is built by `cc` in a folder that goes away at the end. The status is 1 where anything
# came otherwise.
set -euo pipefail
cd "$(dirname "$0")/.."
exec python3 - "$@" <<'PYTHON'
import datetime, importlib.util, os, re, socket, subprocess, sys, tempfile, time

FAILING = r"""
#define _GNU_SOURCE
#include <dlfcn.h>
#include <errno.h>
#include <stdatomic.h>
#include <stddef.h>
#include <stdio.h>
#include <stdlib.h>
static atomic_long made;
static long failing;
__attribute__((constructor)) static void begin(void) {
    const char *number = getenv("FAILING_ALLOCATION");
    failing = number ? atol(number) : 0;
    made = 0;
}
static int fails(void) {
    int failed = ++made == failing;
    if (failed) errno = ENOMEM;
    return failed;
}
void *malloc(size_t size) {
    static void *(*real)(size_t);
    if (!real) real = dlsym(RTLD_NEXT, "malloc");
    return fails() ? NULL : real(size);
}
void *realloc(void *old, size_t size) {
    static void *(*real)(void *, size_t);
    if (!real) real = dlsym(RTLD_NEXT, "realloc");
    return fails() ? NULL : real(old, size);
}
__attribute__((destructor)) static void end(void) {
    const char *path = getenv("ALLOCATIONS_FILE");
    FILE *file = path ? fopen(path, "w") : NULL;
    if (file) {
        fprintf(file, "%ld\n", (long)made);
        fclose(file);
    }
}
"""
TRIAL = ["trial", "--number", "43", "--requests", "40"]
MEMORY = b"<Error><Code>InternalError</Code><Message>Memory</Message></Error>"
VARYING = [rb"(?m)^(Date|x-amz-request-id|x-amz-id-2|Last-Modified): .*$", rb"<(RequestId|LastModified|CreationDate|Initiated|UploadId)>[^<]*", rb"uploadId=[0-9a-f]{32}"]
BAD = []

sys.dont_write_bytecode = True
spec = importlib.util.spec_from_file_location("sign", "examples/sign.py")
sign = importlib.util.module_from_spec(spec)
spec.loader.exec_module(sign)
if not 3 <= len(sys.argv) <= 4:
    sys.exit("bench/memory.sh S3GATE SWIFTD [STEP]")
S3GATE, SWIFTD = (os.path.abspath(it) for it in sys.argv[1:3])
STEP = int(sys.argv[3]) if len(sys.argv) > 3 else 1
QUIET = {"stdout": subprocess.DEVNULL, "stderr": subprocess.DEVNULL}


def bad(what):
    print(f"{what}   BAD", flush=True)
    BAD.append(what)


def free_place():
    with socket.create_server(("127.0.0.1", 0)) as it:
        return "127.0.0.1:%d" % it.getsockname()[1]


def failing(folder, number):
    """The environment in which the allocation of that number fails, or none where it is 0."""
    return {"LD_PRELOAD": f"{folder}/failing.so", "FAILING_ALLOCATION": str(number), "ALLOCATIONS_FILE": f"{folder}/made"}


def made(folder):
    with open(f"{folder}/made") as it:
        return int(it.read())


# ---- trial


def trials(folder):
    def tried(number):
        it = subprocess.run([S3GATE, *TRIAL], env=failing(folder, number), capture_output=True, timeout=60)
        return it.returncode, it.stdout

    status, line = tried(0)
    count = made(folder)
    assert status == 0 and line.startswith(b"requests 40 output "), (status, line)
    ran = 0
    for number in range(1, count + 1, STEP):
        came = tried(number)
        ran += 1
        if came not in ((0, line), (5, b"s3gate: memory\n"), (5, b"")):
            bad(f"trial, allocation {number}: {came}")
    print(f"trial: {count} allocations, {ran} of them failed in turn", flush=True)


# ---- serve


class Gone(Exception):
    """The program doesn't listen any more, or ended a connection."""


class Gate:
    def __init__(self, store, environment):
        self.place = free_place()
        words = {"S3GATE_KEYS": "examples/keys.txt", "S3GATE_LISTEN": self.place, "S3GATE_STORE": store, "S3GATE_ACCOUNT": "a", "S3GATE_TOKEN": "t"}
        self.process = subprocess.Popen([S3GATE, "serve", "--connections", "1", "--least-part", "1"], env={**words, **environment}, **QUIET)

    def connect(self):
        return connect(self.place, self.process)

    def end(self):
        """The status. Where memory ran out as the connection was taken up, it was no turn: another one is."""
        try:
            return self.process.wait(2)
        except subprocess.TimeoutExpired:
            pass
        try:
            self.connect().close()
            return self.process.wait(20)
        except (Gone, OSError, subprocess.TimeoutExpired):
            self.process.kill()
            self.process.wait()
            return None


def connect(place, process):
    host, port = place.split(":")
    for _ in range(2000):
        try:
            it = socket.create_connection((host, int(port)), timeout=20)
            it.setsockopt(socket.IPPROTO_TCP, socket.TCP_NODELAY, 1)
            return it
        except OSError:
            if process.poll() is not None:
                raise Gone
            time.sleep(0.005)
    raise Gone


def signed(method, target, body=b""):
    head = sign.signed(f"{method} {target} HTTP/1.1\r\nhost: localhost", *sign.first_key(), datetime.datetime.now(datetime.timezone.utc))
    return head.encode() + b"\r\nContent-Length: %d\r\n\r\n" % len(body) + body


def ask(connection, method, target, body=b""):
    """The bytes of one reply; fewer where the connection ended."""
    data = b""
    try:
        connection.sendall(signed(method, target, body))
        while not is_whole(data, method):
            more = connection.recv(65536)
            if not more:
                break
            data += more
    except OSError:
        pass
    return data


def is_whole(reply, method):
    head, found, rest = reply.partition(b"\r\n\r\n")
    size = re.search(rb"(?mi)^content-length: (\d+)", head)
    return bool(found) and (method == "HEAD" or len(rest) >= int(size[1] if size else 0))


def plain(reply):
    for pattern in VARYING:
        reply = re.sub(pattern, b"-", reply)
    return reply


def requests():
    """The requests one after another; each is sent the reply to the one before it."""
    yield "PUT", "/photos", b""
    yield "PUT", "/photos/a", b"hello"
    yield "GET", "/photos/a", b""
    yield "GET", "/photos?list-type=2", b""
    started = yield "POST", "/photos/b?uploads", b""
    id = re.search(rb"<UploadId>([0-9a-f]+)", started)[1].decode()
    stored = yield "PUT", f"/photos/b?partNumber=1&uploadId={id}", b"part"
    tag = re.search(rb'(?i)etag: "([0-9a-f]+)"', stored)[1]
    yield "POST", f"/photos/b?uploadId={id}", b'<CompleteMultipartUpload><Part><PartNumber>1</PartNumber><ETag>"' + tag + b'"</ETag></Part></CompleteMultipartUpload>'
    yield "GET", "/photos/b", b""
    yield "DELETE", "/photos/a", b""
    yield "DELETE", "/photos/b", b""
    yield "DELETE", "/photos", b""


def state(store):
    """What a gate that has memory reads of the account."""
    gate = Gate(store, {})
    with gate.connect() as it:
        seen = [plain(ask(it, "GET", target)) for target in ("/", "/photos?list-type=2", "/photos?uploads", "/photos/a", "/photos/b")]
    if gate.end() != 0:
        bad("the gate that reads the account ended otherwise than with 0")
    return seen


def served(store, environment, each=None):
    """The replies to the requests in turn, to the first that isn't whole or says that memory ran out, and the status at the end."""
    replies, gate, turns = [], Gate(store, environment), requests()
    try:
        with gate.connect() as it:
            asked = next(turns)
            while True:
                replies.append(ask(it, *asked))
                if not is_whole(replies[-1], asked[0]) or replies[-1].endswith(MEMORY) or not replies[-1].startswith(b"HTTP/1.1 2"):
                    break
                asked = turns.send(replies[-1])
    except (Gone, StopIteration, TypeError):
        pass
    return [plain(it) for it in replies], gate.end()


class Store:
    """A swiftd in memory that begins empty."""

    def __init__(self):
        self.place = free_place()
        self.process = subprocess.Popen([SWIFTD, "--token", "t", "--account", "a", "--connections", "1000000"], env={"SWIFTD_LISTEN": self.place}, **QUIET)
        connect(self.place, self.process).close()

    def __enter__(self):
        return self.place

    def __exit__(self, *_):
        self.process.kill()
        self.process.wait()


def states_in_turn():
    """The account before the first request, and after each."""
    with Store() as store:
        states, turns = [state(store)], requests()
        asked = next(turns)
        while True:
            gate = Gate(store, {})
            with gate.connect() as it:
                reply = ask(it, *asked)
            gate.end()
            states.append(state(store))
            try:
                asked = turns.send(reply)
            except StopIteration:
                return states


def is_failed_reply(reply, right):
    return not reply or right.startswith(reply) or (reply.startswith(b"HTTP/1.1 500 ") and (reply.endswith(MEMORY) or b"Content-Length: 0" in reply))


def serves(folder):
    states = states_in_turn()
    with Store() as store:
        right, status = served(store, failing(folder, 0))
    count, ran = made(folder), 0
    assert status == 0 and len(right) == len(states) - 1, (status, right)
    for number in range(1, count + 1, STEP):
        with Store() as store:
            replies, status = served(store, failing(folder, number))
            after = state(store)
        ran += 1
        whole = next((i for i, it in enumerate(replies) if it != right[i]), len(replies))
        if status not in (0, 5) or whole < len(replies) - 1 or (whole < len(replies) and not is_failed_reply(replies[whole], right[whole])):
            bad(f"serve, allocation {number}: status {status}, replies {replies[whole:]}")
        if after not in states[whole : whole + 2]:
            bad(f"serve, allocation {number}: behind {whole} replies the account is another")
    print(f"serve: {count} allocations, {ran} of them failed in turn", flush=True)


with tempfile.TemporaryDirectory() as folder:
    with open(f"{folder}/failing.c", "w") as it:
        it.write(FAILING)
    subprocess.run(["cc", "-O2", "-shared", "-fPIC", "-o", f"{folder}/failing.so", f"{folder}/failing.c", "-ldl"], check=True)
    trials(folder)
    serves(folder)
sys.exit(1 if BAD else 0)
PYTHON
