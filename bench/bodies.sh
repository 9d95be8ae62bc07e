#!/usr/bin/env bash
# What `s3gate session` takes for bodies of 16 MiB, of objects and of parts, also in chunks, beside `cat`, `md5sum` and `sha256sum` of
# the same bytes in the same run; for a head of 16,384 bytes that comes byte by byte; and for a key file of 30,000 lines.
#
#   bench/bodies.sh [PROGRAM] [REQUESTS]
#
# PROGRAM is the one that `rt run` leaves in crates/s3gate/out (README.md, "Run it"); it is measured with 8 requests on one
# connection unless told otherwise. The last column is the processor time beside that of md5sum, without which no body is
# stored. Only Python's own libraries are used.
set -euo pipefail
cd "$(dirname "$0")/.."
exec python3 - "$@" <<'PYTHON'
import base64, datetime, fcntl, hashlib, importlib.util, os, queue, random, re, struct, subprocess, sys, tempfile, termios, threading, time

sys.dont_write_bytecode = True
spec = importlib.util.spec_from_file_location("sign", "examples/sign.py")
sign = importlib.util.module_from_spec(spec)
spec.loader.exec_module(sign)
sys.path.insert(0, "bench")
import chunk_bodies

PROGRAM = os.path.abspath(sys.argv[1] if len(sys.argv) > 1 else "crates/s3gate/out/s3gate")
REQUESTS = int(sys.argv[2]) if len(sys.argv) > 2 else 8
SIZE = 1 << 24
MIB = SIZE >> 20
BODY = random.Random(1).randbytes(SIZE)
HASH = hashlib.sha256(BODY).hexdigest()
DIGEST = "\r\nContent-MD5: " + base64.b64encode(hashlib.md5(BODY).digest()).decode()
KEY = sign.first_key()
EXTENDED = ("--extended", "--largest-body", str(2 * SIZE))


def request(line, body=b"", payload="UNSIGNED-PAYLOAD", more=""):
    """The bytes of a signed request, with more lines of its head if they are given."""
    now = datetime.datetime.now(datetime.timezone.utc)
    head = f"{line} HTTP/1.1\r\nContent-Length: {len(body)}{more}"
    return sign.signed(head, *KEY, now, payload).encode() + b"\r\n\r\n" + body


def in_chunks(form, size, trailers=()):
    """The bytes of a PUT of the body in chunks of so many bytes."""
    return chunk_bodies.Chunks(sign, "PUT", "/photos/k", form, chunk_bodies.cut(BODY, [size]), datetime.datetime.now(datetime.timezone.utc), trailers=trailers).text()


def take_reply(pipe):
    """The status of the next reply, with the body."""
    size, status = 0, pipe.readline()
    while True:
        line = pipe.readline()
        if line in (b"\r\n", b""):
            break
        name, _, value = line.partition(b":")
        if name.lower() == b"content-length":
            size = int(value)
    return int(status.split()[1]) if status else None, pipe.read(size)


class Run:
    """A command over pipes: the seconds that it took by the clock and of a processor, and its greatest memory in MiB.

    Its memory is asked for before its input ends: of a session once its replies are read, and of one that `ends` only with
    its input once that is written.
    """

    def __init__(self, words, write, read, keys="examples/keys.txt", ends=False):
        begun = time.monotonic()
        process = subprocess.Popen(words, stdin=subprocess.PIPE, stdout=subprocess.PIPE, env={"S3GATE_KEYS": os.path.abspath(keys)}, bufsize=0)
        is_read = threading.Event()

        def feed():
            try:
                write(process.stdin)
            except BrokenPipeError:
                pass
            if not ends:
                is_read.wait()
            self.memory = memory_of(process.pid)
            process.stdin.close()

        feeder = threading.Thread(target=feed)
        feeder.start()
        with open(process.stdout.fileno(), "rb", buffering=1 << 20, closefd=False) as output:
            self.read = read(output)
            is_read.set()
            feeder.join()
        _, status, used = os.wait4(process.pid, 0)
        self.status = process.returncode = os.waitstatus_to_exitcode(status)
        process.stdout.close()
        self.clock = time.monotonic() - begun
        self.processor = used.ru_utime + used.ru_stime


def memory_of(number):
    with open(f"/proc/{number}/status", encoding="ascii") as it:
        return next((int(line.split()[1]) / 1024 for line in it if line.startswith("VmHWM:")), 0)


def all_of(pieces):
    def write(pipe):
        for piece in pieces:
            view = memoryview(piece)
            while view:
                view = view[pipe.write(view) :]

    return write


def rest(output):
    while output.read(1 << 20):
        pass


def session(pieces, wanted, words=()):
    """The session of these requests, which must be answered with these statuses, each 200 of a GET with the body."""

    def read(output):
        return [take_reply(output) for _ in wanted]

    run = Run([PROGRAM, "session", *words], all_of(pieces), read)
    got = [status for status, _ in run.read]
    if run.status or got != wanted or any(body and body != BODY for status, body in run.read if status == 200):
        sys.exit(f"the session ended with status {run.status}, and answered {got}, not {wanted}")
    return run


def parts(bucket):
    """The session of an upload of these bodies, as one part again and again, for its id comes with the reply to its first request."""
    ids, wanted = queue.Queue(), [200] * (REQUESTS + 2)

    def write(pipe):
        all_of([bucket, request("POST /photos/v?uploads")])(pipe)
        id_ = ids.get()
        if id_:
            all_of([request(f"PUT /photos/v?partNumber=1&uploadId={id_}", BODY)] * REQUESTS)(pipe)

    def read(output):
        replies = [take_reply(output), take_reply(output)]
        found = re.search(rb"<UploadId>(\w+)</UploadId>", replies[1][1])
        ids.put(found and found[1].decode())
        return replies + [take_reply(output) for _ in range(REQUESTS if found else 0)]

    run = Run([PROGRAM, "session"], write, read)
    got = [status for status, _ in run.read]
    if run.status or got != wanted:
        sys.exit(f"the upload ended with status {run.status}, and was answered {got}, not {wanted}")
    return run


def byte_by_byte(data):
    """Writes each byte once the one before was read."""

    def write(pipe):
        end = time.monotonic() + 60
        for at in range(len(data)):
            pipe.write(data[at : at + 1])
            while time.monotonic() < end and struct.unpack("i", fcntl.ioctl(pipe, termios.FIONREAD, b"\0\0\0\0"))[0]:
                os.sched_yield()

    return write


PLAIN, HASHED = "PUT, UNSIGNED-PAYLOAD", "PUT, its hash signed"
SIGNED_CHUNKS, UNSIGNED_CHUNKS = "PUT in signed chunks of 64 KiB", "PUT in chunks of 1 MiB, CRC-32 behind them"


def body_rows():
    for words in ["cat"], ["md5sum"], ["sha256sum"]:
        run = Run(words, all_of([BODY] * REQUESTS), rest, ends=True)
        yield words[0], run.clock, run.processor, run.memory
    bucket = request("PUT /photos")
    plain, hashed = request("PUT /photos/k", BODY), request("PUT /photos/k", BODY, HASH)
    digested = request("PUT /photos/k", BODY, more=DIGEST)
    none, empty, one = session([], []), session([bucket], [200]), session([bucket, plain], [200, 200])
    run = session([b"PUT /photos HTTP/1.1\r\nContent-Length: %d\r\n\r\n" % SIZE + BODY] * REQUESTS, [400] * REQUESTS)
    yield "read, and answered 400", run.clock - none.clock, run.processor - none.processor, run.memory
    for name, put in (PLAIN, plain), ("PUT, with Content-MD5", digested), (HASHED, hashed):
        run = session([bucket] + [put] * REQUESTS, [200] * (REQUESTS + 1))
        yield name, run.clock - empty.clock, run.processor - empty.processor, run.memory
    for name, put in (
        (SIGNED_CHUNKS, in_chunks(chunk_bodies.SIGNED, 1 << 16)),
        (UNSIGNED_CHUNKS, in_chunks(chunk_bodies.UNSIGNED, 1 << 20, [chunk_bodies.checksum("crc32", BODY)])),
    ):
        run = session([bucket] + [put] * REQUESTS, [200] * (REQUESTS + 1), EXTENDED)
        yield name, run.clock - empty.clock, run.processor - empty.processor, run.memory
    run = parts(bucket)
    yield "PUT of a part", run.clock - empty.clock, run.processor - empty.processor, run.memory
    run = session([bucket, plain] + [request("GET /photos/k")] * REQUESTS, [200] * (REQUESTS + 2))
    yield "GET", run.clock - one.clock, run.processor - one.processor, run.memory


def other_rows(room):
    start = b"GET /photos/k HTTP/1.1\r\nx-pad: "
    head = start + b"a" * (16384 - len(start) - 4) + b"\r\n\r\n"
    for name, write in ("head of 16,384 bytes at once", all_of([head])), ("head of 16,384 bytes byte by byte", byte_by_byte(head)):
        run = Run([PROGRAM, "session"], write, take_reply)
        if run.status or run.read[0] != 404:
            sys.exit(f"{name}: status {run.status}, reply {run.read[0]}")
        yield name, run
    for lines in 1, 30000:
        with open(f"{room}/keys.txt", "w", encoding="ascii") as keys:
            keys.writelines(f"AKIAIOSFODNN{at:08} {at:040}\n" for at in range(lines))
        run = Run([PROGRAM, "session"], all_of([b"GET /photos/k HTTP/1.1\r\n\r\n"]), take_reply, keys.name)
        if run.status or run.read[0] != 404:
            sys.exit(f"a key file of {lines} lines: status {run.status}, reply {run.read[0]}")
        yield f"key file of {lines:,} line{'s' * (lines > 1)}", run


def main():
    if not os.access(PROGRAM, os.X_OK):
        sys.exit(f"no program {PROGRAM}: run (cd crates/s3gate && rt run) first, or name one")
    load = " ".join(f"{it:.1f}" for it in os.getloadavg())
    print(f"{datetime.datetime.now(datetime.timezone.utc):%Y-%m-%d %H:%M} UTC, {os.cpu_count()} processors, load {load}; {REQUESTS} bodies of {MIB} MiB")
    print("| bodies | MiB/s | processor ms a MiB | peak MiB | of md5sum |\n|---|---|---|---|---|")
    rows, mib = list(body_rows()), REQUESTS * MIB
    md5 = next(processor for name, _, processor, _ in rows if name == "md5sum")
    for name, clock, processor, memory in rows:
        print(f"| {name} | {mib / clock:.0f} | {processor * 1000 / mib:.2f} | {memory:.0f} | {processor / md5:.2f} |")
    took = {name: processor for name, _, processor, _ in rows}
    print(f"\nSigned chunks take {took[SIGNED_CHUNKS] / took[HASHED]:.2f} times the processor of a hash that is signed, and those with a CRC-32 {took[UNSIGNED_CHUNKS] / took[PLAIN]:.2f} times that of UNSIGNED-PAYLOAD.")
    print("\n| session | processor s | seconds | peak MiB |\n|---|---|---|---|")
    with tempfile.TemporaryDirectory() as room:
        for name, run in other_rows(room):
            print(f"| {name} | {run.processor:.3f} | {run.clock:.3f} | {run.memory:.0f} |")


main()
PYTHON
