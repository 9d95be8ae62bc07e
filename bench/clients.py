#!/usr/bin/env python3
"""What clients of `s3gate serve` cost one another: silent, slow, fast and ending ones, side by side, on the loopback interface.

  bench/clients.py [--folder FOLDER] [--seconds N] [--big MIB] [--long GIB] [PART..]

FOLDER has the programs s3gate and swiftd; without it those of crates/*/out are taken (README.md, "Run it"). Each part is run
with servers of its own; without PART all of them. The big object has 16 MiB unless told otherwise:

  kept      300 requests on kept connections, while another client comes: how many get no reply
  silent    a small GET beside 20 silent connections, and beside 20 half heads
  slow-put  a small GET beside a PUT of a byte each half second, with and without Expect
  slow-get  small GETs beside one of the big object whose client takes 64 KiB each 50 ms
  long-get  small GETs beside one of GIB GiB (1), from a store that makes their bytes, whose client takes 128 MiB a second: how
            long each waits
  order     requests sent ahead, whole and in pieces; half-closed connections; refusals; the interim answer
  limits    silent clients at S3GATE_IDLE=2, also one whose head comes a byte a second, and one that takes nothing
  ahead     uploads and slow readers past S3GATE_AHEAD=1
  gone      a client that goes away in each state, 20 times each, and the descriptors and the memory before and after
  churn     10,000 connections of five kinds: descriptors and memory
  places    1,100 silent connections, and 60 with 8 to 64 descriptors
  finish    a large reply that is still on its way when the last connection was served
  boto3     2, 8 and 32 clients of boto3, for N seconds each (5), directly and, where nginx is installed, through it
  floor     a small GET each half second beside clients that drip, stop or are slow: how long each waits, and who is ended
  turns     2, 8, 32 and 64 clients, one of which sends 1,000 requests ahead all the time: the longest that another waits,
            beside the sum of one request of each

A line that ends in BAD says what went otherwise than it should, and the status is then 1.
"""
import contextlib, datetime, hashlib, importlib.util, multiprocessing, os, resource, shutil, socket, subprocess, sys, tempfile, threading, time

sys.dont_write_bytecode = True
os.chdir(os.path.join(os.path.dirname(os.path.abspath(__file__)), ".."))


def loaded(name, path):
    spec = importlib.util.spec_from_file_location(name, path)
    module = importlib.util.module_from_spec(spec)
    spec.loader.exec_module(module)
    return module


sign = loaded("sign", "examples/sign.py")
resource.setrlimit(resource.RLIMIT_NOFILE, (4096, resource.getrlimit(resource.RLIMIT_NOFILE)[1]))

FOLDER, SECONDS, LONG, BAD = None, 5.0, 1, []
SMALL, BIG = b"small", b"z" * (16 << 20)
GET = b"GET /pub/small HTTP/1.1\r\nHost: x\r\n\r\n"
INTERIM = b"HTTP/1.1 100 Continue\r\n\r\n"


def tell(text, good=True):
    print(text + ("" if good else "   BAD"), flush=True)
    if not good:
        BAD.append(text)


def program(name):
    path = os.path.abspath(f"{FOLDER}/{name}" if FOLDER else f"crates/{name}/out/{name}")
    if not os.access(path, os.X_OK):
        sys.exit(f"no program {path}: run (cd crates/{name} && rt run) first, or name a folder")
    return path


def free_port():
    with socket.create_server(("127.0.0.1", 0)) as it:
        return it.getsockname()[1]


class Gate:
    """s3gate over swiftd, with a public bucket that has a small object, and a big one where it is wanted."""

    def __init__(self, big=False, connections=1_000_000_000, descriptors=None, **variables):
        self.port, store = free_port(), f"127.0.0.1:{free_port()}"
        many = ["--connections", "1000000000"]
        quiet = {"stdout": subprocess.DEVNULL, "stderr": subprocess.DEVNULL}
        self.store = subprocess.Popen([program("swiftd"), "--token", "t", "--account", "a", *many], env={**os.environ, "SWIFTD_LISTEN": store}, **quiet)
        self.settings = {**os.environ, "S3GATE_KEYS": "examples/keys.txt", "S3GATE_LISTEN": f"127.0.0.1:{self.port}", "S3GATE_STORE": store, "S3GATE_ACCOUNT": "a", "S3GATE_TOKEN": "t"}
        self.quiet = quiet
        self.run(many)
        assert self.signed("PUT", "/pub", b"", "x-amz-acl: public-read").startswith(b"HTTP/1.1 200")
        assert self.signed("PUT", "/pub/small", SMALL).startswith(b"HTTP/1.1 200")
        assert not big or self.signed("PUT", "/pub/big", BIG).startswith(b"HTTP/1.1 200")
        if connections != 1_000_000_000 or descriptors or variables:
            self.gate.kill()
            self.gate.wait()
            self.settings.update(variables)
            self.run(["--connections", str(connections)], descriptors)

    def run(self, words, descriptors=None):
        limit = (lambda: resource.setrlimit(resource.RLIMIT_NOFILE, (descriptors, descriptors))) if descriptors else None
        self.gate = subprocess.Popen([program("s3gate"), "serve", *words], env=self.settings, preexec_fn=limit, **self.quiet)
        for _ in range(200):
            if self.holds_port():
                return
            time.sleep(0.05)
        sys.exit("s3gate doesn't listen")

    def holds_port(self):
        """Whether the port is listened at, without connecting, which would count as a client."""
        with open("/proc/net/tcp") as table:
            return any(f":{self.port:04X} 00000000:0000 0A" in line for line in table)

    def __enter__(self):
        return self

    def __exit__(self, *_):
        for it in (self.gate, self.store):
            it.kill()
            it.wait()

    def connect(self, room=None, timeout=60):
        it = socket.socket()
        if room:
            it.setsockopt(socket.SOL_SOCKET, socket.SO_RCVBUF, room)
        it.setsockopt(socket.IPPROTO_TCP, socket.TCP_NODELAY, 1)
        it.settimeout(timeout)
        it.connect(("127.0.0.1", self.port))
        return it

    def signed(self, method, path, body, *headers):
        head = "\r\n".join([f"{method} {path} HTTP/1.1", f"host: 127.0.0.1:{self.port}", *headers])
        lines = sign.signed(head, *sign.first_key(), datetime.datetime.now(datetime.timezone.utc))
        with self.connect(timeout=600) as it:
            it.sendall(lines.encode() + b"\r\nContent-Length: %d\r\n\r\n" % len(body) + body)
            return reply(it)

    def ask(self, timeout=60):
        """The milliseconds of one small GET on a connection of its own."""
        begun = time.perf_counter()
        with self.connect(timeout=timeout) as it:
            it.sendall(GET)
            got = reply(it)
        assert got.endswith(b"\r\n\r\n" + SMALL), got[:200]
        return 1e3 * (time.perf_counter() - begun)

    def use(self):
        """How many descriptors it has, and how many KiB of memory."""
        with open(f"/proc/{self.gate.pid}/status") as lines:
            memory = next(int(line.split()[1]) for line in lines if line.startswith("VmRSS"))
        return len(os.listdir(f"/proc/{self.gate.pid}/fd")), memory


def reply(it, head_only=False):
    """The next reply, with its body; what came of it where the connection ends before."""
    got = b""
    while b"\r\n\r\n" not in got:
        more = it.recv(1) if head_only else it.recv(65536)
        if not more:
            return got
        got += more
    head, _, body = got.partition(b"\r\n\r\n")
    size = next((int(line[15:]) for line in head.lower().split(b"\r\n") if line.startswith(b"content-length:")), 0)
    parts = [body]
    have = len(body)
    while have < size and not head_only:
        more = it.recv(1 << 20)
        if not more:
            break
        parts.append(more)
        have += len(more)
    return head + b"\r\n\r\n" + b"".join(parts)


def status(got):
    return got.split(b"\r\n")[0][9:12].decode() or "no reply"


def put(size, *headers, path="/pub/slow"):
    return "\r\n".join([f"PUT {path} HTTP/1.1", "Host: x", *headers, f"Content-Length: {size}", "", ""]).encode()


def at(times, share):
    return sorted(times)[min(len(times) - 1, int(len(times) * share))]


def part_kept():
    with Gate() as gate:
        lost = 0
        for _ in range(300):
            first, second = gate.connect(timeout=5), None
            try:
                first.sendall(GET)
                assert reply(first).endswith(SMALL)
                second = gate.connect(timeout=5)
                second.sendall(GET)
                first.sendall(GET)
                lost += not reply(first).endswith(SMALL)
                lost += not reply(second).endswith(SMALL)
            except OSError:
                lost += 1
            finally:
                first.close()
                if second:
                    second.close()
        tell(f"kept: of 300 requests on kept connections {lost} lost", lost == 0)


def part_silent():
    with Gate() as gate:
        gate.ask()
        for name, first in (("silent", b""), ("half a head", b"GET / HTT")):
            others = [gate.connect() for _ in range(20)]
            for it in others:
                it.sendall(first)
            time.sleep(0.1)
            took = [gate.ask() for _ in range(20)]
            tell(f"silent: beside 20 connections ({name}) {at(took, 0.5):.1f} ms, at most {max(took):.1f}", max(took) < 10)
            for it in others:
                it.close()


def part_slow_put():
    for headers in ((), ("Expect: 100-continue",)):
        with Gate() as gate, gate.connect() as slow:
            gate.ask()
            slow.sendall(put(8, *headers))
            interim = slow.recv(len(INTERIM)) if headers else b""
            time.sleep(0.1)

            def send():
                for _ in range(8):
                    slow.sendall(b"y")
                    time.sleep(0.5)

            thread = threading.Thread(target=send)
            thread.start()
            took = []
            while thread.is_alive():
                took.append(gate.ask())
                time.sleep(0.02)
            got = reply(slow)
            name = "with Expect" if headers else "without Expect"
            good = max(took) < 20 and status(got) == "403" and interim == (INTERIM if headers else b"")
            tell(f"slow-put: {name}, {len(took)} small GETs beside it {at(took, 0.5):.1f} ms, at most {max(took):.1f}; its own reply {status(got)}", good)


def part_slow_get():
    with Gate(big=True) as gate, gate.connect(room=65536) as slow:
        gate.ask()
        slow.sendall(b"GET /pub/big HTTP/1.1\r\nHost: x\r\n\r\n")
        got = bytearray()

        def take():
            end = time.time() + 5
            while time.time() < end:
                got.extend(slow.recv(65536))
                time.sleep(0.05)
            while more := slow.recv(1 << 20) if len(got) < len(BIG) + 100 else b"":
                got.extend(more)
                if bytes(got[:4096]).find(b"\r\n\r\n") + 4 + len(BIG) <= len(got):
                    break

        thread = threading.Thread(target=take)
        thread.start()
        time.sleep(0.5)
        took = [gate.ask() for _ in range(200)]
        thread.join()
        whole = bytes(got).partition(b"\r\n\r\n")[2] == BIG
        tell(f"slow-get: 200 small GETs beside it {at(took, 0.5):.1f} ms, at most {max(took):.1f}; it got its bytes: {whole}", whole and max(took) < 20)


class Zeros:
    """Bytes of an object that nobody holds: so many zeros, of which a slice is made when it is asked for."""

    def __init__(self, size):
        self.size = size

    def __len__(self):
        return self.size

    def __getitem__(self, place):
        return bytes(min(place.stop, self.size) - place.start)


def part_long_get():
    """An object of parts, by its tag and its ETag, whose bytes a store makes; one client takes it whole, slowly."""
    size, rate = LONG << 30, 128 << 20
    scripted = loaded("scripted_swift", "bench/scripted_swift.py")
    parts = -(-size // (16 << 20))
    tag = ("Content-Type", f"text/plain;s3={'0' * 32}-{parts}.1369353600.{'1' * 32}")
    readers = [("X-Container-Read", ".r:*,.rlistings"), ("X-Container-Meta-S3-Created", "1369353600")]
    small = [("Content-Type", f"text/plain;s3={hashlib.md5(SMALL).hexdigest()}.1369353600.-"), ("Etag", hashlib.md5(SMALL).hexdigest())]
    held = {b"long": ([tag, ("Etag", f'"{"2" * 32}"'), ("X-Static-Large-Object", "True")], Zeros(size)), b"small": (small, SMALL)}
    with scripted.Store(account={"pub": (readers, held)}) as store:
        gate = Gate.__new__(Gate)
        gate.port, gate.quiet, gate.store = free_port(), {"stdout": subprocess.DEVNULL, "stderr": subprocess.DEVNULL}, subprocess.Popen(["true"])
        gate.settings = {**os.environ, "S3GATE_KEYS": "examples/keys.txt", "S3GATE_LISTEN": f"127.0.0.1:{gate.port}", "S3GATE_STORE": store.text, "S3GATE_ACCOUNT": scripted.ACCOUNT, "S3GATE_TOKEN": scripted.TOKEN}
        gate.run(["--connections", "1000000000"])
        with gate, gate.connect(room=1 << 20) as slow:
            before = [gate.ask() for _ in range(20)]
            begun, got, first = time.perf_counter(), 0, []

            def take():
                nonlocal got
                room = bytearray(1 << 20)
                head = reply(slow, head_only=True)
                first.append(1e3 * (time.perf_counter() - begun))
                while head.startswith(b"HTTP/1.1 200") and got < size:
                    count = slow.recv_into(room)
                    if not count:
                        break
                    got += count
                    time.sleep(max(0, got / rate - (time.perf_counter() - begun)))

            slow.sendall(b"GET /pub/long HTTP/1.1\r\nHost: x\r\n\r\n")
            thread = threading.Thread(target=take)
            thread.start()
            time.sleep(0.2)
            took = []
            while thread.is_alive():
                took.append(gate.ask(timeout=3600))
            thread.join()
            seconds = time.perf_counter() - begun
            memory = gate.use()[1]
            tell(f"long-get: {got / 2**30:.1f} of {LONG} GiB in {seconds:.1f} s, its head after {first[0]:.1f} ms; {len(took)} small GETs beside it {at(took, 0.5):.1f} ms, at most {max(took):.0f} ({max(before):.1f} before); s3gate has {memory / 1024:.0f} MiB, {len(store.calls)} calls", got == size)


def part_order():
    with Gate() as gate:
        stop, others = threading.Event(), []

        def busy():
            while not stop.is_set():
                gate.ask()
                others.append(1)

        threads = [threading.Thread(target=busy) for _ in range(3)]
        for thread in threads:
            thread.start()
        bad, sent, end = 0, 0, time.time() + 3
        with gate.connect() as it:
            while time.time() < end:
                it.sendall(GET * 5 + GET[:8])
                it.sendall(GET[8:])
                sent += 6
                got = b""
                while got.count(SMALL) < 6:
                    more = it.recv(65536)
                    if not more:
                        break
                    got += more
                bad += got.count(b"HTTP/1.1 200") != 6
                if bad:
                    break
        stop.set()
        for thread in threads:
            thread.join()
        tell(f"order: {sent} requests sent ahead, each sixth in two pieces, beside {len(others)} others: {bad} rounds lost a reply", bad == 0)
        bad = 0
        for round in range(200):
            with gate.connect(timeout=3) as it:
                it.sendall(GET * (1 + round % 2))
                if round % 3 == 0:
                    time.sleep(0.0005)
                it.shutdown(socket.SHUT_WR)
                got = b""
                with contextlib.suppress(OSError):
                    while more := it.recv(4096):
                        got += more
                    bad -= 1
                bad += 1 if got.count(b"HTTP/1.1 200") == 1 + round % 2 else 2
        tell(f"order: 200 connections half-closed behind one or two requests: {bad} without all replies and the end", bad == 0)
        with gate.connect() as it:
            it.sendall(put(10) + b"abc")
            it.shutdown(socket.SHUT_WR)
            got = reply(it)
            tell(f"order: half-closed in a body: {status(got)} {got.partition(b'<Code>')[2].partition(b'<')[0].decode()}", b"IncompleteBody" in got)
        with gate.connect() as it:
            it.sendall(b"GET / HT")
            it.shutdown(socket.SHUT_WR)
            tell(f"order: half-closed in a head: {status(reply(it))}", True)
        with gate.connect() as it:
            it.sendall(put(99_999_999) + b"a" * 4_000_000)
            got = status(reply(it))
            tell(f"order: a body too large, 4 MB of it sent: {got}", got == "400")
        for name, text in (("a transfer coding", b"GET / HTTP/1.1\r\nHost: x\r\nTransfer-Encoding: chunked\r\n\r\n0\r\n\r\n"), ("no request", b"\xff\xff\r\n\r\n"), ("two lengths", b"PUT /pub/x HTTP/1.1\r\nHost: x\r\nContent-Length: 1\r\nContent-Length: 2\r\n\r\nab")):
            with gate.connect() as it:
                it.sendall(text)
                got = status(reply(it))
                tell(f"order: {name}: {got}, then the end: {it.recv(10) == b''}", got[0] in "45")
        with gate.connect() as it:
            it.sendall(put(3, "Expect: 100-continue"))
            interim = it.recv(100)
            it.sendall(b"abc")
            got = reply(it)
            tell(f"order: the interim answer comes once: {interim == INTERIM}, then {status(got)}", interim == INTERIM and status(got) == "403")
            it.sendall(put(3, "Expect: 100-continue") + b"abc")
            interim = reply(it, head_only=True)
            got = reply(it)
            tell(f"order: with its body at once: {status(interim)}, then {status(got)}", interim == INTERIM and status(got) == "403")


def part_limits():
    kinds = [("silent", b"", 2), ("half a head", b"GET / HT", 2), ("half a body", put(10) + b"abc", 2), ("kept after a reply", GET, 2), ("half a body, asked for", put(10, "Expect: 100-continue"), 2)]
    for beside in (False, True):
        with Gate(big=True, S3GATE_IDLE="2") as gate:
            stop = threading.Event()

            def busy():
                with gate.connect() as it:
                    while not stop.wait(0.01):
                        it.sendall(GET)
                        reply(it)

            thread = threading.Thread(target=busy)
            if beside:
                thread.start()
            where = "beside a busy client" if beside else "alone"
            for name, first, _ in kinds:
                with gate.connect(timeout=10) as it:
                    it.sendall(first)
                    if first == GET:
                        reply(it)
                    elif first.startswith(put(10, "Expect: 100-continue")[:40]) and b"Expect" in first:
                        it.recv(len(INTERIM))
                    begun = time.time()
                    with contextlib.suppress(OSError):
                        while it.recv(4096):
                            pass
                    took = time.time() - begun
                    tell(f"limits: {name}, {where}: ends after {took:.1f} s", 1.5 < took < 3.5)
            with gate.connect(timeout=10) as it:
                begun = time.time()
                with contextlib.suppress(OSError):
                    for byte in b"GET / HTTP/1.1\r\n":
                        it.sendall(bytes([byte]))
                        time.sleep(0.5)
                took = time.time() - begun
                tell(f"limits: a head of a byte each half second, {where}: ends after {took:.1f} s", took < 4.5)
            with gate.connect(room=65536, timeout=10) as it:
                it.sendall(b"GET /pub/big HTTP/1.1\r\nHost: x\r\n\r\n")
                time.sleep(5)
                got = 0
                with contextlib.suppress(OSError):
                    while more := it.recv(1 << 20):
                        got += len(more)
                tell(f"limits: takes nothing for 5 s, {where}: then {got} bytes of {len(BIG)} and the end", got < len(BIG))
            stop.set()
            if beside:
                thread.join()


def part_ahead():
    with Gate(big=True, S3GATE_AHEAD="1") as gate:
        slow = [gate.connect() for _ in range(5)]
        for it in slow:
            it.sendall(put(600_000) + b"x" * 590_000)
        time.sleep(0.5)
        _, memory = gate.use()
        took = []
        thread = threading.Thread(target=lambda: took.append(gate.ask()))
        thread.start()
        time.sleep(0.5)
        for it in slow:
            it.sendall(b"x" * 10_000)
        got = [status(reply(it)) for it in slow]
        thread.join()
        tell(f"ahead: 5 uploads of 600 KB past 1 MiB: {' '.join(got)}; a small GET meanwhile {took[0]:.0f} ms; {memory} KiB", got == ["403"] * 5)
        readers = [gate.connect(room=65536) for _ in range(3)]
        for it in readers:
            it.sendall(b"GET /pub/big HTTP/1.1\r\nHost: x\r\n\r\n")
        whole = []
        threads = [threading.Thread(target=lambda it=it: whole.append(reply(it).endswith(BIG))) for it in readers]
        for thread in threads:
            thread.start()
        for thread in threads:
            thread.join()
        tell(f"ahead: 3 readers of a big object past 1 MiB: {sum(whole)} got all; then a small GET {gate.ask():.1f} ms", sum(whole) == 3)


def reset(it):
    it.setsockopt(socket.SOL_SOCKET, socket.SO_LINGER, b"\1\0\0\0\0\0\0\0")
    it.close()


def part_gone():
    with Gate(big=True) as gate:
        states = [("nothing sent", b"", False), ("half a head", b"GET / HT", False), ("half a body", put(5000) + b"abc", False), ("half a body, asked for", put(5000, "Expect: 100-continue"), False), ("a request sent", GET, False), ("a large reply on its way", b"GET /pub/big HTTP/1.1\r\nHost: x\r\n\r\n", True), ("a transfer coding", b"PUT /pub/x HTTP/1.1\r\nHost: x\r\nTransfer-Encoding: chunked\r\n\r\n5\r\nab", False), ("a refused body", put(99_999_999) + b"a" * 100_000, False)]
        gate.ask()
        time.sleep(1)
        before = gate.use()
        for name, first, waits in states:
            for end in (socket.socket.close, reset):
                for _ in range(20):
                    it = gate.connect(room=65536)
                    it.sendall(first)
                    if waits:
                        it.recv(1000)
                    end(it)
            took = gate.ask()
            time.sleep(1)
            count, memory = gate.use()
            tell(f"gone: {name}: then a small GET {took:.1f} ms; {count} descriptors, {memory} KiB", count == before[0])
        tell(f"gone: before {before[0]} descriptors, {before[1]} KiB", gate.gate.poll() is None)


def part_churn():
    with Gate() as gate:
        gate.ask()
        time.sleep(1)
        begun = gate.use()
        tell(f"churn: at first {begun[0]} descriptors, {begun[1]} KiB")
        memory = []
        for round in range(5):
            held = []
            for count in range(2000):
                it = gate.connect()
                kind = count % 5
                if kind == 1:
                    it.sendall(b"GET / HT")
                elif kind == 2:
                    it.sendall(put(5000) + b"abc")
                elif kind >= 3:
                    it.sendall(GET)
                    if kind == 4:
                        reply(it)
                held.append(it)
                if len(held) >= 400:
                    for it in held[:200]:
                        (reset if count % 2 else socket.socket.close)(it)
                    held = held[200:]
            middle = gate.use()
            for it in held:
                it.close()
            time.sleep(0.7)
            count, now = gate.use()
            memory.append(now)
            tell(f"churn: after {2000 * (round + 1)} connections {middle[0]} descriptors, {middle[1]} KiB; closed {count}, {now} KiB; a small GET {gate.ask():.1f} ms", count == begun[0])
        tell(f"churn: memory from the second round to the last {memory[1]} to {memory[-1]} KiB", memory[-1] <= memory[1] * 1.1)


def part_places():
    with Gate() as gate:
        others = [gate.connect() for _ in range(1100)]
        first, then = gate.ask(), gate.ask()
        tell(f"places: 1100 silent connections: {gate.use()[0]} descriptors; a small GET {first:.0f} ms, the next {then:.0f} ms", first < 5000)
        for it in others:
            it.close()
    for count in (8, 16, 40, 64):
        with Gate(descriptors=count) as gate:
            others = [gate.connect() for _ in range(60)]
            took = gate.ask()
            tell(f"places: 60 silent connections with {count} descriptors: a small GET {took:.0f} ms", gate.gate.poll() is None)
            for it in others:
                it.close()


def part_finish():
    with Gate(big=True, connections=2) as gate:
        with gate.connect() as first, gate.connect(room=65536) as slow:
            first.sendall(GET)
            assert reply(first).endswith(SMALL)
            slow.sendall(b"GET /pub/big HTTP/1.1\r\nHost: x\r\n\r\n")
            time.sleep(0.5)
            with contextlib.suppress(OSError):
                third = gate.connect(timeout=5)
                third.sendall(GET)
            got = 0
            while more := slow.recv(1 << 18):
                got += len(more)
                time.sleep(0.002)
        code = gate.gate.wait(20)
        tell(f"finish: {got} bytes of the last reply, {len(BIG)} in its body, then status {code}", got > len(BIG) and code == 0)


def boto_client(place):
    import boto3
    from botocore.config import Config

    name, secret = sign.first_key()
    config = Config(s3={"addressing_style": "path"}, request_checksum_calculation="when_required", response_checksum_validation="when_required", retries={"total_max_attempts": 1}, read_timeout=60)
    return boto3.client("s3", endpoint_url=f"http://{place}", region_name="us-east-1", aws_access_key_id=name, aws_secret_access_key=secret, config=config)


def boto_work(place, number, ready, seconds, results):
    s3, times, lost, count = boto_client(place), [], 0, 0
    s3.list_buckets()
    ready.wait()
    start = time.time()
    while time.time() < start + seconds:
        key, count = f"c{number}/k{count % 20}", count + 1
        for call in (lambda: s3.put_object(Bucket="work", Key=key, Body=b"x" * 1024), lambda: s3.get_object(Bucket="work", Key=key)["Body"].read(), lambda: s3.head_object(Bucket="work", Key=key), lambda: s3.list_objects_v2(Bucket="work", Prefix=f"c{number}/", MaxKeys=10)):
            begun = time.perf_counter()
            try:
                call()
            except Exception:
                lost += 1
            times.append(1e3 * (time.perf_counter() - begun))
    results.put((times, lost))


def boto_run(name, place, number):
    results, ready = multiprocessing.Queue(), multiprocessing.Barrier(number)
    workers = [multiprocessing.Process(target=boto_work, args=(place, it, ready, SECONDS, results)) for it in range(number)]
    for it in workers:
        it.start()
    got = [results.get() for _ in workers]
    for it in workers:
        it.join()
    times, lost = [it for these, _ in got for it in these], sum(it for _, it in got)
    tell(f"boto3: {number} clients {name}: {len(times) / SECONDS:.0f} a second, {at(times, 0.5):.1f} ms at the middle, {at(times, 0.99):.1f} at 99 of 100, {max(times):.0f} at most; {lost} lost", lost == 0)


@contextlib.contextmanager
def nginx(gate):
    """The address of an nginx before the gateway, with the relevant lines of examples/nginx.conf."""
    with tempfile.TemporaryDirectory() as folder:
        port = free_port()
        with open(f"{folder}/nginx.conf", "w") as text:
            text.write(f"""daemon off; worker_processes 2; pid {folder}/pid; error_log {folder}/error.log;
events {{ worker_connections 1024; }}
http {{ access_log off; client_body_temp_path {folder}/b; proxy_temp_path {folder}/p; fastcgi_temp_path {folder}/f; uwsgi_temp_path {folder}/u; scgi_temp_path {folder}/s;
  server {{ listen 127.0.0.1:{port}; client_max_body_size 17m; client_body_buffer_size 17m; merge_slashes off;
    location / {{ proxy_pass http://127.0.0.1:{gate.port}; proxy_http_version 1.1; proxy_set_header Host $http_host; proxy_set_header Connection close; proxy_set_header Expect ""; proxy_next_upstream off; }} }} }}
""")
        with subprocess.Popen(["nginx", "-p", folder, "-c", f"{folder}/nginx.conf"], stderr=subprocess.DEVNULL) as front:
            time.sleep(0.5)
            try:
                yield f"127.0.0.1:{port}"
            finally:
                front.terminate()


def part_boto3():
    if importlib.util.find_spec("boto3") is None:
        return tell("boto3: it isn't installed")
    for number in (2, 8, 32):
        with Gate() as gate:
            assert gate.signed("PUT", "/work", b"").startswith(b"HTTP/1.1 200")
            place = f"127.0.0.1:{gate.port}"
            for _ in range(2):
                boto_run("directly", place, number)
                if shutil.which("nginx"):
                    with nginx(gate) as front:
                        boto_run("through nginx", front, number)


class Probes:
    """A small GET on a connection of its own each half second, until the end."""

    def __init__(self, gate):
        self.gate, self.took, self.lost, self.threads, self.ended = gate, [], 0, [], threading.Event()
        self.main = threading.Thread(target=self.begin)
        self.main.start()

    def begin(self):
        while not self.ended.wait(0.5):
            self.threads.append(threading.Thread(target=self.ask))
            self.threads[-1].start()

    def ask(self):
        try:
            self.took.append(self.gate.ask(timeout=120) / 1e3)
        except (OSError, AssertionError):
            self.lost += 1

    def end(self, most):
        """The longest wait may be so many seconds."""
        self.ended.set()
        self.main.join()
        for it in self.threads:
            it.join()
        return f"{len(self.took)} small GETs {at(self.took, 0.5):.3f} s, at most {max(self.took):.1f}", max(self.took) < most and not self.lost


def fill(it, data, quiet):
    """Sends what goes, until nothing has gone for so many seconds."""
    it.setblocking(False)
    sent, last = 0, time.time()
    while sent < len(data) and time.time() < last + quiet:
        try:
            sent += it.send(data[sent : sent + (1 << 20)])
            last = time.time()
        except BlockingIOError:
            time.sleep(0.002)


def drip(clients, seconds, step):
    """A step for each client each three seconds, for so long."""
    for _ in range(int(seconds / 3)):
        time.sleep(3)
        for it in clients:
            with contextlib.suppress(OSError):
                step(it)


def part_floor():
    for name, count, sent, quiet, seconds, drips, most in (
        ("3 drip behind 15 MiB of a body", 3, 15 << 20, 1, 12, True, 0.5),
        ("30 stop behind 1 MiB of 16", 30, 1 << 20, 0.1, 12, False, 0.5),
        ("5 drip behind 15 MiB of a body", 5, 15 << 20, 1, 24, True, 5.5),
        ("300 stop behind 1 MiB of 16", 300, 1 << 20, 0.1, 36, False, 5.5),
        ("70 drip behind 1 MiB of 16", 70, 1 << 20, 0.1, 36, True, 5.5),
    ):
        with Gate() as gate:
            gate.ask()
            slow = [gate.connect() for _ in range(count)]
            for it in slow:
                fill(it, put(len(BIG)) + BIG[:sent], quiet)
            probes = Probes(gate)
            drip(slow, seconds, (lambda it: it.send(b"z")) if drips else (lambda it: None))
            tell("floor: {0}: {1[0]}".format(name, told := probes.end(most)), told[1])
            for it in slow:
                it.close()
    for name, count, variables, most in (("a reader of 16 MiB past 1 MiB drips", 1, {"S3GATE_AHEAD": "1"}, 6), ("2 readers of them drip", 2, {"S3GATE_AHEAD": "1"}, 7.5), ("8 readers of 16 MiB drip", 8, {}, 10)):
        with Gate(big=True, **variables) as gate:
            gate.ask()
            slow = [gate.connect(room=4096) for _ in range(count)]
            for it in slow:
                it.sendall(b"GET /pub/big HTTP/1.1\r\nHost: x\r\n\r\n")
                it.setblocking(False)
            time.sleep(1)
            probes = Probes(gate)
            drip(slow, 24, lambda it: it.recv(4096))
            tell("floor: {0}: {1[0]}".format(name, told := probes.end(most)), told[1])
            for it in slow:
                it.close()
    with Gate() as gate:
        probes, begun, got = Probes(gate), time.time(), []

        def upload():
            for _ in range(3):
                with gate.connect(timeout=300) as it:
                    it.sendall(put(len(BIG)) + BIG)
                    got.append(status(reply(it)))

        threads = [threading.Thread(target=upload) for _ in range(16)]
        for thread in threads:
            thread.start()
        for thread in threads:
            thread.join()
        took, told = time.time() - begun, probes.end(5.5)
        tell(f"floor: 16 uploaders of 3 times {len(BIG) >> 20} MiB: all after {took:.1f} s; {told[0]}", got == ["403"] * 48 and took < 30)
    for rate, beside, size, stays in ((400, True, 6, True), (200, False, 3, True), (50, True, 5, False)):
        with Gate(S3GATE_AHEAD="1") as gate, gate.connect() as slow:
            gate.ask()
            probes, begun, got, sent = Probes(gate) if beside else None, time.time(), b"", 0
            data = put(size << 20) + bytes(size << 20)
            try:
                while sent < len(data):
                    slow.sendall(data[sent : sent + rate * 51])
                    sent += rate * 51
                    time.sleep(max(0, sent / rate / 1024 - (time.time() - begun)))
                got = reply(slow)
            except OSError:
                pass
            took = time.time() - begun
            told = probes.end(60)[0] if probes else "alone"
            tell(f"floor: an upload of {size} MiB past 1 MiB, {rate} KiB a second: {status(got)} after {took:.1f} s; {told}", (status(got) == "403") == stays)


def send_ahead(port, ready, ended):
    """Sends 1,000 requests ahead, reads their replies, and begins again."""
    with socket.socket() as it:
        it.connect(("127.0.0.1", port))
        it.settimeout(60)
        it.sendall(GET)
        due = len(reply(it))
        ready.wait()
        while not ended.is_set():
            sender = threading.Thread(target=it.sendall, args=(GET * 1000,))
            sender.start()
            left = due * 1000
            while left > 0:
                left -= len(it.recv(min(left, 1 << 20)))
            sender.join()


def part_turns():
    if importlib.util.find_spec("boto3") is None:
        return tell("turns: boto3 isn't installed")
    for number in (2, 8, 32, 64):
        with Gate() as gate:
            assert gate.signed("PUT", "/work", b"").startswith(b"HTTP/1.1 200")
            place, rows = f"127.0.0.1:{gate.port}", []
            for others, beside in ((1, False), (number - 1, True)):
                results, ready, ended = multiprocessing.Queue(), multiprocessing.Barrier(others + beside), multiprocessing.Event()
                workers = [multiprocessing.Process(target=boto_work, args=(place, it, ready, SECONDS, results)) for it in range(others)]
                if beside:
                    workers.append(multiprocessing.Process(target=send_ahead, args=(gate.port, ready, ended)))
                for it in workers:
                    it.start()
                got = [results.get() for _ in range(others)]
                ended.set()
                for it in workers:
                    it.join()
                rows.append(([one for these, _ in got for one in these], sum(lost for _, lost in got)))
            (alone, _), (times, lost) = rows
            most = number * max(alone)
            tell(f"turns: {number} clients, one of them 1,000 requests ahead: the others wait {at(times, 0.5):.1f} ms at the middle, {max(times):.0f} at most; one alone {at(alone, 0.5):.1f}, {max(alone):.0f} at most, so one of each {most:.0f} at most; {lost} lost", lost == 0 and max(times) < most)


def main(words):
    global FOLDER, SECONDS, BIG, LONG
    parts = {name[5:].replace("_", "-"): part for name, part in globals().items() if name.startswith("part_")}
    while words and words[0] in ("--folder", "--seconds", "--big", "--long"):
        if words[0] == "--folder":
            FOLDER = words[1]
        elif words[0] == "--seconds":
            SECONDS = float(words[1])
        elif words[0] == "--long":
            LONG = int(words[1])
        else:
            BIG = b"z" * (int(words[1]) << 20)
        words = words[2:]
    if not set(words) <= set(parts):
        sys.exit(__doc__)
    load = " ".join(f"{it:.1f}" for it in os.getloadavg())
    print(f"{datetime.datetime.now(datetime.timezone.utc):%Y-%m-%d %H:%M} UTC, {os.cpu_count()} processors, load {load}")
    for name in words or parts:
        parts[name]()
    if BAD:
        sys.exit(f"{len(BAD)} of these went otherwise")


if __name__ == "__main__":
    main(sys.argv[1:])
