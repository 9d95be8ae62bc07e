"""A Swift store of one account in memory, on the loopback interface, that does to each call what a script says: it answers
otherwise, loses the request or its answer, closes early, is silent. What the script doesn't name is answered as Object
Storage API v1 says. Only Python's own libraries are used.

    Store({2: lose_answer})             the answer of the second call is lost
    Store([answer(204), answer(404)])   these two answers, whatever is asked, and none to a further call
    Store(spell=quoted)                 answers are spelled by another function than `plain`
    Store(info={"/info": answer(200)})  what is done to a question that a gateway asks before it serves

Such a question, for `/info` or for the head of the account, is no call: it isn't counted, and neither is its connection. Without
another word it is answered as a proxy does that has all that is asked for.
"""
import contextlib
import fcntl
import hashlib
import json
import socket
import struct
import termios
import threading
import time
from urllib.parse import parse_qs, unquote, unquote_to_bytes

ACCOUNT, TOKEN = "acct", "token"

# The longest time for which a connection is kept without a word, in seconds.
PATIENCE = 30

PHRASES = {200: "OK", 201: "Created", 202: "Accepted", 204: "No Content", 206: "Partial Content", 400: "Bad Request", 401: "Unauthorized", 404: "Not Found", 409: "Conflict", 416: "Range Not Satisfiable"}


class Call:
    """One request as it came: its head, its body, and the number of its connection."""

    def __init__(self, head, body, connection):
        self.raw, self.body, self.connection = head + b"\r\n\r\n" + body, body, connection
        lines = head.decode("latin-1").split("\r\n")
        self.method, self.target, _ = lines[0].split(" ")
        self.headers = {name.lower(): value.strip() for name, _, value in (line.partition(":") for line in lines[1:])}
        path, _, query = self.target.partition("?")
        pieces = path.split("/", 4)[1:]
        self.account = pieces[1] if len(pieces) > 1 else ""
        self.container = unquote(pieces[2]) if len(pieces) > 2 else None
        self.name = unquote_to_bytes(pieces[3]) if len(pieces) > 3 else None
        self.query = {name: values[0] for name, values in parse_qs(query, keep_blank_values=True).items()}

    def __str__(self):
        return f"{self.method} {self.target}"

    def is_question(self):
        """Whether it only asks whether the store is fit and has the account."""
        return self.target == "/info" or (self.method == "HEAD" and self.container is None)


def http(status, headers=(), body=b"", length=None):
    """The bytes of an answer. Its Content-Length is that of the body, unless it is given or is False."""
    lines = [f"HTTP/1.1 {status} {PHRASES.get(status, 'Other')}"] + [f"{name}: {value}" for name, value in headers]
    if length is not False:
        lines.append(f"Content-Length: {len(body) if length is None else length}")
    return ("\r\n".join(lines) + "\r\n\r\n").encode("latin-1") + body


def plain(call, status, headers, body):
    """The bytes of an answer to the call. One to HEAD has the length of the body, and not the body."""
    if call.method == "HEAD":
        return http(status, headers, length=len(body))
    return http(status, headers, body)


# What a script does to a call: each function is given the store, the call and the stream, and answers whether the connection stays.


def answer(status, headers=(), body=b"", length=None):
    return raw(http(status, headers, body, length))


def raw(*pieces, ends=False, pause=0):
    """These bytes, with a pause in seconds before each but the first; the connection ends behind them, or stays."""

    def act(store, _call, stream):
        for at, piece in enumerate(pieces):
            if at:
                store.over.wait(pause)
            stream.sendall(piece)
        return not ends

    return act


def ordinary(store, call, stream):
    stream.sendall(store.spell(call, *store.apply(call)))
    return True


# What a proxy tells of itself that has what is wanted.
INFO = {"swift": {"version": "2.30.0", "max_file_size": 5368709122}, "slo": {"max_manifest_segments": 1000, "min_segment_size": 1}}


def tell(_store, call, stream, info=INFO):
    """What a proxy tells of itself, or that the account is there."""
    body = json.dumps(info).encode()
    stream.sendall(http(200, [("Content-Type", "application/json; charset=UTF-8")], body) if call.target == "/info" else http(204, [("X-Account-Container-Count", "0")], length=0))
    return True


def arrived(store, stream):
    """Waits until the client's system has all that was sent, the end too: on a busy machine that takes a while."""
    while struct.unpack("i", fcntl.ioctl(stream, termios.TIOCOUTQ, bytes(4)))[0] and not store.over.is_set():
        time.sleep(0.001)


def ordinary_and_closed(store, call, stream):
    """The store says nothing of it beforehand. The end is said by a shutdown: a program that another thread is about to start shares
    the connection until it begins, so that closing it here doesn't end it yet."""
    ordinary(store, call, stream)
    stream.shutdown(socket.SHUT_WR)
    arrived(store, stream)
    return False


def unasked(store, call, stream):
    """The answer, and a while later bytes that nobody asked for."""
    ordinary(store, call, stream)
    store.over.wait(0.3)
    stream.sendall(http(200, body=b"[]"))
    arrived(store, stream)
    store.said_more.set()
    return True


def lose_request(_store, _call, _stream):
    return False


def lose_answer(store, call, _stream):
    store.apply(call)
    return False


def cut_answer(count):
    """The answer without its last bytes, and the end."""

    def act(store, call, stream):
        stream.sendall(store.spell(call, *store.apply(call))[:-count])
        return False

    return act


def silent(store, call, stream):
    """Nothing, until the client ends the connection."""
    with contextlib.suppress(OSError):
        while not store.over.is_set() and stream.recv(65536):
            pass
    return False


class Store:
    """The store serves until `close`, at a free place of its own unless one is given. `calls` are those that came, in their order."""

    def __init__(self, script=None, spell=plain, account=None, place=("127.0.0.1", 0), info=None):
        self.script, self.spell, self.info = script or {}, spell, info or {}
        self.account = {} if account is None else account
        self.calls, self.unread, self.connections = [], [], 0
        self.lock, self.over, self.said_more, self.streams = threading.Lock(), threading.Event(), threading.Event(), set()
        self.listener = socket.create_server(place, backlog=64)
        self.place = self.listener.getsockname()
        self.text = "%s:%d" % self.place
        threading.Thread(target=self.accept, daemon=True).start()

    def __enter__(self):
        return self

    def __exit__(self, *_):
        self.close()

    def close(self):
        """Nobody listens any more, and each connection is reset or ended."""
        self.over.set()
        with contextlib.suppress(OSError):
            self.listener.shutdown(socket.SHUT_RDWR)
        self.listener.close()
        with self.lock:
            streams = list(self.streams)
        for stream in streams:
            with contextlib.suppress(OSError):
                stream.shutdown(socket.SHUT_RDWR)

    def begin(self, script):
        """Another script, whose calls count from 1."""
        with self.lock:
            self.script, self.calls = script, []

    def accept(self):
        with contextlib.suppress(OSError):
            while True:
                stream, _ = self.listener.accept()
                with self.lock:
                    self.connections += 1
                    self.streams.add(stream)
                    number = self.connections
                threading.Thread(target=self.serve, args=(stream, number), daemon=True).start()

    def serve(self, stream, number):
        stream.settimeout(PATIENCE)
        with contextlib.suppress(OSError), stream:
            kept, counted = b"", True
            while not self.over.is_set():
                head, body, kept = read_request(stream, kept)
                if head is None:
                    break
                with self.lock:
                    call = Call(head, body, number)
                    if call.is_question():
                        self.connections, counted = self.connections - counted, False
                        act = self.info.get("/info" if call.target == "/info" else "account", tell)
                    else:
                        self.calls.append(call)
                        act = self.act(len(self.calls))
                if not act(self, call, stream):
                    break
        with self.lock:
            self.streams.discard(stream)

    def act(self, number):
        if isinstance(self.script, dict):
            return self.script.get(number, ordinary)
        return self.script[number - 1] if number <= len(self.script) else lose_request

    def apply(self, call):
        """Does the call to the account; gives status, headers and body."""
        with self.lock:
            if call.headers.get("x-auth-token") != TOKEN or call.account != ACCOUNT:
                return 401, [], b""
            if call.container is None:
                return self.list_containers(call)
            if call.name is None:
                return self.do_container(call)
            return self.do_object(call)

    def list_containers(self, call):
        names = sorted(name for name in self.account if name > call.query.get("marker", ""))
        items = [{"name": name, "count": 0, "bytes": 0} for name in names[: int(call.query["limit"])]]
        return listed(items)

    def do_container(self, call):
        found = self.account.get(call.container)
        if call.method == "PUT":
            self.account[call.container] = (kept(call, "x-container-"), found[1] if found else {})
            return (202 if found else 201), [], b""
        if found is None:
            return 404, [], b""
        headers, objects = found
        if call.method == "HEAD":
            return 204, headers, b""
        if call.method == "POST":
            rest = [it for it in headers if it[0].lower() != "x-container-read"]
            self.account[call.container] = (kept(call, "x-container-") + rest, objects)
            return 204, [], b""
        if call.method == "DELETE":
            if not objects:
                del self.account[call.container]
            return (409 if objects else 204), [], b""
        return self.list_names(call, objects)

    def list_names(self, call, objects):
        marker, prefix = call.query.get("marker", "").encode(), call.query.get("prefix", "").encode()
        names = sorted(name for name in objects if name > marker and name.startswith(prefix))
        items = [named(name, *objects[name]) for name in names[: int(call.query["limit"])]]
        return listed(items)

    def do_object(self, call):
        found = self.account.get(call.container)
        if found is None or (call.method != "PUT" and call.name not in found[1]):
            return 404, [], b""
        objects = found[1]
        if call.method == "PUT" and call.query.get("multipart-manifest") == "put":
            return self.put_manifest(call, objects)
        if call.method == "PUT":
            etag = ("Etag", hashlib.md5(call.body).hexdigest())
            objects[call.name] = ([("Content-Type", call.headers["content-type"]), etag] + kept(call, "x-object-meta-"), call.body)
            return 201, [etag], b""
        if call.method == "DELETE":
            del objects[call.name]
            return 204, [], b""
        headers, body = objects[call.name]
        if isinstance(body, Segments) and call.query.get("multipart-manifest") == "get":
            return self.get_manifest(body)
        if isinstance(body, Segments):
            body = b"".join(self.account[container][1].get(name, (None, b""))[1] for container, name in body.places)
        if "range" not in call.headers:
            return 200, headers, body
        first, _, last = call.headers["range"].removeprefix("bytes=").partition("-")
        part = body[int(first) : int(last) + 1]
        return 206, headers + [("Content-Range", f"bytes {first}-{int(first) + len(part) - 1}/{len(body)}")], part

    def get_manifest(self, segments):
        """The list of a static large object, by what its segments are now."""
        found = [(container, name, *self.account[container][1][name]) for container, name in segments.places]
        items = [{**named(name, headers, body), "name": f"/{container}/{name.decode()}"} for container, name, headers, body in found]
        text = json.dumps(items).encode()
        return 200, [("Content-Type", "application/json; charset=utf-8"), ("Etag", hashlib.md5(text).hexdigest()), ("X-Static-Large-Object", "True")], text

    def put_manifest(self, call, objects):
        """A static large object, of segments that are there as they are listed."""
        entries = [(*it["path"].lstrip("/").split("/", 1), it["etag"], it["size_bytes"]) for it in json.loads(call.body)]
        for container, name, etag, size in entries:
            headers, body = self.account.get(container, (None, {}))[1].get(name.encode(), ([], b""))
            if not size or len(body) != size or dict(headers).get("Etag") != etag:
                return 400, [], b""
        etag = ("Etag", '"%s"' % hashlib.md5("".join(it[2] for it in entries).encode()).hexdigest())
        headers = [("Content-Type", call.headers["content-type"]), etag, ("X-Static-Large-Object", "True")] + kept(call, "x-object-meta-")
        objects[call.name] = (headers, Segments([(container, name.encode()) for container, name, _, _ in entries], sum(it[3] for it in entries)))
        return (201, [etag], b"") if entries else (400, [], b"")


class Segments:
    """What a static large object has for its bytes: where they are, and how many."""

    def __init__(self, places, size):
        self.places, self.size = places, size

    def __len__(self):
        return self.size


def listed(items):
    return 200, [("Content-Type", "application/json; charset=utf-8")], json.dumps(items).encode()


def named(name, headers, body):
    fields = dict(headers)
    return {"name": name.decode(), "hash": fields["Etag"], "bytes": len(body), "content_type": fields["Content-Type"], "last_modified": "2026-01-02T03:04:05.678900"}


def kept(call, prefix):
    """The headers of the call that are kept and given again."""
    return [(name, value) for name, value in call.headers.items() if name.startswith(prefix)]


def read_request(stream, kept_bytes):
    """The head and the body of the next request, and what came behind it; no head at the end of the connection."""
    data = kept_bytes
    while b"\r\n\r\n" not in data:
        more = stream.recv(65536)
        if not more:
            return None, b"", b""
        data += more
    head, _, rest = data.partition(b"\r\n\r\n")
    size = 0
    for line in head.split(b"\r\n")[1:]:
        name, _, value = line.partition(b":")
        if name.lower() == b"content-length":
            size = int(value)
    rest = bytearray(rest)
    while len(rest) < size:
        more = stream.recv(1 << 20)
        if not more:
            return None, b"", b""
        rest += more
    return head, bytes(rest[:size]), bytes(rest[size:])
