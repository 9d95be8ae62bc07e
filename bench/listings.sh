#!/usr/bin/env bash
# What a listing of 1,000 keys takes out of 1,000, 10,000 and 100,000, by `s3gate serve` over `swiftd` and by the store alone, and
# the processor that s3gate takes of it; by how many calls so many keys under one prefix are listed as that prefix; what requests
# on uploads take that make a call for each upload or part, for 100 of them and for 1,000; and what an object of 1,000 and of 10,000
# parts of one byte takes, from its upload to its copy, with the most memory that both programs had.
#
#   bench/listings.sh [FOLDER] [ROUNDS]
#
# FOLDER has the programs s3gate and swiftd; without it those of crates/*/out are taken (README.md, "Run it"). Each listing is
# asked for 20 times unless told otherwise. The keys, records and parts are put by plain Swift calls, as the gateway puts them
# (docs/PROFILE.md). Only Python's own libraries are used.
set -euo pipefail
cd "$(dirname "$0")/.."
exec python3 - "$@" <<'PYTHON'
import contextlib, datetime, hashlib, http.client, importlib.util, json, os, socket, subprocess, sys, tempfile, time

sys.dont_write_bytecode = True
spec = importlib.util.spec_from_file_location("sign", "examples/sign.py")
sign = importlib.util.module_from_spec(spec)
spec.loader.exec_module(sign)

FOLDER = sys.argv[1] if len(sys.argv) > 1 else None
ROUNDS = int(sys.argv[2]) if len(sys.argv) > 2 else 20
TOKEN, ACCOUNT = "benchtoken", "bench"
KEY = sign.first_key()
EMPTY = hashlib.md5(b"").hexdigest()


def program(name):
    path = os.path.abspath(f"{FOLDER}/{name}" if FOLDER else f"crates/{name}/out/{name}")
    if not os.access(path, os.X_OK):
        sys.exit(f"no program {path}: run (cd crates/{name} && rt run) first, or name a folder")
    return path


def free_place():
    with socket.create_server(("127.0.0.1", 0)) as it:
        return "127.0.0.1:%d" % it.getsockname()[1]


@contextlib.contextmanager
def started(words, place, report=subprocess.DEVNULL, **variables):
    with subprocess.Popen(words, env={**os.environ, **variables}, stdout=subprocess.DEVNULL, stderr=report) as process:
        host, _, port = place.rpartition(":")
        for _ in range(200):
            with contextlib.suppress(ConnectionRefusedError), socket.create_connection((host, int(port))):
                break
            time.sleep(0.05)
        try:
            yield process
        finally:
            process.kill()


def swift(client, method, path, headers=(), body=b""):
    client.request(method, f"/v1/{ACCOUNT}{path}", body, {"X-Auth-Token": TOKEN, "Content-Length": str(len(body)), **dict(headers)})
    answer = client.getresponse()
    return answer.status, answer.read()


def s3(client, place, method, path, body=b"", **headers):
    given = "".join(f"\r\n{name.replace('_', '-')}: {value}" for name, value in headers.items())
    lines = sign.signed(f"{method} {path} HTTP/1.1\r\nhost: {place}{given}", *KEY, datetime.datetime.now(datetime.timezone.utc)).split("\r\n")[1:]
    client.request(method, path, body, {**dict(line.split(": ", 1) for line in lines), "Content-Length": str(len(body))})
    answer = client.getresponse()
    return answer.status, answer.read()


def busy(process):
    """The milliseconds of processor that a process of one thread took so far."""
    with open(f"/proc/{process.pid}/schedstat", encoding="ascii") as it:
        return int(it.read().split()[0]) / 1e6


def middle(ask, rounds=ROUNDS):
    times = []
    for _ in range(rounds):
        begun = time.perf_counter()
        status, body = ask()
        times.append(time.perf_counter() - begun)
        if status not in (200, 204, 206):
            sys.exit(f"a request is answered {status}: {body[:300]}")
    return sorted(times)[rounds // 2] * 1000, body


def put_uploads(client, bucket, uploads):
    """A bucket with so many open uploads, by their ids, and of each so many parts."""
    for side in ("", "%2Buploads", "%2Bsegments"):
        created = {"X-Container-Meta-S3-Created": "1369353600"} if not side else {}
        swift(client, "PUT", f"/{bucket}{side}", {"X-Container-Read": "", **created}.items())
    for id_, parts in uploads.items():
        text = json.dumps({"at": 1369353600, "key": f"v{id_}", "meta": [], "state": "open", "type": "binary/octet-stream", "v": 1}, separators=(",", ":")).encode()
        calls = [(f"%2Buploads/{id_}", "application/json", text)]
        calls += [(f"%2Bsegments/{id_}/{number:05}", f"application/octet-stream;s3={EMPTY}.1369353600.{id_}", b"") for number in range(1, parts + 1)]
        for name, kind, body in calls:
            status, body = swift(client, "PUT", f"/{bucket}{name}", {"Content-Type": kind}.items(), body)
            if status != 201:
                sys.exit(f"a PUT is answered {status}: {body}")


def prefix_row(client, s3gate, store, gate, many, number, kind):
    """A bucket with so many keys under one prefix, one before them and one behind: the calls of its listing with a delimiter, and the milliseconds."""
    bucket = f"one{number}"
    swift(client, "PUT", f"/{bucket}", {"X-Container-Read": "", "X-Container-Meta-S3-Created": "1369353600"}.items())
    for name in ["a", *(f"one/{at:06}" for at in range(number)), "z"]:
        status, body = swift(client, "PUT", f"/{bucket}/{name}", {"Content-Type": kind}.items())
        if status != 201:
            sys.exit(f"a PUT is answered {status}: {body}")
    client.close()
    place = {"S3GATE_KEYS": os.path.abspath("examples/keys.txt"), "S3GATE_LISTEN": gate, "S3GATE_STORE": store, "S3GATE_ACCOUNT": ACCOUNT, "S3GATE_TOKEN": TOKEN}
    with tempfile.TemporaryFile() as log, started([s3gate, "serve", *many], gate, log, **place):
        gateway = http.client.HTTPConnection(gate, timeout=60)
        s3(gateway, gate, "HEAD", f"/{bucket}")
        took, body = middle(lambda: s3(gateway, gate, "GET", f"/{bucket}?list-type=2&delimiter=%2F"))
        if body.count(b"<Key>") != 2 or body.count(b"<CommonPrefixes>") != 1:
            sys.exit(f"a page hasn't two keys and a common prefix: {body[:300]}")
        yield calls_of(log), took
        gateway.close()


def upload_rows(s3gate, store, gate, many):
    """Requests on many uploads or parts: what is asked, of how many, by how many calls, and the milliseconds."""
    one, first = "f" * 32, f"{0:032x}"
    for number in 100, 1000:
        client = http.client.HTTPConnection(store, timeout=60)
        put_uploads(client, f"uploads{number}", {f"{at:032x}": 0 for at in range(number)})
        put_uploads(client, f"parts{number}", {one: number})
        put_uploads(client, f"left{number}", {one: number})
        swift(client, "DELETE", f"/left{number}")
        client.close()
        place = {"S3GATE_KEYS": os.path.abspath("examples/keys.txt"), "S3GATE_LISTEN": gate, "S3GATE_STORE": store, "S3GATE_ACCOUNT": ACCOUNT, "S3GATE_TOKEN": TOKEN}
        with tempfile.TemporaryFile() as log, started([s3gate, "serve", *many], gate, log, **place):
            gateway = http.client.HTTPConnection(gate, timeout=600)
            s3(gateway, gate, "HEAD", "/none")
            for title, method, path, item, due, rounds in (
                ("ListUploads", "GET", f"/uploads{number}?uploads", b"<Upload>", number, max(1, ROUNDS // 4)),
                ("ListUploads, the first ten", "GET", f"/uploads{number}?uploads&max-uploads=10", b"<Upload>", 10, max(1, ROUNDS // 4)),
                ("CreateUpload beside them", "POST", f"/uploads{number}/v?uploads", b"<UploadId>", 1, ROUNDS),
                ("UploadPart beside them", "PUT", f"/uploads{number}/v{first}?partNumber=1&uploadId={first}", b"", None, ROUNDS),
                ("ListParts", "GET", f"/parts{number}/v{one}?uploadId={one}", b"<Part>", number, ROUNDS),
                ("ListParts, the first ten", "GET", f"/parts{number}/v{one}?uploadId={one}&max-parts=10", b"<Part>", 10, ROUNDS),
                ("AbortUpload of so many parts", "DELETE", f"/parts{number}/v{one}?uploadId={one}", b"", None, 1),
                ("CreateBucket where so many were left", "PUT", f"/left{number}", b"", None, 1),
            ):
                took, body = middle(lambda: s3(gateway, gate, method, path), rounds)
                if due is not None and body.count(item) != due:
                    sys.exit(f"{title} has {body.count(item)} of {due}: {body[:300]}")
                yield title, number, calls_of(log), took
            gateway.close()


def most_memory(process):
    """The most memory that a process had, in MB."""
    with open(f"/proc/{process.pid}/status", encoding="ascii") as status:
        return next(int(line.split()[1]) / 1000 for line in status if line.startswith("VmHWM"))


def begin_upload(client, place, path):
    status, body = s3(client, place, "POST", f"{path}?uploads")
    if status != 200:
        sys.exit(f"an upload isn't begun: {status} {body[:300]}")
    return body.partition(b"<UploadId>")[2].partition(b"<")[0].decode()


def put_parts(client, place, path, id_, number):
    for at in range(1, number + 1):
        status, body = s3(client, place, "PUT", f"{path}?partNumber={at}&uploadId={id_}", b"%d" % (at % 10))
        if status != 200:
            sys.exit(f"a part is answered {status}: {body[:300]}")
    return 200, b""


def part_rows(s3gate, store, gate, many):
    """An object of so many parts of one byte: what is asked, of how many, by how many calls of the last request, and the milliseconds."""
    etags = {at: hashlib.md5(b"%d" % at).hexdigest() for at in range(10)}
    for number in 1000, 10000:
        place = {"S3GATE_KEYS": os.path.abspath("examples/keys.txt"), "S3GATE_LISTEN": gate, "S3GATE_STORE": store, "S3GATE_ACCOUNT": ACCOUNT, "S3GATE_TOKEN": TOKEN}
        with tempfile.TemporaryFile() as log, started([s3gate, "serve", "--least-part", "1", *many], gate, log, **place) as process:
            client = http.client.HTTPConnection(gate, timeout=600)
            bucket, path = f"/large{number}", f"/large{number}/v"
            s3(client, gate, "PUT", bucket)
            id_, other = begin_upload(client, gate, path), begin_upload(client, gate, path)
            wanted = b"<CompleteMultipartUpload>" + b"".join(b"<Part><PartNumber>%d</PartNumber><ETag>%s</ETag></Part>" % (at, etags[at % 10].encode()) for at in range(1, number + 1)) + b"</CompleteMultipartUpload>"

            def all_pages():
                marker, parts = 0, 0
                while True:
                    status, body = s3(client, gate, "GET", f"{path}?uploadId={id_}&part-number-marker={marker}")
                    parts += body.count(b"<Part>")
                    if b"<IsTruncated>true" not in body:
                        return status if parts == number else f"with {parts} parts", b""
                    marker = int(body.partition(b"<NextPartNumberMarker>")[2].partition(b"<")[0])

            whole = b"".join(b"%d" % (at % 10) for at in range(1, number + 1))
            half = number // 2
            for title, ask, rounds, due in (
                ("its parts", lambda: put_parts(client, gate, path, id_, number), 1, None),
                ("ListParts, all pages", all_pages, 1, None),
                ("CompleteUpload", lambda: s3(client, gate, "POST", f"{path}?uploadId={id_}", wanted), 1, b"-%d" % number),
                ("the same again", lambda: s3(client, gate, "POST", f"{path}?uploadId={id_}", wanted), 1, b"-%d" % number),
                ("its bytes", lambda: s3(client, gate, "GET", path), 1, whole),
                ("11 bytes in its middle", lambda: s3(client, gate, "GET", path, Range=f"bytes={half}-{half + 10}"), ROUNDS, whole[half : half + 11]),
                ("CopyObject of it", lambda: s3(client, gate, "PUT", f"{bucket}/w", x_amz_copy_source=path), 1, b"CopyObjectResult"),
                ("the copy's bytes", lambda: s3(client, gate, "GET", f"{bucket}/w"), 1, whole),
                ("another upload's parts", lambda: put_parts(client, gate, path, other, number), 1, None),
                ("AbortUpload of it", lambda: s3(client, gate, "DELETE", f"{path}?uploadId={other}"), 1, None),
            ):
                took, body = middle(ask, rounds)
                if due is not None and due not in body:
                    sys.exit(f"{title} has {body[:300]}")
                yield title, number, calls_of(log), took
            client.close()
            yield "s3gate's most memory, MB", number, "", most_memory(process)


def calls_of(log):
    """The calls that the last reply took, by the log, whose line comes once the reply is sent."""
    size = 0
    while True:
        time.sleep(0.05)
        log.seek(0)
        text = log.read()
        if len(text) == size and text:
            return int(text.splitlines()[-1].split()[7])
        size = len(text)


def main():
    s3gate, swiftd = program("s3gate"), program("swiftd")
    store, gate = free_place(), free_place()
    many = ["--connections", "1000000"]
    load = " ".join(f"{it:.1f}" for it in os.getloadavg())
    print(f"{datetime.datetime.now(datetime.timezone.utc):%Y-%m-%d %H:%M} UTC, {os.cpu_count()} processors, load {load}; {ROUNDS} rounds")
    print("| keys | the store's page, ms | first page, ms | s3gate's processor, ms | last page, ms | with a delimiter, ms |\n|---|---|---|---|---|---|")
    with contextlib.ExitStack() as stack:
        kept = stack.enter_context(started([swiftd, "--token", TOKEN, "--account", ACCOUNT, *many], store, SWIFTD_LISTEN=store))
        client = http.client.HTTPConnection(store, timeout=60)
        stored = 0
        kind = f"binary/octet-stream;s3={EMPTY}.1369353600.-"
        for number in 1000, 10000, 100000:
            bucket = f"keys{number}"
            status, _ = swift(client, "PUT", f"/{bucket}", {"X-Container-Read": "", "X-Container-Meta-S3-Created": "1369353600"}.items())
            for at in range(number):
                status, body = swift(client, "PUT", f"/{bucket}/{at // 100:04}/{at:06}", {"Content-Type": kind}.items())
                if status != 201:
                    sys.exit(f"a PUT is answered {status}: {body}")
            plain, _ = middle(lambda: swift(client, "GET", f"/{bucket}?format=json&limit=1000&marker=&prefix="))
            client.close()
            with started([s3gate, "serve", *many], gate, S3GATE_KEYS=os.path.abspath("examples/keys.txt"), S3GATE_LISTEN=gate, S3GATE_STORE=store, S3GATE_ACCOUNT=ACCOUNT, S3GATE_TOKEN=TOKEN) as process:
                gateway = http.client.HTTPConnection(gate, timeout=60)
                s3(gateway, gate, "HEAD", f"/{bucket}")
                begun = busy(process)
                first, body = middle(lambda: s3(gateway, gate, "GET", f"/{bucket}?list-type=2"))
                spent = (busy(process) - begun) / ROUNDS
                if body.count(b"<Contents>") != 1000:
                    sys.exit("a page hasn't 1,000 keys")
                last, _ = middle(lambda: s3(gateway, gate, "GET", f"/{bucket}?list-type=2&start-after={(number - 1000) // 100:04}%2F"))
                rolled, body = middle(lambda: s3(gateway, gate, "GET", f"/{bucket}?list-type=2&delimiter=%2F&max-keys=10"))
                if body.count(b"<CommonPrefixes>") != 10:
                    sys.exit("a page hasn't 10 common prefixes")
                gateway.close()
            client = http.client.HTTPConnection(store, timeout=60)
            print(f"| {number:,} | {plain:.1f} | {first:.1f} | {spent:.2f} | {last:.1f} | {rolled:.1f} |", flush=True)
        print("\n| keys under one prefix | calls of a listing with a delimiter | ms |\n|---|---|---|")
        for number in 1000, 10000, 100000:
            for title, value in prefix_row(client, s3gate, store, gate, many, number, kind):
                print(f"| {number:,} | {title} | {value:.1f} |", flush=True)
        client.close()
        print("\n| request | of | calls | ms |\n|---|---|---|---|")
        for title, number, calls, took in upload_rows(s3gate, store, gate, many):
            print(f"| {title} | {number:,} | {calls:,} | {took:.1f} |", flush=True)
        print("\n| an object of parts of one byte | parts | calls of the last request | ms |\n|---|---|---|---|")
        for title, number, calls, took in part_rows(s3gate, store, gate, many):
            print(f"| {title} | {number:,} | {calls} | {took:.1f} |", flush=True)
        print(f"| swiftd's most memory, MB | {number:,} | | {most_memory(kept):.1f} |")


main()
PYTHON
