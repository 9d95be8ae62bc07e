"""What the scripts of cases on completions share: the texts of what is kept, a small model of the accounts, requests and replies.

It knows only what this profile says of them (docs/PROFILE.md); the MD5s are those of Python's hashlib.
"""
import hashlib
import json

ID = f"{10:032x}"
OTHER = "0123456789abcdef0123456789abcdef"
STARTED = 1369353600
SEALED = 1369353607
CLOCK = "clock 1369353700"
DATE = "Fri, 24 May 2013 00:01:40 GMT"
PUT_AT = "Fri, 24 May 2013 00:00:07 GMT"
OBJECT = "/photos/v.bin"
UPLOAD = f"{OBJECT}?uploadId={ID}"
PLAIN = "binary/octet-stream"
NAMESPACE = "http://s3.amazonaws.com/doc/2006-03-01/"


# ---- texts


def md5(data):
    return hashlib.md5(data).hexdigest()


def compact(value):
    return json.dumps(value, separators=(",", ":"), ensure_ascii=False)


def shown(text):
    """Bytes as the program prints them."""
    return '"' + "".join(chr(b) if 32 <= b < 127 and b not in b'"\\' else f"\\{b:02x}" for b in text.encode()) + '"'


def tag(kind, etag, moment, number):
    return f"{kind};s3={etag}.{moment}.{number}"


def pack(meta):
    """The pieces of some short metadata."""
    text = "".join(f"{len(name)}.{len(value)}.{name}{value}" for name, value in meta)
    return [f"[{text}]"] if text else []


class Completion:
    """A completion of an upload whose parts these are, by number."""

    def __init__(self, parts, kind=PLAIN, meta=()):
        self.parts, self.kind, self.meta = parts, kind, [list(pair) for pair in meta]
        digests = b"".join(hashlib.md5(body.encode()).digest() for _, body in parts)
        self.etag = f"{md5(digests)}-{len(parts)}"
        self.body = "".join(body for _, body in parts)

    def sealed(self, **other):
        """The text of what is sealed; with other values of some fields."""
        list_ = [[number, md5(body.encode()), len(body)] for number, body in self.parts]
        fields = {"at": SEALED, "bucket": "photos", "etag": self.etag, "id": ID, "key": "v.bin", "list": list_, "meta": self.meta}
        return compact({**fields, "started": STARTED, "type": self.kind, "v": 1, **other})

    def open(self):
        return compact({"at": STARTED, "key": "v.bin", "meta": self.meta, "state": "open", "type": self.kind, "v": 1})

    def done(self):
        list_ = [[number, md5(body.encode())] for number, body in self.parts]
        fields = {"at": STARTED, "done": SEALED, "etag": self.etag, "key": "v.bin", "list": list_}
        return compact({**fields, "state": "done", "v": 2})

    def tag(self):
        return tag(self.kind, self.etag, SEALED, ID)

    def filled(self):
        return [(number, body) for number, body in self.parts if body]

    def segments(self):
        """The segments of the object, as a PUT of it lists them."""
        entry = lambda number, body: {"etag": md5(body.encode()), "path": f"/photos+segments/{ID}/{number:05}", "size_bytes": len(body)}
        return compact([entry(number, body) for number, body in self.filled()])

    def store_etag(self):
        """The store's own ETag of the object that lists the segments: of their ETags in a row."""
        return md5("".join(md5(body.encode()) for _, body in self.filled()).encode())


# ---- accounts


class Account:
    """What stands on the store behind a setup: of each container the files, each its type, its metadata, the ETag of its segments
    where it lists any, and its bytes."""

    def __init__(self, completion, sealed, parts=None):
        self.completion = completion
        uploaded = {f"{ID}/{number:05}": segment(body) for number, body in (completion.parts if parts is None else parts)}
        self.containers = {
            "+gateway": {"sealed": ("application/json", [], None, sealed)},
            "photos": {},
            "photos+segments": uploaded,
            "photos+uploads": {ID: ("application/json", [], None, completion.open())},
        }

    def after(self, calls):
        """The account after so many calls that settle it: the container, what is sealed, the object, the record, the deletion."""
        other = Account(self.completion, "")
        other.containers = {name: dict(files) for name, files in self.containers.items()}
        done = self.completion
        if calls >= 3:
            lists = done.store_etag() if done.filled() else None
            other.containers["photos"]["v.bin"] = (done.tag(), pack(done.meta), lists, done.body)
        if calls >= 4:
            other.containers["photos+uploads"][ID] = ("application/json", [], None, done.done())
        if calls >= 5:
            del other.containers["+gateway"]["sealed"]
        return other

    def without(self, container, name):
        other = self.after(0)
        del other.containers[container][name]
        return other

    def having(self, container, name, file):
        other = self.after(0)
        other.containers[container][name] = file
        return other

    def left(self):
        lines = ["left [" + ", ".join(shown(name) for name in sorted(self.containers)) + "]"]
        for container, files in sorted(self.containers.items()):
            created = f"Some({STARTED})" if "+" not in container else "None"
            lines += [f"Readers {{ readers: Nobody, created: {created} }}", f"objects {len(files)}"]
            for name, (kind, meta, lists, body) in sorted(files.items()):
                pieces = ", ".join(shown(piece) for piece in meta)
                segments = f" segments {shown(lists)}" if lists else ""
                lines += [f"object {shown(name)} {shown(kind)} [{pieces}]{segments}", f"body {shown(body)}"]
        return lines


def segment(body):
    return (tag("application/octet-stream", md5(body.encode()), STARTED, ID), [], None, body)


# ---- requests and replies


def request(method, target, *headers, body=None):
    lines = [f"> {method} {target} HTTP/1.1", ">~", *(f"> {header}" for header in headers)]
    if body is not None:
        lines.append(f"> Content-Length: {len(body.encode())}")
    return lines + [">"] + ([f">. {body}"] if body else [])


def reply(place, turn, status, *headers, body=None, size=None):
    """A piece as it is written, for the request of that number from 0 on. A body of XML begins with its declaration."""
    lines = [f"piece {place}", f"< HTTP/1.1 {status}", f"< Date: {DATE}", f"< x-amz-request-id: {2 * turn + 1:032x}"]
    lines += [f"< {header}" for header in headers]
    is_xml = body is not None and body.startswith("<")
    if is_xml:
        lines.append("< Content-Type: application/xml")
    if size is None and body is not None:
        size = len(body.encode()) + (39 if is_xml else 0)
    if size is not None:
        lines.append(f"< Content-Length: {size}")
    lines += ["<"] + (['<n <?xml version="1.0" encoding="UTF-8"?>'] if is_xml else [])
    return lines + ([f"<. {body}"] if body else [])


def read_reply(connection, calls, turn, status, *headers, body):
    """The pieces of a reply with the bytes of an object, where so many calls were made at its end: the head, and the bytes behind the
    GET of them. No byte is got by no GET."""
    assert len(body.encode()) <= 1_048_576, "one piece"
    head = reply(f"{connection} {calls - bool(body)}", turn, status, *headers, size=len(body.encode()))
    return head + ([f"piece {connection} {calls}", f"<. {body}"] if body else [])


def read_in_brief(connection, calls, size, etag=""):
    """The same in brief, of an object of so many bytes that is read whole. The calls are those at its end."""
    return [f"piece {connection} {calls - bool(size)} 200 {etag}".rstrip()] + ([f"piece {connection} {calls} bytes {size}"] if size else [])


def head_of(done):
    return [
        f"Last-Modified: {PUT_AT}", f'ETag: "{done.etag}"', "Accept-Ranges: bytes", f"Content-Type: {done.kind}",
        *(f"x-amz-meta-{name[1:]}: {value}" for name, value in done.meta),
    ]


def refusal(code, message, path, turn):
    return f"<Error><Code>{code}</Code><Message>{message}</Message><Resource>{path}</Resource><RequestId>{2 * turn + 1:032x}</RequestId></Error>"


def listing(done, size, version):
    owner = "<Owner><ID>s3gate</ID><DisplayName>s3gate</DisplayName></Owner>" if version == 1 else ""
    item = (
        f"<Contents><Key>v.bin</Key><LastModified>2013-05-24T00:00:07.000Z</LastModified><ETag>&quot;{done.etag}&quot;</ETag>"
        f"<Size>{size}</Size>{owner}<StorageClass>STANDARD</StorageClass></Contents>"
    )
    count = "<Marker></Marker>" if version == 1 else "<KeyCount>1</KeyCount>"
    return (
        f'<ListBucketResult xmlns="{NAMESPACE}"><Name>photos</Name><Prefix></Prefix>{count}<MaxKeys>1000</MaxKeys>'
        f"<IsTruncated>false</IsTruncated>{item}</ListBucketResult>"
    )


NO_UPLOADS = (
    f'<ListMultipartUploadsResult xmlns="{NAMESPACE}"><Bucket>photos</Bucket><Prefix></Prefix><KeyMarker></KeyMarker>'
    "<UploadIdMarker></UploadIdMarker><MaxUploads>1000</MaxUploads><IsTruncated>false</IsTruncated></ListMultipartUploadsResult>"
)

TELL = ["tell calls", "tell left", "tell objects", "tell bodies"]


class Writer:
    """The lines of the file."""

    def __init__(self):
        self.lines = []

    def note(self, *lines):
        self.lines += [f"# {line}" for line in lines]

    def end(self, expected):
        self.lines += [f"= {line}".rstrip() for line in expected] + [""]

    def setup(self, done, *files, second=None):
        """The bucket, an upload that the fifth request begins, its parts, and files. The second request may be another one."""
        headers = [f"Content-Type: {done.kind}"] if done.kind != PLAIN else []
        headers += [f"x-amz-meta-{name[1:]}: {value}" for name, value in done.meta]
        self.lines += ["setup", *request("PUT", "/photos", body="")]
        self.lines += (second or request("HEAD", "/photos")) + request("HEAD", "/photos") * 2
        self.lines += request("POST", f"{OBJECT}?uploads", *headers)
        for number, body in done.parts:
            self.lines += request("PUT", f"{OBJECT}?partNumber={number}&uploadId={ID}", body=body)
        self.lines += files
        self.end(["served"])

    def case(self, name, given, requests, expected):
        self.lines += [f"case {name}", CLOCK, *given] + (["connection"] if requests else []) + requests
        self.end(expected)

    def recover(self, name, account, calls, status=0, report="settled", given=()):
        given = ["words recover", "pieces 1024", *given, *TELL]
        self.case(name, given, [], [f"status {status}", "report", f"<n {report}", f"calls {calls}", *account.left()])
