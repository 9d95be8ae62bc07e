"""A small model of the gateway over its store, for the cases of copies: the plan of each operation that they ask for, call by call,
and what each call does to the account. One call may be lost, as a case says.

It knows only what this profile says of the operations, of their calls and of the files that are kept (docs/PROFILE.md); the MD5s are
those of Python's hashlib. Nothing is taken from the program.
"""
import copy
from datetime import datetime, timezone
from urllib.parse import quote

from case_uploads import NAMESPACE, PLAIN, STARTED, compact, md5, reply, request, shown, tag

MOMENT = STARTED + 100
SEGMENT = "application/octet-stream"
SETTLES = 2
PIECE = 254  # bytes of packed metadata in one header
MOST_PART = 16_777_216
HOME = "photos"

NO_BUCKET = ("404 Not Found", "NoSuchBucket", "The bucket does not exist.")
NO_KEY = ("404 Not Found", "NoSuchKey", "The key does not exist.")
NO_UPLOAD = ("404 Not Found", "NoSuchUpload", "The upload does not exist.")
NOT_BUILT = ("501 Not Implemented", "NotImplemented", "This is not implemented.")
BAD_REQUEST = ("400 Bad Request", "InvalidRequest", "The request is invalid.")
BAD_ARGUMENT = ("400 Bad Request", "InvalidArgument", "An argument is invalid.")
BAD_RANGE = ("416 Range Not Satisfiable", "InvalidRange", "The range is not satisfiable.")
TOO_LARGE = ("400 Bad Request", "EntityTooLarge", "The body is too large.")
NOT_MET = ("412 Precondition Failed", "PreconditionFailed", "A precondition failed.")
LARGE_META = ("400 Bad Request", "MetadataTooLarge", "The metadata is too large.")
DENIED = ("403 Forbidden", "AccessDenied", "Access denied.")
UNAVAILABLE = ("503 Service Unavailable", "ServiceUnavailable", "The store is unavailable.")


class Lost(Exception):
    """A call of the store that failed."""


class Refused(Exception):
    """The status, the code and the message of a refusal."""


# ---- the account


class File:
    """A file on the store. One without an ETag has no tag. `segments` are the path, the MD5 and the size of each, where it lists any."""

    def __init__(self, kind, body, etag=None, moment=None, number="-", meta=(), segments=None):
        self.kind, self.body, self.etag, self.moment, self.number = kind, body, etag, moment, number
        self.meta, self.segments = list(meta), segments

    def type(self):
        return self.kind if self.etag is None else tag(self.kind, self.etag, self.moment, self.number)

    def pieces(self):
        text = "".join(f"{len(name)}.{len(value)}.{name}{value}" for name, value in self.meta)
        return [f"[{text[at : at + PIECE]}]" for at in range(0, len(text), PIECE)]

    def is_joined(self):
        return "-" in self.etag

    def manifest(self):
        return compact([{"etag": etag, "path": path, "size_bytes": size} for path, etag, size in self.segments])

    def told(self, name):
        pieces = ", ".join(shown(piece) for piece in self.pieces())
        listed = f" segments {shown(md5(''.join(etag for _, etag, _ in self.segments).encode()))}" if self.segments else ""
        return [f"object {shown(name)} {shown(self.type())} [{pieces}]{listed}", f"body {shown(self.body)}"]


class Container:
    def __init__(self, created=None, readers="Nobody"):
        self.created, self.readers, self.files = created, readers, {}


class Store:
    """The containers by name, and how many calls were made. The call of that number is lost: before its effect, after it, or, where
    the word is `stop`, it and all behind it."""

    def __init__(self):
        self.containers = {}
        self.begin()

    def begin(self, word=None, number=0):
        self.calls, self.word, self.number = 0, word, number

    def call(self, effect=lambda: None):
        self.calls += 1
        is_lost = self.calls == self.number or self.word == "stop" and self.calls > self.number
        if is_lost and self.word != "after":
            raise Lost
        answer = effect()
        if is_lost:
            raise Lost
        return answer

    def find(self, container, name):
        """HEAD or GET of a file."""
        return self.call(lambda: self.containers[container].files.get(name))

    def put(self, container, name, file):
        self.call(lambda: self.containers[container].files.__setitem__(name, file))

    def drop(self, container, name):
        self.call(lambda: self.containers[container].files.pop(name, None))

    def make(self, name, created=None, readers="Nobody"):
        def effect():
            self.containers.setdefault(name, Container(created, readers))

        self.call(effect)

    def left(self):
        lines = ["left [" + ", ".join(shown(name) for name in sorted(self.containers)) + "]"]
        for _, it in sorted(self.containers.items()):
            created = "None" if it.created is None else f"Some({it.created})"
            lines += [f"Readers {{ readers: {it.readers}, created: {created} }}", f"objects {len(it.files)}"]
            for name, file in sorted(it.files.items(), key=lambda item: item[0].encode()):
                lines += file.told(name)
        return lines


# ---- texts


def path_of(bucket, key):
    return f"/{bucket}/{quote(key)}"


def time_of(moment):
    seconds = moment - STARTED
    return f"2013-05-24T00:{seconds // 60:02}:{seconds % 60:02}"


def date_of(moment):
    return f"Fri, 24 May 2013 {time_of(moment)[11:]} GMT"


def listed(parts):
    """The body of a completion by these numbers and bytes."""
    items = "".join(f"<Part><PartNumber>{number}</PartNumber><ETag>{md5(body.encode())}</ETag></Part>" for number, body in parts)
    return f"<CompleteMultipartUpload>{items}</CompleteMultipartUpload>"


def joined_etag(bodies):
    return md5(b"".join(bytes.fromhex(md5(body.encode())) for body in bodies)) + f"-{len(bodies)}"


def segment_name(number, part):
    return f"{number}/{part:05}"


def condition_headers(only):
    """The headers of conditions on a source, by what they are behind the front that all have: tags as a text, moments as numbers."""
    def text_of(value):
        return value if isinstance(value, str) else datetime.fromtimestamp(value, timezone.utc).strftime("%a, %d %b %Y %H:%M:%S GMT")

    return [f"x-amz-copy-source-if-{name}: {text_of(value)}".rstrip() for name, value in only.items()]


def is_met(only, etag, moment):
    """Whether a source with this ETag and of this moment meets the conditions (RFC 9110, section 13.2.2): If-Match, or without it
    If-Unmodified-Since; and then If-None-Match, or without it If-Modified-Since. A tag counts without its quotes and its `W/`, and a
    text that is no moment isn't looked at."""
    def has(tags):
        return tags == "*" or etag in [tag.strip(" ").removeprefix("W/").strip('"') for tag in tags.split(",")]

    def moment_in(name, usual):
        return only[name] if isinstance(only.get(name), int) else usual

    wanted = has(only["match"]) if "match" in only else moment <= moment_in("unmodified-since", moment)
    known = has(only["none-match"]) if "none-match" in only else moment <= moment_in("modified-since", moment - 1)
    return wanted and not known


def metadata(meta):
    """The headers that give these entries, and that tell them."""
    return [f"{'x-amz-meta' + name if name.startswith('-') else name}: {value}" for name, value in meta]


def copied(root, etag, moment):
    return f'<{root} xmlns="{NAMESPACE}"><LastModified>{time_of(moment)}.000Z</LastModified><ETag>&quot;{etag}&quot;</ETag></{root}>'


# ---- a run


class Run:
    """The requests of one connection over a store, each with its reply and with how many calls were made when that was written."""

    def __init__(self, store=None, word=None, number=0, moment=MOMENT):
        self.store = copy.deepcopy(store) if store else Store()
        self.store.begin(word, number)
        self.word, self.number, self.moment = word, number, moment
        self.is_settled, self.turn, self.requests, self.pieces, self.files = False, 0, [], [], []
        self.most = MOST_PART

    # What a run is told as.

    def whole(self):
        lines = []
        for calls, turn, answer, path in self.pieces:
            if isinstance(answer, str):
                lines += [f"piece 1 {calls}", f"<. {answer}"]
                continue
            status, *headers, rest = answer
            if isinstance(rest, str):
                code = f"<Error><Code>{headers[0]}</Code><Message>{rest}</Message><Resource>{path}</Resource>"
                rest = {"body": f"{code}<RequestId>{2 * turn + 1:032x}</RequestId></Error>"}
                headers = []
            lines += reply(f"1 {calls}", turn, status, *headers, **rest)
        return lines

    def brief(self):
        """In brief, with the ETags of the replies to GET."""
        lines = []
        for calls, turn, answer, _ in self.pieces:
            if isinstance(answer, str):
                lines.append(f"piece 1 {calls} bytes {len(answer.encode())}")
                continue
            etag = next((it[6:] for it in answer[1:-1] if it.startswith("ETag: ")), "") if turn + 1 in self.etags() else ""
            told = answer[1] if isinstance(answer[-1], str) else etag
            lines.append(f"piece 1 {calls} {answer[0][:3]} {told}".rstrip())
        return lines

    def etags(self):
        """The numbers of the replies that have an ETag in a header."""
        return [turn + 1 for _, turn, answer, _ in self.pieces if any(str(it).startswith("ETag: ") for it in answer[1:])]

    # The steps of a request.

    def ask(self, lines, path, plan):
        self.requests += lines
        self.behind = ""
        try:
            if not self.is_settled:
                self.settle()
            answer = plan(2 * self.turn + 2)
        except Lost:
            answer = UNAVAILABLE
        except Refused as refused:
            answer = refused.args
        self.pieces.append((self.store.calls, self.turn, answer, path))
        self.send(path)
        self.turn += 1

    def send(self, path):
        """The bytes of an object, behind the head of its reply. No case loses the GET of them, nor reads more than one piece."""
        assert len(self.behind.encode()) <= 1_048_576
        if self.behind:
            self.store.call()
            self.pieces.append((self.store.calls, self.turn, self.behind, path))

    def refuse(self, lines, path, refusal):
        """A request that is refused before the store is asked for anything."""
        self.requests += lines
        self.pieces.append((self.store.calls, self.turn, refusal, path))
        self.turn += 1

    def settle(self):
        self.store.make("+gateway")
        self.store.find("+gateway", "sealed")
        self.is_settled = True

    def need_bucket(self, bucket):
        found = self.store.call(lambda: self.store.containers.get(bucket))
        if not found:
            raise Refused(*NO_BUCKET)
        return found

    def need_object(self, bucket, key):
        found = self.store.find(bucket, key)
        if not found:
            raise Refused(*NO_KEY)
        return found

    def need_upload(self, bucket, key, number, is_kept=False):
        """The record, where it is of that key and open, or kept where that is asked for. An id of another form makes no call."""
        if len(number) != 32 or number.strip("0123456789abcdef"):
            raise Refused(*NO_UPLOAD)
        record = self.store.find(f"{bucket}+uploads", number)
        if not record or record.key != key or record.is_open == is_kept:
            raise Refused(*NO_UPLOAD)
        return record

    def free_id(self, bucket, draw):
        """The first number from the draw on whose id has neither a record nor a segment."""
        for number in range(draw, draw + 100):
            text = f"{number:032x}"
            if self.store.find(f"{bucket}+uploads", text):
                continue
            names = self.store.containers[f"{bucket}+segments"].files
            if not self.store.call(lambda: any(name.startswith(f"{text}/") for name in names)):
                return text

    def head_of(self, file):
        return [f"Last-Modified: {date_of(file.moment)}", f'ETag: "{file.etag}"', "Accept-Ranges: bytes", f"Content-Type: {file.kind}", *metadata(file.meta)]

    # Requests beside copies.

    def make(self, bucket, readers="Nobody"):
        def plan(_draw):
            for _ in range(5):
                self.store.call()
            for name in (f"{bucket}+uploads", f"{bucket}+segments"):
                self.store.containers.setdefault(name, Container())
            self.store.containers[bucket] = Container(self.moment, readers)
            return "200 OK", f"Location: /{bucket}", {"size": 0}

        acl = ["x-amz-acl: public-read"] if readers == "Everybody" else []
        self.ask(request("PUT", f"/{bucket}", *acl, body=""), f"/{bucket}", plan)

    def put(self, key, body, kind=PLAIN, meta=(), bucket=HOME):
        def plan(_draw):
            self.need_bucket(bucket)
            etag = md5(body.encode())
            self.store.put(bucket, key, File(kind, body, etag, self.moment, "-", meta))
            return "200 OK", f'ETag: "{etag}"', {"size": 0}

        headers = ([f"Content-Type: {kind}"] if kind != PLAIN else []) + metadata(meta)
        self.ask(request("PUT", path_of(bucket, key), *headers, body=body), path_of(bucket, key), plan)

    def get(self, key, bucket=HOME):
        def plan(_draw):
            self.need_bucket(bucket)
            file = self.need_object(bucket, key)
            self.behind = file.body
            return "200 OK", *self.head_of(file), {"size": len(file.body.encode())}

        self.ask(request("GET", path_of(bucket, key)), path_of(bucket, key), plan)

    def delete(self, key, bucket=HOME):
        def plan(_draw):
            self.need_bucket(bucket)
            self.store.drop(bucket, key)
            return "204 No Content", {}

        self.ask(request("DELETE", path_of(bucket, key)), path_of(bucket, key), plan)

    def head(self):
        """HEAD of the bucket: a request that takes a turn."""
        def plan(_draw):
            self.need_bucket(HOME)
            return "200 OK", {"size": 0}

        self.ask(request("HEAD", f"/{HOME}"), f"/{HOME}", plan)

    # Uploads.

    def begin(self, key, kind=PLAIN, meta=(), bucket=HOME):
        """The id of the upload that is begun."""
        def plan(draw):
            self.need_bucket(bucket)
            number = self.free_id(bucket, draw)
            self.store.put(f"{bucket}+uploads", number, record(key, kind, meta, self.moment))
            body = f'<InitiateMultipartUploadResult xmlns="{NAMESPACE}"><Bucket>{bucket}</Bucket><Key>{key}</Key><UploadId>{number}</UploadId>'
            return "200 OK", {"body": f"{body}</InitiateMultipartUploadResult>"}

        headers = ([f"Content-Type: {kind}"] if kind != PLAIN else []) + metadata(meta)
        self.ask(request("POST", f"{path_of(bucket, key)}?uploads", *headers), path_of(bucket, key), plan)
        return max(name for name, it in self.store.containers[f"{bucket}+uploads"].files.items() if it.is_open)

    def part(self, key, number, part, body, bucket=HOME):
        def plan(_draw):
            self.need_bucket(bucket)
            self.need_upload(bucket, key, number)
            etag = md5(body.encode())
            self.store.put(f"{bucket}+segments", segment_name(number, part), File(SEGMENT, body, etag, self.moment, number))
            return "200 OK", f'ETag: "{etag}"', {"size": 0}

        self.ask(request("PUT", f"{path_of(bucket, key)}?partNumber={part}&uploadId={number}", body=body), path_of(bucket, key), plan)

    def complete(self, key, number, parts, bucket=HOME):
        """By these numbers and bytes, all of which are there."""
        def plan(_draw):
            self.need_bucket(bucket)
            begun = self.need_upload(bucket, key, number)
            for _ in range(2):
                self.store.call()
            etag = joined_etag([body for _, body in parts])
            self.store.put(bucket, key, joined(bucket, number, parts, begun.given, etag, self.moment))
            self.store.put(f"{bucket}+uploads", number, done_record(begun, parts, etag, self.moment))
            self.store.call()
            body = f'<CompleteMultipartUploadResult xmlns="{NAMESPACE}"><Location>{path_of(bucket, key)}</Location><Bucket>{bucket}</Bucket>'
            return "200 OK", {"body": f"{body}<Key>{key}</Key><ETag>&quot;{etag}&quot;</ETag></CompleteMultipartUploadResult>"}

        self.ask(request("POST", f"{path_of(bucket, key)}?uploadId={number}", body=listed(parts)), path_of(bucket, key), plan)

    def completed(self, key, number, parts, bucket=HOME):
        """In a setup: the files of an upload that is completed by these parts, which requests of a setup may not make, for they are
        too small."""
        begun = self.store.containers[f"{bucket}+uploads"].files[number]
        etag = joined_etag([body for _, body in parts])
        file = joined(bucket, number, parts, begun.given, etag, self.moment)
        self.store.containers[bucket].files[key] = file
        kept = done_record(begun, parts, etag, self.moment)
        self.store.containers[f"{bucket}+uploads"].files[number] = kept
        self.files += [f"file {bucket}+uploads {number} {kept.body}", f"manifest {bucket} {key} {file.type()} {file.manifest()}"]

    # Copies.

    def copy(self, to, of, *headers, replace=None, acl=None, source=None, only={}, bucket=HOME, from_bucket=HOME):
        """`replace` has the type and the metadata that are put in place of the source's, `source` another spelling of it, and `only`
        the conditions on it."""
        def plan(draw):
            found = self.need_bucket(bucket)
            if acl and (acl == "public-read") != (found.readers == "Everybody"):
                raise Refused(*NOT_BUILT)
            self.need_bucket(from_bucket)
            file = self.need_object(from_bucket, of)
            if not is_met(only, file.etag, file.moment):
                raise Refused(*NOT_MET)
            if replace is None and (bucket, to) == (from_bucket, of):
                raise Refused(*BAD_REQUEST)
            kind, meta = replace or (file.kind, file.meta)
            self.store.put(bucket, to, (self.joined_copy if file.is_joined() else self.plain_copy)(file, kind, meta, bucket, draw))
            return "200 OK", {"body": copied("CopyObjectResult", file.etag, self.moment)}

        given = [f"x-amz-copy-source: {source or path_of(from_bucket, of)}"]
        if replace is not None:
            kind, meta = replace
            given += ["x-amz-metadata-directive: REPLACE", *([f"Content-Type: {kind}"] if kind != PLAIN else []), *metadata(meta)]
        given += [f"x-amz-acl: {acl}"] if acl else []
        given += condition_headers(only)
        self.ask(request("PUT", path_of(bucket, to), *given, *headers, body=""), path_of(bucket, to), plan)

    def plain_copy(self, file, kind, meta, _bucket, _draw):
        """The GET of the source."""
        self.store.call()
        return File(kind, file.body, file.etag, self.moment, "-", meta)

    def joined_copy(self, file, kind, meta, bucket, draw):
        """Each segment again, under an id of its own and the number that it has; but none for what has no byte."""
        if not file.body:
            number = self.free_id(bucket, draw)
            return File(kind, "", file.etag, self.moment, number, meta)
        self.store.call()
        number, segments, at = self.free_id(bucket, draw), [], 0
        for path, etag, size in file.segments:
            name = f"{number}/{path[-5:]}"
            self.store.call()
            self.store.put(f"{bucket}+segments", name, File(SEGMENT, file.body[at : at + size], etag, self.moment, number))
            segments.append((f"/{bucket}+segments/{name}", etag, size))
            at += size
        return File(kind, file.body, file.etag, self.moment, number, meta, segments)

    def copy_part(self, key, number, part, of, *headers, first=None, last=None, source=None, only={}, bucket=HOME, from_bucket=HOME):
        """Of the bytes from the first to the last, or all, where the source meets the conditions."""
        def plan(_draw):
            self.need_bucket(bucket)
            self.need_upload(bucket, key, number)
            self.need_bucket(from_bucket)
            file = self.need_object(from_bucket, of)
            if not is_met(only, file.etag, file.moment):
                raise Refused(*NOT_MET)
            if last is not None and last >= len(file.body):
                raise Refused(*BAD_RANGE)
            body = file.body if last is None else file.body[first : last + 1]
            if len(body) > self.most:
                raise Refused(*TOO_LARGE)
            if body:
                self.store.call()
            etag = md5(body.encode())
            self.store.put(f"{bucket}+segments", segment_name(number, part), File(SEGMENT, body, etag, self.moment, number))
            return "200 OK", {"body": copied("CopyPartResult", etag, self.moment)}

        given = [f"x-amz-copy-source: {source or path_of(from_bucket, of)}"]
        given += [f"x-amz-copy-source-range: bytes={first}-{last}"] if last is not None else []
        given += condition_headers(only)
        target = f"{path_of(bucket, key)}?partNumber={part}&uploadId={number}"
        self.ask(request("PUT", target, *given, *headers, body=""), path_of(bucket, key), plan)


def record(key, kind, meta, moment):
    """The record of an upload that is open."""
    text = compact({"at": moment, "key": key, "meta": [list(pair) for pair in meta], "state": "open", "type": kind, "v": 1})
    file = File("application/json", text)
    file.key, file.is_open, file.given, file.started = key, True, (kind, meta), moment
    return file


def done_record(begun, parts, etag, moment):
    """The record of an upload whose completion is kept."""
    list_ = [[number, md5(body.encode())] for number, body in parts]
    fields = {"at": begun.started, "done": moment, "etag": etag, "key": begun.key, "list": list_, "state": "done", "v": 2}
    file = File("application/json", compact(fields))
    file.key, file.is_open = begun.key, False
    return file


def joined(bucket, number, parts, given, etag, moment):
    """The object that a completion puts. An empty part is none of its segments, and without one it is a plain file."""
    kind, meta = given
    segments = [(f"/{bucket}+segments/{segment_name(number, part)}", md5(body.encode()), len(body)) for part, body in parts if body]
    return File(kind, "".join(body for _, body in parts), etag, moment, number, meta, segments or None)
