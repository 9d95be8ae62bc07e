#!/usr/bin/env python3
"""Says of each operation by which cases each loss of each of its calls is tried, and what the list lacks.

    bench/faults.py           prints the operations and their cases
    bench/faults.py --check   prints what is lacking; the status is 1 where anything is

The operations are the variants of `Op` in crates/s3_machine, or of the enum that such a variant holds, so a later one is missed here
by itself. A case of crates/cases/data with the line `sweep` loses each call of its request in each way; it counts for the operation
that its first request is, where that is answered with success. Where a request has more than one effect, one case for each loss
stands in place of a sweep: so it is with a deletion of several keys, and with the command `recover`. An operation that the crate of
requests doesn't name is meant by no request, so that no run can have it: it is lacking as soon as that crate names it.
docs/TESTING.md has the notation.
"""
import os
import re
import sys

CRATES = os.path.join(os.path.dirname(os.path.abspath(__file__)), "..", "crates")
SELECTORS = {"acl", "location", "uploads", "uploadId", "partNumber", "list-type", "delete"}
LOSSES = ("before", "after", "stop")

# The requests of the operations: method, what the path names, selectors, and whether a source is given.
OPERATIONS = {
    ("GET", "service", frozenset(), False): "ListBuckets",
    ("PUT", "bucket", frozenset(), False): "CreateBucket",
    ("DELETE", "bucket", frozenset(), False): "DeleteBucket",
    ("HEAD", "bucket", frozenset(), False): "HeadBucket",
    ("GET", "bucket", frozenset({"location"}), False): "GetLocation",
    ("GET", "bucket", frozenset({"acl"}), False): "GetBucketAcl",
    ("PUT", "bucket", frozenset({"acl"}), False): "PutBucketAcl",
    ("GET", "bucket", frozenset(), False): "ListObjects",
    ("GET", "bucket", frozenset({"list-type"}), False): "ListObjects",
    ("GET", "bucket", frozenset({"uploads"}), False): "ListUploads",
    ("POST", "bucket", frozenset({"delete"}), False): "DeleteObjects",
    ("PUT", "key", frozenset(), False): "PutObject",
    ("PUT", "key", frozenset(), True): "CopyObject",
    ("GET", "key", frozenset(), False): "GetObject",
    ("HEAD", "key", frozenset(), False): "HeadObject",
    ("DELETE", "key", frozenset(), False): "DeleteObject",
    ("GET", "key", frozenset({"acl"}), False): "GetObjectAcl",
    ("POST", "key", frozenset({"uploads"}), False): "CreateUpload",
    ("PUT", "key", frozenset({"partNumber", "uploadId"}), False): "UploadPart",
    ("PUT", "key", frozenset({"partNumber", "uploadId"}), True): "CopyPart",
    ("GET", "key", frozenset({"uploadId"}), False): "ListParts",
    ("POST", "key", frozenset({"uploadId"}), False): "CompleteUpload",
    ("DELETE", "key", frozenset({"uploadId"}), False): "AbortUpload",
}

# What has more than one effect, and how many calls it makes: two settle an account on which nothing is sealed and five one with a
# sealed completion; a deletion asks for the bucket and then deletes key by key.
SEVERAL_KEYS = "DeleteObjects, several keys"
RECOVER = "recover, over a sealed completion"
SETTLING_CALLS = 2
SEALED_SETTLING_CALLS = 5


class Case:
    """A case: the lines that it is given, those of its first connection, and those that are expected."""

    def __init__(self, file, setup, name):
        self.file, self.setup, self.name = file, setup, name
        self.given, self.sent, self.expected, self.below = [], [], [], None

    def take(self, line):
        if line.startswith("="):
            self.expected.append(line[2:])
        elif line.startswith(">"):
            if self.below == "connection":
                self.sent.append(line[2:])
        else:
            self.below = line
            self.given.append(line)

    def words(self):
        return next((line for line in self.given if line.startswith("words")), "words session")

    def loss(self):
        """The one call that is lost, and how; None where none is, or more than one."""
        losses = [line.split() for line in self.given if line.split()[0] in LOSSES]
        if len(losses) == 1 and len(losses[0]) == 2:
            return losses[0][0], int(losses[0][1])
        return None

    def is_successful(self):
        """Whether the first reply is 2xx, in brief or whole."""
        for line in self.expected:
            found = re.match(r"piece \d+ \d+ (\d{3})\b|< HTTP/1\.1 (\d{3})\b", line)
            if found:
                return (found[1] or found[2]).startswith("2")
        return False


def read_cases(file):
    cases, setup, now = [], 0, None
    with open(f"{CRATES}/cases/data/{file}", encoding="utf-8") as text:
        for line in text.read().split("\n"):
            if line == "setup":
                setup, now = setup + 1, None
            elif line.startswith("case "):
                now = Case(file, setup, line[5:])
                cases.append(now)
            elif now and line and not line.startswith("#"):
                now.take(line)
    return cases


def operation_of(case):
    """The operation that the first request of a case is, or None."""
    line = case.sent[0].split(" ") if case.sent else []
    if len(line) != 3:
        return None
    method, target, _ = line
    path, _, query = target.partition("?")
    names = {pair.partition("=")[0] for pair in query.split("&")} & SELECTORS
    bucket, _, key = path[1:].partition("/")
    level = "key" if key else "bucket" if bucket else "service"
    head = case.sent[1 : case.sent.index("")] if "" in case.sent else case.sent[1:]
    is_copy = any(line.lower().startswith("x-amz-copy-source:") for line in head)
    return OPERATIONS.get((method, level, frozenset(names), is_copy))


def calls_of_several(case):
    """What a case is one of that has more than one effect, and how many calls that makes; or None."""
    if case.words() == "words recover" and not case.sent:
        return RECOVER, SEALED_SETTLING_CALLS
    keys = sum(line.count("<Key>") for line in case.sent)
    if operation_of(case) == "DeleteObjects" and keys > 1:
        return SEVERAL_KEYS, SETTLING_CALLS + 1 + keys
    return None


def swept(cases):
    """The cases with a sweep, by operation."""
    found = {}
    for case in cases:
        operation = operation_of(case)
        if "sweep" in case.given and operation and case.is_successful():
            found.setdefault(operation, []).append(f"{case.file}: {case.name}")
    return found


def lost_one_by_one(cases):
    """The groups of cases that differ in what is lost alone, and lose each call in each way."""
    groups, found = {}, {}
    for case in cases:
        several, loss = calls_of_several(case), case.loss()
        if several and loss:
            groups.setdefault((several, case.file, case.setup, tuple(case.sent)), {})[loss] = case.name
    for ((what, calls), file, _, _), losses in groups.items():
        if all((word, call) in losses for word in LOSSES for call in range(1, calls + 1)):
            found.setdefault(what, []).append(f"{file}: {losses['before', 1]}, and {len(losses) - 1} more")
    return found


def operations():
    with open(f"{CRATES}/s3_machine/src/operation.rt", encoding="utf-8") as source:
        bodies = dict(re.findall(r"pub enum (\w*Op) \{\n(.*?)\n\}", source.read(), re.DOTALL))
    named = re.findall(r"^    ([A-Z]\w+)\((\w+)\)", bodies["Op"], re.MULTILINE)
    names = []
    for variant, held in named:
        names += re.findall(r"^    ([A-Z]\w+)", bodies[held], re.MULTILINE) if held in bodies else [variant]
    return names


def is_meant(operation):
    """Whether requests may mean the operation: whether its name stands in s3_requests."""
    folder = f"{CRATES}/s3_requests/src"
    return any(re.search(rf"\b{operation}\b", open(f"{folder}/{file}", encoding="utf-8").read()) for file in os.listdir(folder))


def main(words):
    if words not in ([], ["--check"]):
        sys.exit(__doc__)
    cases = [case for file in sorted(os.listdir(f"{CRATES}/cases/data")) for case in read_cases(file)]
    found = {**swept(cases), **lost_one_by_one(cases)}
    wanted = [*operations(), SEVERAL_KEYS, RECOVER]
    known = set(OPERATIONS.values())
    lacking = [name for name in wanted if name not in found and (name not in operations() or name in known or is_meant(name))]
    if not words:
        for name in wanted:
            print(name)
            for case in found.get(name, []):
                print(f"    {case}")
    for name in lacking:
        print(f"{name}: no case loses each of its calls")
    return 1 if lacking else 0


if __name__ == "__main__":
    sys.exit(main(sys.argv[1:]))
