#!/usr/bin/env bash
# What the gate costs: runs one whole `rt ci`, samples its processes, and tells for each crate the minutes of processor that
# its own proof, its tests or its run, and its must-fail edits took, the dearest first.
#
#   bench/gate-cost.sh [--anew | CRATE..]
#
# The table is printed with the commit, the machine and its speed above it, and a run of the whole gate that passed writes the
# same into `gate-cost.md` beside this script. A run that failed, and one of single crates, leaves that page as it is.
#
# With --anew everything is proved from nothing; without it, what earlier runs on this machine kept is not paid again, and the
# page has what `rt ci` says of that. A kit whose `rt ci` keeps nothing, as 13b, has no such word: leave it out there.
#
# `rt ci` takes as many jobs as the machine is idle when it starts, of the processors that it may use: begin this alone; `taskset`
# before it gives it fewer. What `rt ci` says goes to standard error. A process that ends between two samples loses less than a
# third of a second, so the sum is a little below the whole, which is told by the system.
set -euo pipefail
cd "$(dirname "$0")/.."
exec python3 - "$@" <<'PYTHON'
import collections, hashlib, os, platform, re, resource, subprocess, sys, threading, time

PAGE = "bench/gate-cost.md"
TICK = os.sysconf("SC_CLK_TCK")
KINDS = ("proof", "tests", "edits")
MIB = 256
HEAD = """# What the gate cost

Minutes of processor in one run of the gate, by crate: for its own proof, for its tests or its runs, and for its edits. Building a program twice stands with its proof, and running it with its tests. `bench/gate-cost.sh` wrote this page; [TESTING](../docs/TESTING.md) has the rules.
"""


def first(path, words):
    """What a file of the system says behind a word and a colon, at its first place."""
    return next((line.split(":", 1)[1].strip() for line in open(path) if line.startswith(words)), "")


def told(*words):
    return subprocess.run(words, stdin=subprocess.DEVNULL, capture_output=True, text=True).stdout.strip()


def speed():
    """The seconds of processor that an MD5 of so many MiB takes here."""
    piece, digest, start = bytes(1 << 20), hashlib.md5(usedforsecurity=False), time.process_time()
    for _ in range(MIB):
        digest.update(piece)
    return time.process_time() - start


def numbers():
    """The numbers of the processes of the machine."""
    return {int(name) for name in os.listdir("/proc") if name.isdigit()}


def processes(ours):
    """These processes: by number, the parent, when it began, and its seconds of processor."""
    found = {}
    for number in ours:
        try:
            text = open(f"/proc/{number}/stat", errors="replace").read()
        except OSError:
            continue
        fields = text[text.rindex(")") + 2 :].split()
        found[number] = int(fields[1]), fields[19], (int(fields[11]) + int(fields[12])) / TICK
    return found


def place_of(number):
    """The crate and the kind of work of a process, or None where its own words don't tell."""
    try:
        words = open(f"/proc/{number}/cmdline", errors="replace").read().split("\0")
        folder = os.readlink(f"/proc/{number}/cwd")
    except OSError:
        return None
    for at, word in enumerate(words):
        ran = re.search(r"/rt-run-[^/]*/bin/([a-z0-9_]+)$", word)
        if ran:
            return ran[1].removesuffix("_tests"), "tests"
        if word == "--crate-name":
            kind = "edits" if "/rt-edit-" in folder else "tests" if "--test" in words else "proof"
            return words[at + 1], kind
    return None


def relay(lines, last):
    """Hands on what the gate says, and keeps its last lines."""
    for line in lines:
        sys.stderr.write(line)
        sys.stderr.flush()
        last.append(line)


def sampled(gate, before):
    """Seconds of processor by crate and kind, of all below the gate, to its end. What ran before it is looked at no more."""
    spent, places = {}, {}
    while gate.poll() is None:
        there = numbers()
        before &= there
        now = processes(there - before)
        for number, (_, began, seconds) in now.items():
            up, place = number, None
            while up in now and up != gate.pid and not place:
                key = up, now[up][1]
                place = places.get(key) or place_of(up)
                if place:
                    places[key] = place
                up = now[up][0]
            top = up
            while top in now and top != gate.pid:
                top = now[top][0]
            if top == gate.pid and number != gate.pid:
                spent[number, began] = place, seconds
        time.sleep(0.3)
    sums = {}
    for place, seconds in spent.values():
        crate, kind = place or ("(rt itself)", "proof")
        sums.setdefault(crate, dict.fromkeys(KINDS, 0.0))[kind] += seconds
    return sums


def table(sums):
    rows = sorted(sums.items(), key=lambda row: -sum(row[1].values()))
    rows.append(("all", {kind: sum(row[kind] for _, row in rows) for kind in KINDS}))
    lines = [f"| {crate} | " + " | ".join(f"{row[kind] / 60:.1f}" for kind in KINDS) + f" | {sum(row.values()) / 60:.1f} |" for crate, row in rows]
    return "\n".join(["| crate | proof | tests, runs | edits | all |", "|---|---|---|---|---|", *lines])


def main():
    words, usable, day = sys.argv[1:], len(os.sched_getaffinity(0)), time.strftime("%-d %B %Y")
    commit = told("git", "log", "-1", "--format=%h") or "none"
    if told("git", "status", "--porcelain", "--", "crates", "crates.txt", "HANDLES"):
        commit += ", and what wasn't committed"
    processor = first("/proc/cpuinfo", "model name") or platform.machine()
    memory = int(first("/proc/meminfo", "MemTotal").split()[0]) / (1 << 20)
    slow, start = speed(), time.monotonic()
    used, before, last = resource.getrusage(resource.RUSAGE_CHILDREN), numbers(), collections.deque(maxlen=2)
    gate = subprocess.Popen(["rt", "ci", *words], stdout=subprocess.PIPE, stderr=subprocess.STDOUT, stdin=subprocess.DEVNULL, text=True, errors="replace")
    hand = threading.Thread(target=relay, args=(gate.stdout, last), daemon=True)
    hand.start()
    sums = sampled(gate, before)
    clock = (time.monotonic() - start) / 60
    hand.join(5)
    ended = resource.getrusage(resource.RUSAGE_CHILDREN)
    whole = (ended.ru_utime + ended.ru_stime - used.ru_utime - used.ru_stime) / 60
    text = f"""{HEAD}
| of the run | |
|---|---|
| what was run | `{" ".join(["rt", "ci", *words])}` |
| begun on | {day} |
| commit | {commit} |
| toolchain | {told("rt", "version")} |
| processor | {processor}, {usable} to be used |
| memory | {memory:.0f} GiB |
| speed, by the processor's time of an MD5 of {MIB} MiB | {slow:.2f} s before the run, {speed():.2f} s after it |

The end of what `rt ci` said:

```text
{"".join(last).strip()}
```

{table(sums)}

The whole run: {whole:.1f} minutes of processor, {clock:.1f} by the clock, {usable} processors, status {gate.returncode}.
"""
    print(text, end="", flush=True)
    if gate.returncode == 0 and all(word.startswith("-") for word in words):
        with open(PAGE, "w", encoding="utf-8") as page:
            page.write(text)
    sys.exit(gate.returncode)


main()
PYTHON
