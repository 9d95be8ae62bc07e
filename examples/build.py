#!/usr/bin/env python3
"""Proves and builds s3gate and swiftd: each crate behind those that it uses, as many at once as processors and memory allow.

    examples/build.py [CRATE..]

A line tells each crate that is proved, how many are left, and how long that may still take. What is proved is kept in the crates' folders:
stopped at any moment, and begun again, it goes on with what is left. The programs come to crates/s3gate/out/s3gate and
crates/swiftd/out/swiftd. Only `rt`, the toolchain's command, and Python's own libraries are used.
"""
import fcntl
import importlib.machinery
import importlib.util
import os
import re
import shutil
import signal
import subprocess
import sys
import tempfile
import time

sys.dont_write_bytecode = True
ROOT = os.path.dirname(os.path.dirname(os.path.abspath(__file__)))
# The memory of a check, in bytes: for any, for a line of the crate and of those below it, for a program. Most took less.
LEAST, LINE, PROGRAM = 1_500_000_000, 22_000, 3_500_000_000
# What a further job takes of the memory of the first, and how many jobs one check has at most.
JOB, JOBS = 0.6, 4
# The machine that bench/gate-cost.md was sampled on was slow and busy: so much of its minutes is expected before anything was measured.
FASTER, SURE = 0.75, 10
# After so many seconds without a line it is told what is being proved, and what that waits for.
SILENT = 120
WAITS = "waits for another rt"
KILLED = 128 + signal.SIGKILL


def read(path):
    with open(os.path.join(ROOT, path), encoding="utf-8") as file:
        return file.read()


def command():
    return shutil.which("rt") or sys.exit("build.py: there is no `rt` on the path: README says which toolchain has it")


def toolchain():
    """rt as a module, or None where it isn't the toolchain's program in Python."""
    path = os.path.realpath(command())
    with open(path, "rb") as file:
        if b"python" not in file.readline():
            return None
    loader = importlib.machinery.SourceFileLoader("rt_command", path)
    rt = importlib.util.module_from_spec(importlib.util.spec_from_loader("rt_command", loader))
    loader.exec_module(rt)
    return rt if hasattr(getattr(rt, "rtlib", None), "lock") else None


def lock(crates):
    """Keeps other commands off these crates until what it returns is closed: off the last one, and off a change of the libraries below it.

    rt's own lock keeps each of them for one command alone, so that crates over the same library would be proved one behind the other.
    """
    held = []
    for crate in sorted(crates, key=lambda it: os.path.realpath(it.folder)):
        held.append(os.open(crate.folder, os.O_RDONLY))
        kind = fcntl.LOCK_SH if crate is not crates[-1] and crate.is_built() else fcntl.LOCK_EX
        try:
            fcntl.flock(held[-1], kind | fcntl.LOCK_NB)
        except BlockingIOError:
            print(f"{WAITS} in crates/{crate.name}", flush=True)
            fcntl.flock(held[-1], kind)
    return held


def prove(words):
    """Runs rt with these words in the current folder, in place of this process."""
    rt = toolchain()
    if not rt:
        os.execvp("rt", ["rt", *words])
    rt.rtlib.lock = lock
    status = rt.main(words)
    sys.stdout.flush()
    # Where the check was killed, its status is the signal's.
    sys.exit(status if status >= 0 else 128 - status)


def processors():
    """How many processors there are to use, by the control group's quota too."""
    found = len(os.sched_getaffinity(0))
    try:
        quota, period = open("/sys/fs/cgroup/cpu.max", encoding="ascii").read().split()
        found = min(found, max(int(quota) // int(period), 1))
    except (OSError, ValueError):
        pass
    return found


def free():
    """How many bytes of memory are free, under the control group's limit too."""
    found = [1024 * int(re.search(r"MemAvailable: *(\d+)", open("/proc/meminfo", encoding="ascii").read())[1])]
    try:
        limit = int(open("/sys/fs/cgroup/memory.max", encoding="ascii").read())
        found.append(limit - int(re.search(r"^anon (\d+)", open("/sys/fs/cgroup/memory.stat", encoding="ascii").read())[1]))
    except (OSError, ValueError, TypeError):
        pass
    return min(found)


def uses_of_all():
    """What each crate uses of the others, by crates.txt, whose order is from the lowest to the highest."""
    rows = re.findall(r"^([a-z]\w*)[^:\n]*:(.*)$", read("crates.txt"), re.M)
    return {name: [it for it in words.split() if it in dict(rows)] for name, words in rows}


def below(name, uses):
    """The crates that this one stands on, and itself."""
    found = {name: None}
    for it in uses[name]:
        found.update(below(it, uses))
    return found


def lines_of(name):
    """How many lines of code, definitions and proofs a crate has."""
    count = 0
    for part in ("src", "specs", "proofs"):
        for folder, _, names in os.walk(os.path.join(ROOT, "crates", name, part)):
            for it in names:
                with open(os.path.join(folder, it), "rb") as file:
                    count += file.read().count(b"\n")
    return count


class Build:
    """What is proved, what is being proved and what is left of the crates that some programs stand on."""

    def __init__(self, programs):
        self.uses = uses_of_all()
        wanted = {it for name in programs for it in below(name, self.uses)}
        self.uses = {name: [it for it in uses if it in wanted] for name, uses in self.uses.items() if name in wanted}
        lines = {name: lines_of(name) for name in self.uses}
        table = dict(re.findall(r"^\| (\w+) \| ([\d.]+) \|", read("bench/gate-cost.md"), re.M))
        # The minutes of one processor that each takes, and of the longest chain of crates from each up to a program.
        self.minutes = {name: float(table.get(name, lines[name] / 1000)) for name in self.uses}
        self.chain = dict(self.minutes)
        for name in reversed(self.uses):
            for it in self.uses[name]:
                self.chain[it] = max(self.chain[it], self.minutes[it] + self.chain[name])
        self.programs = [name for name in self.uses if os.path.exists(os.path.join(ROOT, "crates", name, "src/main.rt"))]
        self.memory = {name: LEAST + LINE * sum(lines[it] for it in below(name, self.uses)) for name in self.uses}
        for name in self.programs:
            self.memory[name] += PROGRAM
        self.lanes, self.room = processors(), 0.85 * free()
        self.done, self.running, self.alone, self.begun, self.told = set(), {}, set(), time.time(), time.time()
        self.took, self.weighed = 0, 0

    def to_go(self):
        """How many minutes are left by the clock: by the longest chain, or by the sum."""
        spent = {name: (time.time() - it["begun"]) / 60 for name, it in self.running.items()}
        # What takes longer than it should tells of the speed before it is done.
        late = [name for name in spent if spent[name] > FASTER * self.minutes[name]]
        took, weighed = self.took + sum(spent[name] for name in late), self.weighed + sum(self.minutes[name] for name in late)
        speed = (took + SURE * FASTER) / (weighed + SURE)
        rest = {name: max(speed * self.minutes[name] - spent.get(name, 0), 0.1) for name in self.uses if name not in self.done}
        chains = [speed * (self.chain[name] - self.minutes[name]) + rest[name] for name in rest]
        return max([sum(rest.values()) / self.lanes, *chains])

    def tell(self, text):
        left = len(self.uses) - len(self.done)
        so_far = f"{len(self.done)} done, {left} left, {(time.time() - self.begun) / 60:.0f} minutes so far"
        print(f"{time.strftime('%T')} {text}: {so_far}{f', some {max(self.to_go(), 1):.0f} to go' * bool(left)}", flush=True)
        self.told = time.time()

    def ready(self):
        """What may be begun, that which most waits for first."""
        found = [name for name, uses in self.uses.items() if name not in self.done and name not in self.running and self.done.issuperset(uses)]
        return sorted(found, key=lambda name: -self.chain[name])

    def begin(self, name, jobs, memory):
        words = ["run", "--jobs", str(jobs)] if name in self.programs else ["lib", "--jobs", str(jobs)]
        # Each program is run once, to no effect: s3gate for a client that sends nothing, swiftd without words, which it refuses.
        words += ["--", "session"] if name == "s3gate" else []
        out = tempfile.TemporaryFile("w+", errors="replace")
        environment = {key: value for key, value in os.environ.items() if key != "S3GATE_KEYS"}
        how = {"cwd": os.path.join(ROOT, "crates", name), "env": environment, "stdin": subprocess.DEVNULL, "stdout": out, "stderr": out}
        run = subprocess.Popen([sys.executable, os.path.abspath(__file__), "--prove", *words], **how)
        self.running[name] = {"run": run, "out": out, "begun": time.time(), "memory": memory, "jobs": jobs}

    def begin_what_fits(self):
        """Begins what processors and memory have room for; something in any case."""
        ready = self.ready()
        for at, name in enumerate(ready):
            idle = self.lanes - sum(it["jobs"] for it in self.running.values())
            room = min(self.room - sum(it["memory"] for it in self.running.values()), free() if self.running else self.room)
            is_lone = name in self.alone or any(it in self.alone for it in self.running)
            if idle < 1 or (self.running and (is_lone or room < self.memory[name])):
                continue
            # What no other crate waits for, a large check can use.
            spare = min(JOBS, idle // (len(ready) - at), 1 + int((room / self.memory[name] - 1) / JOB))
            jobs = 1 if name in self.alone else max(spare, 1)
            self.begin(name, jobs, self.memory[name] * (1 + JOB * (jobs - 1)))

    def end(self, name):
        it = self.running.pop(name)
        status, took = it["run"].returncode, (time.time() - it["begun"]) / 60
        it["out"].seek(0)
        said = it["out"].read()
        # A program's own status may be any: swiftd refuses to run without words.
        if status == 0 or f"rt: running out/{name};" in said:
            self.done.add(name)
            # What was proved before says nothing of this machine's speed.
            if took > 0.1 * self.minutes[name]:
                self.took, self.weighed = self.took + took, self.weighed + self.minutes[name]
            return self.tell(name)
        if status in (KILLED, -signal.SIGKILL) and name not in self.alone:
            # Most likely for memory: once more, with nothing beside it.
            self.alone.add(name)
            return self.tell(f"{name} was killed, and is proved alone later")
        sys.stdout.write(said)
        return sys.exit(f"build.py: {name} isn't proved: what rt said of it stands above")

    def still(self, name):
        """What is being proved, and what it waits for, where that is the last thing it said."""
        out = self.running[name]["out"].fileno()
        last = os.pread(out, 200, max(os.fstat(out).st_size - 200, 0)).decode(errors="replace").strip().split("\n")[-1]
        return f"{name} ({last})" if last.startswith(WAITS) else name

    def run(self):
        try:
            while len(self.done) < len(self.uses):
                self.begin_what_fits()
                for name in [name for name, it in self.running.items() if it["run"].poll() is not None]:
                    self.end(name)
                if time.time() - self.told > SILENT:
                    self.tell(f"still at {', '.join(map(self.still, self.running))}")
                time.sleep(0.1)
        finally:
            for it in self.running.values():
                it["run"].terminate()
            for it in self.running.values():
                it["run"].wait()


def proved_before(build):
    """The libraries that need no proof any more, as far as rt tells."""
    rt = toolchain()
    crates = rt.rtlib.crates_below(os.path.join(ROOT, "crates")) if rt and hasattr(rt.rtlib, "crates_below") else []
    return {it.name for it in crates if it.name in build.uses and it.makes_rlib() and it.is_built()}


def main():
    programs = sys.argv[1:] or ["swiftd", "s3gate"]
    if any(it not in uses_of_all() for it in programs):
        sys.exit(__doc__.strip())
    signal.signal(signal.SIGTERM, lambda *_: sys.exit(128 + signal.SIGTERM))
    os.chdir(ROOT)
    build = Build(programs)
    build.done = proved_before(build)
    build.tell(f"{len(build.uses)} crates are wanted; {build.lanes} processors, {free() / 1e9:.0f} GB of free memory")
    try:
        build.run()
    except KeyboardInterrupt:
        sys.exit("build.py: stopped; the next one goes on from here")


if __name__ == "__main__":
    prove(sys.argv[2:]) if sys.argv[1:2] == ["--prove"] else main()
