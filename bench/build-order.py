#!/usr/bin/env python3
"""Whether examples/build.py builds as it should, with a stand-in for `rt` that proves nothing: each crate behind those that it uses, several
at once, on from where it was stopped, a killed one once more and alone, and none above one that fails.

  bench/build-order.py --check
"""
import os
import re
import shutil
import signal
import subprocess
import sys
import tempfile
import time

ROOT = os.path.dirname(os.path.dirname(os.path.abspath(__file__)))
# It says in the file `told` when it begins and ends a crate, and keeps what it has done. The files `fails` and `kills` have the name of a crate.
RT = """#!/bin/sh
name=${PWD##*/}
top=${PWD%/crates/*}
echo "begin $name" >>"$top/told"
if [ ! -e made ]; then
    [ "$(cat "$top/fails" 2>/dev/null)" != "$name" ] || { echo "an error of $name"; exit 1; }
    [ "$(cat "$top/kills" 2>/dev/null)" != "$name" ] || { rm "$top/kills"; kill -9 $$; }
    sleep 0.1
    : >made
fi
echo "end $name" >>"$top/told"
[ "$1" = lib ] || { echo "rt: running out/$name; and so on" >&2; exit 2; }
"""
PROGRAMS = ("s3gate", "swiftd")


def fail(text):
    sys.exit(f"build-order.py: {text}")


def is_so(what, found, wanted):
    if found != wanted:
        fail(f"{what}: {found}, where {wanted} is wanted")


def crates():
    """What each crate uses, by crates.txt."""
    with open(os.path.join(ROOT, "crates.txt"), encoding="utf-8") as file:
        rows = {line.split(":")[0]: line.split(":")[1].split() for line in file if re.match(r"\w+:", line)}
    return {name: {it for it in words if it in rows} for name, words in rows.items()}


def wanted(uses, name):
    return {name}.union(*(wanted(uses, it) for it in uses[name]))


class Checkout:
    """A folder with the crates' names, and no text."""

    def __init__(self, top, uses):
        self.top, self.uses = top, uses
        for path in ("crates.txt", "bench/gate-cost.md", "examples/build.py"):
            os.makedirs(os.path.dirname(f"{top}/{path}"), exist_ok=True)
            shutil.copy(os.path.join(ROOT, path), f"{top}/{path}")
        for name in uses:
            os.makedirs(f"{top}/crates/{name}/src")
            with open(f"{top}/crates/{name}/src/{'main' if name in PROGRAMS else 'lib'}.rt", "w", encoding="utf-8"):
                pass
        os.mkdir(f"{top}/bin")
        self.write("bin/rt", RT)
        os.chmod(f"{top}/bin/rt", 0o755)

    def write(self, path, text):
        with open(f"{self.top}/{path}", "w", encoding="utf-8") as file:
            file.write(text)

    def begin(self, *names):
        self.write("told", "")
        environment = {**os.environ, "PATH": f"{self.top}/bin:{os.environ['PATH']}"}
        return subprocess.Popen([f"{self.top}/examples/build.py", *names], env=environment, stdout=subprocess.PIPE, stderr=subprocess.STDOUT, text=True)

    def told(self):
        with open(f"{self.top}/told", encoding="utf-8") as file:
            return [line.split() for line in file]

    def look_at_order(self):
        """Each began behind those that it uses; returns how many ran at once, at most."""
        ended, now, most = set(), set(), 0
        for word, name in self.told():
            if word == "begin":
                if not self.uses[name] <= ended:
                    fail(f"{name} began before {self.uses[name] - ended}")
                now.add(name)
                most = max(most, len(now))
            else:
                now.discard(name)
                ended.add(name)
        return most


def main():
    if sys.argv[1:] != ["--check"]:
        sys.exit(__doc__.strip())
    uses = crates()
    both = wanted(uses, "s3gate") | wanted(uses, "swiftd")
    with tempfile.TemporaryDirectory() as top:
        it = Checkout(top, uses)
        it.write("fails", "planner")
        run = it.begin()
        said = run.communicate()[0]
        is_so("the status where one fails", run.returncode, 1)
        if "an error of planner" not in said or any(name in {"gateway", "s3gate"} for _, name in it.told()):
            fail(f"planner fails: {said}")
        os.remove(f"{top}/fails")
        run = it.begin()
        while len(it.told()) < 60:
            time.sleep(0.02)
        run.send_signal(signal.SIGTERM)
        run.communicate()
        is_so("the status where it is stopped", run.returncode, 128 + signal.SIGTERM)
        time.sleep(0.3)
        made = {name for name in uses if os.path.exists(f"{top}/crates/{name}/made")}
        is_so("what is built where it was stopped", made < both, True)
        it.write("kills", "many_keys")
        if "many_keys" in made:
            os.remove(f"{top}/crates/many_keys/made")
        run = it.begin()
        said = run.communicate()[0]
        is_so("the status behind that", run.returncode, 0)
        is_so("what is built then", {name for name in uses if os.path.exists(f"{top}/crates/{name}/made")}, both)
        is_so("how often the killed one began", it.told().count(["begin", "many_keys"]), 2)
        is_so("the line of each", {name for name in uses if re.search(rf"^\S+ {name}: \d+ done, \d+ left, ", said, re.M)}, both)
        it.look_at_order()
    with tempfile.TemporaryDirectory() as top:
        it = Checkout(top, uses)
        run = it.begin()
        run.communicate()
        is_so("the status of a whole build", run.returncode, 0)
        most = it.look_at_order()
        if most < min(2, len(os.sched_getaffinity(0))):
            fail(f"{most} at once")
    with tempfile.TemporaryDirectory() as top:
        it = Checkout(top, uses)
        run = it.begin("http_wire")
        run.communicate()
        is_so("what a crate's name builds", {name for _, name in it.told()}, wanted(uses, "http_wire"))


if __name__ == "__main__":
    main()
