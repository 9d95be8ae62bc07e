#!/usr/bin/python3
"""Runs a program under the limits of a systemd unit, without systemd: to try whether they leave the program what it needs.

  packaging/limits.py UNIT USER PROGRAM WORDS..

It is for root, and wants Debian's python3-seccomp, and systemd-analyze for the names of groups of calls. A line of the unit that it
doesn't set is told on standard error. The environment is the caller's.
"""
import ctypes
import os
import pwd
import subprocess
import sys

import seccomp
from seccomp import Arg, EQ, ERRNO, MASKED_EQ, SyscallFilter

EPERM, EAFNOSUPPORT = 1, 97
NEW_MOUNTS, NEW_USERS = 0x20000, 0x10000000
NAMESPACES = [0x20000, 0x2000000, 0x4000000, 0x8000000, 0x10000000, 0x20000000, 0x40000000]
FAMILIES = {"AF_UNIX": 1, "AF_INET": 2, "AF_INET6": 10, "AF_NETLINK": 16}
C = ctypes.CDLL(None, use_errno=True)
# Lines that say when and as whom the program runs.
ELSEWHERE = {
    "Type", "EnvironmentFile", "Environment", "LoadCredential", "ExecCondition", "ExecStartPre", "ExecStart", "ExecStopPost", "TimeoutStartSec",
    "Restart", "RestartSec", "RestartPreventExitStatus", "DynamicUser", "User", "Group", "StateDirectory", "StateDirectoryMode",
    "LogRateLimitIntervalSec", "LogRateLimitBurst",
}


def lines_of(unit):
    """The values of each name of [Service], in their order."""
    found, inside = {}, False
    with open(unit, encoding="utf-8") as file:
        for line in file:
            line = line.strip()
            if line.startswith("["):
                inside = line == "[Service]"
            elif inside and "=" in line and not line.startswith("#"):
                name, _, value = line.partition("=")
                found.setdefault(name, []).append(value)
    return found


def calls_of(group):
    """The calls of a group of systemd's, and of the groups in it."""
    told = subprocess.run(["systemd-analyze", "syscall-filter", group], check=True, capture_output=True, text=True).stdout
    words = [line.strip() for line in told.splitlines()[1:] if line.strip() and not line.strip().startswith("#")]
    return {call for word in words for call in (calls_of(word) if word.startswith("@") else [word])}


def checked(result, what):
    if result != 0:
        sys.exit(f"limits.py: {what}: {os.strerror(ctypes.get_errno())}")


def mount(*words):
    subprocess.run(["mount", *words], check=True)


def hide(lines):
    """The files that the unit leaves: nothing can be written, homes and devices are gone, /tmp is another one."""
    checked(C.unshare(NEW_MOUNTS), "a namespace of mounts")
    mount("--make-rprivate", "/")
    seen = ["hidepid=invisible"] * bool(lines.pop("ProtectProc", None)) + ["subset=pid"] * bool(lines.pop("ProcSubset", None))
    if seen:
        mount("-t", "proc", "-o", ",".join(seen), "proc", "/proc")
    if lines.pop("PrivateDevices", None):
        lines.pop("DevicePolicy", None)
        mount("-t", "tmpfs", "-o", "mode=755", "limits", "/mnt")
        for name in ("null", "zero", "full", "random", "urandom", "tty"):
            with open(f"/mnt/{name}", "w", encoding="ascii"):
                mount("--bind", f"/dev/{name}", f"/mnt/{name}")
        mount("--move", "/mnt", "/dev")
    for place in ["/home", "/root"] if lines.pop("ProtectHome", None) else []:
        mount("-t", "tmpfs", "-o", "mode=0", "limits", place)
    if lines.pop("ProtectSystem", None):
        for name in ("ProtectControlGroups", "ProtectKernelTunables"):
            lines.pop(name, None)
        with open("/proc/self/mounts", encoding="utf-8") as file:
            places = [line.split()[1] for line in file]
        for place in places:
            if place.split("/")[1] not in ("dev", "proc"):
                subprocess.run(["mount", "-o", "remount,bind,ro", place], check=False, stderr=subprocess.DEVNULL)
    for place in ["/tmp", "/var/tmp"] if lines.pop("PrivateTmp", None) else []:
        mount("-t", "tmpfs", "-o", "mode=1777", "limits", place)


def filter_of(lines):
    """What is let through of the calls to the system."""
    allowed, refused = set(calls_of("@default")), set()
    for value in lines.pop("SystemCallFilter", []):
        for word in value.lstrip("~").split():
            (refused if value.startswith("~") else allowed).update(calls_of(word) if word.startswith("@") else [word])
    rules = SyscallFilter(ERRNO(EPERM))
    special = {"socket", "unshare", "setns", "clone", "clone3", "mmap", "mprotect", "pkey_mprotect", "personality"}
    for call in sorted((allowed - refused) - special):
        try:
            rules.add_rule(seccomp.ALLOW, call)
        except (RuntimeError, ValueError, OSError):
            pass  # of another machine
    families = {FAMILIES[family] for family in " ".join(lines.pop("RestrictAddressFamilies")).split()}
    for family in range(46):
        rules.add_rule(seccomp.ALLOW if family in families else ERRNO(EAFNOSUPPORT), "socket", Arg(0, EQ, family))
    # MemoryDenyWriteExecute: no page that can be written and run (2 and 4), and none that is made so later.
    lines.pop("MemoryDenyWriteExecute")
    for bits in (0, 2, 4):
        rules.add_rule(seccomp.ALLOW, "mmap", Arg(2, MASKED_EQ, 6, bits))
    rules.add_rule(seccomp.ALLOW, "mprotect", Arg(2, MASKED_EQ, 4, 0))
    # RestrictNamespaces: a thread or a process may be begun in none of its own. clone3 can't be looked into: C libraries go back to clone.
    lines.pop("RestrictNamespaces")
    rules.add_rule(seccomp.ALLOW, "clone", Arg(0, MASKED_EQ, sum(NAMESPACES), 0))
    rules.add_rule(ERRNO(38), "clone3")
    lines.pop("LockPersonality")
    rules.add_rule(seccomp.ALLOW, "personality", Arg(0, EQ, 0))
    rules.add_rule(seccomp.ALLOW, "personality", Arg(0, EQ, 0xFFFFFFFF))
    for name in ("SystemCallErrorNumber", "SystemCallArchitectures", "RestrictRealtime"):
        lines.pop(name, None)  # EPERM, this machine's alone, and a part of @resources
    return rules


def own_users(user):
    """A namespace of users in which root and this user are, and all others are nobody. The parent writes its map."""
    ready, told = os.pipe()
    child = os.fork()
    if child == 0:
        os.close(told)
        os.read(ready, 1)
        for kind, own in (("uid", user.pw_uid), ("gid", user.pw_gid)):
            with open(f"/proc/{os.getppid()}/{kind}_map", "w", encoding="ascii") as file:
                file.write(f"0 0 1\n{own} {own} 1\n")
        os._exit(0)
    checked(C.unshare(NEW_USERS), "a namespace of users")
    os.close(told)
    if os.waitpid(child, 0)[1] != 0:
        sys.exit("limits.py: the map of users can't be written")


def main():
    if len(sys.argv) < 4:
        sys.exit(__doc__.strip())
    unit, name, *words = sys.argv[1:]
    lines, user = lines_of(unit), pwd.getpwnam(name)
    words[0] = os.path.realpath(words[0])
    rules = filter_of(lines)
    hide(lines)
    os.setgroups([])
    if lines.pop("PrivateUsers", None):
        own_users(user)
    if "CapabilityBoundingSet" in lines:
        lines.pop("CapabilityBoundingSet")
        for number in range(64):
            C.prctl(24, number, 0, 0, 0)
    os.umask(int(lines.pop("UMask", ["0022"])[0], 8))
    os.setresgid(user.pw_gid, user.pw_gid, user.pw_gid)
    os.setresuid(user.pw_uid, user.pw_uid, user.pw_uid)
    os.chdir("/")
    left = sorted(set(lines) - ELSEWHERE - {"NoNewPrivileges"})
    print("limits.py: not set:", *left, file=sys.stderr, flush=True)
    checked(C.prctl(38, 1, 0, 0, 0), "no new privileges")
    rules.load()
    os.execv(words[0], words)


if __name__ == "__main__":
    main()
