"""What benchmarks of the built program share: a desk as a process that is sent lines, and how rates are compared. No rate is judged with `--smallest`."""
import json
import os
import subprocess
import sys
import time

from desk_file import PROGRAM, TOP
from words import IS_SMALLEST


def build(*command, folder=TOP, program=PROGRAM):
    """Builds a program by a command, where it isn't built yet; from here on this script, and what it starts, share one CPU."""
    if not IS_SMALLEST:
        subprocess.run(command or ["./desk", "apply", ":memory:"], cwd=folder, stdin=subprocess.DEVNULL, stdout=subprocess.DEVNULL, check=True)
    elif not os.path.isfile(program):
        sys.exit(f"there is no {program}: rt ci builds it")
    os.sched_setaffinity(0, {min(os.sched_getaffinity(0))})


def processor(*pids):
    """Seconds of processor time that processes have taken, the kernel's for them among it. No wait lengthens it, whether for a disk or for another program."""
    taken = 0
    for pid in pids:
        with open(f"/proc/{pid}/schedstat", encoding="ascii") as it:
            taken += int(it.read().split()[0])
    return taken / 1e9


def request(do, id, caller, body, **route):
    return json.dumps({"caller": caller, "id": id, "do": do, **route, "body": body}, separators=(",", ":")) + "\n"


def question(do, **route):
    return json.dumps({"caller": 1, "do": do, **route}, separators=(",", ":")) + "\n"


def account(number):
    return request("CreateAccount", f"a{number}", 1, {"name": f"n{number}"})


def change(number, owner=2):
    body = {"project": "tools", "branch": "main", "subject": "Fix", "commit": f"{number:040x}", "parent": "0" * 40, "paths": ["src/a.rs"]}
    return request("CreateChange", f"c{number}", owner, body)


class Desk:
    """A desk with three accounts and a project with this file."""

    def __init__(self, file, program=PROGRAM):
        self.process = subprocess.Popen([program, "apply", ":memory:"], stdin=subprocess.PIPE, stdout=subprocess.PIPE)
        self.timed([
            account(2), account(3), account(4), request("PutGroup", "g", 1, {"members": [3]}, group="Core"),
            request("PutProject", "p", 1, {"file": file}, project="tools"),
            request("RecordBase", "b", 1, {"commit": "0" * 40}, project="tools", branch="main"),
        ])

    def timed(self, lines):
        """Sends lines, and waits for the answer to each, none of which may be a refusal: microseconds a line."""
        begun = time.perf_counter()
        self.process.stdin.write("".join(lines).encode())
        self.process.stdin.flush()
        for line in lines:
            answer = self.process.stdout.readline()
            assert answer.startswith((b"{}", b'{"account"', b'{"change"', b'{"comments"', b'{"joined"', b"[")) and b'"refused"' not in answer, (line, answer)
        return (time.perf_counter() - begun) / len(lines) * 1e6

    def ended(self):
        self.process.stdin.close()
        assert self.process.wait() == 0


def is_met(what, rates, than, others, most):
    """Prints the least time of each, and says whether the first is at most so many times the second."""
    one, other = min(rates), min(others)
    is_right = one <= most * other
    print(f"{what}: {one:.1f} us; {than}: {other:.1f} us; {one / other:.2f} times; at most {most:.2f}: {judged(is_right)}")
    return is_right


def is_met_above(what, rates, than, others, most):
    """The same where the first may take at most so many microseconds more."""
    one, other = min(rates), min(others)
    is_right = one <= other + most
    print(f"{what}: {one:.1f} us; {than}: {other:.1f} us; {one - other:.1f} us more; at most {most}: {judged(is_right)}")
    return is_right


def judged(is_right):
    """How it is told whether a bound is kept."""
    return "not judged" if IS_SMALLEST else "yes" if is_right else "NO"


def ends(met):
    sys.exit(0 if IS_SMALLEST or all(met) else 1)
