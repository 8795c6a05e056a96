"""What the tests of examples/cluster share: nodes on this machine whose parts are killed and started again, and what is asked of them. A module; etcd and the built desk."""
import contextlib
import http.client
import json
import os
import random
import signal
import socket
import subprocess
import sys
import tempfile
import threading
import time

from desk_file import PROGRAM, TOP, check, copy, run, tables, work_folder

sys.dont_write_bytecode = True
EXAMPLE = os.path.join(TOP, "examples", "cluster")
sys.path.insert(0, EXAMPLE)
import etcd_log  # noqa: E402
from etcd_log import Log, NoLog  # noqa: E402

FEEDER, FRONT, MANAGE = (os.path.join(EXAMPLE, name) for name in ("feeder", "front", "manage"))
# A feeder that looks about after a second without an entry, and not after five.
SOON = [sys.executable, "-c", "import runpy, sys\nsys.path.insert(0, sys.argv[1])\nimport etcd_log\netcd_log.SILENCE = 1\ndel sys.argv[:2]\nrunpy.run_path(sys.argv[0], run_name='__main__')\n", EXAMPLE, FEEDER]
LONG, ROOM = 240, 3 << 30
# What clients of a test may write.
ROOMY = ("--bytes", 10**12, "--bytes-a-second", 10**12)
PROJECT = """[access]
create = ["Registered-Users"]
submit = ["Registered-Users"]
[label.Code-Review]
values = {-1 = "Bad", 0 = "No score", 1 = "Good"}
grant.Registered-Users = [-1, 1]
[submit-requirement.Code-Review]
submittableIf = "label:Code-Review=MAX AND -label:Code-Review=MIN"
"""
# A pattern that is too large for the desk's engine.
LARGE = PROJECT + "[submit-requirement.Large]\nsubmittableIf = \"path:\\\"^(a{1000}){1000}\\\"\"\n"
BASE = "0" * 39 + "1"
taken_ports = set()


def free_port():
    """A port that stays free while nobody listens at it: below those that connections are given."""
    while True:
        port = random.randrange(10_000, 32_000)
        with contextlib.suppress(OSError), socket.create_server(("127.0.0.1", port)):
            if port not in taken_ports:
                taken_ports.add(port)
                return port


def until(condition, *what, seconds=LONG):
    """Waits until something is so, and gives what it is."""
    end = time.monotonic() + seconds
    while time.monotonic() < end:
        if found := condition():
            return found
        time.sleep(0.05)
    return check(False, "not within", seconds, "s", *what)


class Part:
    """A program that is started again whenever it ends, a moment later, while it is wanted. Its words may be changed meanwhile."""

    def __init__(self, name, words, pause):
        self.name, self.words, self.pause, self.is_wanted, self.starts, self.process, self.due = name, list(words), pause, True, 0, None, 0

    def look(self):
        if self.process and self.process.poll() is not None:
            self.process, self.due = None, time.monotonic() + self.pause
        if not self.process and self.is_wanted and time.monotonic() >= self.due:
            self.starts += 1
            with open(f"{self.name}.log", "ab") as said:
                words = ["setpriv", "--pdeathsig", "KILL", *map(str, self.words)]
                self.process = subprocess.Popen(words, stdin=subprocess.DEVNULL, stdout=said, stderr=said, restore_signals=False)

    def said(self):
        with contextlib.suppress(FileNotFoundError), open(f"{self.name}.log", encoding="utf-8", errors="replace") as file:
            return file.read()
        return ""

    def kill(self, how=signal.SIGKILL):
        with contextlib.suppress(ProcessLookupError, AttributeError):
            self.process.send_signal(how)

    def end(self):
        """Ends it, and has it ended until it is wanted again."""
        self.is_wanted = False
        while self.process and self.process.poll() is None:
            self.kill()
            time.sleep(0.01)

    def status(self, seconds=LONG):
        """The status with which it ends by itself, started anew where it was ended; it isn't started again."""
        if not self.is_wanted:
            until(lambda: not self.process, self.name, "has ended")
            starts, self.is_wanted = self.starts, True
            until(lambda: self.starts > starts, self.name, "starts")
        process = until(lambda: self.process, self.name, "runs")
        self.is_wanted = False
        return process.wait(seconds)


class World:
    """etcd, and the nodes of a cluster, in a folder that is this process's own."""

    def __init__(self, program=PROGRAM, engines=3):
        self.program, self.parts, self.is_open, self.ports, self.peers, self.feeder_words = os.path.abspath(program), {}, True, {}, {}, [FEEDER]
        threading.Thread(target=self.watch, daemon=True).start()
        if engines:
            self.engines(engines)

    def __enter__(self):
        return self

    def __exit__(self, *_):
        for part in list(self.parts.values()):
            part.is_wanted = False
        for part in list(self.parts.values()):
            part.end()
        self.is_open = False

    def watch(self):
        while self.is_open:
            for part in list(self.parts.values()):
                part.look()
            time.sleep(0.02)

    def add(self, name, *words, pause=0.2):
        self.parts[name] = Part(name, words, pause)
        return self.parts[name]

    def port(self, name):
        if name not in self.ports:
            self.ports[name] = free_port()
        return self.ports[name]

    # ---- etcd

    def engines(self, count):
        """Starts so many nodes of etcd; whoever stands between two of them has said so in `peers`, by the port that the others know."""
        numbers = range(1, count + 1)
        known = {n: self.peers.get(n, self.port(f"peer{n}")) for n in numbers}
        cluster = ",".join(f"n{n}=http://127.0.0.1:{known[n]}" for n in numbers)
        for n in numbers:
            client, peer = f"http://127.0.0.1:{self.port(f'engine{n}')}", f"http://127.0.0.1:{self.port(f'peer{n}')}"
            self.add(f"engine{n}", "etcd", "--name", f"n{n}", "--data-dir", f"engine{n}", "--listen-client-urls", client, "--advertise-client-urls", client, "--listen-peer-urls", peer,
                     "--initial-advertise-peer-urls", f"http://127.0.0.1:{known[n]}", "--initial-cluster", cluster, "--initial-cluster-token", "bench", "--auto-compaction-mode", "revision",
                     "--auto-compaction-retention", "1000", "--heartbeat-interval", "200", "--election-timeout", "2000", "--pre-vote", "--logger", "zap", "--log-outputs", "stderr", pause=0.5)
        self.addresses = [f"127.0.0.1:{self.port(f'engine{n}')}" for n in numbers]
        log = Log(self.addresses)
        until(lambda: has_log(log), "a log")

    def log_of(self, n):
        """etcd's nodes as a node knows them, its own first."""
        at = (n - 1) % len(self.addresses)
        return self.addresses[at:] + self.addresses[:at]

    # ---- nodes

    def node(self, n, is_made=False, has_front=True, **feeder):
        if not is_made:
            check(run("init", f"{n}.desk", program=self.program)[0] == 0, "init", n)
        self.add(f"desk{n}", self.program, "serve", f"{n}.desk", "--port", self.port(f"desk{n}"), "--count", 4294967295)
        self.feeder(n, **feeder)
        if has_front:
            self.add(f"front{n}", FRONT, f"{n}.desk", "--port", self.port(f"front{n}"), "--desk", self.port(f"desk{n}"), *ROOMY, "--log", *self.log_of(n))

    def feeder(self, n, *more):
        return self.add(f"feeder{n}", *self.feeder_words, f"{n}.desk", "--port", self.port(f"desk{n}"), "--name", f"node{n}", *more, "--log", *self.log_of(n))

    def position(self, n):
        """What the feeder of a node keeps."""
        return self.position_of(f"{n}.desk")

    def position_of(self, desk_file):
        try:
            with open(desk_file + ".position", encoding="utf-8") as file:
                return json.load(file)
        except (FileNotFoundError, ValueError):
            return {"position": 0, "sum": "none"}

    def settled(self, nodes, seconds=LONG):
        """Waits until nodes have come to the end of the log, with the same answers: what they keep."""
        log = Log(self.addresses)

        def are_equal():
            with contextlib.suppress(NoLog):
                kept = [self.position(n) for n in nodes]
                return len({(it["position"], it["sum"]) for it in kept}) == 1 and kept[0]["position"] == log.head() and kept[0]
        return until(are_equal, "nodes at one place", nodes, seconds=seconds)

    def tables(self, n):
        """The tables of a node's desk as they are now."""
        with work_folder() as folder:
            return tables(copy(f"{n}.desk", os.path.join(folder, "copy")))

    def check_logs(self):
        """No front and no feeder has failed otherwise than it may."""
        for name, part in self.parts.items():
            check(not name.startswith(("front", "feeder")) or "Traceback" not in part.said(), name, part.said()[-1500:])

    # ---- requests

    def ask(self, n, id, method, path, body=None, account=1, epoch=0, seconds=LONG):
        """A request to a node, again until the desk's answer came: its status, its JSON and its position."""
        return until(lambda: self.once(n, id, method, path, body, account, epoch), id, method, path, seconds=seconds)

    def once(self, n, id, method, path, body=None, account=1, epoch=0, seconds=30, **more):
        fields = {"X-Account": str(account), **({"Request-Id": id} if id else {}), **({"Request-Epoch": str(epoch)} if epoch else {}), **more}
        found = exchange(self.port(f"front{n}"), method, path, fields, None if body is None else body if isinstance(body, bytes) else json.dumps(body).encode(), seconds)
        return found and (found[0], json.loads(found[1][5:]), found[2])

    def manage(self, *words, status=0, seconds=LONG):
        ran = subprocess.run([MANAGE, *map(str, words)], capture_output=True, text=True, timeout=seconds, check=False)
        check(status is None or ran.returncode == status, words, ran.returncode, ran.stdout, ran.stderr)
        return ran.stdout if ran.returncode == 0 else ran.stderr


def has_log(log):
    with contextlib.suppress(NoLog):
        return log.head(2) >= 0
    return False


def exchange(port, method, path, fields, body=None, seconds=30):
    """The status, the text and the position of the desk's answer; None where none came."""
    peer = http.client.HTTPConnection("127.0.0.1", port, timeout=seconds)
    try:
        peer.request(method, path, body, fields)
        answer = peer.getresponse()
        text = answer.read()
        return (answer.status, text, int(answer.headers["Log-Position"])) if text.startswith(b")]}'\n") and text.endswith(b"\n") else None
    except (OSError, http.client.HTTPException, ValueError, TypeError):
        return None
    finally:
        peer.close()


@contextlib.contextmanager
def own_folder(is_on_disk=False):
    """A temporary folder in which this process works, in memory where there is room for what etcd sets aside, 128 MB for each of its nodes; no file stays."""
    places = [it for it in (() if is_on_disk else ("/dev/shm",)) + (tempfile.gettempdir(),) if os.access(it, os.W_OK) and not os.statvfs(it).f_flag & os.ST_NOEXEC]
    with tempfile.TemporaryDirectory(dir=max(places, key=lambda it: min(os.statvfs(it).f_bavail * os.statvfs(it).f_frsize, ROOM))) as folder:
        os.chdir(folder)
        try:
            yield folder
        finally:
            os.chdir(TOP)


__all__ = ["BASE", "EXAMPLE", "FEEDER", "FRONT", "LARGE", "LONG", "PROGRAM", "PROJECT", "SOON", "TOP", "Log", "NoLog", "Part", "World", "check", "copy", "etcd_log", "exchange", "free_port", "has_log", "own_folder",
           "run", "tables", "until"]
