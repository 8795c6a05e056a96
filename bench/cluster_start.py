"""Three nodes by examples/cluster/start, with certificates: each part killed, a node away, a fourth of a copy, and who has no certificate. A module of bench/cluster."""
import contextlib
import http.client
import json
import os
import re
import signal
import socket
import ssl
import subprocess
import sys
import threading
import time

from cluster_bytes import entries
from cluster_world import EXAMPLE, MANAGE, Log, NoLog, check, free_port, run, tables, until

START, RUN = os.path.join(EXAMPLE, "start"), os.path.join(EXAMPLE, "run")
PROGRAMS = ("etcd", "desk", "feeder", "front", "failover")


def ports_from():
    """A number behind which the ports of four nodes are free."""
    while True:
        first = free_port() // 10 * 10
        with contextlib.suppress(OSError):
            held = [socket.create_server(("127.0.0.1", first + at)) for at in range(10, 56)]
            for it in held:
                it.close()
            return first


class Started:
    """`start` in a folder, and what is asked of its nodes."""

    def __init__(self, program, first):
        self.program, self.first, self.process = program, first, None

    def start(self):
        self.process = subprocess.Popen(["setpriv", "--pdeathsig", "TERM", sys.executable, START, "cluster", "--port", str(self.first), "--program", self.program], stdout=subprocess.PIPE, text=True)
        self.nodes = []
        while "Ctrl-C" not in (line := self.process.stdout.readline()):
            check(line, "start ends", self.process.poll())
            self.nodes += re.findall(r"node (\d) is at http://127\.0\.0\.1:(\d+)", line)

    def end(self):
        if self.process:
            self.process.send_signal(signal.SIGINT)
            self.process.communicate(timeout=120)
            self.process = None

    def ask(self, n, id, path, body=None, seconds=240, **fields):
        """The answer of a node, by its nginx, again until it is a desk's."""
        return until(lambda: self.once(n, id, path, body, **fields), n, id, path, seconds=seconds)

    def once(self, n, id, path, body=None, port=0, **fields):
        peer = http.client.HTTPConnection("127.0.0.1", self.first + 10 * n + port, timeout=60)
        try:
            peer.request("GET" if id is None else "POST", path, None if body is None else json.dumps(body), {"X-Account": "1", **({"Request-Id": id} if id else {}), **fields})
            answer = peer.getresponse()
            text = answer.read()
            return text.startswith(b")]}'\n") and (answer.status, json.loads(text[5:]))
        except (OSError, http.client.HTTPException):
            return None
        finally:
            peer.close()

    def numbers(self, n, program):
        """The processes of a node's program: those that write to its log, the first one first."""
        place, found = os.path.join(os.path.abspath("cluster"), str(n), "log", program + ".log"), []
        for number in filter(str.isdigit, os.listdir("/proc")):
            with contextlib.suppress(OSError):
                if os.readlink(f"/proc/{number}/fd/1") == place:
                    found.append(int(number))
        return sorted(found)

    def kill(self, n, program, how=signal.SIGKILL):
        for number in self.numbers(n, program):
            with contextlib.suppress(ProcessLookupError):
                os.kill(number, how)

    def log(self):
        return Log([f"127.0.0.1:{self.first + 10 * n + 4}" for n in (1, 2, 3)], "cluster/1/certificates")


def without_certificate(started):
    """etcd and the nodes' ports let nobody in who shows no certificate of theirs."""
    etcd = f"127.0.0.1:{started.first + 14}"
    check(started.log().head() >= 1, "with a certificate")
    context = ssl.create_default_context(cafile="cluster/1/certificates/ca.crt")
    bare = Log([etcd])
    stranger = Log([etcd])
    stranger.tls = context
    for log in (bare, stranger):
        try:
            check(False, "etcd without a certificate", log.head(3))
        except NoLog:
            pass
    peer = http.client.HTTPSConnection("127.0.0.1", started.first + 13, timeout=20, context=context)
    peer.request("GET", "/changes/1", None, {"X-Account": "1"})
    answer = peer.getresponse()
    check(answer.status == 400 and not answer.read().startswith(b")]}'"), "a node's port without a certificate", answer.status)
    peer.close()


BEHIND = b"POST /changes/9/submit HTTP/1.1\r\nX-Account: 1\r\nRequest-Id: behind\r\n\r\n"
LENGTHS = (b"Content-Length: 2", b"Content-Length: 0", b"Content-Length: 2\r\nContent-Length: 0", b"Content-Length: 2\r\nTransfer-Encoding: chunked", b"Transfer-Encoding: chunked\r\nContent-Length: 4",
           b"Transfer-Encoding: chunked", b"Transfer-Encoding:\x0bchunked", b"Transfer-Encoding:\r\n chunked", b"Content-Length: +2", b"Content-Length: 2, 2", b"Content-Length : 2", b"Content_Length: 2")


def one_request(started):
    """Over one connection comes one request, whatever its fields say of its length: what stands behind it never comes to the log."""
    head, count = started.log().head(), 0
    for at, length in enumerate(LENGTHS):
        for body in (b"{}", b"2\r\n{}\r\n0\r\n\r\n", b"0\r\n\r\n"):
            count += 1
            with contextlib.suppress(ConnectionError), socket.create_connection(("127.0.0.1", started.first + 10), timeout=60) as peer:
                peer.sendall(b"POST /changes/8/submit HTTP/1.1\r\nHost: x\r\nX-Account: 1\r\nRequest-Id: o%d\r\n%s\r\n\r\n%s%s" % (at, length, body, BEHIND))
                while peer.recv(65536):
                    pass
    found = [entry.request for entry in entries(started.log())][head:]
    check(found and len(found) <= count and not any(b"behind" in it for it in found), "one request", len(found), [it for it in found if b"behind" in it])


def each_killed(started):
    """Each program of the first node killed, one after the other, and asked at that node at once: a request is answered, and acts once."""
    for at, program in enumerate(PROGRAMS):
        started.kill(1, program)
        name = {"name": f"k{at}"}
        told = [started.ask(1, f"k{at}", "/accounts", name), started.ask(2, f"k{at}", "/accounts", name)]
        check(told == [(200, {"account": 3 + at})] * 2, program, told)


def goes_on_elsewhere(started):
    """A node whose feeder stands still, while all of another one is killed again and again: nginx goes on to the third by itself, and so it does from a front that was killed."""
    until(lambda: started.once(1, None, "/changes/1", port=2), "the node's own front answers")
    started.kill(1, "feeder", signal.SIGSTOP)
    found = []
    asking = threading.Thread(target=lambda: found.append(started.once(1, "f1", "/accounts", {"name": "flo"})))
    begun = time.monotonic()
    asking.start()
    for at in range(3):
        for program in PROGRAMS:
            started.kill(3, program)
        check(started.ask(2, None, f"/changes/{at + 1}")[0] == 404, "a question while a node is away")
    asking.join()
    took = time.monotonic() - begun
    check(found == [(200, {"account": 8})], "another node answers", found)
    started.kill(1, "feeder", signal.SIGCONT)
    started.kill(1, "front")
    check(started.ask(1, None, "/projects/tools/branches/release%2F1.0")[1]["refused"] == "NO_PROJECT", "a path as it came")
    started.kill(1, "front")
    large = started.ask(1, "f2", "/accounts", {"name": "x" * 300_000})
    check(large == (413, {"fault": "TOO_LARGE"}), "a body that is too large", large)
    return took


def settled(started, nodes):
    def are_equal():
        kept = []
        for n in nodes:
            with contextlib.suppress(OSError, ValueError), open(f"cluster/{n}/tools.desk.position", encoding="utf-8") as file:
                kept.append(json.load(file))
        return len(kept) == len(nodes) and len({(it["position"], it["sum"]) for it in kept}) == 1 and kept[0]["position"] == started.log().head()
    until(are_equal, "nodes at one place", nodes)


def a_fourth(started):
    """A node of a copy: it is one more at the next start."""
    os.makedirs("cluster/4")
    ran = subprocess.run([MANAGE, "copy", "cluster/2/tools.desk", "cluster/4/tools.desk"], capture_output=True, text=True, check=False)
    check(ran.returncode == 0, ran)
    started.end()
    started.start()
    check([n for n, _ in started.nodes] == list("1234"), started.nodes)
    check(started.ask(4, "v1", "/accounts", {"name": "vic"}) == (200, {"account": 9}), "asked at the fourth")
    settled(started, (1, 2, 3, 4))
    for n in (1, 2, 3, 4):
        check(started.ask(n, "v1", "/accounts", {"name": "vic"}) == (200, {"account": 9}), "a repeat at each", n)
    settled(started, (1, 2, 3, 4))


def ready_files():
    """The ready files for three machines have no word left once what docs/cluster.md says is put in; systemd finds no fault in the units, where it is there."""
    words = {"NAME": "one", "ADDRESS": "192.0.2.1", "FIRST-OTHER": "192.0.2.2", "SECOND-OTHER": "192.0.2.3"}
    for unit in ("desk", "feeder", "front", "failover"):
        with open(os.path.join(RUN, unit + ".service"), encoding="utf-8") as file:
            text = file.read()
        for word, to in words.items():
            text = text.replace(word, to, 1)
        check(not re.search("[A-Z]+-OTHER|ADDRESS|NAME", text), unit, text)
        with open(unit + ".service", "w", encoding="utf-8") as file:
            file.write(text.replace("/opt/berthoglu/crates/review_desk/out/review_desk", "/bin/true").replace("/opt/berthoglu/examples/cluster", EXAMPLE))
        try:
            ran = subprocess.run(["systemd-analyze", "verify", f"./{unit}.service"], capture_output=True, text=True, check=False)
            faults = [line for line in ran.stderr.splitlines() if f"{unit}.service" in line]
            check(not faults, unit, faults)
        except FileNotFoundError:
            pass


def main(said):
    ready_files()
    started = Started(said.program, ports_from())
    try:
        started.start()
        check(started.ask(1, "a1", "/accounts", {"name": "ann"}) == started.ask(2, "a1", "/accounts", {"name": "ann"}) == (200, {"account": 2}), "ann")
        without_certificate(started)
        one_request(started)
        each_killed(started)
        took = goes_on_elsewhere(started)
        a_fourth(started)
    finally:
        started.end()
    rows = []
    for n in (1, 2, 3, 4):
        check(run("apply", f"cluster/{n}/tools.desk", program=said.program)[0] == 0, "apply", n)
        rows.append(tables(f"cluster/{n}/tools.desk"))
    check(all(it == rows[0] for it in rows), "tables of four nodes")
    print(f"start: each program of a node killed, nginx went on to another node in {took:.1f} s, a fourth node of a copy; tables are equal")
