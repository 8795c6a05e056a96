"""What a front tells is what a desk tells, byte for byte but for the field Log-Position: each request of scripts/http.txt, through one. A module of bench/cluster.

A head that is refused for itself is answered by a desk before its body came, and by a front behind it. So who sends no body says here that nothing more comes.
"""
import importlib.machinery
import importlib.util
import os
import re
import socket
import subprocess
import sys
import time

from cluster_world import TOP, Log, World, check, copy, until
from desk_answers import UPGRADE

LENGTH = re.compile(rb"(?im)^content-length: (\d{1,6})\r?$")
POSITION = re.compile(rb"\r\nLog-Position: \d+")


def load(name, file):
    """A program, as a module."""
    sys.dont_write_bytecode = True
    loader = importlib.machinery.SourceFileLoader(name, file)
    found = importlib.util.module_from_spec(importlib.util.spec_from_loader(name, loader))
    loader.exec_module(found)
    return found


def is_served(port):
    try:
        socket.create_connection(("127.0.0.1", port)).close()
        return True
    except OSError:
        return False


def lacks_body(sent):
    head, _, body = sent.partition(b"\r\n\r\n")
    return any(len(body) < int(it) for it in LENGTH.findall(head))


def begin(world, n, session, numbers):
    """A node of its own for a session, over a log that is empty again."""
    log = Log(world.addresses)
    log.delete("\0", "\0")
    if session.after:
        copy(f"{numbers[session.after]}.desk", f"{n}.desk")
    else:
        subprocess.run([world.program, "init", f"{n}.desk"], check=True, stdout=subprocess.DEVNULL)
    if session.lines:
        given = "".join(line + "\n" for line, _ in session.lines)
        told = subprocess.run([world.program, "apply", f"{n}.desk"], input=given, capture_output=True, text=True, check=False).stdout
        check(told == "".join(answer + "\n" for _, answer in session.lines), session.name, told)
    world.node(n, is_made=True)
    until(lambda: is_served(world.port(f"front{n}")) and is_served(world.port(f"desk{n}")), "a front and a desk")


# What http.txt doesn't send: lines that end without a carriage return, words of an UPGRADE, and a position that a client makes up.
ODD = [
    b"POST /accounts HTTP/1.1\nX-Account: 1\nRequest-Id: l1\nContent-Length: 14\n\n{\"name\":\"lfa\"}",
    b"\n\r\nPOST /accounts HTTP/1.1\r\nX-Account: 1\nRequest-Id: l2\r\nContent-Length: 14\n\r\n{\"name\":\"lfb\"} and more",
    b"POST /accounts HTTP/1.1\r\nX-Account: 1\r\nRequest-Id: l3\r\nContent-Length: 14\r\nLog-Position: 999999999\r\n\r\n{\"name\":\"lfc\"}",
    b"GET /changes/1 HTTP/1.1\nX-Account: 1\n\n",
    b"\n\nGET /changes/1 HTTP/1.1\r\nX-Account: 1\r\nLog-Position: 999999999999999999\r\n\r\n",
    b"GET /changes/1 HTTP/1.1\r\nX-Account: 1\r\nLog-Position: 1\r\nLog-Position: -1\r\n\r\n",
]
ODD_NODE = 1000
NO_REQUESTS = [b"UPGRADE 7", b"\r\n\nUPGRADE 7", b"UPGRADE 7\n", b"UPGRADE 7\r\n\r\n", b"UPGRADE 7 HTTP/1.1\r\nX-Account: 1\r\n\r\n", b"\r\n", b"\n"]


def tell_raw(port, sent, is_end):
    """All that is answered to some bytes, by one who says that nothing comes behind them or doesn't."""
    with socket.create_connection(("127.0.0.1", port), timeout=30) as peer:
        peer.sendall(sent)
        if is_end:
            peer.shutdown(socket.SHUT_WR)
        answer = b""
        while more := peer.recv(65536):
            answer += more
    return answer


def odd_requests(world):
    """Each is answered as by a desk, at once, with one position that is the log's own, and stops no node."""
    log = Log(world.addresses)
    log.delete("\0", "\0")
    world.node(ODD_NODE)
    subprocess.run([world.program, "init", "alone.desk"], check=True, stdout=subprocess.DEVNULL)
    world.add("alone", world.program, "serve", "alone.desk", "--port", world.port("alone"), "--count", 4294967295)
    until(lambda: is_served(world.port(f"front{ODD_NODE}")) and is_served(world.port("alone")), "a front and a desk")
    for sent in (*ODD, *NO_REQUESTS):
        begun = time.monotonic()
        got, wanted = (tell_raw(world.port(it), sent, sent in NO_REQUESTS) for it in (f"front{ODD_NODE}", "alone"))
        found = POSITION.findall(got)
        check(POSITION.sub(b"", got, 1) == wanted != b"" and len(found) == 1, "answered otherwise", sent, got, wanted)
        check(int(found[0].split()[1]) <= log.head() and time.monotonic() - begun < 8, "a position", sent, found)
    kept = world.position(ODD_NODE)
    check(kept["version"] == 0 and kept["position"] == log.head() and not any(UPGRADE.fullmatch(entry.request) for entry in entries(log)), "no node stops", kept)
    check(world.parts[f"feeder{ODD_NODE}"].starts == 1, "the feeder goes on", world.parts[f"feeder{ODD_NODE}"].said())


def entries(log):
    last = log.head()
    for entry in filter(None, log.read(0)):
        yield entry
        if entry.position == last:
            return


def main(said):
    requests, count, wrong, numbers = load("run_requests", os.path.join(TOP, "tools", "run_requests")), 0, [], {}
    with World(said.program, engines=1) as world:
        for n, session in enumerate(requests.read_transcript(os.path.join(TOP, "scripts", "http.txt"))):
            numbers[session.name] = n
            begin(world, n, session, numbers)
            for request in session.requests:
                request.is_cut |= lacks_body(request.sent())
                got, wanted = requests.exchange(world.port(f"front{n}"), request), request.must_get()
                count += 1
                if POSITION.sub(b"", got, 1) != wanted:
                    wrong.append((request.number, got, wanted))
            for kind in ("front", "feeder", "desk"):
                world.parts[f"{kind}{n}"].end()
        odd_requests(world)
        world.check_logs()
    check(not wrong, "answered otherwise", len(wrong), wrong[:5])
    print(f"bytes: {count} requests and {len(ODD) + len(NO_REQUESTS)} odd ones through a front, each answered as by a desk")
