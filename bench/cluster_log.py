"""The log of examples/cluster at one real etcd: what is appended is there once for each append, in one order, however it is read and whatever is lost. A module of bench/cluster."""
import base64
import json
import signal
import socket
import threading

from cluster_world import Log, NoLog, World, check, etcd_log, free_port, has_log, until
from etcd_log import Truncated


def some_of(log, after, count):
    """So many entries behind a position."""
    found = []
    for entry in log.read(after):
        if entry:
            found.append(entry)
        if len(found) == count:
            return found
    return None


def contended(address):
    """Three append at once, some at a time: no position twice, none left out, and each one's own stay in order."""
    said, lock = {}, threading.Lock()

    def run(name):
        log, rest = Log([address]), [f"{name} {at}".encode() for at in range(90)]
        while rest:
            first, some = log.append(rest[:7])
            with lock:
                said.update({first + at: rest[at] for at in range(some)})
            rest = rest[some:]

    threads = [threading.Thread(target=run, args=(name,)) for name in "abc"]
    [it.start() for it in threads]
    [it.join() for it in threads]
    check(sorted(said) == list(range(1, 271)), "positions", sorted(said))
    read = some_of(Log([address]), 0, 270)
    check([(it.position, it.request) for it in read] == sorted(said.items()), "what is read in pages")


class Losing:
    """Stands before etcd, and loses the answer to some exchanges that etcd has done, or says nothing at all."""

    def __init__(self, address):
        self.etcd, self.loses, self.is_silent, self.listener = address.split(":"), 0, False, socket.create_server(("127.0.0.1", 0))
        self.address = f"127.0.0.1:{self.listener.getsockname()[1]}"
        threading.Thread(target=self.run, daemon=True).start()

    def run(self):
        while True:
            peer, _ = self.listener.accept()
            threading.Thread(target=self.exchange, args=(peer,), daemon=True).start()

    def exchange(self, peer):
        with peer, socket.create_connection(self.etcd) as etcd:
            while request := peer.recv(1 << 20):
                if self.is_silent:
                    continue
                etcd.sendall(request)
                answer = etcd.recv(1 << 20)
                if self.loses:
                    self.loses -= 1
                    return
                peer.sendall(answer)


def ambiguous(address):
    """An append whose answer is lost is made again: then it stands there twice, and the place that is told is one of the two."""
    losing = Losing(address)
    log, head = Log([losing.address, address]), Log([address]).head()
    log.name, log.tail, losing.loses = "", head, 1
    place = log.append([b"lost"])
    check(place == (head + 2, 1) and log.head() == head + 2, "an append that is made again", place, head)
    check([it.request for it in some_of(log, head, 2)] == [b"lost", b"lost"], "both are there")
    losing.is_silent = True
    read = Log([losing.address, address])
    read.name = ""
    entries, found = read.read(head), []
    while len(found) < 3:
        found.append(next(entries))
    check(found[0] is None and [it.request for it in found[1:]] == [b"lost"] * 2, "a node of etcd that says nothing", found)


def sizes(address):
    """The largest entries, more than one transaction takes, an empty one, and every byte."""
    log, large = Log([address]), [bytes([at]) * 282_000 for at in range(4)]
    log.tail = head = log.head()
    check(log.append(large) == (head + 1, 2) and log.append(large[2:]) == (head + 3, 2), "large ones are cut into transactions")
    many = [b"x%d" % at for at in range(150)]
    check(log.append(many) == (head + 5, 100) and log.append(many[100:]) == (head + 105, 50), "many")
    odd = [bytes(range(256)), b"", b"\r\n\r\n"]
    log.append(odd)
    check([it.request for it in some_of(log, head, 157)] == large + many + odd, "what is read")


def watched(world, address):
    """Entries that come while they are waited for; also over a restart of etcd, and after etcd has given its old revisions up."""
    log, writer = Log([address]), Log([address])
    head = writer.tail = writer.head()
    found = []

    def read():
        for entry in log.read(head):
            if entry:
                found.append(entry)
            if entry and entry.request == b"three":
                return

    threading.Thread(target=read, daemon=True).start()
    writer.append([b"one"])
    until(lambda: len(found) == 1, "a watch")
    world.parts["engine1"].kill()
    until(lambda: appends(writer, b"two"), "etcd is there again")
    until(lambda: found[-1].request == b"two", "a watch over a restart")
    revision = writer.call("/v3/kv/range", {"key": base64.b64encode(b"tail").decode()})["header"]["revision"]
    writer.call("/v3/kv/compaction", {"revision": revision, "physical": True})
    writer.append([b"three"])
    until(lambda: found[-1].request == b"three", "a watch over a compaction")
    check([it.position for it in found] == list(range(head + 1, head + 1 + len(found))), "no gap", found)
    world.parts["engine1"].kill(signal.SIGSTOP)
    until(lambda: not has_log(writer), "no answer of an etcd that stands still")
    world.parts["engine1"].kill(signal.SIGCONT)
    until(lambda: has_log(writer), "etcd goes on")


def appends(log, request):
    try:
        return log.append([request], 5)
    except NoLog:
        return None


def truncated(address):
    """What was given up is told, also where all but the last entry is gone; a gap is told too, and claims stand."""
    log = Log([address])
    head = log.head()
    log.claim(etcd_log.key_of("check", 3), "early")
    log.delete_to(head - 1)
    check(log.first() == head and log.get(etcd_log.key_of("check", 3)) is None, "what is left", log.first())
    for after in (0, head - 2):
        try:
            check(False, "read behind what is gone", next(log.read(after)))
        except Truncated as why:
            check(f"goes on at {head}" in str(why), why)
    log.tail = head
    log.append([b"a", b"b", b"c"])
    log.delete(etcd_log.key_of("log", head + 2))
    entries = log.read(head)
    check(next(entries).request == b"a", "before the gap")
    try:
        check(False, "read over a gap", next(entries))
    except Truncated:
        pass
    check(log.claim("name", "one") == "one" and log.claim("name", "two") == "one" and log.get("name") == "one", "claims")
    log.tail, log.name = log.head(), "one"
    log.append([b"to this log"])
    log.put("name", "two")
    try:
        check(False, "an append to a log that was made anew", log.append([b"to the old one"]))
    except NoLog as why:
        check("isn't one any more" in str(why), why)
    log.put("node/a", "5")
    check(log.get_all("node") == {"a": "5"}, log.get_all("node"))


def written_over(address):
    """A tail that points lower than what is there, or is gone, and entries that somebody wrote: nothing is written over, and it goes on once the tail is right."""
    log, fresh = Log([address]), Log([address])
    log.tail = head = log.head()
    at = log.append([b"a", b"b", b"c"])[0] + 2
    for wrong in (str(at - 2), str(head), "1", None, "nine", f"0{at}"):
        log.put("tail", wrong) if wrong else log.delete("tail")
        for one in (log, Log([address])):
            check("`tail`" in refused(one), wrong)
    log.put("tail", str(at))
    for written in (1, 3):
        log.put(etcd_log.key_of("log", at + written), "by hand")
        check("its last entry" in refused(log) and "its last entry" in refused(fresh), written)
        log.delete(etcd_log.key_of("log", at + written))
    check([it.request for it in some_of(log, head, 3)] == [b"a", b"b", b"c"] and log.first(at) is None, "what is there")
    check(fresh.append([b"d"]) == (at + 1, 1) and log.append([b"e"]) == (at + 2, 1), "and goes on")
    log.delete("log/", "log0")
    log.delete("tail")
    check("`tail`" in refused(log) and log.append([b"f"]) == (1, 1), "a log that was made anew")


def refused(log):
    """What is said where five entries aren't appended."""
    try:
        return check(False, "an append", log.append([b"new"] * 5))
    except NoLog as why:
        return str(why)


def refusals(address):
    """What is asked wrongly is no fault of a node; where no node is there it is told in time."""
    log = Log([address])
    for wrong in (lambda: log.call("/v3/kv/txn", {"compare": [{"target": "nothing"}]}), lambda: Log([f"127.0.0.1:{free_port()}"]).head(2)):
        try:
            check(False, "an answer", json.dumps(wrong()))
        except NoLog:
            pass


def main(_):
    etcd_log.SILENCE = 1
    with World(engines=1) as world:
        address = world.addresses[0]
        contended(address)
        ambiguous(address)
        sizes(address)
        watched(world, address)
        truncated(address)
        written_over(address)
        refusals(address)
    print("the log: appends of three at once, lost answers, pages, watches, restarts, gaps, truncation and a wrong tail are as they should be")
