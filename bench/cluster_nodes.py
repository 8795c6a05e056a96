"""Two nodes and what may happen to each: lost answers, odd entries, patterns, copies, new nodes, truncation, closed epochs, feeders that stand still. A module of bench/cluster."""
import argparse
import contextlib
import hashlib
import http.client
import itertools
import json
import os
import shutil
import signal
import subprocess
import sys
import threading
import time

from cluster_bytes import load
from cluster_world import BASE, EXAMPLE, LARGE, MANAGE, PROJECT, SOON, Log, World, check, exchange, run, until
from desk_answers import subscribe

HOLDER = "import sys\nsys.path.insert(0, sys.argv[1])\nfrom desk_answers import subscribe\nfor line in subscribe(sys.argv[2], {'hold': True}):\n    print(line, flush=True)\n"


def account(name):
    return json.dumps({"name": name}).encode()


def raw(id, name, epoch=None):
    """The bytes of a request that makes an account."""
    body = account(name)
    more = b"" if epoch is None else b"Request-Epoch: %d\r\n" % epoch
    return b"POST /accounts HTTP/1.1\r\nX-Account: 1\r\nRequest-Id: %s\r\n%sContent-Length: %d\r\n\r\n%s" % (id.encode(), more, len(body), body)


def at_once(*asks):
    """What some were told who asked at the same moment."""
    found = [None] * len(asks)

    def run(at):
        found[at] = asks[at]()

    threads = [threading.Thread(target=run, args=(at,)) for at in range(len(asks))]
    for it in threads:
        it.start()
    for it in threads:
        it.join()
    return found


def lost_and_twice(world, log):
    """A front that dies behind its append; one request, and two under one id, through two fronts at once."""
    check(world.ask(1, "a1", "POST", "/accounts", {"name": "ann"})[:2] == (200, {"account": 2}), "a1")
    log.tail = 0
    place, _ = log.append([raw("a2", "bob")])
    status, answer, position = world.ask(2, "a2", "POST", "/accounts", {"name": "bob"})
    check((status, answer) == (200, {"account": 3}) and position > place, "an append whose front died", status, answer)
    both = at_once(*(lambda n=n: world.ask(n, "a3", "POST", "/accounts", {"name": "cid"})[:2] for n in (1, 2)))
    check(both == [(200, {"account": 4})] * 2, "one request at once", both)
    both = at_once(*(lambda n=n: world.ask(n, "a4", "POST", "/accounts", {"name": f"dan{n}"})[:2] for n in (1, 2)))
    check(sorted(both, key=str) == [(200, {"account": 5}), (409, {"refused": "IDENTITY_REUSED"})], "two requests under one id", both)


def odd_entries(world, log):
    """Entries that are no whole requests cost their room and nothing else."""
    log.tail = 0
    first, some = log.append([b"POST /accounts HTTP/1.1\r\nX-Acc", raw("cut", "cut")[:-5], b"rubbish", b"", bytes(range(256))])
    check(some == 5 and world.ask(1, "a5", "POST", "/accounts", {"name": "eve"})[:2] == (200, {"account": 6}), "behind odd entries")
    world.settled([1, 2])
    lines = world.manage("tail", "1.desk", "--after", first - 1, "--until", first + some - 1)
    check(lines == "", "nothing is told of them", lines)


def patterns(world):
    """A file that no desk takes for its pattern: whoever tells all again, and whoever is no administrator any more, finds both desks alike."""
    check(world.ask(1, "g1", "PUT", "/groups/Administrators", {"members": [1, 2]})[0] == 200, "an administrator more")
    large = world.ask(1, "large", "PUT", "/projects/tools", {"file": LARGE}, account=2)
    check(large[:2] == (503, {"not_taken": "PATTERN"}), large)
    last = world.ask(2, "g2", "PUT", "/groups/Administrators", {"members": [1]})[2]
    world.settled([1, 2])
    before = world.manage("tail", "1.desk", "--after", 0, "--until", last - 1)
    starts = world.parts["feeder1"].starts
    world.parts["feeder1"].kill()
    until(lambda: world.parts["feeder1"].starts > starts, "the feeder is back")
    world.ask(1, "a6", "POST", "/accounts", {"name": "fay"})
    check(world.manage("tail", "1.desk", "--after", 0, "--until", last - 1) == before and before.count("type") >= 6, "events, told again", before)
    world.settled([1, 2])
    check(world.tables(1) == world.tables(2), "tables behind a pattern")


def a_change(world):
    for id, method, path, body in (("p", "PUT", "/projects/tools", {"file": PROJECT}), ("b", "PUT", "/projects/tools/branches/main", {"commit": BASE}),
                                   ("c", "POST", "/changes/", {"project": "tools", "branch": "main", "subject": "Fix", "commit": "2" * 40, "parent": BASE, "paths": ["a"]})):
        check(world.ask(1, id, method, path, body)[0] == 200, id)


def sums(n):
    return [hashlib.sha256(open(f"{n}.desk{end}", "rb").read()).hexdigest() for end in ("", "-wal", ".position")]


def stands_still(world, log):
    """While a node is copied nothing is told its desk: questions that wait for nothing go on and change no file, others wait; the other node goes on. Who copied may be killed."""
    world.settled([1, 2])
    holder = subprocess.Popen([sys.executable, "-c", HOLDER, EXAMPLE, "2.desk"], stdout=subprocess.PIPE, text=True)
    check("position" in holder.stdout.readline(), "it stands still")
    before = sums(2)
    check(world.ask(1, "a7", "POST", "/accounts", {"name": "gus"})[0] == 200, "the other node goes on")
    for _ in range(20):
        check(world.once(2, None, "GET", "/changes/1", **{"Log-Position": "0"})[0] == 200, "a question that waits for nothing")
    check(world.once(2, None, "GET", "/changes/1", seconds=1) is None, "a question that waits")
    check(sums(2) == before, "questions change no file")
    holder.kill()
    holder.communicate()
    world.settled([1, 2])
    found = world.ask(2, None, "GET", "/changes/1")
    check(found[0] == 200 and found[2] == log.head(), "and goes on", found)


def stopped(world, log):
    """A feeder that its machine stops is found out by the first who waits in vain; then nothing is appended, others are told soon, and what waits for nothing is answered."""
    front = world.parts["front2"]
    front.end()
    front.words, front.is_wanted = [*front.words, "--seconds", 3], True
    world.settled([1, 2])
    until(lambda: world.once(2, None, "GET", "/changes/1"), "the front is back")
    world.parts["feeder2"].kill(signal.SIGSTOP)
    head = log.head()
    check(world.once(2, "s1", "POST", "/accounts", {"name": "sam"}) is None and log.head() == head + 1, "the first one waits")
    begun = time.monotonic()
    check(world.once(2, "s2", "POST", "/accounts", {"name": "sid"}) is None and log.head() == head + 1, "the next one isn't appended")
    check(time.monotonic() - begun < 2.9, "it is told soon", time.monotonic() - begun)
    check(world.once(2, None, "GET", "/changes/1", **{"Log-Position": "0"}), "a question that waits for nothing")
    check(world.ask(1, "s1", "POST", "/accounts", {"name": "sam"})[0] == 200, "the other node has it")
    world.parts["feeder2"].kill(signal.SIGCONT)
    check(world.ask(2, "s2", "POST", "/accounts", {"name": "sid"})[0] == 200, "and goes on")


def copied_over(world):
    """A copy notices that a feeder came back and went on meanwhile, and leaves nothing; what an earlier one left goes."""
    manage, count = load("manage", MANAGE), itertools.count()
    sync, feeder = manage.sync, world.parts["feeder2"]

    def restarted(file):
        if next(count) == 0:
            starts = feeder.starts
            feeder.kill()
            until(lambda: feeder.starts > starts, "the feeder is back")
            check(world.ask(2, "o1", "POST", "/accounts", {"name": "ola"})[0] == 200, "and goes on")
        sync(file)

    manage.sync = restarted
    for end in ("-wal", "-wal.new", ".position"):
        with open("9.desk" + end, "w", encoding="utf-8") as file:
            file.write("of an earlier one")
    try:
        check(False, "a copy", manage.copy(argparse.Namespace(desk_file="2.desk", to="9.desk")))
    except SystemExit as why:
        check("was written to meanwhile" in str(why), why)
    check(not os.path.exists("9.desk") and not any(it.endswith(".new") for it in os.listdir(".")), "what is left", os.listdir("."))
    world.manage("copy", "2.desk", "9.desk")
    check(not any(it.endswith(".new") for it in os.listdir(".")) and world.position_of("9.desk")["position"] <= world.position(2)["position"], "a copy")
    check(run("apply", "9.desk", program=world.program)[0] == 0, "the copy opens")
    shutil.copy("9.desk", "7.desk")
    with open("8.desk-wal", "w", encoding="utf-8") as file:
        file.write("of an earlier one")
    manage.copy_held("7.desk", "8.desk")
    check(os.path.exists("8.desk") and not os.path.exists("8.desk-wal"), "a copy of a desk without a log beside it")


def without_feeder(world, log):
    """A front without a feeder says so soon, appends nothing, and passes on no word that isn't the desk's."""
    words = world.parts["feeder2"]
    words.end()
    head = log.head()
    until(lambda: exchange(world.port("front2"), "GET", "/changes/1", {"X-Account": "1", "Log-Position": "0"}) is None, "the front knows")
    check(world.once(2, "n1", "POST", "/accounts", {"name": "nan"}) is None and log.head() == head, "nothing is appended")
    words.is_wanted = True
    check(world.ask(2, "n1", "POST", "/accounts", {"name": "nan"})[0] == 200, "and goes on")


def epochs(world):
    """Epochs are closed behind the same entry on each desk; a feeder that was stopped by its machine goes back no further than that entry, and differs from nobody."""
    check(world.ask(1, "close", "POST", "/epochs/close", {"epoch": 48}, epoch=49)[:2] == (200, {}), "close")
    check(world.ask(2, "a1", "POST", "/accounts", {"name": "ann"})[:2] == (409, {"refused": "EPOCH_CLOSED"}), "a closed epoch, through the other front")
    for at in range(110):
        check(world.ask(1 + at % 2, f"n{at}", "POST", "/accounts", {"name": f"n{at}"}, epoch=49)[0] == 200, at)
    world.settled([1, 2])


def copies(world, log):
    """A copy, the log given up to it, a node of it; a feeder behind the log's beginning and a new desk stand still, and so does one whose desk was told something past the log."""
    old = world.position(2)
    shutil.copy("2.desk.position", "old.position")
    for at in range(110, 230):
        world.ask(1 + at % 2, f"n{at}", "POST", "/accounts", {"name": f"n{at}"}, epoch=49)
    world.settled([1, 2])
    goes_back(world, "old.position")
    until(lambda: len(log.get_all("node")) == 2 and min(map(int, log.get_all("node").values())) > old["position"], "each node says how far it is")
    made = json.loads(world.manage("copy", "2.desk", "3.desk"))
    check("is there already" in world.manage("copy", "2.desk", "3.desk", status=1), "a copy over a desk")
    check("no copy" in world.manage("truncate", "nothing", "--log", *world.addresses, status=1), "a copy that isn't there")
    gone = json.loads(world.manage("truncate", "3.desk", "--log", *world.addresses))["truncated_to"]
    seen = json.loads(world.manage("look", "--log", *world.addresses))
    check(old["position"] < gone <= made["position"] and seen["first"] == gone + 1 and seen["last"] == log.head(), gone, made, seen)
    world.node(3, is_made=True)
    world.settled([1, 2, 3])
    check(world.tables(3) == world.tables(1), "tables of a node of a copy")
    world.parts["feeder2"].end()
    shutil.copy("2.desk.position", "new.position")
    shutil.copy("old.position", "2.desk.position")
    check(world.parts["feeder2"].status() == 3 and "the log goes on at" in world.parts["feeder2"].said(), "behind the log's beginning", world.parts["feeder2"].said()[-300:])
    shutil.copy("new.position", "2.desk.position")
    world.parts["feeder2"].is_wanted = True
    world.node(4, has_front=False)
    check(world.parts["feeder4"].status() == 3 and "the log goes on at" in world.parts["feeder4"].said(), "a new desk without a copy", world.parts["feeder4"].said()[-300:])
    sly = {"X-Account": "1", "Request-Id": "sly", "Request-Epoch": "49"}
    until(lambda: is_taken(world, sly), "told past the log")
    world.ask(1, "after", "POST", "/accounts", {"name": "after"}, epoch=49)
    check(world.parts["feeder3"].status() == 3 and "differ from those of node1, node2" in world.parts["feeder3"].said(), "a desk that was told something past the log", world.parts["feeder3"].said()[-300:])
    stays_still(world)
    world.settled([1, 2])


def stays_still(world):
    """A feeder that stood still for its answers does so again when it is started, and nobody is told anything meanwhile."""
    feeder, told = world.parts["feeder3"], []

    def listen():
        while feeder.is_wanted or feeder.process:
            with contextlib.suppress(OSError):
                told.extend(subscribe("3.desk", {"after": 0}))

    starts, feeder.is_wanted = feeder.starts, True
    listening = threading.Thread(target=listen, daemon=True)
    listening.start()
    until(lambda: feeder.starts > starts, "it starts")
    check(feeder.status() == 3 and "differ from those of node1, node2" in feeder.said().splitlines()[-1], "it stands still again", feeder.said()[-300:])
    until(lambda: not feeder.process, "it has ended")
    listening.join()
    check(not told and world.once(3, None, "GET", "/changes/1", **{"Log-Position": "0"}) is None, "nobody is told anything", told)


def goes_back(world, older):
    """A feeder whose kept position is older, as a stop of its machine may leave it, tells its desk entries again: nothing changes by it."""
    world.parts["feeder2"].end()
    shutil.copy(older, "2.desk.position")
    world.parts["feeder2"].is_wanted = True
    world.settled([1, 2])
    check(world.tables(1) == world.tables(2), "tables behind a position that was older")


def is_taken(world, fields):
    """Whether the third node's desk, asked at its own port, makes an account that the others don't have."""
    peer = http.client.HTTPConnection("127.0.0.1", world.port("desk3"), timeout=20)
    try:
        peer.request("POST", "/accounts", account("sly"), fields)
        return peer.getresponse().status == 200
    except (OSError, http.client.HTTPException):
        return False
    finally:
        peer.close()


def ends_in_time(world):
    """Without etcd a front says 504 within its time, and what was lost is told once it is there again."""
    world.parts["engine1"].end()
    begun = time.monotonic()
    check(world.once(1, "z1", "POST", "/accounts", {"name": "zoe"}, epoch=49) is None and world.once(1, None, "GET", "/changes/1") is None, "an answer without a log")
    check(world.once(1, None, "GET", "/changes/1", **{"Log-Position": "0"}), "a question that waits for nothing")
    check(time.monotonic() - begun < 200, "no end")
    world.parts["engine1"].is_wanted = True
    check(world.ask(1, "z1", "POST", "/accounts", {"name": "zoe"}, epoch=49)[0] == 200, "and goes on")
    world.settled([1, 2])


def main(said):
    with World(said.program, engines=1) as world:
        log, world.feeder_words = Log(world.addresses), SOON
        world.node(1)
        world.node(2)
        lost_and_twice(world, log)
        odd_entries(world, log)
        patterns(world)
        a_change(world)
        stands_still(world, log)
        stopped(world, log)
        copied_over(world)
        without_feeder(world, log)
        epochs(world)
        copies(world, log)
        ends_in_time(world)
        world.check_logs()
    print("nodes: lost answers, odd entries, patterns, standing still, closed epochs, copies, truncation and new nodes are as they should be")
