"""The feeder's table of answers, each row with a stand-in that says just that: what it goes on after, what it tells again, and where it stands still. A module of bench/cluster."""
import contextlib
import hashlib
import json
import os
import signal
import socket
import subprocess
import sys

from cluster_world import FRONT, SOON, Log, World, check, exchange, free_port, until
from desk_answers import subscribe, told
from etcd_log import key_of
from position import NEW, kept_in

STAND_IN = os.path.join(os.path.dirname(os.path.realpath(__file__)), "cluster_stand_in.py")


class Fed:
    """A log, a feeder and a stand-in for its desk."""

    def __init__(self, world):
        self.world, self.log, self.says, self.port = world, Log(world.addresses), {}, free_port()
        self.script("first", "ok")
        self.desk = world.add("desk", sys.executable, STAND_IN, self.port, "says", "told", pause=0.1)
        self.words = [*SOON, "d.desk", "--port", self.port, "--name", "one", "--log", *world.addresses]
        self.feeder = world.add("feeder", *self.words)
        until(lambda: self.log.get("name"), "the log's name")

    def script(self, name, *words):
        """What the stand-in says to a request from now on."""
        self.says[name] = words
        with open("says.new", "w", encoding="utf-8") as file:
            json.dump(self.says, file)
        os.replace("says.new", "says")

    def append(self, *names):
        """The position of the last of these requests in the log."""
        self.log.tail = 0
        first, some = self.log.append([f"POST /{name} HTTP/1.1\r\n\r\n{name}".encode() for name in names])
        return first + some - 1

    def kept(self):
        return self.world.position_of("d.desk")

    def reaches(self, position):
        return until(lambda: self.kept()["position"] >= position, "position", position, self.feeder.said()[-500:])

    def told(self, name=None):
        """What the stand-in was told and said, in order: pairs of a name and a word."""
        with open("told", encoding="utf-8") as file:
            found = [tuple(json.loads(line)[1:]) for line in file]
        return [it for it in found if name in (None, it[0])]

    def answers(self, after):
        """What the feeder tells of each entry behind a position, up to where it is."""
        found, last = {}, self.kept()["position"]
        for line in subscribe("d.desk", {"after": after}):
            if "answer" in line:
                found[line["position"]] = told(line["answer"].encode("latin-1"))
            if "truncated" in line or line["position"] >= last and "answer" in line:
                return found or line


def settled_at_once(fed):
    """Taken, refused, used ids, closed epochs, faults: each is told once, and the feeder goes on."""
    words = ("ok", "NOT_ADMIN", "IDENTITY_REUSED", "EPOCH_CLOSED", "BAD_BODY", "METHOD")
    for word in words:
        fed.script(word, word)
    last = fed.append(*words)
    fed.reaches(last)
    check(fed.told() == [(word, word) for word in words], fed.told())
    check([status for status, _ in fed.answers(last - len(words)).values()] == [200, 409, 409, 409, 400, 400], fed.answers(0))


def told_again(fed):
    """No answer, half an answer, what is no desk's, MEMORY, STORE, a desk that dies, a word that is new: each is told again until it is taken, and nothing behind it before."""
    ways = ("none", "half", "other", "broken", "MEMORY", "STORE", "dies", "NEWER")
    for way in ways:
        fed.script("again " + way, way, way, way, "ok")
    fed.reaches(fed.append(*("again " + way for way in ways)))
    check(fed.told()[-4 * len(ways):] == [("again " + way, word) for way in ways for word in (way, way, way, "ok")], fed.told()[-4 * len(ways):])


def store_shut(fed):
    """After ten times STORE in a row the desk is ended, so that its supervisor starts it again."""
    fed.script("shut", "STORE")
    starts, last = fed.desk.starts, fed.append("shut", "behind")
    until(lambda: fed.desk.starts > starts, "the desk is started again")
    fed.script("shut", "ok")
    fed.reaches(last)
    with open("told", encoding="utf-8") as file:
        numbers = [number for number, name, word in map(json.loads, file) if (name, word) == ("shut", "STORE")]
    check(numbers[:10] == numbers[:1] * 10 and len(set(numbers)) <= 2 or numbers.count(numbers[0]) == 10, "ten in a row", numbers)


def left_out(fed):
    """PATTERN stands in the log before the feeder goes on, and the entry is never told a desk again, not to a listener either."""
    fed.script("large", "PATTERN", "ok")
    last = fed.append("large", "behind it")
    fed.reaches(last)
    check("PATTERN" in fed.log.get(key_of("out", last - 1)), "in the log")
    fed.feeder.kill()
    starts = fed.feeder.starts
    until(lambda: fed.feeder.starts > starts and can_ask(), "the feeder is back")
    told_of = until(lambda: listened(fed, last - 2), "what is told")
    check(told_of[last - 1] == (503, {"not_taken": "PATTERN"}) and told_of[last][0] == 200, told_of)
    check(fed.told("large") == [("large", "PATTERN")], fed.told("large"))


def can_ask():
    with contextlib.suppress(OSError), socket.socket(socket.AF_UNIX) as peer:
        peer.connect("d.desk.socket")
        return True


def listened(fed, after):
    with contextlib.suppress(OSError, ValueError):
        return fed.answers(after)


def left_out_elsewhere(fed):
    """An entry that no desk takes stops the node; a person leaves it out for all, unless a node has it."""
    fed.script("poison", "dies")
    last = fed.append("poison", "behind that")
    until(lambda: fed.log.get("node/one") == str(last - 2), "it tells where it stands", fed.feeder.said()[-500:])
    for elsewhere in (last, last - 3):
        fed.log.put("node/other", str(elsewhere))
        refused = fed.world.manage("leave-out", last - 1, "--log", *fed.world.addresses, status=1)
        check(f"other at {elsewhere}" in refused, refused)
    fed.world.manage("forget", "other", "--log", *fed.world.addresses)
    check("LEFT_OUT" in fed.world.manage("leave-out", last - 1, "--log", *fed.world.addresses), "left out")
    fed.reaches(last)
    check(fed.answers(last - 2)[last - 1] == (503, {"not_taken": "LEFT_OUT"}), fed.answers(last - 2))


def stands_still(fed, word):
    """DAMAGED and FULL: the feeder ends with status 3 and has not gone on."""
    fed.script(word, word)
    last = fed.append(word)
    status = fed.feeder.status()
    check(status == 3 and fed.kept()["position"] == last - 1 and word in fed.feeder.said(), status, fed.kept(), fed.feeder.said()[-300:])
    fed.script(word, "ok")
    fed.feeder.is_wanted = True
    fed.reaches(last)


def refuses_to_start(fed):
    """Another log, one that has lost entries, another version, an entry that is gone, and other answers than another node's."""
    last = fed.reaches(fed.append("x")) and fed.kept()["position"]
    fed.feeder.end()
    good = fed.kept()
    for wrong, word in (({"log": "another"}, "fed from another log"), ({"position": last + 5}, "has lost what it had"), ({"version": 2}, "--version 0")):
        write_kept({**good, **wrong})
        status = fed.feeder.status()
        check(status == (4 if "version" in wrong else 3) and word in fed.feeder.said().splitlines()[-1], wrong, status, fed.feeder.said()[-300:])
    write_kept(bare(last - 1, "other", good["log"]))
    fed.log.put(f"{key_of('check', last)}/other", good["sum"])
    fed.log.put("node/other", str(last))
    check(fed.feeder.status() == 3 and "differ from those of other" in fed.feeder.said().splitlines()[-1], fed.feeder.said()[-300:])
    fed.log.delete("node/other")
    fed.log.delete_to(last - 1)
    fed.log.delete("check/", "check0")
    write_kept(bare(1, "other", good["log"]))
    check(fed.feeder.status() == 3 and "put a copy of another node's desk here" in fed.feeder.said().splitlines()[-1], fed.feeder.said()[-300:])
    write_kept(bare(last, good["sum"], good["log"]))
    fed.feeder.is_wanted = True
    fed.reaches(fed.append("y"))


def odd_positions(fed):
    """What isn't a feeder's in the file of its position: it says so and stands still. Where a stop of the machine left nothing, or zeros, the desk is told all again."""
    second = subprocess.run([*map(str, fed.words)], stderr=subprocess.PIPE, text=True, check=False)
    check(second.returncode == 1 and "another feeder may hold" in second.stderr, "two feeders of one desk", second)
    fed.feeder.end()
    good = fed.kept()
    for odd in ([], 7, "x", None, {**good, "position": "5"}, {**good, "position": -1}, {**good, "position": True}, {**good, "sum": 5}, {**good, "log": 5}):
        try:
            check(False, "an odd position", kept_in(json.dumps(odd).encode()))
        except ValueError:
            pass
    check(kept_in(b"") == kept_in(bytes(400)) == NEW and kept_in(json.dumps(good).encode() + b"\r\n") == good, "positions")
    for odd in ([good], {**good, "sum": "\0" * 400}):
        write_kept(odd)
        check(fed.feeder.status() == 3 and "isn't what a feeder keeps" in fed.feeder.said().splitlines()[-1], odd, fed.feeder.said()[-300:])
        check("is no copy with its position" in fed.world.manage("truncate", "d.desk", "--log", *fed.world.addresses, status=1), "a copy with an odd position")
    write_kept(good)
    fed.feeder.is_wanted = True
    fed.reaches(fed.append("behind odd ones"))


def bare(position, total, log):
    """What a feeder of an earlier version kept: no entries to tell again."""
    return {"position": position, "sum": total, "log": log, "version": 0, "since": 0}


def write_kept(kept):
    with open("d.desk.position", "w", encoding="utf-8") as file:
        json.dump(kept, file)


def upgraded(fed):
    """An UPGRADE: status 4 until the feeder is started for that version; what came meanwhile goes to the new program, and nothing from before is told again."""
    before = fed.kept()["position"]
    place = json.loads(fed.world.manage("upgrade", 7, "--log", *fed.world.addresses))["position"]
    last = fed.append("for the new one")
    check(fed.feeder.status() == 4 and fed.kept()["position"] == place and fed.kept()["version"] == 7, fed.kept(), fed.feeder.said()[-300:])
    check(fed.told()[-1] != ("for the new one", "ok"), "told too early")
    fed.feeder.words = [*fed.words, "--version", 7]
    fed.feeder.is_wanted = True
    fed.reaches(last)
    until(can_ask, "the feeder is back")
    count = len(fed.told())
    check("truncated" in fed.answers(before) and len(fed.told()) == count, "nothing from before is told again")
    check(list(fed.answers(place)) == [last], fed.answers(place))


def gone_back(fed):
    """A tail that is too low stops nobody who has more: a feeder that is started waits until it is mended. Where the entries are gone too the feeder stands still."""
    last = fed.reaches(fed.append("z1", "z2")) and fed.kept()["position"]
    fed.log.put("tail", str(last - 2))
    starts = fed.feeder.starts
    fed.feeder.kill()
    until(lambda: fed.feeder.starts > starts and f"key `tail` the log ends at {last - 2}" in fed.feeder.said(), "it waits", fed.feeder.said()[-300:])
    fed.log.put("tail", str(last))
    fed.reaches(fed.append("z3"))
    front = fed.world.add("front", FRONT, "d.desk", "--port", fed.world.port("front"), "--desk", fed.port, "--log", *fed.log.addresses)
    until(lambda: exchange(fed.world.port("front"), "GET", "/", {"Log-Position": "0"}), "a front")
    fed.feeder.kill(signal.SIGSTOP)
    before = {key: fed.log.get(key) for key in (key_of("log", last), key_of("log", last + 1), "last")}
    fed.log.delete(key_of("log", last), key_of("log", last + 2))
    fed.log.put("tail", str(last - 1))
    fed.log.put("last", sum_of(fed.log.get(key_of("log", last - 1))))
    asked = {"X-Account": "1", "Request-Id": "z5"}
    check(exchange(fed.world.port("front"), "POST", "/", asked, b"z5") is None and "has lost what it had" in front.said(), "a front tells nothing", front.said())
    check(fed.log.head() == last - 1 and fed.log.first(last - 1) is None, "and appends nothing")
    fed.feeder.kill(signal.SIGCONT)
    for word in ("running", "started"):
        check(fed.feeder.status() == 3 and "has lost what it had" in fed.feeder.said().splitlines()[-1], word, fed.feeder.said()[-300:])
    # Others append where it goes on, past what this desk has: the next entry tells of it.
    fed.append("y1", "y2", "y3")
    for word in ("started", "started again"):
        check(fed.feeder.status() == 3 and "isn't the one" in fed.feeder.said().splitlines()[-1], word, fed.feeder.said()[-300:])
    check(not fed.told("y3"), "told what doesn't follow", fed.told("y3"))
    fed.log.delete(key_of("log", last), key_of("log", last + 9))
    for key, text in before.items():
        fed.log.put(key, text)
    fed.log.put("tail", str(last + 1))
    front.end()
    fed.feeder.is_wanted = True
    fed.reaches(fed.append("z4"))


def sum_of(text):
    return hashlib.sha256(text.encode()).hexdigest()


def made_anew(fed):
    """A feeder whose log was made anew under it stands still."""
    fed.log.put("name", "another")
    check(fed.feeder.status() == 3 and "made anew" in fed.feeder.said().splitlines()[-1], fed.feeder.said()[-300:])


def main(_):
    with World(engines=1) as world:
        fed = Fed(world)
        for part in (settled_at_once, told_again, store_shut, left_out, left_out_elsewhere):
            part(fed)
        for word in ("DAMAGED", "FULL"):
            stands_still(fed, word)
        odd_positions(fed)
        refuses_to_start(fed)
        upgraded(fed)
        gone_back(fed)
        made_anew(fed)
        world.check_logs()
    print("the feeder's table: each row goes on, is told again, is left out or stands still as it should")
