"""Kills of fronts, feeders, desks and nodes of etcd at random, one cut off from the others, a full disk, a desk that says MEMORY, and a copy put in, while clients ask. A module of bench/cluster.

Whole, also an older file under a desk's position, etcd put back under nodes that run, and two nodes that differ while the others are away: each is found out before anybody is told two things. At the end the tables of all desks are equal, also of one that was made of a copy and of one that was fed the whole log; each request acted once, and was told the same each time.
"""
import collections
import json
import random
import resource
import socket
import subprocess
import threading
import time

from cluster_clients import Client, Told
from cluster_faults import Faults
from cluster_links import Links
from cluster_world import BASE, LONG, MANAGE, PROJECT, Log, World, check, exchange, run, until
from losing import NOT_TAKEN

KINDS = ("engine", "desk", "feeder", "front")
MEMORY = NOT_TAKEN["not taken"]


class Between:
    """A port between a feeder and its desk, which for a while says MEMORY in the desk's place, before the desk hears of a request or after it."""

    def __init__(self, desk_port, seed):
        self.desk_port, self.random, self.is_short, self.said = desk_port, random.Random(seed), False, 0
        self.listener = socket.create_server(("127.0.0.1", 0))
        self.port = self.listener.getsockname()[1]
        threading.Thread(target=self.run, daemon=True).start()

    def run(self):
        while True:
            peer, _ = self.listener.accept()
            threading.Thread(target=self.exchange, args=(peer,), daemon=True).start()

    def exchange(self, peer):
        try:
            with peer:
                request = b""
                while more := peer.recv(65536):
                    request += more
                is_heard = not self.is_short or self.random.random() < 0.3
                answer = pass_on(self.desk_port, request) if is_heard else b""
                self.said += self.is_short
                peer.sendall(MEMORY if self.is_short else answer)
        except OSError:
            pass


def pass_on(port, request):
    with socket.create_connection(("127.0.0.1", port), timeout=60) as desk:
        desk.sendall(request)
        desk.shutdown(socket.SHUT_WR)
        answer = b""
        while more := desk.recv(65536):
            answer += more
    return answer


class Kills:
    """A cluster of three, its clients, and what is done to it."""

    def __init__(self, world, links, said, seconds):
        self.world, self.links, self.random, self.counts, self.told, self.seconds = world, links, random.Random(said.seed), collections.Counter(), Told(), seconds
        self.short, self.is_whole = Between(world.port("desk2"), said.seed), not said.smallest
        self.fronts, self.pause = [1, 2, 3], 0.6 if said.smallest else 1
        for n in self.fronts:
            world.node(n)
        # What is told this node's desk by its feeder may be answered with MEMORY.
        feeder = world.parts["feeder2"]
        feeder.words[feeder.words.index("--port") + 1] = self.short.port
        # Who is cut off reaches its own etcd alone.
        for name in ("feeder3", "front3"):
            words = world.parts[name].words
            del words[words.index("--log") + 2:]
        self.clients = [Client(world, self.told, account, self.fronts, said.seed) for account in range(2, said.clients + 2)]

    def begin(self):
        first = Client(self.world, self.told, 1, self.fronts, 0)
        for client in self.clients:
            check(first.ask("POST", "/accounts", {"name": f"c{client.account}"}) == (200, {"account": client.account}), "an account")
        check(first.ask("PUT", "/projects/tools", {"file": PROJECT}) == (200, {}), "a project")
        check(first.ask("PUT", "/projects/tools/branches/main", {"commit": BASE}) == (200, {}), "a base")
        for client in self.clients:
            client.start()

    def kill(self, seconds):
        """Kills at random. Only now and then a second node of etcd: then nothing is answered until one of the two is back."""
        end = time.monotonic() + seconds
        while time.monotonic() < end:
            time.sleep(self.random.uniform(0.5, 1.5) * self.pause)
            names = [it for it in self.world.parts if it.rstrip("0123456789") in KINDS]
            for name in self.random.sample(names, self.random.choice([1, 1, 2])):
                are_well = all(self.world.parts[f"engine{n}"].process for n in (1, 2, 3)) and not self.links.cut
                if not name.startswith("engine") or are_well or self.random.random() < 0.15:
                    self.counts[name.rstrip("0123456789")] += 1
                    self.world.parts[name].kill()

    def cut_off(self, n, seconds):
        """A node is cut off: who asks it is told nothing, and the others go on."""
        before = len(self.told.times)
        self.links.cut = n
        time.sleep(seconds)
        until(lambda: len(self.told.times) > before, "answers while a node is cut off")
        held, self.links.cut = self.links.held, None
        check(held, "nothing was held back")
        self.counts["cut off"] += 1

    def disk_is_full(self, n, seconds):
        """A desk whose files can grow no more says STORE, again and again, until there is room."""
        part = self.world.parts[f"desk{n}"]

        def limit(size):
            if process := part.process:
                try:
                    resource.prlimit(process.pid, resource.RLIMIT_FSIZE, (size, resource.RLIM_INFINITY))
                    return True
                except ProcessLookupError:
                    pass
            return False
        until(lambda: limit(1), "a desk to limit")
        time.sleep(seconds)
        limit(resource.RLIM_INFINITY)
        self.counts["full disk"] += 1

    def memory_is_short(self, seconds):
        """A desk says MEMORY for a while, whether it has heard of the request or not."""
        self.short.is_short = True
        until(lambda: self.short.said > 3, "MEMORY")
        time.sleep(seconds)
        self.short.is_short = False
        self.counts["MEMORY"] += self.short.said

    def copy_in(self):
        """A fourth node of a copy of the second, made while all goes on."""
        until(lambda: subprocess.run([MANAGE, "copy", "2.desk", "4.desk"], capture_output=True, check=False).returncode == 0, "a copy")
        self.world.node(4, is_made=True)
        self.fronts.append(4)

    def run(self):
        part = self.seconds / 4
        self.begin()
        self.kill(part)
        self.copy_in()
        others = [threading.Thread(target=do, args=words) for do, words in ((self.cut_off, (3, part)), (self.memory_is_short, (part / 2,)), (self.disk_is_full, (1, part / 2)))]
        for it in others:
            it.start()
        self.kill(part)
        for it in others:
            it.join()
        check(self.links.cut is None and self.counts["cut off"] and self.counts["MEMORY"] and self.counts["full disk"], "each was done", self.counts)
        faults = Faults(self)
        if self.is_whole:
            faults.prepare()
        self.kill(part)
        for fault in (faults.file_is_exchanged, faults.log_is_put_back, faults.two_differ) if self.is_whole else ():
            fault()
            self.kill(part / 6)
        self.kill(part / 2)

    def end(self):
        """Lets all be answered."""
        self.told.is_over = True
        for client in self.clients:
            client.join(240)
            check(not client.is_alive() and not client.fault, "a client", client.account, client.fault)


def told_again(kills):
    """Sends each request that was taken once more, to a front by chance: its answer is there still."""
    told = kills.told
    for key in told.taken():
        again = until(lambda key=key: exchange(kills.world.port(f"front{kills.random.choice(kills.fronts)}"), *told.requests[key]), "an answer", key)
        check(again[:2] == told.answers[key][0], "an answer that was given", key, again, told.answers[key][0])


def same_events(world, position, count):
    """What is told of the accepted requests is the same at nodes of each kind, and as many as were accepted."""
    events = [world.manage("tail", f"{n}.desk", "--after", 0, "--until", position, seconds=patience(position)).splitlines() for n in (1, 4, 5)]
    check(events[0] == events[1] == events[2] and len(events[0]) == count, "events", [len(it) for it in events], count)


def patience(position):
    """How long a desk may take that is told the whole log."""
    return max(LONG, position / 100)


def compare(kills):
    """All desks, and all that was told, after the last answer."""
    world, told = kills.world, kills.told
    told_again(kills)
    at = world.settled([1, 2, 3, 4])
    world.node(5)
    world.settled([1, 2, 3, 4, 5], patience(at["position"]))
    until(lambda: world.once(1, "end", "POST", "/accounts", b"{}"), "a fault, behind which the tails end")
    world.settled([1, 2, 3, 4, 5])
    accepted, taken = told.accepted(), told.taken()
    same_events(world, at["position"], len(accepted))
    check(not told.unequal(), "requests that were told different things", told.unequal()[:3])
    rows = []
    for n in (1, 2, 3, 4, 5):
        for kind in ("front", "feeder", "desk"):
            world.parts[f"{kind}{n}"].end()
        check(run("apply", f"{n}.desk", program=world.program)[0] == 0, "apply", n)
        rows.append(world.tables(n))
    check(all(it == rows[0] for it in rows), "tables", [[name for name in rows[0] if it[name] != rows[0][name]] for it in rows])
    made = sorted(it["change"] for it in accepted if it.get("patch_set") == 1)
    check(made == list(range(1, len(rows[0]["changes"]) + 1)), "each change was made once", made)
    stored = {(row[0], row[2].decode()) for row in rows[0]["answers_3"]}
    check(stored == set(taken) and len(stored) == rows[0]["desk"][0][1], "each request acted once", stored ^ set(taken))
    check(sum(len(it.get("comments", ())) for it in accepted) == len(rows[0]["comments"]), "comments")
    check(sum(len(it.get("joined", ())) for it in accepted) == sum(b"MERGED" in row for row in rows[0]["changes"]), "merges")
    check(told.counts["stale, waits"] == 0 and told.counts["read, waits"], "reads that wait are never stale", told.counts)
    return at


def main(said):
    world = World(said.program, engines=0)
    links = Links(world, (1, 2, 3))
    with world:
        world.engines(3)
        links.name_members(Log(world.addresses))
        kills = Kills(world, links, said, said.seconds or (14 if said.smallest else 120))
        begun = time.monotonic()
        kills.run()
        kills.end()
        took = time.monotonic() - begun
        at = compare(kills)
        world.check_logs()
    told = kills.told
    told.times.sort()
    print(json.dumps({"seconds": round(took), "done": kills.counts, "requests": len(told.answers), "deliveries": len(told.times), "sent again": told.counts["no answer"], "entries": at["position"],
                      "kinds": collections.Counter(key[0] if isinstance(key[0], str) else "taken" for key in told.answers), "reads": told.counts,
                      "ms, half, 99 of 100": [round(1000 * told.times[int(len(told.times) * it)]) for it in (0.5, 0.99)]}))
    print("kills: the tables of five desks are equal, each request acted once and was told the same")
