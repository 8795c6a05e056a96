"""What nodes have to find out by themselves: another file under a desk's position, etcd put back, two nodes that differ. A module of bench/cluster."""
import contextlib
import http.client
import os
import shutil
import subprocess

from cluster_clients import Client
from cluster_world import MANAGE, check, exchange, until


class Faults:
    """What is done to a cluster that is asked, and has to be found out before anybody is told two things."""

    def __init__(self, kills):
        self.kills, self.world = kills, kills.world

    def says(self, n, word):
        """A feeder stands still, and says why, before its node answers anybody again."""
        part = self.world.parts[f"feeder{n}"]
        until(lambda: word in part.said()[-1000:] and not answers(self.world, n), f"feeder{n} stands still", word, part.said()[-300:])

    def end_node(self, n):
        for kind in ("feeder", "desk"):
            self.world.parts[f"{kind}{n}"].end()

    def begin_node(self, n):
        for kind in ("desk", "feeder"):
            self.world.parts[f"{kind}{n}"].is_wanted = True
        until(lambda: answers(self.world, n), "a node answers", n)

    def file_is_exchanged(self, n=1):
        """An older copy of a desk under its position is found out before it answers."""
        self.end_node(n)
        for end in ("", "-wal"):
            move(f"{n}.desk{end}", f"right.desk{end}")
            if os.path.exists(f"older.desk{end}"):
                shutil.copy(f"older.desk{end}", f"{n}.desk{end}")
        shutil.copy(f"{n}.desk.position", "right.desk.position")
        for kind in ("desk", "feeder"):
            self.world.parts[f"{kind}{n}"].is_wanted = True
        self.says(n, "isn't the one of its position")
        self.end_node(n)
        for end in ("", "-wal", ".position"):
            remove(f"{n}.desk{end}")
            move(f"right.desk{end}", f"{n}.desk{end}")
        self.begin_node(n)
        self.kills.counts["file exchanged"] += 1

    def engines(self, do):
        """Does something with the folders of etcd while all three of its nodes have ended."""
        parts = [self.world.parts[f"engine{n}"] for n in (1, 2, 3)]
        for part in parts:
            part.end()
        for n in (1, 2, 3):
            do(f"engine{n}")
        for part in parts:
            part.is_wanted = True

    def log_is_put_back(self):
        """etcd as it was some time ago under nodes that run: each stands still, and goes on once etcd is as it was."""
        self.engines(lambda name: shutil.copytree(name, f"now.{name}") and exchange_folders(name, f"then.{name}"))
        for n in self.kills.fronts:
            self.says(n, "has lost what it had")
        self.engines(lambda name: shutil.rmtree(name) or move(f"now.{name}", name))
        for n in self.kills.fronts:
            until(lambda n=n: answers(self.world, n), "a node answers", n)
        self.kills.counts["log put back"] += 1

    def two_differ(self):
        """While others are away, two nodes that differ both stand still; the one that is alone then gets a copy."""
        others = [n for n in self.kills.fronts if n not in (1, 2)]
        for n in others:
            self.end_node(n)
        until(lambda: is_told_alone(self.world, 2), "told past the log")
        client = Client(self.world, self.kills.told, 1, [1], 0)
        check(client.ask("POST", "/accounts", {"name": "differ"}, "differ")[0] == 200, "an account")
        for n in (1, 2):
            self.says(n, "differ from those of")
        for n in others:
            self.begin_node(n)
        until(lambda: answers(self.world, 1), "most agree with the first node")
        self.end_node(2)
        for end in ("", "-wal", ".position"):
            remove(f"2.desk{end}")
        until(lambda: subprocess.run([MANAGE, "copy", "1.desk", "2.desk"], capture_output=True, check=False).returncode == 0, "a copy")
        self.begin_node(2)
        self.kills.counts["two differ"] += 1

    def prepare(self):
        """What is put back later: an older copy of the first desk, and etcd as it is now."""
        until(lambda: subprocess.run([MANAGE, "copy", "1.desk", "older.desk"], capture_output=True, check=False).returncode == 0, "a copy")
        self.engines(lambda name: shutil.copytree(name, f"then.{name}"))


def answers(world, n):
    """Whether a node answers a question that waits for nothing."""
    return exchange(world.port(f"front{n}"), "GET", "/changes/1", {"X-Account": "1", "Log-Position": "0"}, None, 20) is not None


def is_told_alone(world, n):
    """Whether a node's desk, asked at its own port, takes a request past the log."""
    peer = http.client.HTTPConnection("127.0.0.1", world.port(f"desk{n}"), timeout=20)
    try:
        peer.request("POST", "/accounts", b'{"name":"alone"}', {"X-Account": "1", "Request-Id": "alone"})
        return peer.getresponse().status == 200
    except (OSError, http.client.HTTPException):
        return False
    finally:
        peer.close()


def move(here, there):
    if os.path.exists(here):
        os.replace(here, there)


def remove(file):
    with contextlib.suppress(FileNotFoundError):
        os.remove(file)


def exchange_folders(name, other):
    shutil.rmtree(name)
    os.replace(other, name)
