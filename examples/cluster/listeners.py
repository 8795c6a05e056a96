"""Those who listen at a feeder's socket: fronts, `manage tail`, and who copies a desk. A module."""
import collections
import contextlib
import json
import socketserver
import threading
from collections.abc import Iterator
from typing import Any, Protocol

from etcd_log import Entry, Log, Lost, Truncated
from position import Position

RECENT, RECENT_BYTES = 10_000, 64 << 20
Line = dict[str, Any]


class Feeds(Protocol):
    """What listeners ask of a feeder."""

    at: Position
    log: Log
    turn: threading.Condition
    news: threading.Condition
    recent: "Recent"
    holds: int

    def answer_to(self, entry: Entry) -> bytes:
        ...


class Recent:
    """The last answers, behind the entry at `before`."""

    def __init__(self, before: int) -> None:
        self.lines: collections.deque[Line] = collections.deque()
        self.size, self.before = 0, before

    def add(self, line: Line) -> None:
        self.lines.append(line)
        self.size += size_of(line)
        while len(self.lines) > RECENT or self.size > RECENT_BYTES and len(self.lines) > 1:
            gone = self.lines.popleft()
            self.size, self.before = self.size - size_of(gone), gone["position"]

    def behind(self, after: int) -> list[Line]:
        """Returns the lines behind an entry, where all of them are here."""
        new: list[Line] = []
        if after >= self.before:
            for line in reversed(self.lines):
                if line["position"] <= after:
                    break
                new.append(line)
        return new[::-1]


def line_of(entry: Entry, answer: bytes) -> Line:
    request = entry.request.decode("latin-1")
    return {"position": entry.position, "request": request, "answer": answer.decode("latin-1")}


def size_of(line: Line) -> int:
    return len(line["request"]) + len(line["answer"])


def lines(feeder: Feeds, after: int) -> Iterator[Line]:
    """Gives what was answered to each entry behind a position.

    Of what isn't remembered the desk is told again, as a repeat.
    """
    while True:
        with feeder.news:
            feeder.news.wait_for(lambda: bool(feeder.at.kept["position"] > after))
            new = feeder.recent.behind(after)
        yield from new
        if new:
            after = new[-1]["position"]
            continue
        for entry in filter(None, feeder.log.read(after)):
            with feeder.turn:
                answer = feeder.answer_to(entry)
            after = entry.position
            yield line_of(entry, answer)
            if after >= feeder.recent.before:
                break


class Peer(socketserver.StreamRequestHandler):
    """One who listens, or who copies and has the feeder stand still until it goes away."""

    server: "Socket"

    def handle(self) -> None:
        with contextlib.suppress(OSError, ValueError):
            asked = json.loads(self.rfile.readline())
            if "hold" in asked:
                self.hold(self.server.feeder)
            else:
                self.tell(self.server.feeder, asked)

    def tell(self, feeder: Feeds, asked: Line) -> None:
        kept = feeder.at.kept
        self.send({"position": kept["position"], "log": kept["log"]})
        after = asked.get("after")
        after = kept["position"] if after is None else min(after, kept["position"])
        if after < kept["since"]:
            earlier = f"up to {kept['since']} the log is for an earlier version of the desk"
            self.send({"truncated": f"{earlier}, which this one isn't told again"})
            return
        names = (
            ("position", "request", "answer") if asked.get("requests") else ("position", "answer")
        )
        try:
            for line in lines(feeder, after):
                self.send({name: line[name] for name in names})
        except (Truncated, Lost) as why:
            self.send({"truncated": str(why)})

    def hold(self, feeder: Feeds) -> None:
        with feeder.news:
            feeder.holds += 1
        with feeder.turn:
            try:
                self.send(feeder.at.kept)
                self.rfile.read()
            finally:
                with feeder.news:
                    feeder.holds -= 1
                feeder.turn.notify_all()

    def send(self, line: Line) -> None:
        self.wfile.write(json.dumps(line).encode() + b"\n")


class Socket(socketserver.ThreadingUnixStreamServer):
    """The socket of a feeder."""

    daemon_threads = True

    def __init__(self, file: str, feeder: Feeds) -> None:
        self.feeder = feeder
        super().__init__(file, Peer)
