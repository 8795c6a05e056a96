"""What a front knows of its node's desk by the feeder, and how it asks the log. A module."""
import collections
import queue
import sys
import threading
import time
from collections.abc import Callable, Sequence
from typing import Any, Generic, TypeVar

from desk_answers import subscribe
from etcd_log import Log, NoLog

KEPT, WITHOUT_FEEDER, QUIET = 10_000, 2, 30
Given = TypeVar("Given")
Told = TypeVar("Told")


class Answers(threading.Thread):
    """What the feeder of this node was told, by position."""

    def __init__(self, desk_file: str, log: Log) -> None:
        super().__init__(daemon=True)
        self.desk_file, self.log, self.news = desk_file, log, threading.Condition()
        self.position, self.seen, self.stands = -1, -1, False
        self.kept: collections.OrderedDict[int, bytes] = collections.OrderedDict()

    def run(self) -> None:
        while True:
            try:
                asked = {"after": None if self.seen < 0 else self.seen}
                for line in subscribe(self.desk_file, asked):
                    with self.news:
                        self.take(line)
                        self.news.notify_all()
            except (OSError, ValueError):
                pass
            with self.news:
                # Without a feeder nobody knows how far the desk is.
                self.position = -1
            time.sleep(0.1)

    def take(self, line: dict[str, Any]) -> None:
        self.stands = False
        if "truncated" in line:
            # What this front saw last isn't told again: it goes on where the feeder is.
            self.seen = -1
        elif "answer" in line:
            self.seen = line["position"]
            self.position = max(self.position, self.seen)
            self.kept[self.seen] = line["answer"].encode("latin-1")
            if len(self.kept) > KEPT:
                self.kept.popitem(last=False)
        else:
            # Where the feeder is; it may have gone back, to a copy. In a log that was made anew a
            # position is another entry's.
            if self.log.name != line["log"]:
                self.kept.clear()
                self.log.name = line["log"]
            self.position = line["position"]
            self.seen = self.position if self.seen < 0 else min(self.seen, self.position)

    def is_told(self, seconds: float | None) -> bool:
        """Returns whether a feeder tells how far the desk is."""
        with self.news:
            return self.news.wait_for(lambda: self.position >= 0, seconds)

    def goes_on(self, seconds: float) -> bool:
        """Returns whether nobody has waited in vain for what the log has."""
        with self.news:
            return self.news.wait_for(lambda: not self.stands, seconds)

    def wait(self, position: int, is_so: Callable[[], bool], seconds: float) -> bool:
        """Waits for an entry of the log.

        Once one has waited in vain for a feeder that stood still, others wait only a short time,
        until it goes on, which is told.
        """
        before = self.position
        patience = min(seconds, WITHOUT_FEEDER) if self.stands else seconds
        is_so_now = self.news.wait_for(is_so, patience)
        self.stands = self.stands or not is_so_now and self.position == before < position
        return is_so_now

    def of(self, position: int, seconds: float) -> bytes | None:
        with self.news:
            is_there = self.wait(position, lambda: position in self.kept, seconds)
            return self.kept.get(position) if is_there else None

    def reach(self, position: int, seconds: float) -> int | None:
        """Waits until the desk has an entry, and returns how far it is, or None."""
        with self.news:
            is_there = self.wait(position, lambda: self.position >= position, seconds)
            return self.position if is_there else None


class Gathered(threading.Thread, Generic[Given, Told]):
    """Asks the log for all who wait, at once, while the next ones gather.

    `ask` takes what they give, and gives what the first of them get.
    """

    def __init__(self, ask: Callable[[list[Given]], Sequence[Told]]) -> None:
        super().__init__(daemon=True)
        self.ask, self.quiet_until = ask, 0.0
        self.waiting: queue.Queue[tuple[Given, queue.SimpleQueue[Told | None]]] = queue.Queue()

    def run(self) -> None:
        waits: list[tuple[Given, queue.SimpleQueue[Told | None]]] = []
        while True:
            waits = waits or [self.waiting.get()]
            while not self.waiting.empty():
                waits.append(self.waiting.get())
            found: Sequence[Told | None]
            try:
                found = self.ask([given for given, _ in waits])
            except NoLog as why:
                found = [None] * len(waits)
                self.say(why)
            for (_, place), it in zip(waits, found):
                place.put(it)
            waits = waits[len(found) :]

    def say(self, why: NoLog) -> None:
        if time.monotonic() > self.quiet_until:
            print(f"front: the log gives no answer: {why}", file=sys.stderr, flush=True)
            self.quiet_until = time.monotonic() + QUIET

    def of(self, given: Given, seconds: float) -> Told | None:
        """Returns what the log says, or None where nobody knows."""
        place: queue.SimpleQueue[Told | None] = queue.SimpleQueue()
        self.waiting.put((given, place))
        try:
            return place.get(timeout=max(0, seconds))
        except queue.Empty:
            return None
