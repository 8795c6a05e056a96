"""What a build tells a person who waits for it: how far it is, and about how long it will take."""
import os
import re
import sys
import threading
import time
from collections.abc import Callable

TOP = os.path.dirname(os.path.dirname(os.path.realpath(__file__)))
SECONDS = f"{TOP}/tools/crate_seconds.txt"
# What a crate takes that the table doesn't have, and what a crate at work still takes once its
# time is over.
UNKNOWN, AT_LEAST = 180.0, 10.0


def seconds_elsewhere(file: str = SECONDS) -> dict[str, float]:
    """Returns the seconds that each crate took on the machine where the table was made."""
    if not os.path.exists(file):
        return {}
    with open(file, encoding="utf-8") as lines:
        found = re.findall(r"^(\w+) +([0-9.]+)$", lines.read(), re.M)
    return {name: float(seconds) for name, seconds in found}


class Guess:
    """Guesses what is left of a build from what its crates took elsewhere.

    `below` has the crates that each one waits for. A machine that is slower or faster than the one
    of the table shows in the crates that are done.
    """

    def __init__(self, below: dict[str, list[str]], seconds: dict[str, float], lanes: int) -> None:
        self.below, self.lanes = below, lanes
        self.whole = {name: seconds.get(name, UNKNOWN) for name in below}
        self.left = dict(self.whole)
        self.took = self.wanted = 0.0

    def keep(self, name: str) -> None:
        """Notes that a crate needs no proof."""
        self.left[name] = 0.0

    def end(self, name: str, seconds: float) -> None:
        """Notes that a crate was proved in so many seconds."""
        self.left[name] = 0.0
        self.took, self.wanted = self.took + seconds, self.wanted + self.whole[name]

    def pace(self) -> float:
        """Returns how much longer crates take here than elsewhere."""
        return self.took / self.wanted if self.wanted else 1.0

    def minutes(self, at_work: dict[str, float]) -> float:
        """Returns the minutes that are left; `at_work` has the seconds that crates have had."""
        pace, left = self.pace(), {}
        for name, seconds in self.left.items():
            had = at_work.get(name)
            left[name] = seconds * pace if had is None else max(seconds * pace - had, AT_LEAST)
        return max(sum(left.values()) / self.lanes, *self.chains(left).values(), 0.0) / 60

    def chains(self, left: dict[str, float]) -> dict[str, float]:
        """Returns, for each crate, the seconds until it is proved if nothing lacks a processor."""
        ends: dict[str, float] = {}

        def end_of(name: str) -> float:
            if name not in ends:
                ends[name] = left[name] + max((end_of(it) for it in self.below[name]), default=0.0)
            return ends[name]

        return {name: end_of(name) for name in self.below}


class Progress:
    """Tells on standard error where a build is: a line a crate, and on a terminal a last line."""

    def __init__(self, guess: Guess, clock: Callable[[], float] = time.monotonic) -> None:
        self.guess, self.clock, self.begun = guess, clock, clock()
        self.at_work: dict[str, float] = {}
        self.kept: set[str] = set()
        self.done, self.whole = 0, len(guess.below)
        self.lock, self.ended = threading.Lock(), threading.Event()
        self.is_terminal = sys.stderr.isatty()

    def __enter__(self) -> "Progress":
        if self.is_terminal:
            threading.Thread(target=self.tick, daemon=True).start()
        return self

    def __exit__(self, *_: object) -> None:
        self.ended.set()
        if self.is_terminal:
            print("\r\x1b[K", end="", file=sys.stderr, flush=True)

    def tick(self) -> None:
        while not self.ended.wait(1):
            with self.lock:
                self.write(
                    f"{self.standing()}; at work: {', '.join(sorted(self.at_work))}"[:140], ""
                )

    def standing(self) -> str:
        had = {name: self.clock() - since for name, since in self.at_work.items()}
        minutes = round(self.guess.minutes(had))
        left = f"about {minutes} minute{'s' * (minutes != 1)} left" if minutes else "nearly done"
        kept = f" ({len(self.kept)} kept)" if self.kept else ""
        return f"{self.done} of {self.whole} crates{kept}, {left}"

    def write(self, text: str, end: str = "\n") -> None:
        minutes, seconds = divmod(int(self.clock() - self.begun), 60)
        cleared = "\r\x1b[K" if self.is_terminal else ""
        print(f"{cleared}{minutes:3}:{seconds:02}  {text}", end=end, file=sys.stderr, flush=True)

    def begin(self, name: str) -> None:
        with self.lock:
            self.at_work[name] = self.clock()

    def keep(self, name: str) -> None:
        """Notes that a crate was found in the store."""
        with self.lock:
            self.kept.add(name)

    def end(self, name: str, is_proved: bool) -> None:
        with self.lock:
            took = self.clock() - self.at_work.pop(name)
            self.done += 1
            if name in self.kept or not is_proved:
                self.guess.keep(name)
            else:
                self.guess.end(name, took)
            if name not in self.kept:
                how = f"proved in {took:.0f} s" if is_proved else "NOT PROVED"
                self.write(f"{name} {how}; {self.standing()}")
