"""Tells a node's desk the log, and compares its answers with those of other nodes. A module.

Nothing here is proved. What is proved is that a desk which is told a log again from any earlier
entry on, all of it taken, ends as one that was told it once. So an entry that wasn't taken is
never passed over, and the kept position is never ahead of the desk. """
import collections
import contextlib
import os
import sys
import threading
import time
from typing import NoReturn

from desk_answers import UPGRADE, end_listener, tell, told
from etcd_log import Entry, Log, Lost, NoLog, Truncated, key_of, new_name
from listeners import Recent, line_of
from nodes import Verdict, compared
from position import Position, moved, sum_behind

CHECK_EACH, LAST_SUMS, SPARE = 100, 3, 3
STANDS_STILL, OTHER_VERSION = 3, 4
STORE_FAULTS, HUNG, HUNG_SECONDS = 10, 3, 30
# Where as many nodes differ as agree, one more that tells its sum within so long decides.
THIRD, LOOK_AGAIN = 5, 0.5
CLOSES = b"POST /epochs/close"
COPY = "put a copy of another node's desk here, with its position"


def say(text: str) -> None:
    print(f"feeder: {text}", file=sys.stderr, flush=True)


def stand_still(why: str, status: int = STANDS_STILL) -> NoReturn:
    """Ends all: to go on would make this desk differ from the others, so a person has to look."""
    say(why)
    os._exit(status)


class Feeder:
    """Feeds one desk.

    `turn` is held by who speaks to the desk, and `holds` counts who wants nothing to be told it.
    """

    def __init__(
        self, file: str, name: str, port: int, version: int, log: Log, nodes: set[str]
    ) -> None:
        self.name, self.port, self.version, self.log, self.nodes = name, port, version, log, nodes
        self.turn, self.news, self.holds = threading.Condition(), threading.Condition(), 0
        self.sums: collections.OrderedDict[int, str] = collections.OrderedDict()
        self.said: set[str] = set()
        try:
            self.at = Position(file + ".position")
        except ValueError as why:
            stand_still(f"{file}.position isn't what a feeder keeps: {why}; {COPY}")
        end, which = self.log_now()
        kept = self.at.kept
        if kept["log"] not in (None, which) or kept["position"] > end:
            lost = "this desk was fed from another log, or the log has lost what it had"
            stand_still(f"{lost}: {kept}, and the log {which} ends at {end}")
        self.check_version()
        log.name = which
        self.at.keep(log=which)
        self.out = {int(position): it.encode() for position, it in log.get_all("out").items()}
        self.recent = Recent(kept["position"])

    def log_now(self) -> tuple[int, str]:
        """Returns the last position and the name of the log, once etcd is there."""
        while True:
            try:
                end = self.log.end()
                return end, self.log.claim("name", new_name(is_empty=end == 0))
            except NoLog as why:
                say(f"there is no log yet: {why}")
                time.sleep(1)

    def check_version(self) -> None:
        """Looks whether the program of the desk is the one that the next entry is for."""
        kept = self.at.kept
        if kept["version"] != self.version:
            wanted = f"from the entry at {kept['position'] + 1} on the log is for version"
            started = f"this feeder was started with --version {self.version}"
            stand_still(f"{wanted} {kept['version']} of the desk, and {started}", OTHER_VERSION)

    # ---- the desk

    def prove_desk(self) -> None:
        """Looks, before anybody is told anything, whether this desk is the one of its position.

        The last entries are told again, as repeats: another or an older desk answers otherwise.
        """
        kept = self.at.kept
        total, here = kept["back_sum"], None
        if kept["back"] < kept["position"]:
            for entry in filter(None, self.log.read(kept["back"])):
                self.check_place(entry, here)
                total = sum_behind(total, entry.position, self.answer_to(entry))
                here = entry.here
                if entry.position == kept["position"]:
                    break
        if total != kept["sum"]:
            is_other = f"this desk isn't the one of its position {kept['position']}"
            behind = f"told the entries behind {kept['back']} again, it answers otherwise"
            stand_still(f"{is_other}: {behind}; {COPY}")
        if here and kept["entry"] not in (None, here):
            stand_still(f"the entry at {kept['position']} isn't the one that this desk was told")

    def feed(self) -> NoReturn:
        try:
            for entry in self.log.read(self.at.kept["position"]):
                if entry:
                    self.check_place(entry, self.at.kept["entry"])
                    self.take_turn(entry)
                if entry is None or entry.position % CHECK_EACH == 0:
                    self.check()
                self.check_version()
        except Truncated as why:
            stand_still(f"{why}: {COPY}")
        except Lost as why:
            stand_still(f"the log isn't the one that this desk was told: {why}")
        raise AssertionError("the log ends")

    def check_place(self, entry: Entry, before: str | None) -> None:
        """Looks whether an entry was appended behind the one that the desk was told."""
        if entry.before and before and entry.before != before:
            follows = f"the entry at {entry.position} was appended behind another one"
            raise Lost(f"{follows} than this desk was told; etcd was put back, or made anew")

    def take_turn(self, entry: Entry) -> None:
        """Tells the desk the next entry, and only then keeps that it has it."""
        with self.turn:
            self.turn.wait_for(lambda: not self.holds)
            closes, upgrade = entry.request.startswith(CLOSES), UPGRADE.fullmatch(entry.request)
            if closes:
                # Told again from before it, requests of a closed epoch would be answered otherwise
                # than the first time.
                self.at.sync()
            answer = self.answer_to(entry)
            more = moved(self.at.kept, entry.position, answer, closes or upgrade is not None)
            if upgrade:
                more.update(version=int(upgrade[1]), since=entry.position)
            with self.news:
                self.at.keep(**more, entry=entry.here)
                self.recent.add(line_of(entry, answer))
                self.news.notify_all()

    def answer_to(self, entry: Entry) -> bytes:
        """Returns what stands for an entry in the sum of answers.

        That is the desk's answer, except where there is nothing to tell it.
        """
        is_for_nobody = not entry.request or UPGRADE.fullmatch(entry.request)
        return entry.request if is_for_nobody else self.take(entry)

    def take(self, entry: Entry) -> bytes:
        """Returns the answer of the desk, once it has taken the entry or settled it for good.

        What wasn't taken is told again and again.
        """
        tries = faults = hung = 0
        while entry.position not in self.out:
            begun = time.monotonic()
            answer = tell(self.port, entry.request)
            why = not_taken(answer)
            if answer and why is None:
                return answer
            if answer and why == "PATTERN":
                self.leave_out(entry, answer)
                continue
            if why in ("DAMAGED", "FULL"):
                stand_still(f"the desk says {why} to the entry at {entry.position}: {COPY}")
            tries, faults = tries + 1, faults + 1 if why == "STORE" else 0
            is_hung = not answer and time.monotonic() - begun > HUNG_SECONDS
            hung = hung + 1 if is_hung else 0
            if faults == STORE_FAULTS or hung == HUNG:
                how = "hangs" if hung else "says STORE"
                say(f"the desk {how}: it is ended, so that it is started again")
                end_listener(self.port)
                faults = hung = 0
            if tries % 100 == 10:
                said = why or "no answer"
                say(f"the entry at {entry.position} isn't taken: {said}, {tries} times")
            if tries % 10 == 0:
                self.look_aside(entry)
            time.sleep(min(0.02 * tries, 1))
        return self.out[entry.position]

    def leave_out(self, entry: Entry, answer: bytes) -> None:
        """Leaves out an entry that the desk can't take for what its text is.

        No node tells it a desk again, since later that one might take it. So it stands in the log
        before anybody goes on.
        """
        try:
            claimed = self.log.claim(key_of("out", entry.position), answer.decode())
            self.out[entry.position] = claimed.encode()
        except NoLog as why:
            say(f"the entry at {entry.position} is to be left out, and there is no log: {why}")
            time.sleep(1)

    def look_aside(self, entry: Entry) -> None:
        """While an entry isn't taken: tells where this node is; looks if a person left it out."""
        with contextlib.suppress(NoLog):
            self.log.put(f"node/{self.name}", str(self.at.kept["position"]), SPARE)
            left_out = self.log.get(key_of("out", entry.position), SPARE)
            if left_out is not None:
                self.out[entry.position] = left_out.encode()

    # ---- the other nodes

    def check(self) -> None:
        """Tells how far this node is, and its sum of answers; compares that with the others'."""
        kept = self.at.kept
        with contextlib.suppress(NoLog):
            if (which := self.log.get("name", SPARE)) != kept["log"]:
                fed = f"this desk was fed from {kept['log']}, and it is {which} now"
                stand_still(f"the log was made anew: {fed}")
            if kept["position"] > (end := self.log.end(SPARE)):
                has = f"this desk has the entry at {kept['position']}, and the log ends at {end}"
                stand_still(f"the log has lost what it had: {has}")
            if kept["position"] not in self.sums:
                # By what is told here the log is truncated, so no stop of the machine may take it
                # back.
                self.at.sync()
                place = f"{key_of('check', kept['position'])}/{self.name}"
                self.log.put(place, kept["sum"], SPARE)
                self.log.put(f"node/{self.name}", str(kept["position"]), SPARE)
                self.sums[kept["position"]] = kept["sum"]
                if len(self.sums) > LAST_SUMS:
                    self.sums.popitem(last=False)
            for position, found in self.sums.items():
                self.judge(position, found)

    def judge(self, position: int, found: str) -> None:
        """Stands still where no more nodes agree with this one than differ from it."""
        verdict = self.compare(position, found)
        end = time.monotonic() + THIRD
        while verdict.is_undecided() and verdict.silent and time.monotonic() < end:
            time.sleep(LOOK_AGAIN)
            verdict = self.compare(position, found)
        others = f"the answers up to the entry at {position} differ from those of"
        if verdict.is_alone() or verdict.is_undecided():
            stand_still(f"{others} {', '.join(verdict.differ)}")
        if verdict.is_outvoting():
            told = f"{others} {', '.join(verdict.differ)}; {', '.join(verdict.agree)} agree"
            if told not in self.said:
                self.said.add(told)
                say(told)

    def compare(self, position: int, found: str) -> Verdict:
        nodes = self.nodes or set(self.log.get_all("node", SPARE))
        told = self.log.get_all(key_of("check", position), SPARE)
        return compared(self.name, found, told, nodes | {self.name})


def not_taken(answer: bytes | None) -> str | None:
    """Returns why a desk hasn't taken an entry, empty where it gave no answer; None where it has."""
    status, said = told(answer) if answer else (503, {})
    return str(said.get("not_taken", "")) if status == 503 else None
