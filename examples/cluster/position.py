"""How far a node's desk is in the log: what its feeder keeps beside the desk's file.

With it the feeder keeps what the sum of answers was some entries before. At its start it tells the
desk the entries since then again. A desk that took them repeats its answers, and the sum comes out
as kept. Another desk, or one that was put back, gives other answers to them.
"""
import fcntl
import hashlib
import json
import os
from typing import Any

Kept = dict[str, Any]
NEW: Kept = {
    "position": 0,
    "sum": "none",
    "log": None,
    "version": 0,
    "since": 0,
    "back": 0,
    "back_sum": "none",
    "middle": 0,
    "middle_sum": "none",
    "entry": None,
}
NUMBERS = ("position", "version", "since", "back", "middle")
MAY_LACK = ("log", "entry")
# A feeder tells its desk at least so many entries again, and at most twice as many.
TOLD_AGAIN = 20
LENGTH = 800


def kept_in(text: bytes) -> Kept:
    """Returns what a feeder kept, from its bytes.

    The desk is a new one where there are none, or where a stop of the machine left only zeros.
    Raises ValueError for what no feeder kept.
    """
    found = json.loads(text) if text.strip(b"\0 \n") else {}
    if not isinstance(found, dict):
        raise ValueError("no JSON object")
    kept = {**NEW, **found}
    if "back" not in found:
        # An earlier feeder kept no sum of entries before: none are told again.
        for name in ("back", "middle"):
            kept[name], kept[name + "_sum"] = kept["position"], kept["sum"]
    for name, value in kept.items():
        is_number = type(value) is int and value >= 0
        is_right = is_number if name in NUMBERS else isinstance(value, str)
        if not is_right and not (name in MAY_LACK and value is None):
            raise ValueError(f"{name} is {value!r}")
    return kept


def sum_behind(before: str, position: int, answer: bytes) -> str:
    """Returns the sum of answers up to an entry, from that before it."""
    return hashlib.sha256(b"%s %d " % (before.encode(), position) + answer).hexdigest()


def moved(kept: Kept, position: int, answer: bytes, begins_anew: bool) -> Kept:
    """Returns what is another once the desk has taken the next entry.

    What came before an entry that begins anew isn't told again: behind a CloseEpoch it would be
    answered otherwise, and behind an UPGRADE it was for another program.
    """
    total = sum_behind(kept["sum"], position, answer)
    places: Kept = {}
    if begins_anew:
        for name in ("back", "middle"):
            places.update({name: position - 1, name + "_sum": kept["sum"]})
    elif position - kept["middle"] >= TOLD_AGAIN:
        places = {"back": kept["middle"], "back_sum": kept["middle_sum"]}
        places.update(middle=position, middle_sum=total)
    return {"position": position, "sum": total, **places}


class Position:
    """The file of a feeder. It is written in one place, so it is never half written.

    What a stop of the machine takes of it is told the desk again.
    """

    def __init__(self, file: str) -> None:
        """Raises OSError where the file can't be had, and ValueError where it is no feeder's."""
        self.place = os.open(file, os.O_RDWR | os.O_CREAT, 0o600)
        fcntl.flock(self.place, fcntl.LOCK_EX | fcntl.LOCK_NB)
        try:
            self.kept = kept_in(os.pread(self.place, 2 * LENGTH, 0))
        except RecursionError as why:
            raise ValueError("too deep") from why

    def keep(self, **what: Any) -> None:
        kept = {**self.kept, **what}
        os.pwrite(self.place, json.dumps(kept).ljust(LENGTH).encode() + b"\n", 0)
        self.kept = kept

    def sync(self) -> None:
        os.fsync(self.place)
