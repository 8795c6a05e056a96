"""What the requests of hook and `settle` carry, and how much a user's pushes have the desk keep in a
day. A module.

The desk keeps each request with all that it says, a refused one too, until its epoch is closed, and
a patch set's paths may be 250 KB. So each request of a push counts against its user, before it is
sent, in the file desk/asked/ACCOUNT. Who calls this holds the lock of pushes.
"""
from __future__ import annotations

import json
import os
import time

from repository import noted_in, setting
from retry import this_day, write_whole

MOST_A_DAY = 16_000_000  # bytes: some 50,000 patch sets of a few paths each
BESIDE = 300  # bytes that the desk keeps beside what a request says


def epoch() -> int | None:
    """The epoch of a request that is made now: the day, where a team closes days (desk.epoch)."""
    return this_day() if setting("desk.epoch", "") == "day" else None


class TooMuch(ValueError):
    """A user's pushes have asked for as much as they may today."""

    help = "push again tomorrow, in UTC; an administrator may remove the file desk/asked/ACCOUNT"


def spend(account: object, body: object) -> None:
    """Counts a request with this body against a user, or raises TooMuch."""
    file, today = os.path.join("desk", "asked", str(account)), time.strftime(
        "%Y-%m-%d", time.gmtime()
    )
    noted = noted_in(file, {})
    spent = (
        (noted.get("bytes", 0) if noted.get("day") == today else 0)
        + BESIDE
        + len(json.dumps(body).encode())
    )
    if spent > MOST_A_DAY:
        raise TooMuch(
            f"your pushes have asked the desk for {MOST_A_DAY:,} bytes today, which is the most"
        )
    write_whole(file, json.dumps({"day": today, "bytes": spent}) + "\n")
