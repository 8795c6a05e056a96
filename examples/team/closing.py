"""Which epochs a team's desk has closed, and which are due. A module; standard library.

A team's epochs are days in UTC, as 20261201. FOLDER/kept/epochs notes the first day on which
anybody looked, the last one, and the least day that is open.
"""
from __future__ import annotations

import datetime
import json
import os

from team import Team, fail, read, this_day

KEPT_DAYS, EACH_DAYS, MOST_JUMP = 31, 7, 180
NOTED = os.path.join("kept", "epochs")


def date_of(day: int) -> datetime.date:
    """The date of a day as 20261201; ValueError where there is no such day."""
    return datetime.date(day // 10000, day // 100 % 100, day % 100)


def day_of(date: datetime.date) -> int:
    return date.year * 10000 + date.month * 100 + date.day


def days_between(first: int, last: int) -> int:
    return (date_of(last) - date_of(first)).days


def noted_in(team: Team) -> dict[str, int]:
    said: dict[str, int] = json.loads(read(team.folder, NOTED, otherwise="{}"))
    return said


def note(team: Team, noted: dict[str, int]) -> None:
    team.write(json.dumps(noted) + "\n", NOTED)


def due(team: Team) -> int | None:
    """The day before which all epochs are to be closed now, or None. The day is noted."""
    day, noted = this_day(), noted_in(team)
    first, seen = noted.get("first", day), noted.get("seen", day)
    if not 0 <= days_between(seen, day) <= MOST_JUMP:
        fail(
            f"the clock says {day}, and the last time it said {seen}: nothing is closed. "
            f"Where the clock is right say --before {day}"
        )
    note(team, {**noted, "first": first, "seen": day})
    least = day_of(date_of(day) - datetime.timedelta(KEPT_DAYS))
    is_early = least <= first or days_between(noted.get("least", first), least) < EACH_DAYS
    return None if is_early else least


def closing_fault(team: Team) -> str | None:
    """What is wrong with how epochs are closed, for `look`."""
    noted, day = noted_in(team), this_day()
    if not noted:
        return None
    if days_between(noted["seen"], day) > 3:
        return f"close-epochs hasn't run since {noted['seen']}: log/close-epochs.log says why"
    if days_between(max(noted["first"], noted.get("least", 0)), day) > 2 * KEPT_DAYS:
        return "no epoch was closed for weeks: log/close-epochs.log says why"
    return None
