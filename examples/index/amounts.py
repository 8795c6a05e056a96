"""Numbers, days and ages as Gerrit's queries say them. A module; standard library."""
import calendar
import re
import time

from grammar import BadQuery

SECONDS = {"s": 1, "m": 60, "h": 3600, "d": 86400, "w": 604800, "mon": 2592000, "y": 31536000}
UNITS = {"s": "s sec second seconds", "m": "m min minute minutes", "h": "h hr hour hours", "d": "d day days", "w": "w week weeks", "mon": "mon month months", "y": "y year years"}
SECONDS_OF = {word: SECONDS[unit] for unit, words in UNITS.items() for word in words.split()}


def compared(column, text):
    """A number that is compared, as >=10."""
    found = re.fullmatch(r"(>=|<=|>|<|=)?(\d{1,9})", text)
    if not found:
        raise BadQuery(f"{text} is no number")
    return f"{column} {found[1] or '='} ?", [int(found[2])]


def moment(text):
    """The seconds of a day, with or without a time, in UTC."""
    for form in ("%Y-%m-%d", "%Y-%m-%d %H:%M:%S", "%Y-%m-%d %H:%M"):
        try:
            return calendar.timegm(time.strptime(text, form))
        except (ValueError, OverflowError):
            continue
    raise BadQuery(f"{text} is no day, as 2026-01-31")


def age(text):
    """The seconds of a time span, as 2w."""
    found = re.fullmatch(r"(\d{1,6})\s*([a-z]+)", text)
    if not found or found[2] not in SECONDS_OF:
        raise BadQuery(f"{text} is no age, as 2w")
    return int(found[1]) * SECONDS_OF[found[2]]
