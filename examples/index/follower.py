"""How the index stays what the desk says: hints make it quick, and rounds in which all is asked again make it true. A module; standard library.

The number `updated` of a change is that of the last accepted request that named or merged it. While it is what it was, votes, threads, reviewers, attention set and status are
what they were, so one question tells; submit requirements alone may change without it. The change is always asked for before its parts: then what is newer than `updated` says is
seen at the next look, and nothing is missed.
"""
import http.client
import json
import time

from happened import happened
from retry import Lost, NoAnswer, NotOfTheDesk, path_of
from store import AT_ONCE, SOON, put, take_out, tell, whole

SLICE = 0.2  # seconds that a round works before hints are heard again
COUNT = 10  # changes of a round that are asked for in one go
LATE_SHARE = 0.25  # of the time, where what is known is wrong, or may be
OPEN_SHARE = 0.05
SECONDS = 20  # that the desk is waited for
LONG, REST = 1.0, 20  # a look that takes so many seconds is followed by a rest of so many times as long
UNKNOWN = [{"name": "Submit-Requirements", "status": "ERROR"}]  # the engine refuses a pattern of the project's file


class Follower:
    """Follows a desk. Open changes are asked for each `open_every` seconds, or as often as a twentieth of the time allows; the others in turn, in `closed_share` of the time."""

    def __init__(self, kept, desk, git, open_every=60, closed_share=0.02):
        self.kept, self.desk, self.git, self.open_every, self.closed_share = kept, desk, git, open_every, closed_share
        self.heard, self.is_filled, self.new_due, self.last_due, self.open_due, self.closed_due = 0.0, False, 0.0, 0.0, 0.0, 0.0
        self.rests: dict[int, float] = {}
        self.wait_for_all()

    def wait_for_all(self):
        """The desk may have been asked for anything meanwhile: all open changes are asked for soon, and first whether the desk is as new as what is known."""
        self.is_filled, self.new_due, self.last_due = False, 0.0, 0.0
        self.kept.execute("UPDATE changes SET asked = ? WHERE status = 'NEW' AND asked > ?", (SOON, SOON))

    def question(self, *path):
        """The desk's answer to a question; None where it says that there is no such change."""
        try:
            status, told = self.desk.send("GET", path_of(*path), None, self.desk.fields, SECONDS)
        except Lost as error:
            if '"PATTERN"' in str(error):
                return UNKNOWN
            raise NoAnswer(f"the desk says {error}") from error
        except (OSError, http.client.HTTPException) as error:
            raise NoAnswer(f"the desk doesn't answer: {error}") from error
        self.heard = time.time()
        if status not in (200, 404):
            raise NotOfTheDesk(f"the desk says {json.dumps(told)} to a question of account 1")
        return told if status == 200 else None

    def look(self, number: int, is_hinted: bool = False) -> bool:
        """Asks for a change, unless it took long the last time, and that was a short while ago: whether it is there. So whoever fills a change with comments, and adds to it each second,
        doesn't have the desk tell all of them each second: the change is found as it was for a while."""
        begun = time.monotonic()
        if begun < self.rests.get(number, 0.0) and self.kept.execute("UPDATE changes SET asked = ? WHERE number = ? AND asked > ?", (time.time(), number, AT_ONCE)).rowcount:
            return True
        is_there = self.look_now(number, is_hinted)
        self.rests.pop(number, None)
        if (spent := time.monotonic() - begun) > LONG:
            self.rests[number] = time.monotonic() + REST * spent
        return is_there

    def look_now(self, number, is_hinted):
        """Asks for a change, and for all of it where it is another than before: whether it is there. Behind a hint git is asked again, too."""
        it = self.question("changes", number)
        row = self.kept.execute("SELECT updated, asked, comments, change_id, told FROM changes WHERE number = ?", (number,)).fetchone()
        if it is None:
            if row:
                self.lose(number)
            return False
        before = json.loads(row[4]) if row else None
        if before and (row[0] > it["updated"] or (row[0] == it["updated"] and row[1] and before["change"] != it)):
            self.is_set_back()
            row = (row[0], AT_ONCE, *row[2:])
        if before and row[0] == it["updated"] and row[1] != AT_ONCE and not is_hinted and (row[3] or not self.git.has(it)):
            if self.question("changes", number, "requirements") == before["requirements"]:
                self.kept.execute("UPDATE changes SET asked = ? WHERE number = ?", (time.time(), number))
                return True
        told = {"change": it, **{part: self.question("changes", number, part) for part in ("requirements", "threads", "attention")}}
        if None not in told.values():
            git, is_known = self.git.of(it), row is not None and row[1] != AT_ONCE
            count = sum(len(thread["comments"]) for thread in told["threads"])
            is_same = before and row[2] == count and all(told[part] == before[part] for part in ("change", "attention"))
            # After an older copy of the desk was put back a number may mean something else, so all of it has happened.
            events = [] if is_same else happened(before if is_known else None, row[2] if is_known else 0, told, git["revisions"])
            put(self.kept, told, git, time.time(), events)
        return True

    def lose(self, number):
        """A change is there no more: an older copy of the desk was put back."""
        with whole(self.kept):
            take_out(self.kept, number)
            tell(self.kept, number, [("change-deleted", {})], int(time.time()))
        self.is_set_back()

    def is_set_back(self):
        """What is known of each change may be of a time that never was: all of it is asked for again, whatever `updated` says."""
        self.kept.execute("UPDATE changes SET asked = ? WHERE asked > ?", (AT_ONCE, AT_ONCE))
        self.last_due = 0.0

    def last(self):
        return self.kept.execute("SELECT coalesce(max(number), 0) FROM changes").fetchone()[0]

    def hint(self, method, path):
        """Somebody asked something of the desk, and it was answered."""
        segments = path.partition("?")[0].strip("/").split("/")
        if segments[0] == "changes" and len(segments) > 2 and segments[1].isdecimal() and len(segments[1]) < 11:
            number = int(segments[1])
            if number > self.last():
                self.new_due = 0.0
                return
            self.look(number, is_hinted=segments[2] == "revisions" and len(segments) == 3)
            if segments[2] == "submit":
                self.ask_for_branch_of(number)
        elif segments[0] == "changes":
            self.new_due = 0.0
        elif segments[0] in ("projects", "groups") and method == "PUT" and "branches" not in segments:
            self.kept.execute("UPDATE changes SET asked = ? WHERE status = 'NEW' AND asked > ?", (SOON, SOON))
            self.open_due = 0.0

    def ask_for_branch_of(self, number):
        """What a change was merged with is of its branch."""
        found = self.kept.execute("SELECT project, branch FROM changes WHERE number = ? AND status = 'MERGED'", (number,)).fetchone()
        if found:
            self.kept.execute("UPDATE changes SET asked = ? WHERE status = 'NEW' AND project = ? AND branch = ? AND asked > ?", (SOON, *found, SOON))
            self.open_due = 0.0

    # ---- rounds

    def turn(self):
        """What is due without a hint, for a moment; how long until something is."""
        now = time.monotonic()
        if now >= self.last_due:
            last = self.last()
            if not last or self.look(last):
                self.last_due = now + self.open_every
            return 0
        if now >= self.new_due:
            self.new_due = self.look_for_new(now + SLICE)
        if now >= self.open_due:
            self.open_due = self.look_again("status = 'NEW' AND asked < ?", time.time() - self.open_every, OPEN_SHARE, 0.1)
        if now >= self.closed_due:
            self.closed_due = self.look_again("asked < ?", time.time() - 1, self.closed_share, 1)
        return max(0, min(self.new_due, self.open_due, self.closed_due, self.last_due) - time.monotonic())

    def look_for_new(self, until):
        """Asks for the change behind the last one until there is none; when to do so again."""
        while self.look(self.last() + 1):
            if time.monotonic() > until:
                return 0.0
        self.is_filled = True
        return time.monotonic() + 1

    def look_again(self, test, bound, share, pause):
        """Asks for some changes whose last look is longest ago; when to go on, so that no more than a share of the time is spent."""
        begun, is_late = time.monotonic(), False
        for number, asked in self.kept.execute(f"SELECT number, asked FROM changes WHERE {test} ORDER BY asked LIMIT {COUNT}", (bound,)).fetchall():
            self.look(number)
            is_late |= asked <= SOON
            if time.monotonic() > begun + SLICE:
                break
        spent = time.monotonic() - begun
        return time.monotonic() + (spent * (1 / LATE_SHARE - 1) if is_late else max(pause, spent * (1 / share - 1)))

    def state(self):
        """How far behind the index is."""
        return {"heard": self.heard, "is_filled": self.is_filled}


__all__ = ["Follower", "NoAnswer", "NotOfTheDesk"]
