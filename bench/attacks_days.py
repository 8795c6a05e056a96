"""How a desk gives back what it kept: days that are closed, and a desk that takes more memory to
open than there is. Cases of bench/attacks.
"""

from __future__ import annotations

import contextlib
import json
import os
import sqlite3
import subprocess
import sys
import time

from attacks_kept import REFUSED, said_at_length
from attacked_team import TEAM, AttackedTeam, check, new_id
from desk_proxied import EXAMPLES

# Runs a program from a small process, since what a large one had counts as its child's memory.
MEASURED = """
import resource, subprocess, sys
status = subprocess.call(sys.argv[1:])
print(resource.getrusage(resource.RUSAGE_CHILDREN).ru_maxrss >> 10, file=sys.stderr)
sys.exit(status)
"""


def days_are_closed(team: AttackedTeam) -> None:
    """Closed epochs give back what was kept; hook, page, commands and follower go on across it,
    and nothing acts twice. No epoch ahead is taken, and a wrong clock closes nothing.
    """
    day = int(time.strftime("%Y%m%d", time.gmtime()))
    branch = team.new_branch()
    number, _ = team.change("ann", {"days": "one\n"}, "Days", f"origin/{branch}", branch)
    for ahead in (day + 1, day + 10000, 10**9, 99999999, 202612010):
        status, told, _ = team.ask(
            "eve", "POST", REFUSED, {"message": "x"}, headers={"Request-Epoch": str(ahead)}
        )
        check(
            (status, told) == (400, {"fault": "BAD_EPOCH", "epoch": day}),
            "an epoch that is ahead is taken",
            ahead,
            status,
            told,
        )
    check("no epoch is due" in team.command("close-epochs"), "it closes at once")
    noted = os.path.join(team.path, "kept", "epochs")
    with open(noted, "w", encoding="utf-8") as file:
        file.write(json.dumps({"first": 20200101, "seen": 20200101}))
    check(
        "the clock says" in team.command("close-epochs", status=1),
        "a clock that jumps ahead is believed",
    )
    with open(noted, "w", encoding="utf-8") as file:
        file.write(json.dumps({"first": 20200101, "seen": day}))
    pending = os.path.join(team.repository, "desk", "pending")
    kept = {
        "account": 2,
        "branch": "main",
        "change_id": "I1",
        "commit": "a" * 40,
        "request": {"method": "POST", "path": "/changes/", "body": {}, "id": "p1"},
    }
    with open(pending, "w", encoding="utf-8") as file:
        file.write(json.dumps(kept))
    check(
        "a push to tools was stopped" in team.command("close-epochs", status=1),
        "what a push waits for is shut out",
    )
    os.remove(pending)
    sent, id = {"message": "Once."}, new_id()
    check(
        team.ask("bob", "POST", f"/changes/{number}/revisions/1/review", sent, id)[0] == 200,
        "a message in epoch 0",
    )
    check(
        "are closed" in team.command("close-epochs")
        and "no epoch is due" in team.command("close-epochs"),
        "it isn't closed",
    )
    check(
        team.ask("bob", "POST", f"/changes/{number}/revisions/1/review", sent, id)[:2]
        == (409, {"refused": "EPOCH_CLOSED"}),
        "a message of a closed epoch acts again",
    )
    now = {"Request-Epoch": str(day)}
    check(
        team.ask(
            "bob",
            "POST",
            f"/changes/{number}/revisions/1/review",
            {"labels": {"Code-Review": 2}},
            headers=now,
        )[0]
        == 200,
        "a vote of today",
    )
    threads = team.ask("ann", "GET", f"/changes/{number}/threads")[1]
    check(
        sum(one["message"] == "Once." for it in threads for one in it["comments"]) == 1,
        "it acted twice",
        threads,
    )
    check(
        "is after today" in team.command("close-epochs", "--before", "29990101", status=2)
        and f"before {day} are closed" in team.command("close-epochs", "--before", str(day)),
        "today isn't the last day that can be closed to",
    )
    before = {"Request-Epoch": str(day - 1)}
    status, told, _ = team.ask("eve", "POST", REFUSED, {"message": "x"}, headers=before)
    check((status, told) == (409, {"refused": "EPOCH_CLOSED"}), "a closed day", status, told)
    check(
        team.amended("ann", {"days": "two\n"}, branch)[0] == 2, "a push makes a patch set no more"
    )
    team.command("add-user", "zoe", "--password-on-input", sent="pearpear\n")
    team.command("set-group", "Others", "zoe")
    team.command("remove-user", "zoe")
    check(
        team.ask(
            "bob",
            "POST",
            f"/changes/{number}/revisions/2/review",
            {"labels": {"Code-Review": 2}},
            headers=now,
        )[0]
        == 200,
        "a vote on patch set 2",
    )
    check(
        team.ask("ann", "POST", f"/changes/{number}/submit", {}, headers=now)[0] == 200,
        "a submit of today",
    )
    other, commit = team.change(
        "bob", {"other": "one\n"}, "Beside it", f"origin/{branch}~0", branch
    )
    team.ask(
        "ann",
        "POST",
        f"/changes/{other}/revisions/1/review",
        {"labels": {"Code-Review": 2}},
        headers=now,
    )
    check(
        team.ask("ann", "POST", f"/changes/{other}/submit", {}, headers=now)[0] == 200,
        "a submit that wants a merge",
    )
    team.until(lambda: team.has(branch, commit), "the follower records no base any more")


def a_desk_that_cannot_be_opened_comes_back(team: AttackedTeam) -> None:
    """200 MB of kept refusals take as much memory to open, which look tells; pack_desk --closing
    gives them back with a quarter of it, and makes what CloseEpoch makes.
    """
    desk, small, copies = (
        os.path.join(team.top, "full.desk"),
        os.path.join(team.top, "small.desk"),
        800,
    )
    line = (
        json.dumps(
            {
                "caller": 1,
                "id": "k0",
                "do": "Review",
                "change": 999999999,
                "patch_set": 1,
                "body": said_at_length(31),
            }
        )
        + "\n"
    )
    lines = "".join(
        json.dumps(
            {"caller": 1, "id": f"a{it}", "do": "CreateAccount", "body": {"name": f"user{it}"}}
        )
        + "\n"
        for it in range(3)
    )
    subprocess.run([team.program, "init", desk], check=True, capture_output=True)
    subprocess.run(
        [team.program, "apply", desk],
        input=lines + line,
        text=True,
        check=True,
        capture_output=True,
    )
    subprocess.run(["cp", desk, small], check=True)
    with contextlib.closing(sqlite3.connect(desk)) as rows, rows:
        (last,) = rows.execute("SELECT requests FROM desk").fetchone()
        for it in range(copies):
            rows.execute(
                "INSERT INTO answers_3 SELECT caller, epoch, 'k' || ?, ?, content, reply "
                "FROM answers_3 WHERE id = 'k0'",
                (it + 1, last + it + 1),
            )
        rows.execute("UPDATE desk SET requests = ?", (last + copies,))
    sys.path.insert(0, TEAM)
    from opening import needed  # pylint: disable=import-outside-toplevel

    size = os.path.getsize(desk)
    check(
        size > 190_000_000 and size <= needed(desk) < 1.7 * size,
        "look foresees another opening",
        size,
        needed(desk),
    )
    new = os.path.join(team.top, "new.desk")
    pack = [
        sys.executable,
        os.path.join(EXAMPLES, "pack", "pack_desk"),
        desk,
        new,
        team.program,
        "--closing",
        "20261201",
    ]
    ran = subprocess.run([sys.executable, "-c", MEASURED, *pack], capture_output=True, text=True)
    check(ran.returncode == 0, "it doesn't come back", ran.stdout, ran.stderr)
    most = int(ran.stderr.split()[-1])
    check(needed(new) < 20 << 20, "what was kept isn't given back", needed(new))
    check(most < 120, "it takes as much memory as an opening", most)
    close = (
        json.dumps(
            {
                "caller": 1,
                "epoch": 20261201,
                "id": "close.20261201",
                "do": "CloseEpoch",
                "body": {"epoch": 20261201},
            }
        )
        + "\n"
    )
    subprocess.run(
        [team.program, "apply", small], input=close, text=True, check=True, capture_output=True
    )

    def told(file: str) -> list[object]:
        with contextlib.closing(sqlite3.connect(file)) as rows:
            names = [
                name
                for (name,) in rows.execute(
                    "SELECT name FROM sqlite_schema WHERE type = 'table' ORDER BY name"
                )
            ]
            return [
                rows.execute(f"SELECT * FROM {name} ORDER BY 1").fetchall()
                for name in names
                if name not in ("answers_3", "desk")
            ]

    check(told(new) == told(small), "it isn't what CloseEpoch makes", told(new), told(small))
    print(
        f"a_desk_that_cannot_be_opened_comes_back: {size >> 20} MB kept, given back with at most "
        f"{most} MB of memory"
    )


CASES = {
    function.__name__: function
    for function in (days_are_closed, a_desk_that_cannot_be_opened_comes_back)
}
ALONE = {"days_are_closed"}
