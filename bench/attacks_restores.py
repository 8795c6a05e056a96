"""What comes back that was gone, and what ends a program of ours: users after a restore, and
texts of others in mails, streams and lists. Cases of bench/attacks.
"""
from __future__ import annotations

import os
import shutil
import subprocess
import sys

from attacked_team import ACCOUNTS, TEAM, AttackedTeam, check
from desk_proxied import EXAMPLES

MAIL, STREAM = os.path.join(EXAMPLES, "index", "mail_attention"), os.path.join(
    EXAMPLES, "index", "stream_events"
)
# What Python, a terminal, a mail or a list may take for an end of a line, for a line of a head, or
# for nothing.
SUBJECTS = [
    "Separate\u2028lines",
    "Next\x85line",
    "Paragraph\u2029s",
    "Feeds\x0b\x0c",
    "Files\x1c\x1d\x1e",
    "Turned \u202eeert",
    "=?utf-8?q?Bcc=3A_x?=",
    "Long " + "\u00e9" * 200,
    "Coded \U0001f600",
]


def put_back(team: AttackedTeam, copy: str) -> None:
    """Puts a copy in the folder's place, as docs/running-a-team.md says."""
    team.end()
    shutil.rmtree(team.path)
    subprocess.run(["cp", "-a", copy, team.path], check=True)


def removed_users_stay_removed(team: AttackedTeam) -> None:
    """Who was removed after a copy was made is no user once that is put back: neither password,
    nor account, nor group; others are. Where nothing tells who was removed, start asks.
    """
    copy = team.command("back-up", os.path.join(team.top, "copies")).splitlines()[-1]
    for name in ("mallory", "eve"):
        team.command("remove-user", name)
    team.command("add-user", "eve", "--password-on-input", "--group", "", sent="fig\n")
    put_back(team, copy)
    team.begin()
    status = {
        name: team.ask(name, "GET", "/page/team.json")[0] for name in ("ann", "mallory", "eve")
    }
    check(
        status == {"ann": 200, "mallory": 401, "eve": 200}, "who signs in after a restore", status
    )
    check(any("removed again: mallory" in line for line in team.said), "it isn't told", team.said)
    with open(os.path.join(team.path, "groups.json"), encoding="utf-8") as file:
        check(str(ACCOUNTS["mallory"]) not in file.read(), "a removed user is in a group again")
    number, _ = team.change("ann", {"restored": "one\n"}, "Restored")
    status, told = team.desk_ask(
        ACCOUNTS["mallory"],
        "POST",
        f"/changes/{number}/revisions/1/review",
        {"labels": {"Code-Review": 2}},
    )
    check(
        status in (403, 409) and "refused" in told,
        "the desk has a removed user in a group",
        status,
        told,
    )
    team.end()
    os.remove(team.path + ".removed")
    put_back(team, copy)
    words = [os.path.join(TEAM, "start"), team.path, "--program", team.program, "--as-root"]
    ran = subprocess.run(words, capture_output=True, text=True, check=False, timeout=60)
    check(
        ran.returncode == 1
        and all(it in ran.stderr for it in ("mallory", "--without NAME", "--users-are-right")),
        "start doesn't ask",
        ran.returncode,
        ran.stdout,
        ran.stderr,
    )
    team.begin("--without", "mallory")
    check(
        [team.ask(name, "GET", "/page/team.json")[0] for name in ("ann", "mallory")] == [200, 401],
        "who signs in",
    )
    team.end()
    team.begin()  # The mark is gone: it asks no more.


def no_text_ends_a_program(team: AttackedTeam) -> None:
    """Whatever a subject says, each call is mailed and each event told, whatever the locale; the
    index goes on, and a mail's head has no line that others wrote.
    """
    sent, taker = os.path.join(team.top, "sent"), os.path.join(team.top, "sendmail")
    with open(taker, "w", encoding="utf-8") as file:
        file.write(f"#!/bin/sh\n(cat; echo; echo '--END--') >> {sent}\n")
    os.chmod(taker, 0o755)
    with open(os.path.join(team.path, "mails"), "w", encoding="utf-8") as file:
        file.write("ann ann@localhost\nbob bob@example.org\n")

    def mail() -> None:
        ran = subprocess.run(
            [MAIL, team.path, "--once", "--sendmail", taker],
            capture_output=True,
            text=True,
            check=False,
            env={**os.environ, "LC_ALL": "C"},
            timeout=60,
        )
        check(ran.returncode == 0, "the mails stop", ran.returncode, ran.stderr)

    team.until(lambda: team.ask("ann", "GET", "/index/state")[0] == 200, "the index")
    mail()
    numbers = []
    for subject in SUBJECTS:
        number, _ = team.change("ann", {"text": subject}, subject)
        numbers.append(number)
        check(
            team.ask("ann", "POST", f"/changes/{number}/reviewers", {"reviewer": ACCOUNTS["bob"]})[
                0
            ]
            == 200,
            "a reviewer",
        )

    def are_indexed() -> bool:
        found = team.ask("bob", "GET", "/changes/?q=attention:self")[1]
        return isinstance(found, list) and {it["_number"] for it in found} >= set(numbers)

    team.until(are_indexed, "the index has them", 30)
    mail()
    with open(sent, encoding="utf-8", errors="replace") as file:
        mails = file.read().split("--END--\n")[:-1]
    heads = [it.split("\n\n")[0] for it in mails]
    check(
        len(mails) == len(SUBJECTS)
        and all(f"Your turn: change {number}," in "".join(heads) for number in numbers),
        "mails are missing",
        len(mails),
        heads,
    )
    names = {
        line.split(":")[0]
        for head in heads
        for line in head.split("\n")
        if not line.startswith(" ")
    }
    check(
        names
        <= {
            "From",
            "To",
            "Date",
            "Subject",
            "Message-ID",
            "Auto-Submitted",
            "MIME-Version",
            "Content-Type",
            "Content-Transfer-Encoding",
        },
        "a line of the head is another's",
        names,
    )
    words = [
        STREAM,
        f"https://127.0.0.1:{team.port}",
        "bob",
        os.path.join(team.top, "place"),
        "--certificate",
        os.path.join(team.path, "tls.crt"),
        "--once",
    ]
    own = {
        **os.environ,
        "BERTHOGLU_PASSWORD": "plum",
        "LC_ALL": "C",
        "PYTHONIOENCODING": "ascii",
        "PYTHONUTF8": "0",
    }
    ran = subprocess.run(words, capture_output=True, check=False, env=own, timeout=60)
    check(
        ran.returncode == 0 and ran.stdout.count(b'"reviewer-added"') >= len(SUBJECTS),
        "the stream ends",
        ran.returncode,
        ran.stderr[-500:],
    )
    sys.stdout.flush()


CASES = {
    function.__name__: function for function in (removed_users_stay_removed, no_text_ends_a_program)
}
ALONE = set(CASES)
