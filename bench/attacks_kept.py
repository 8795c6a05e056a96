"""What one account can have the desk keep, and how that is given back: bytes of writes, pushes
that are refused, epochs, and a desk that takes more memory to open than there is. Cases of
bench/attacks.
"""
from __future__ import annotations

import concurrent.futures
import http.client
import json
import os
import time

from attacked_team import ACCOUNTS, AttackedTeam, check, new_id

REFUSED = "/changes/999999999/revisions/1/review"


def size_of(team: AttackedTeam) -> int:
    """The bytes of the desk's two files."""
    return sum(
        os.path.getsize(os.path.join(team.path, name))
        for name in ("tools.desk", "tools.desk-wal")
        if os.path.exists(os.path.join(team.path, name))
    )


def said_at_length(count: int) -> dict[str, object]:
    """A review of so many comments of 8,000 bytes."""
    return {
        "comments": {
            "/PATCHSET_LEVEL": [
                {"line": 0, "unresolved": True, "message": "x" * 8000} for _ in range(count)
            ]
        }
    }


def asked_from(
    team: AttackedTeam,
    address: str,
    user: str,
    path: str,
    body: object = None,
    password: str | None = None,
) -> int:
    """The status of a request that comes from another address of this machine."""
    peer = http.client.HTTPSConnection(
        "127.0.0.1", team.port, timeout=60, context=team.context(), source_address=(address, 0)
    )
    try:
        fields = {
            **team.authorization(user, password),
            **({"Request-Id": new_id()} if body is not None else {}),
        }
        peer.request(
            "GET" if body is None else "POST",
            path,
            None if body is None else json.dumps(body),
            fields,
        )
        return peer.getresponse().status
    finally:
        peer.close()


def refusals_that_are_kept_are_bounded(team: AttackedTeam) -> None:
    """An account without rights, which has as much refused as it can, makes the desk grow by
    what docs/limits.md says, and no more, from several addresses too. It is told when to come
    back, in JSON; the others vote and submit as ever.
    """
    number, _ = team.change(
        "ann", {"bounded": "one\n"}, "Bounded", f"origin/{(branch := team.new_branch())}", branch
    )
    before, begun = size_of(team), time.monotonic()
    for body, path, method in (
        (said_at_length(31), REFUSED, "POST"),
        (said_at_length(4), REFUSED, "POST"),
        ({"file": "#" * 60000}, "/projects/tools", "PUT"),
    ):
        status, told, _ = team.ask("eve", method, path, body, headers={"X-Administrator": "1"})
        check(
            (status, told) == (413, {"fault": "TOO_LARGE"}),
            "what is said at once isn't bounded",
            status,
            told,
        )
    with concurrent.futures.ThreadPoolExecutor(6) as pool:
        asked = [
            pool.submit(
                asked_from, team, f"127.0.0.{2 + place % 6}", "eve", REFUSED, said_at_length(3)
            )
            for place in range(90)
        ]
        check(team.vote("bob", number, 1, 2)[0] == 200, "a vote beside it")
        said = [it.result() for it in asked]
    minutes = (time.monotonic() - begun) / 60
    check(
        set(said) == {404, 429} and said.count(404) <= 61 + minutes,
        "long writes",
        {it: said.count(it) for it in said},
        minutes,
    )
    grown = size_of(team) - before
    check(grown <= 2 * 62 * 30_000, "the desk kept more than the limit", grown)
    print(
        f"refusals_that_are_kept_are_bounded: {said.count(404)} long writes were kept in "
        f"{60 * minutes:.0f} s, and the desk grew by {grown:,} bytes"
    )
    status, told, fields = team.ask("eve", "POST", REFUSED, said_at_length(3))
    check(
        (status, told, fields["Retry-After"])
        == (429, {"not_taken": "TOO_MANY_REQUESTS", "retry_after": 60}, "60"),
        "it isn't told when to come back",
        status,
        told,
        fields,
    )
    short = [team.ask("eve", "POST", REFUSED, {"message": "x"})[0] for _ in range(100)]
    check(
        short.count(404) <= 60 + 60 * (time.monotonic() - begun) / 60 + 1 and 429 in short,
        "short writes",
        {it: short.count(it) for it in short},
    )
    check(team.submit("ann", number)[0] == 200, "a submit beside it")


def an_ordinary_hour_meets_no_limit(team: AttackedTeam) -> None:
    """A user who votes, comments and asks as quickly as fingers and scripts do, 100 times in a
    row, meets no limit; nor does one whose name others use with wrong passwords.
    """
    branch = team.new_branch()
    number, _ = team.change("ann", {"ordinary": "one\n"}, "Ordinary", f"origin/{branch}", branch)
    with concurrent.futures.ThreadPoolExecutor(6) as pool:
        guesses = [
            pool.submit(
                asked_from,
                team,
                f"127.0.0.{10 + place % 4}",
                "bob",
                REFUSED,
                {"message": "x"},
                "guess",
            )
            for place in range(150)
        ]
        said = [
            team.ask(
                "bob",
                "POST",
                f"/changes/{number}/revisions/1/review",
                {"message": f"Said {count}", "labels": {"Code-Review": count % 3 - 1}},
            )[0]
            for count in range(100)
        ]
        check(set(said) == {200}, "an ordinary user meets a limit", said)
        check({it.result() for it in guesses} == {401}, "guesses", [it.result() for it in guesses])
    for part in ("", "/threads", "/requirements", "/attention"):
        with concurrent.futures.ThreadPoolExecutor(2) as pool:
            asked = [
                pool.submit(team.ask, "ann", "GET", f"/changes/{number}{part}") for _ in range(2)
            ]
            check([it.result()[0] for it in asked] == [200, 200], "two pages of one user", part)


def pushes_that_are_refused_are_bounded(team: AttackedTeam) -> None:
    """What a user's pushes have the desk keep in a day is bounded, refused ones too: it is told
    by name, and others push as ever.
    """
    ledger = os.path.join(team.repository, "desk", "asked", str(ACCOUNTS["eve"]))
    clone = team.clone("eve")
    files = {f"{'long' * 20}/{number}": "x\n" for number in range(100)}
    team.commit("eve", clone, files, "Many paths")
    check("NOT_ALLOWED" in team.push("eve", clone, status=1), "eve may push")
    with open(ledger, encoding="utf-8") as file:
        noted = json.load(file)
    check(noted["bytes"] > 8000, "a refused push isn't counted", noted)
    with open(ledger, "w", encoding="utf-8") as file:
        file.write(json.dumps({**noted, "bytes": 15_999_000}))
    before = size_of(team)
    said = team.push("eve", clone, status=1)
    check("which is the most" in said and "push again tomorrow" in said, "it isn't bounded", said)
    check(size_of(team) - before < 8000, "the desk was asked")
    number, _ = team.change("ann", {"beside": "one\n"}, "Beside it")
    check(number > 0, "ann pushes no more")


CASES = {
    function.__name__: function
    for function in (
        refusals_that_are_kept_are_bounded,
        pushes_that_are_refused_are_bounded,
        an_ordinary_hour_meets_no_limit,
    )
}
