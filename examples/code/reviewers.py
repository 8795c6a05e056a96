"""Who may take a reviewer off a change: a look before the desk is asked. A module.

The desk lets a change's owner take off any reviewer, and the votes go with the reviewer. So an
author could take off who objects, and submit. Here only the reviewer and administrators take off a
reviewer who has a vote on the current patch set; administrators don't come by here
(examples/team/asked.conf). A refusal is the gate's: the desk wasn't asked, and the request's id is
free.
"""
from __future__ import annotations

from gate import DeskPort
from patch_sets import NotShown

Answer = bytes | tuple[int, dict[str, object]]


def take_off(
    desk: DeskPort,
    change: int,
    reviewer: int,
    account: int,
    path: str,
    fields: list[tuple[str, str]],
    body: bytes,
) -> Answer:
    """The desk's answer as it sent it, or a status and what the gate says."""
    if reviewer != account:
        status, told = desk.ask(f"/changes/{change}", account)
        if status >= 500:
            raise NotShown(503, told.get("not_taken") or "NO_ANSWER")
        if any(vote["account"] == reviewer for vote in told.get("votes", ())):
            return 403, {"not_taken": "REVIEWER_HAS_VOTED"}
    return desk.pass_on("POST", path, fields, body)
