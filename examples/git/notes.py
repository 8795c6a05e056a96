"""What the hook notes of each Change-Id footer in a branch, in the folder desk/changes of the
repository.

A module.
"""
import json
import os
import urllib.parse
from typing import Any

from checks import Refused
from repository import git, noted_in
from retry import write_whole

PLACE = os.path.join("desk", "changes")


def file_of(branch: str, change_id: str) -> str:
    return os.path.join(PLACE, urllib.parse.quote(branch, safe=""), change_id)


def noted(branch: str, change_id: str) -> dict[str, Any]:
    """What is noted of a footer: its `change`, and how many of its requests were `refused`."""
    return dict(noted_in(file_of(branch, change_id), {}))


def note(branch: str, change_id: str, **what: int) -> None:
    write_whole(file_of(branch, change_id), json.dumps({**noted(branch, change_id), **what}))


def check_notes() -> None:
    """Refuses a push where the notes are lost: it would make changes anew that are there.

    Who calls it holds the lock.
    """
    if not os.path.isdir(PLACE) and git("for-each-ref", "--count=1", "refs/changes"):
        raise Refused(
            "the repository's folder desk/changes is lost, which says which change a commit is of",
            "an administrator makes it anew by examples/git/note-changes",
        )
