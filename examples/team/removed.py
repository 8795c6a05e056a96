"""Who was removed from a team, also once an older copy of its folder was put back. A module;
standard library.

A copy of a folder has the passwords, accounts and groups of its time. So `remove-user` writes each
name down beside the folder as well, in FOLDER.removed, which no copy has; `add-user` writes there
that the name is a user again. A copy has a mark with its time: by that `start` knows that it was
put back, and removes whoever was removed since, before anybody can sign in.
"""
from __future__ import annotations

import contextlib
import os
import subprocess
import sys
import time

from team import Team, fail, read

MARK = "copy.of"


def place(team: Team) -> str:
    return team.folder + ".removed"


def note(team: Team, name: str, is_removed: bool) -> None:
    """Writes down that a user was removed, or added again, and says so where it can't be."""
    line = f"{time.strftime('%Y-%m-%dT%H.%M.%S')} {'removed' if is_removed else 'added'} {name}\n"
    try:
        if not is_removed and not os.path.exists(place(team)):
            return
        with open(place(team), "a", encoding="utf-8") as file:
            file.write(line)
            file.flush()
            os.fsync(file.fileno())
    except OSError as error:
        print(
            f"{place(team)} can't be written ({error.strerror}): remember yourself that {name} was "
            "removed, since an older copy of the folder that is put back has this user again",
            file=sys.stderr,
        )


def removed(team: Team) -> list[str] | None:
    """The names that were removed, and weren't added again; None where nothing tells."""
    last: dict[str, str] = {}
    try:
        said = read(place(team))
    except OSError:
        return None
    for line in said.split("\n"):
        with contextlib.suppress(ValueError):
            _, what, name = line.split(" ")
            last[name] = what
    return [name for name, what in last.items() if what == "removed"]


def mark(folder: str) -> None:
    """Marks a copy as one."""
    with open(os.path.join(folder, MARK), "w", encoding="utf-8") as file:
        file.write(time.strftime("%Y-%m-%dT%H.%M.%S") + "\n")


def take_out(team: Team, are_right: bool, others: list[str]) -> list[str]:
    """Before anything listens: takes passwords and accounts from those who were removed and whom
    the copy has again, and from the others that were named. Their names, for
    `take_out_of_groups`. Where nobody knows who was removed since the copy was made, it ends and
    asks, unless it was said that the users are right.
    """
    of = read(team.folder, MARK, otherwise="").strip()
    if not of:
        return []
    gone, users = removed(team), sorted(team.accounts())
    if gone is None and not others and not are_right:
        fail(
            f"this folder is the copy of {of}, and {place(team)}, which says who was removed since "
            "then, isn't there. The copy has these users, with the passwords of then: "
            f"{', '.join(users)}. Where one of them was removed since, start with --without NAME; "
            "where none was, with --users-are-right"
        )
    gone = list(dict.fromkeys([*(gone or []), *others]))
    return take_away(team, [name for name in gone if name in users or team.has_password(name)], of)


def take_away(team: Team, names: list[str], of: str) -> list[str]:
    """Takes password and account from these users."""
    for name in names:
        team.put_password(name, None)
        for number in [number for it, number, _ in team.account_lines() if it == name]:
            team.put_account(name, number, is_removed=True)
    print(
        f"this folder is the copy of {of}: passwords are those of then"
        + (f"; removed again: {', '.join(names)}" if names else ""),
        flush=True,
    )
    return names


def take_out_of_groups(team: Team, names: list[str]) -> None:
    """Once the desk is served: takes these users out of their groups. The mark goes once all is
    done.
    """
    for name in names:
        ran = subprocess.run(
            [os.path.join(team.path("examples", "team"), "remove-user"), team.folder, name],
            capture_output=True,
            text=True,
            check=False,
        )
        if ran.returncode:
            print(f"{name} isn't taken out of the groups yet: {ran.stdout}{ran.stderr}", flush=True)
            return
    with contextlib.suppress(FileNotFoundError):
        os.remove(team.path(MARK))
