"""A user's push for a branch: what the desk is asked of each commit, and what is written down of
its answers. A module.

Who calls `receive` holds the lock of the repository's hook. proc-receive says on which order it
stands that a push may be stopped at any moment.
"""
import collections
import functools
import hashlib
import json
import sys
from typing import Any

import options
from asking import epoch, spend
from checks import CONTROL, MOST_BYTES, Refused, where
from kinds import clean as clean_kinds
from kinds import kind_of, taken_back
from moves import parent_at_the_desk
from notes import check_notes, note, noted
from repository import (
    Commit,
    commits,
    desk_for,
    git,
    has,
    ref_of,
    remove_stale,
    setting,
    tell_index,
)
from retry import Kept, path_of

STALE, MOST_TOLD = 2, 10  # seconds of a lock file of git's, and paths that are told of a patch set
HINTS = {
    "CLOSED": "the change is merged or abandoned",
    "COMMIT_KNOWN": "the desk has this commit in this branch already, as a base or as a patch set",
    "NOT_ALLOWED": "you may not; see the rights create and upload of the project's file",
    "NO_PROJECT": "the desk has no project as desk.project says",
    "NO_BRANCH": "an administrator has to record the branch's tip as a base first",
    "UNKNOWN_CALLER": "the desk has no account of the number that desk.accounts gives you",
    "UNKNOWN_PARENT": "the desk doesn't have the commit's parent in this branch; rebase onto it",
}

Made = collections.namedtuple("Made", "change patch_set commit")


def printed(text):
    """A text for a terminal.

    What others wrote, as a subject, moves no cursor there and turns no text around.
    """
    return "".join(it if it.isprintable() or it == "\n" else "?" for it in text)


def say(text):
    """Something for the pusher, who reads it behind `remote: `."""
    print(printed(text), file=sys.stderr, flush=True)


def clean():
    """Removes what a hook or a git of its own left behind that was killed.

    None of them is at work: each holds the lock, and git's processes hold it with the hook.
    """
    clean_kinds()
    remove_stale(STALE, "refs/changes", "refs/desk")


def complete(pending):
    """Sends the pending request, be it for the first time or again, and writes down what comes of
    it.

    The answer's status and the answer.
    """
    kept = pending.read()
    if kept is None:
        return None
    status, told = desk_for(kept["account"]).ask(**kept["request"])
    if status == 200:
        git("update-ref", ref_of(told["change"], told["patch_set"]), kept["commit"])
        note(kept["branch"], kept["change_id"], change=told["change"])
        tell_index(told["change"])
    else:
        note(
            kept["branch"],
            kept["change_id"],
            refused=noted(kept["branch"], kept["change_id"]).get("refused", 0) + 1,
        )
    pending.remove()
    return status, told


@functools.cache
def footers_of(name: str) -> list[str] | None:
    """The footers of a commit, or None if it isn't here."""
    return next(commits("--no-walk", name)).change_ids if has(name) else None


# What was found in this push: what the desk told of changes, and the numbers of patch sets, by
# change and commit.
TOLD: dict[int, tuple[int, dict[str, Any]]] = {}
KNOWN: dict[tuple[int, str], int] = {}


def known_as(commit: Commit, change: dict[str, Any]) -> int | None:
    """Which patch set of its change a commit is already, or None."""
    asked = (change["change"], commit.name)
    if asked not in KNOWN:
        refs = git(
            "for-each-ref",
            f"--points-at={commit.name}",
            "--format=%(refname)",
            ref_of(change["change"]),
        ).split()
        known = [
            it
            for it in (int(ref.split("/")[-1]) for ref in refs)
            if it <= change["current_patch_set"]
        ]
        if not known and change["commit"] == commit.name:
            git("update-ref", ref_of(change["change"], change["current_patch_set"]), commit.name)
            known = [change["current_patch_set"]]
        KNOWN.update({asked: known[0]} if known else {})
    return KNOWN.get(asked)


class Push:
    """A user's push for a branch, with what its options ask."""

    def __init__(self, account, branch, asked):
        self.account, self.branch, self.asked = account, branch, asked
        self.project = setting("desk.project")
        self.both: list[str] = []  # what the last commit's new parent has changed as well

    def change_of(self, commit: Commit) -> dict[str, Any] | None:
        """The change of a commit's footer in this branch as the desk has it, or None.

        What the desk told before, in this push, is used only for a commit that is a patch set
        already. A new patch set is compared with the one that is current by now, since others
        push in between.
        """
        change_id = commit.change_ids[0]
        number = noted(self.branch, change_id).get("change")
        if not number:
            return None
        is_known = (number, commit.name) in KNOWN
        status, told = (
            is_known
            and TOLD.get(number)
            or desk_for(self.account).ask("GET", path_of("changes", number))
        )
        TOLD[number] = status, told
        if status == 403:
            raise Refused(told["refused"], HINTS.get(told["refused"], ""))
        return told if status == 200 and self.is_of(told, change_id) else None

    def is_of(self, change, change_id):
        """Whether a change of the desk is that of a Change-Id in this branch, so far as its
        commit is here to tell.
        """
        is_here, footers = (change["project"], change["branch"]) == (
            self.project,
            self.branch,
        ), footers_of(change["commit"])
        return is_here and (footers is None or change_id in footers)

    def request_for(self, commit, paths, change):
        """What to ask of the desk.

        After a refusal the id is another one, so that the same push asks anew.
        """
        body = {
            "commit": commit.name,
            "parent": parent_at_the_desk(
                self.project, self.branch, commit.parents[0], self.account
            ),
            "paths": paths,
        }
        if change:
            path = path_of("changes", change["change"], "revisions")
            body["kind"], self.both = kind_of(commit, change["commit"])
        else:
            path = path_of("changes", "")
            subject = (
                CONTROL.sub(" ", commit.subject)
                .encode(errors="replace")[:MOST_BYTES]
                .decode(errors="ignore")
            )
            body.update(
                project=self.project,
                branch=self.branch,
                subject=subject,
                **({"work_in_progress": True} if self.asked.is_wip else {}),
            )
        asked = [
            self.account,
            path,
            body,
            noted(self.branch, commit.change_ids[0]).get("refused", 0),
        ]
        id = "push." + hashlib.sha256(json.dumps(asked, sort_keys=True).encode()).hexdigest()[:48]
        return {"method": "POST", "path": path, "body": body, "id": id, "epoch": epoch()}

    def take(self, commit, paths, pending):
        """Has the desk make a change or a patch set of a commit, with what the options ask, tells
        the pusher, and gives what is new.
        """
        change = self.change_of(commit)
        if change:
            refuse(commit, options.set_flag(self.account, change, self.asked))
        known = change and known_as(commit, change)
        if known:
            self.tell(commit, change["change"], known, "already there")
        made = None if known else self.make(commit, paths, change, pending)
        people = change or {"change": made.change, "reviewers": [], "ccs": []}
        if made or asks_of_desk(self.asked):
            TOLD.pop(people["change"], None)
        for fault in options.add_people(self.account, people, self.asked):
            say(f"  {fault}")
        if asks_of_desk(self.asked):
            tell_index(people["change"])
        return made

    def make(self, commit, paths, change, pending):
        """Has the desk make a change of a commit, or a new patch set of a change."""
        request = self.request_for(commit, paths, change)
        spend(self.account, request["body"])
        pending.write(
            {
                "account": self.account,
                "branch": self.branch,
                "change_id": commit.change_ids[0],
                "commit": commit.name,
                "request": request,
            }
        )
        status, told = complete(pending)
        if status != 200:
            refuse(commit, told.get("refused") or told.get("fault"))
        how = "new"
        if change:
            copied, outdated = told["copied"], told["outdated"]
            how = f"{request['body']['kind']}, votes copied: {copied}, outdated: {outdated}"
        self.tell(commit, told["change"], told["patch_set"], how)
        if change and request["body"]["kind"] == "REWORK":
            self.tell_rework(commit, change, paths)
        return Made(told["change"], told["patch_set"], commit.name)

    @staticmethod
    def tell(commit, change, patch_set, how):
        page = setting("desk.page", "")
        say(
            f"change {change}, patch set {patch_set}: {commit.subject} ({how})"
            + (f"\n  {page}{change}" if page else "")
        )

    def tell_rework(self, commit: Commit, change: dict[str, Any], paths: list[str]) -> None:
        """Tells why a rebase is new code, and what it takes back."""
        if self.both:
            say(
                f"  its new parent has changed the same: {some(self.both)}; have it looked at again"
            )
        if found := taken_back(commit, change["commit"], paths):
            since = f"patch set {change['current_patch_set']}"
            say(f"  it takes back what its new parent has got since {since}: {some(found)}")


def some(paths: list[str]) -> str:
    """The first of some paths, and how many more there are."""
    more = len(paths) - MOST_TOLD
    return ", ".join(paths[:MOST_TOLD]) + (f" and {more} more" if more > 0 else "")


def asks_of_desk(asked: options.Options) -> bool:
    """Whether options ask something of the desk, which has no topics."""
    return asked.is_wip is not None or bool(asked.people)


def refuse(commit, word):
    """Ends a push with the desk's word of refusal, where there is one."""
    if word:
        raise Refused(f"{where(commit)}: {word}", HINTS.get(word, ""))


def receive(push, found, tip):
    """Has the desk take commits that were looked at, and gives each patch set that is new, as it
    is made.

    Who calls it holds the lock.
    """
    clean()
    pending = Kept("desk/pending")
    complete(pending)
    check_notes()
    git("update-ref", "refs/desk/push", tip)
    for commit, paths in found:
        yield push.take(commit, paths, pending)
