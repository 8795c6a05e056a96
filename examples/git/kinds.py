"""What a patch set changes of the one before it, by Gerrit's names. A module.

A rebase is trivial if the new tree is, byte for byte, what a merge makes of the old patch set and
the new parent, with the old parent as the base. The merge goes path by path (merging.py). So each
path is as the old patch set or as the new parent has it, and a vote that is kept was given for
what stands at each path that the change touches. Whatever can't be merged so is REWORK.

The author's name and address count like the message: another author is another commit.
"""
import os
import shutil
import time

from merging import Conflicts, merged_tree
from repository import Commit, GitFailed, commits, git, has, ran

SCRATCH = "desk/scratch"
FILE_SECONDS, ALL_SECONDS = (
    5,
    10,
)  # of git's for merging within files; of all merges of a push, which others wait for
SPENT = [0.0]  # seconds so far, in this push


def rebased_tree(before: Commit, parent: str) -> str | None:
    """The tree of a patch set's commit once it is rebased onto a parent, or Conflicts, or None if it
    can't be found out.

    Nothing of it stays in the repository: what is made lies in a folder that is removed. One hook
    at a time does this.
    """
    if SPENT[0] > ALL_SECONDS or len(before.parents) != 1:
        return None
    clean()
    os.makedirs(os.path.join(SCRATCH, "objects"))
    here = os.path.abspath(git("rev-parse", "--git-path", "objects").rstrip("\n"))
    own = {
        "GIT_OBJECT_DIRECTORY": os.path.abspath(os.path.join(SCRATCH, "objects")),
        "GIT_ALTERNATE_OBJECT_DIRECTORIES": here,
    }
    begun = time.monotonic()
    try:
        return merged_tree(parent, before.name, before.parents[0], own, FILE_SECONDS)
    except GitFailed:
        return None
    finally:
        SPENT[0] += time.monotonic() - begun
        clean()


def clean() -> None:
    shutil.rmtree(SCRATCH, ignore_errors=True)


def kind_of(commit: Commit, name_before: str) -> tuple[str, list[str]]:
    """The change kind of a patch set beside the one before, and the paths that the new parent has
    changed as well, if that is why it is REWORK.

    Both have one parent each: the hook takes no others, so MERGE_FIRST_PARENT_UPDATE never comes
    of it.
    """
    if not has(name_before):
        return "REWORK", []  # It never came here, so it can't be compared.
    before = next(commits("--no-walk", name_before))
    says_the_same = (before.message, before.author) == (commit.message, commit.author)
    if before.parents == commit.parents:
        if before.tree != commit.tree:
            return "REWORK", []
        return "NO_CHANGE" if says_the_same else "NO_CODE_CHANGE", []
    try:
        is_rebase = rebased_tree(before, commit.parents[0]) == commit.tree
    except Conflicts as found:
        return "REWORK", found.paths
    if not is_rebase:
        return "REWORK", []
    return "TRIVIAL_REBASE" if says_the_same else "TRIVIAL_REBASE_WITH_MESSAGE_UPDATE", []


def taken_back(commit: Commit, name_before: str, paths: list[str]) -> list[str]:
    """Of the paths that a patch set changes those in which it takes back what its new parent has
    got meanwhile.

    In these the parents of both patch sets differ, and the new patch set has what the old one or
    its parent had. So a comparison of both patch sets doesn't show that anything was taken back.
    """
    if not paths or not has(name_before):
        return []
    before = next(commits("--no-walk", name_before))
    if before.parents == commit.parents or len(before.parents) != 1:
        return []
    old, new = before.parents[0], commit.parents[0]
    moved, from_before, from_old = (
        differing(*pair, paths)
        for pair in ((old, new), (name_before, commit.name), (old, commit.name))
    )
    return [
        path for path in paths if path in moved and not (path in from_before and path in from_old)
    ]


def differing(one: str, other: str, paths: list[str]) -> set[str]:
    """Of some paths those in which two commits differ."""
    words = [
        "--literal-pathspecs",
        "diff-tree",
        "-r",
        "-z",
        "--name-only",
        "--no-renames",
        "--end-of-options",
        one,
        other,
        "--",
    ]
    told = ran(*words, *paths).stdout.decode(errors="surrogateescape")
    return set(told.split("\0")) & set(paths)
