"""How a branch moves to what has merged in the desk: the rule of `follow`, which the gate before a submit foresees as well. A module.

Nobody merges what nobody reviewed: with a commit come all its ancestors that the branch doesn't have, so each of these has to be that of a change which has joined, and stand at
refs/changes/NN/CHANGE/PATCHSET of that very change, where only the hook puts it; or be a base, which an administrator recorded, with what the base stands on; or be a merge
that has at each path what one of its two parents has, as `follow` makes it (merging.py). A merged change for which that isn't so, or that git can't merge, is passed over, and
with it what would bring it along. All others go on, in the desk's order.

A merge that `follow` makes isn't recorded as a base, since a desk takes so many bases and no more. It is known by who made it and by the merged commit that it brought; and a
change that stands on it is one on that commit, for the desk.
"""
import functools
import re
from typing import Any

from merging import Conflicts, may_merge_content, merged_tree
from repository import GitFailed, Piped, TooLong, commits, desk_for, file_of, git, is_ahead, noted_in, ref_of
from retry import path_of

MOST_PATHS_TOLD = 10
FOLLOWER = "follow <follow@localhost>"  # who makes the merges


def is_known(tip: str, told: dict[str, Any]) -> bool:
    """Whether the desk has what a branch is at: a base, a merged commit, or merges that `follow` made of merged commits upon one of these."""
    joined = {it["commit"] for it in told["joined"]}
    known = joined | set(told["bases"])
    with Piped("log", "--first-parent", "--no-show-signature", "--no-mailmap", "--format=%H %P%x09%cn <%ce>", tip, "--") as log:
        for line in log.told:
            names, _, committer = line.decode(errors="replace").rstrip("\n").partition("\t")
            name, *parents = names.split()
            if name in known:
                return True
            if committer != FOLLOWER or len(parents) != 2 or parents[1] not in joined:
                return False
    return False


def parent_at_the_desk(project: str, branch: str, parent: str, account: int) -> str:
    """The commit that the desk is told as the parent of a patch set: of a merge that `follow` made, and that is no base, the merged commit that it brought."""
    it = next(commits("--no-walk", parent))
    if len(it.parents) != 2 or it.committer != FOLLOWER or parent in bases_of(project, branch, account):
        return parent
    return it.parents[1]


@functools.cache
def bases_of(project: str, branch: str, account: int) -> tuple[str, ...]:
    return tuple(desk_for(account).ask("GET", branch_path(project, branch))[1].get("bases", ()))


class Graph:
    """The commits that a branch doesn't have yet, below what has joined it and below its bases."""

    def __init__(self, tip, told, settled):
        joined, bases = told["joined"], told["bases"]
        asked = [*(it["commit"] for it in joined), *bases]
        lines = git("cat-file", "--batch-check", sent="".join(f"{name}\n" for name in asked)).splitlines()
        self.here = {name for name, line in zip(asked, lines) if line.startswith(f"{name} commit ")}
        beyond = git("rev-list", "--parents", "--stdin", sent="".join(f"{name}\n" for name in [*sorted(self.here), "^" + tip]))
        self.parents = {name: parents for name, *parents in (line.split() for line in beyond.splitlines())}
        self.missing = [it for it in joined if it["commit"] in self.parents or it["commit"] not in self.here]
        self.settled = {it["change"] for it in self.missing if it["change"] in settled}
        self.came, refs = set(), self.refs()
        is_pushed = {it["commit"] for it in self.missing if (it["change"], it["commit"]) in refs and it["change"] not in self.settled}
        self.taken = is_pushed | self.below(*bases)
        self.taken |= {name for name, parents in self.parents.items() if len(parents) == 2 and name not in self.taken and is_merge_of(name, *parents)}
        self.changes = {it["commit"]: it["change"] for it in self.missing}

    def refs(self):
        """The changes that are missing, with the commits of the patch sets that were pushed."""
        asked = [ref_of(it["change"]) for it in self.missing]
        lines = git("for-each-ref", "--format=%(refname) %(objectname)", *asked).splitlines() if asked else []
        found = (re.fullmatch(r"refs/changes/\d\d/(\d+)/\d+ (\w+)", line) for line in lines)
        return {(int(each[1]), each[2]) for each in found if each}

    def below(self, *names):
        """These commits and their ancestors, as far as they haven't come into the branch."""
        found, left = set(), list(names)
        while left:
            name = left.pop()
            if name in self.parents and name not in found and name not in self.came:
                found.add(name)
                left += self.parents[name]
        return found

    def fault(self, it):
        """Why a merged change can't come into the branch, whatever the branch has; nothing where it can."""
        commit = it["commit"]
        if commit not in self.here:
            return f"the repository doesn't have its commit {commit}"
        if commit not in self.taken:
            return f"its commit {commit} doesn't stand in {ref_of(it['change'])}, so nobody has pushed it for review"
        others = sorted(self.below(commit) - self.taken)
        if others:
            which = [f"change {self.changes[name]}" for name in others if name in self.changes] or [f"commit {others[0]}, which is that of no change that has merged"]
            return f"it stands on {which[0]}" + (", which is passed over" if which[0].startswith("change") else "")
        return None


def is_merge_of(name: str, ours: str, theirs: str) -> bool:
    """Whether a commit has the tree of a merge of its two parents."""
    try:
        return merged_tree(ours, theirs) == git("rev-parse", f"{name}^{{tree}}").strip()
    except (Conflicts, GitFailed):
        return False


def settled_of(branch):
    """The changes of a branch that an administrator has settled: they don't come."""
    return {it["change"] for it in noted_in(file_of("settled", branch), [])}


def steps(tip, told, merges=True, settled=(), tried=None, footers=None):
    """What there is to do, in order, so that a branch at a tip gets what has joined it in the desk: of each change that has to come itself (the change, how, what).

    `told` is the desk's answer about the branch. How is "forward" or "merge" where the branch is to be moved to the commit `what`, and "over" where the change is passed over:
    `what` says why then. A merge is a commit object. No ref is moved here. `tried` keeps what conflicted, by tip, commit and whether git may merge within files. `footers` has the last lines of a merge's message, by the changes that it brings. Changes that were `settled` don't come, and aren't told; nor does what stands on them.
    """
    graph, tried, over = Graph(tip, told, settled), {} if tried is None else tried, set()
    left = [it for it in graph.missing if it["change"] not in graph.settled]
    while left:
        it, *left = left
        if it["commit"] in graph.came:
            continue
        why = graph.fault(it)
        if not why and is_ahead(it["commit"], tip):
            tip = it["commit"]
            yield it, "forward", tip
            graph.came |= graph.below(tip)
            continue
        if not why and not merges:
            why = f"its commit {it['commit']} isn't ahead of the branch, and merges aren't made here"
        if why:
            over.add(it["commit"])
            yield it, "over", why
            continue
        run = [it]
        while left and run[-1]["commit"] in graph.below(left[0]["commit"]) and not graph.fault(left[0]):
            run.append(left.pop(0))
        conflicting = []
        for top in reversed(run):  # One merge brings a stack; what conflicts in it leaves those below.
            found = trial(tip, top["commit"], tried)
            if not isinstance(found, str):
                brought = [it for it in graph.missing if it["commit"] in graph.below(top["commit"])]
                tip = merge_of(tip, top["commit"], *found, footers(brought) if footers else "")
                yield top, "merge", tip
                graph.came |= graph.below(top["commit"])
                break
            conflicting.insert(0, (top, found))
        for it, why in conflicting:
            below = [change for name, change in graph.changes.items() if name in over & graph.below(it["commit"])]
            over.add(it["commit"])
            yield it, "over", f"it stands on change {below[0]}, which is passed over, and {why}" if below else why


def trial(tip, commit, tried):
    """The tree of a merge, in a list; or why there is none."""
    asked = (tip, commit, may_merge_content())
    if asked not in tried:
        try:
            return [merged_tree(tip, commit)]
        except Conflicts as found:
            more = len(found.paths) - MOST_PATHS_TOLD
            tried[asked] = f"it conflicts with the branch in {', '.join(found.paths[:MOST_PATHS_TOLD])}" + (f" and {more} more" if more > 0 else "")
        except TooLong as failed:
            tried[asked] = f"git can't merge it: {failed}"
        except GitFailed as failed:
            return f"git can't merge it: {failed}"
    return tried[asked]


def merge_of(tip, commit, tree, footers):
    """A merge commit, whose message ends with lines such as `Reviewed-by: ann`."""
    date = max(int(git("log", "-1", "--format=%ct", name)) for name in (tip, commit))
    subject = git("log", "-1", "--format=%s", commit).strip()
    people = "".join(f"{role} {FOLLOWER} {date} +0000\n" for role in ("author", "committer"))
    text = f"tree {tree}\nparent {tip}\nparent {commit}\n{people}\nMerge \"{subject}\"\n" + (f"\n{footers}" if footers else "")
    return git("hash-object", "-t", "commit", "-w", "--stdin", sent=text).strip()


@functools.cache
def branch_path(project, branch):
    """The path of a branch at the desk."""
    return path_of("projects", project, "branches", branch)
