"""Merges two commits path by path. The hook, the follower and the gate before a submit use this
one routine. A module.

Each path of the merged tree is as one of the two sides has it: with that mode and that object, or
without the path. A path that both sides changed, each in its own way, is a conflict. Nothing is
merged within a file, and no file is found again under another name. So nothing comes into a
branch that no reviewer was shown at that path.

`git config desk.mergeContent true` allows git to merge within files that both sides changed.
README.md says what that costs.
"""
import os
import resource
from collections.abc import Iterable, Mapping

from paths import Entry, TooLarge, Trees, folder_in, look_alikes
from repository import EMPTY_TREE, GitFailed, Piped, git, ran

MOST_FOLDERS = 100_000  # that are read, three for each folder that both sides changed
MOST_MEMORY, MOST_SECONDS = 2 << 30, 20  # of git's, where it may merge within files
REGULAR = (b"100644", b"100755")
KINDS = {b"40000": b"tree", b"160000": b"commit"}
# No attributes say how to merge, neither those of files nor those of the machine or of the user:
# they may name a driver such as `union`.
MERGING = (
    "merge.renormalize=false",
    "merge.directoryRenames=false",
    "merge.default=text",
    f"core.attributesFile={os.devnull}",
    f"attr.tree={EMPTY_TREE}",
    "core.packedGitWindowSize=64m",
    "core.packedGitLimit=512m",
)
PERSON = {
    f"GIT_{role}_{part}": value
    for role in ("AUTHOR", "COMMITTER")
    for part, value in (("NAME", "merging"), ("EMAIL", "merging@localhost"), ("DATE", "@1 +0000"))
}

Three = tuple[Entry | None, Entry | None, Entry | None]  # of the base and of the two sides


class Conflicts(Exception):
    """Two commits can't be merged: these `paths` want a person."""

    def __init__(self, paths: Iterable[bytes]) -> None:
        self.paths = [path.decode(errors="replace") for path in sorted(paths)]
        super().__init__(", ".join(self.paths))


class Merge:
    """A merge of the trees of two sides, which began with the tree of a base.

    `resolved` has entries for paths that were merged otherwise. `conflicts` has the paths that
    can't be merged, each with its three entries, or None where names stand in each other's way.
    """

    def __init__(self, trees: Trees, writing: Piped, resolved: Mapping[bytes, Entry]) -> None:
        self.trees, self.writing, self.resolved = trees, writing, resolved
        self.conflicts: dict[bytes, Three | None] = {}

    def folder(
        self, base: bytes | None, ours: bytes | None, theirs: bytes | None, before: bytes = b""
    ) -> bytes | None:
        """The name of the merged folder, or None if nothing is left in it."""
        if theirs in (ours, base):
            return ours
        if base == ours:
            return theirs
        entries = self.entries([self.trees.entries(it) for it in (base, ours, theirs)], before)
        if not entries or self.conflicts:
            return None
        return write_folder(self.writing, entries)

    def entries(self, sides: list[dict[bytes, Entry]], before: bytes) -> dict[bytes, Entry]:
        """The entries of the merged folder."""
        found = {}
        for name in sorted(set().union(*sides)):
            path, (base, ours, theirs) = before + name, [it.get(name) for it in sides]
            file = self.file(path, *(None if folder_in(it) else it for it in (base, ours, theirs)))
            below = path + b"/"
            folder = self.folder(folder_in(base), folder_in(ours), folder_in(theirs), below)
            if file and folder:
                self.conflicts[path] = None
            elif file:
                found[name] = file
            elif folder:
                as_it_was = (it for it in (ours, theirs) if it and folder_in(it) == folder)
                found[name] = next(as_it_was, (b"40000", folder))
        for name, other in look_alikes(found).items():
            if not any(name in side and other in side for side in sides[1:]):
                self.conflicts[before + name] = None
        return found

    def file(
        self, path: bytes, base: Entry | None, ours: Entry | None, theirs: Entry | None
    ) -> Entry | None:
        """The merged entry of what isn't a folder, or None if there is none."""
        if theirs in (ours, base):
            return ours
        if base == ours:
            return theirs
        if path not in self.resolved:
            self.conflicts[path] = (base, ours, theirs)
        return self.resolved.get(path)


def write_folder(writing: Piped, entries: Mapping[bytes, Entry]) -> bytes:
    """Writes a folder, and returns its name."""
    kinds = {
        mode: b"tree" if folder_in((mode, b"it")) else KINDS.get(mode, b"blob")
        for mode, _ in entries.values()
    }
    lines = (
        b"%s %s %s\t%s\0" % (mode, kinds[mode], it, name) for name, (mode, it) in entries.items()
    )
    return writing.line(b"".join(lines) + b"\0")


def tree_of(commit: str) -> bytes:
    return git("rev-parse", "--verify", "--end-of-options", f"{commit}^{{tree}}").strip().encode()


def may_merge_content() -> bool:
    """Whether the repository allows git to merge within files.

    It is read each time, so that it can be set while programs run.
    """
    return (
        git("config", "--type=bool", "--default=false", "--get", "desk.mergeContent").strip()
        == "true"
    )


def merged_tree(
    ours: str,
    theirs: str,
    base: str | None = None,
    environment: Mapping[str, str] | None = None,
    most_seconds: int = MOST_SECONDS,
) -> str:
    """The tree that two commits make when they are merged, or Conflicts. Its objects are written.

    Without a `base` it is the last commit that both have. If there are several, each has to give
    the same tree.
    """
    own, found = dict(environment or {}), {}
    for each in [base] if base else git("merge-base", "--all", ours, theirs).split():
        found[merged_from(each, ours, theirs, own, most_seconds)] = each
    if not found:
        raise GitFailed("they have no commit in common")
    if len(found) > 1:
        raise Conflicts(
            ran(
                "diff-tree",
                "-r",
                "-z",
                "--name-only",
                "--no-renames",
                *list(found)[:2],
                environment=own,
            ).stdout.split(b"\0")[:-1]
        )
    return found.popitem()[0]


def merged_from(
    base: str, ours: str, theirs: str, environment: Mapping[str, str], most_seconds: int
) -> str:
    """The tree of a merge with a base."""
    resolved: dict[bytes, Entry] = {}
    three = [tree_of(it) for it in (base, ours, theirs)]
    try:
        with Trees(MOST_FOLDERS, environment, 3) as trees, Piped(
            "mktree", "-z", "--batch", environment=environment
        ) as writing:
            for _ in range(2):
                merge = Merge(trees, writing, resolved)
                tree = merge.folder(three[0], three[1], three[2])
                if not merge.conflicts:
                    return (tree or write_folder(writing, {})).decode()
                files = {
                    path: it
                    for path, it in merge.conflicts.items()
                    if it and all(entry and entry[0] in REGULAR for entry in it)
                }
                if len(files) < len(merge.conflicts) or resolved or not may_merge_content():
                    break
                resolved = merged_files(files, writing, environment, most_seconds)
    except (TooLarge, RecursionError) as error:
        raise GitFailed(f"it is too large to be merged: {error}") from error
    raise Conflicts(merge.conflicts)


def merged_files(
    files: Mapping[bytes, Three], writing: Piped, environment: Mapping[str, str], most_seconds: int
) -> dict[bytes, Entry]:
    """The entries of files that both sides changed, as git merges each of them, or Conflicts.

    git merges trees that have these files alone, under numbers in place of their paths. All three
    trees have them all, so git looks for no new names, and no file says how it is merged.
    """

    def bounds() -> None:
        resource.setrlimit(resource.RLIMIT_AS, (MOST_MEMORY, MOST_MEMORY))
        resource.setrlimit(resource.RLIMIT_CPU, (most_seconds, most_seconds))

    own, paths = {**environment, **PERSON, "GIT_ATTR_NOSYSTEM": "1"}, list(files)
    sides: list[str] = []
    for side in range(3):
        tree = write_folder(
            writing,
            {b"%d" % at: entry for at, path in enumerate(paths) if (entry := files[path][side])},
        )
        sides.append(
            git(
                "commit-tree",
                tree.decode(),
                *(("-p", sides[0]) if sides else ()),
                "-m",
                "side",
                environment=own,
            ).strip()
        )
    words = [word for each in MERGING for word in ("-c", each)]
    it = ran(
        *words,
        "merge-tree",
        "--write-tree",
        "-z",
        "--name-only",
        "--no-messages",
        *sides[1:],
        statuses=(0, 1),
        environment=own,
        bounds=bounds,
    )
    made, *conflicting = it.stdout.split(b"\0")
    if it.returncode:
        raise Conflicts(paths[int(name)] for name in {name for name in conflicting if name})
    entries = (
        entry.split(b"\t", 1)
        for entry in ran("ls-tree", "-z", made.decode().strip(), environment=own).stdout.split(
            b"\0"
        )[:-1]
    )
    return {
        paths[int(name)]: (about.split(b" ")[0], about.split(b" ")[2]) for about, name in entries
    }
