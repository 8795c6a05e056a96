"""The paths that a commit changes, read no further than there may be. A module.

A few trees, each of which names the next one ten times, are a push of some hundred bytes with ten million paths, and `git diff-tree` gathers all of them before it says the
first. So the trees are read here one by one, and reading ends with one path, or one folder, too many.
"""
import unicodedata
from collections.abc import Iterable, Iterator, Mapping

from repository import Commit, GitFailed, Piped

MODES, MOST_FOLDERS, MOST_BYTES = (b"100644", b"100755", b"120000", b"160000", b"40000"), 10_000, 32 << 20  # modes as git writes them; it reads many more

Entry = tuple[bytes, bytes]  # the mode and the object of an entry of a folder


class TooLarge(Exception):
    """A commit changes more than is read: what there is too much of."""


class LooksAlike(Exception):
    """A commit adds a path that differs from another one in case alone: both."""


def folded(name: bytes) -> str:
    """A name as a file system reads it that doesn't tell upper from lower case."""
    text = name.decode(errors="surrogateescape")
    return text.lower() if text.isascii() else unicodedata.normalize("NFC", unicodedata.normalize("NFD", text).casefold())


def look_alikes(names: Iterable[bytes]) -> dict[bytes, bytes]:
    """Of the names in a folder those that differ from another one in case alone, each with that other one."""
    first: dict[str, bytes] = {}
    pairs = ((name, first.setdefault(folded(name), name)) for name in sorted(names))
    return {one: other for name, kept in pairs if name != kept for one, other in ((name, kept), (kept, name))}


def folder_in(entry: Entry | None) -> bytes | None:
    """The tree of an entry that git takes for a folder, whatever else its mode says; of another one, or of none, None."""
    return entry[1] if entry and int(entry[0], 8) & 0o170000 == 0o040000 else None


class Trees:
    """Trees of a repository, each asked for by its name: at most so many, of which there are so many for each folder that is looked at."""

    def __init__(self, most: int = MOST_FOLDERS, environment: Mapping[str, str] | None = None, of_each: int = 2) -> None:
        self.git, self.most, self.of_each, self.count = Piped("cat-file", "--batch", environment=environment), most, of_each, 0

    def __enter__(self) -> "Trees":
        self.git.__enter__()
        return self

    def __exit__(self, *_: object) -> None:
        self.git.__exit__()

    def entries(self, name: bytes | None) -> dict[bytes, Entry]:
        """Of each entry of a tree its name, with its mode and its object; None is a tree without any."""
        if name is None:
            return {}
        self.count += 1
        if self.count > self.most:
            raise TooLarge(f"more than {self.most // self.of_each} folders")
        _, kind, size = (self.git.line(name + b"\n") + b" 0").split()[:3]
        if kind == b"missing":
            raise GitFailed(f"the repository doesn't have the folder {name.decode()}")
        if kind != b"tree":
            raise TooLarge(f"a folder that is a {kind.decode()}")
        if int(size) > MOST_BYTES:
            raise TooLarge(f"a folder of more than {MOST_BYTES >> 20} MB")
        found: dict[bytes, Entry] = {}
        told, at = self.git.told.read(int(size) + 1)[:-1], 0
        while at < len(told):
            end = told.index(b"\0", at)
            mode, path = told[at:end].split(b" ", 1)
            if path in found:
                raise TooLarge("more than one entry of a name in a folder")
            found[path] = (mode, told[end + 1:end + 21].hex().encode())
            at = end + 21
        return found

    def paths(self, old: bytes | None, new: bytes | None, most_bytes: int, before: bytes = b"") -> Iterator[bytes]:
        """The paths that differ between two trees, of which either may be none."""
        if len(before) > most_bytes:
            raise TooLarge(f"a path of more than {most_bytes} bytes")
        were, are = self.entries(old), self.entries(new)
        added = are.keys() - were.keys()
        alike = look_alikes(are) if added else {}
        for name in sorted(added & alike.keys()):
            raise LooksAlike(*((before + it).decode(errors="replace") for it in (name, alike[name])))
        for name in sorted(were.keys() | are.keys()):
            was, is_now, path = were.get(name), are.get(name), before + name
            if was == is_now:
                continue
            if is_now and is_now[0] not in MODES:
                raise TooLarge(f"an entry of the mode {is_now[0].decode(errors='replace')[:20]}, which git doesn't write")
            below = [folder_in(it) for it in (was, is_now)]
            if any(it and not folder for it, folder in zip((was, is_now), below)):
                yield path
            if any(below):
                yield from self.paths(below[0], below[1], most_bytes, path + b"/")


def paths_of(commit: Commit, parent_tree: str, most_paths: int, most_bytes: int) -> list[str]:
    """The paths that a commit changes beside its parent, sorted. Raises TooLarge where there are too many, or one has too many bytes."""
    found = []
    with Trees() as trees:
        for path in trees.paths(parent_tree.encode(), commit.tree.encode(), most_bytes):
            found.append(path)
            if len(found) > most_paths:
                raise TooLarge(f"more than {most_paths} paths")
            if len(path) > most_bytes:
                raise TooLarge(f"a path of more than {most_bytes} bytes")
    return [path.decode(errors="surrogateescape") for path in sorted(found)]
