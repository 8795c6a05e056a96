"""What git tells of a change's patch sets: their commits, messages, files with sizes, and differences. A module; git 2.39 or later, standard library.

A commit is taken from refs/changes/NN/CHANGE/PATCHSET, so who asks says numbers and nothing else. Nothing that a user wrote becomes an option, a pattern or a program of git's:
paths stand behind `--` and are taken by the letter, and no driver that the pushed code's attributes name is run.
"""
import collections
import contextlib
import datetime
import json
import math
import os
import re
import signal
import subprocess
import tempfile
import threading
import time
import urllib.parse

MOST_BYTES, MOST_SECONDS, MOST_WORDS = 2_000_000, 20, 1_000_000
# Of git: its memory, with what it maps of packs and without that, and its seconds of a processor. Files that look alike are read whole, to tell which was renamed.
BOUNDS = ("prlimit", f"--as={2 << 30}", f"--data={512 << 20}", "--cpu=15")
REMEMBERED, REMEMBERED_SECONDS = 1000, 600  # pairs of commits whose difference took too long, and for how long that is remembered
EMPTY_TREE = "4b825dc642cb6eb9a060e54bf8d69288fbee4904"
FORMAT = "%x00".join(("%H", "%P", "%an", "%ae", "%ad", "%cn", "%ce", "%cd", "%s", "%B"))
QUIET = ("--no-color", "--no-ext-diff", "--no-textconv", "--submodule=short")
SETTINGS = {"safe.directory": "*", "core.quotePath": "true", "core.attributesFile": os.devnull, "diff.renameLimit": "1000",
            "core.bigFileThreshold": "8m", "attr.tree": EMPTY_TREE, "core.packedGitWindowSize": "64m", "core.packedGitLimit": "512m"}


def environment():
    """That of each git that is started: none of the caller's own GIT_.. words, and the settings that its answers rest on."""
    own = {name: value for name, value in os.environ.items() if not name.startswith("GIT_")}
    own.update(GIT_LITERAL_PATHSPECS="1", GIT_OPTIONAL_LOCKS="0", GIT_TERMINAL_PROMPT="0", LC_ALL="C.UTF-8", GIT_CONFIG_COUNT=str(len(SETTINGS)))
    for at, (name, value) in enumerate(SETTINGS.items()):
        own.update({f"GIT_CONFIG_KEY_{at}": name, f"GIT_CONFIG_VALUE_{at}": value})
    return own


class NotShown(Exception):
    """Why something can't be shown: a status of HTTP and a word."""

    def __init__(self, status, word):
        super().__init__(word)
        self.status, self.word = status, word


def text_of(told):
    return told.decode(errors="replace")


def moment(raw):
    """A date of a commit as Gerrit writes it, and the zone in minutes: of git's seconds and zone, as 1700000000 +0100."""
    seconds, _, zone = raw.partition(" ")
    try:
        date = datetime.datetime.fromtimestamp(int(seconds), datetime.timezone.utc).strftime("%Y-%m-%d %H:%M:%S.000000000")
    except (ValueError, OverflowError, OSError):
        date = ""
    found = re.fullmatch(r"([+-])(\d\d)(\d\d)", zone)
    return {"date": date, "tz": int(found[1] + "1") * (60 * int(found[2]) + int(found[3])) if found else 0}


def head_of(quoted: bytes) -> bytes:
    """The first line of a file in git's text, by the file's name as git quotes it."""
    first, second = (b'"%s/%s' % (side, quoted[1:]) if quoted.startswith(b'"') else b"%s/%s" % (side, quoted) for side in (b"a", b"b"))
    return b"diff --git %s %s" % (first, second)


def with_notes(text: bytes, notes: dict[bytes, str]) -> bytes:
    """git's text with notes below the heads of files. A file that isn't in it gets a head of its own at the end."""
    lines, left = [], dict(notes)
    for line in text.split(b"\n") if notes else ():
        lines.append(line)
        if note := left.pop(line, None):
            lines.append(note.encode())
    return (b"\n".join(lines) if notes else text) + b"".join(b"%s\n%s\n" % (head, note.encode()) for head, note in left.items())


class PatchSets:
    """Those of a bare repository that the hook of examples/git writes to."""

    def __init__(self, repository):
        self.repository = repository
        self.too_much: collections.OrderedDict[tuple[str, str], tuple[float, NotShown]] = collections.OrderedDict()

    def git(self, *words, sent=None):
        """What a command of git prints. It is ended where it takes too long or prints too much."""
        late = threading.Event()
        with contextlib.ExitStack() as kept:
            asked = kept.enter_context(tempfile.TemporaryFile())
            asked.write(sent or b"")
            asked.seek(0)
            running = subprocess.Popen([*BOUNDS, "git", *words], cwd=self.repository, env=environment(), stdin=asked, stdout=subprocess.PIPE, stderr=subprocess.DEVNULL)
            timer = threading.Timer(MOST_SECONDS, lambda: (late.set(), running.kill()))
            timer.start()
            kept.callback(timer.cancel)
            kept.callback(running.wait)
            kept.callback(running.kill)
            kept.callback(running.stdout.close)
            told = running.stdout.read(MOST_BYTES + 1)
            if len(told) > MOST_BYTES:
                raise NotShown(409, "TOO_LARGE")
            status = running.wait()
        if late.is_set() or status in (-signal.SIGXCPU, -signal.SIGKILL):
            raise NotShown(503, "TOO_SLOW")
        if status:
            raise NotShown(404, "NO_COMMIT")
        return told

    def compared(self, old, new, how, *paths):
        """What `git diff-tree` prints of two commits. If that took too long, or too much memory, it is told again for a while without another try."""
        when, why = self.too_much.get((old, new), (-math.inf, None))
        if why and time.monotonic() - when < REMEMBERED_SECONDS:
            raise why
        try:
            return self.git("diff-tree", "-r", *how, *QUIET, "--end-of-options", old, new, "--", *paths)
        except NotShown as error:
            # Both commits are here, so git failed for want of memory.
            why = NotShown(409, "TOO_LARGE") if error.word == "NO_COMMIT" else error
            if error.word in ("NO_COMMIT", "TOO_SLOW"):
                self.too_much[old, new] = (time.monotonic(), why)
                while len(self.too_much) > REMEMBERED:
                    self.too_much.popitem(last=False)
            raise why from error

    def of(self, change):
        """The commits of a change's patch sets, by number, as far as git has them."""
        start = f"refs/changes/{change % 100:02}/{change}"
        found = {}
        for line in text_of(self.git("for-each-ref", "--format=%(refname) %(objectname)", start)).splitlines():
            ref, name = line.rsplit(" ", 1)
            if re.fullmatch(r"[1-9][0-9]{0,9}", ref.removeprefix(start + "/")):
                found[int(ref.removeprefix(start + "/"))] = name
        return dict(sorted(found.items()))

    def name(self, change, patch_set):
        found = self.of(change).get(patch_set)
        if not found:
            raise NotShown(404, "NO_COMMIT")
        return found

    def revisions(self, change):
        """The patch sets of a change: numbers, commits and refs, in Gerrit's words."""
        return [{"_number": number, "commit": name, "ref": f"refs/changes/{change % 100:02}/{change}/{number}"} for number, name in self.of(change).items()]

    def parent(self, name):
        """The commit that a difference is told beside: the first parent, or nothing at all."""
        parents = text_of(self.git("rev-list", "-1", "--parents", "--end-of-options", name, "--")).split()[1:]
        return parents[0] if parents else EMPTY_TREE

    def commit(self, change, patch_set):
        """A commit with its message and its files, in the words of Gerrit's CommitInfo and FileInfo. Where the files take too long, or are too many, it says so in their place."""
        words = ["--no-show-signature", "--no-mailmap", "--date=raw", "--encoding=UTF-8", f"--format={FORMAT}"]
        said = self.git("log", "-1", *words, "--end-of-options", self.name(change, patch_set), "--")
        name, parents, *people, subject, message = text_of(said).split("\0", 9)
        author, committer = ({"name": who, "email": mail, **moment(date)} for who, mail, date in (people[:3], people[3:]))
        parent = parents.split()[0] if parents else None
        found = {"_number": patch_set, "commit": name, "parent": parent, "subject": subject, "message": message.rstrip("\n") + "\n", "author": author, "committer": committer}
        try:
            return {**found, "files": self.files(parent or EMPTY_TREE, name)}
        except NotShown as why:
            return {**found, "files": [], "files_not_shown": why.word}

    def files(self, old, new):
        """The files that differ: paths, Gerrit's letter for what became of each, lines come and gone, and how many bytes more there are."""
        told = self.compared(old, new, ("-z", "-M", "--raw", "--numstat", "--no-abbrev")).split(b"\0")
        found, blobs, at = [], [], 0
        while at < len(told) and told[at].startswith(b":"):
            old_mode, new_mode, was, is_now, letter = told[at].decode()[1:].split(" ")
            paths = [text_of(path) for path in told[at + 1:at + (3 if letter[0] in "RC" else 2)]]
            found.append({"path": paths[-1], **({"old_path": paths[0]} if len(paths) > 1 else {}), "status": letter[0], "old_mode": int(old_mode, 8), "new_mode": int(new_mode, 8)})
            blobs.append((was, is_now))
            at += 1 + len(paths)
        for file in found:
            come, gone, path = told[at].decode(errors="replace").split("\t", 2)
            file.update({"binary": True, "insertions": 0, "deletions": 0} if come == "-" else {"insertions": int(come), "deletions": int(gone)})
            at += 1 if path else 3
        asked = "".join(f"{blob}\n" for pair in blobs for blob in pair).encode()
        sizes = [int(line) if line.isdigit() else 0 for line in self.git("cat-file", "--batch-check=%(objectsize)", sent=asked).splitlines()]
        for file, was, is_now in zip(found, sizes[::2], sizes[1::2]):
            file["size_delta"] = is_now - was
        return found

    def paths(self, old, new, *among):
        """The paths in which two commits differ, of all or among some."""
        told = self.git("diff-tree", "-r", "-z", "--name-only", "--no-renames", "--end-of-options", old, new, "--", *among)
        return [path for path in told.decode(errors="surrogateescape").split("\0") if path]

    def difference(self, change, patch_set, base, context):
        """git's own text of what a patch set changes, beside its parent or beside another patch set: there only the paths count that one of the two touches, as in Gerrit."""
        new, paths, notes = self.name(change, patch_set), [], {}
        old = self.name(change, base) if base else self.parent(new)
        if base:
            parents = [self.parent(name) for name in (old, new)]
            touched = self.paths(parents[1], new)
            paths = sorted({*self.paths(parents[0], old), *touched})
            if not paths:
                return b""
            if sum(len(os.fsencode(path)) + 1 for path in paths) > MOST_WORDS:
                raise NotShown(409, "TOO_LARGE")
            notes = self.notes(parents, (old, new), touched, (base, patch_set))
        how = ("-p", "-M", "--full-index", "--src-prefix=a/", "--dst-prefix=b/", f"-U{context}")
        return with_notes(self.compared(old, new, how, *paths), notes)

    def notes(self, parents, commits, touched, numbers):
        """What a comparison of two patch sets doesn't show of the paths that the newer one changes: where the branch has changed them in between. By the heads of files in git's text."""
        moved = touched and parents[0] != parents[1] and self.paths(*parents, *touched)
        if not moved:
            return {}
        first, second = sorted(numbers)
        differ = set(self.paths(*commits, *moved))
        quoted = self.git("diff-tree", "-r", "--name-only", "--no-renames", "--end-of-options", *parents, "--", *moved).splitlines()
        return {head_of(name): f"note: the parents of patch sets {first} and {second} differ in this file as well, so both changes are shown" if path in differ
                else f"note: patch set {second} takes back what its parent has got here since patch set {first}: compare it with its parent"
                for name, path in zip(quoted, moved)}

    def passed_over(self, branch):
        """The merged changes that `follow` has left out of a branch in git, each with its commit and why."""
        try:
            with open(os.path.join(self.repository, "desk", "passed-over", urllib.parse.quote(branch, safe="") + ".json"), encoding="utf-8") as file:
                return json.load(file)
        except (FileNotFoundError, ValueError):
            return []
