"""What git tells of a change that a desk doesn't: message, footer, people, paths, sizes, dates and the commits of earlier patch sets. A module; git 2.39."""
import os
import re
import sys
import time

from patch_sets import NotShown, PatchSets, text_of

PROJECT = re.compile(r"[A-Za-z0-9_-][A-Za-z0-9._-]*(/[A-Za-z0-9_-][A-Za-z0-9._-]*)*")
NAME = re.compile(r"[0-9a-f]{40}")
NOTHING = {"message": "", "change_id": "", "author": "", "committer": "", "paths": [], "insertions": 0, "deletions": 0, "at": 0, "created": 0, "revisions": {}, "parents": []}
FORMAT = "%x00".join(("%H", "%P", "%ct", "%an <%ae>", "%cn <%ce>", "%(trailers:key=Change-Id,valueonly,unfold,separator=%x20)", "%B", ""))


class Commits:
    """The repositories of a folder, one for each project: FOLDER/PROJECT.git. The desk says which commit is meant, and no user's word becomes an option of git's."""

    def __init__(self, folder):
        self.folder, self.kept = folder, {}

    def repository(self, project):
        """The patch sets of a project's repository, or None where it has none here."""
        place = os.path.join(self.folder, project + ".git")
        if project not in self.kept and PROJECT.fullmatch(project) and os.path.isdir(place):
            self.kept[project] = PatchSets(place)
        return self.kept.get(project)

    def has(self, it):
        """Whether git has the commit of a change's current patch set."""
        repository = self.repository(it["project"])
        try:
            return bool(repository and repository.git("cat-file", "-e", "--end-of-options", f"{it['commit']}^{{commit}}") == b"")
        except NotShown:
            return False

    def of(self, it):
        """What git has of a change as the desk tells it. All may be missing, as of a change that was made without git, or of a commit that says what can't be read."""
        try:
            return self.found_of(it)
        except (ValueError, OverflowError) as error:
            print(f"change {it['change']}: git's words for {it['commit']} can't be read, and it is found by what the desk says alone: {error!r}", file=sys.stderr, flush=True)
            return dict(NOTHING)

    def found_of(self, it):
        repository, found = self.repository(it["project"]), dict(NOTHING)
        if not repository or not NAME.fullmatch(it["commit"]):
            return found
        try:
            found["revisions"], found["created"] = self.revisions(repository, it["change"])
            said = repository.git("log", "-1", "--no-show-signature", "--no-mailmap", "--encoding=UTF-8", f"--format={FORMAT}", "--end-of-options", it["commit"], "--")
        except NotShown:
            return found
        _, parents, date, author, committer, footers, message, _ = text_of(said).split("\0", 7)
        found.update(at=max(0, min(int(date or 0), int(time.time()))), author=author, committer=committer, change_id=footers.split(" ")[-1], message=message, parents=parents.split())
        try:
            found.update(self.sizes(repository, found["parents"], it["commit"]))
        except NotShown:
            pass  # More files than are shown: the change is found by all else.
        return found

    @staticmethod
    def revisions(repository, number):
        """The commits of a change's patch sets, by number, and when the first one was made."""
        start, found, created = f"refs/changes/{number % 100:02}/{number}", {}, 0
        for line in text_of(repository.git("for-each-ref", "--format=%(refname) %(objectname) %(committerdate:unix)", start)).splitlines():
            ref, name, date = line.rsplit(" ", 2)
            patch_set = ref.rsplit("/", 1)[1]
            if patch_set.isdigit():
                found[patch_set] = name
                created = max(0, min(int(date or 0), int(time.time()))) if patch_set == "1" else created  # Nothing was made later than now, whatever it says.
        return found, created

    @staticmethod
    def sizes(repository, parents, commit):
        """The paths that a commit changes, and how many lines come and go."""
        words = ("--end-of-options", parents[0], commit) if parents else ("--root", "--no-commit-id", "--end-of-options", commit)
        told, paths, come, gone = repository.git("diff-tree", "-r", "-z", "--numstat", "--no-renames", "--no-ext-diff", "--no-textconv", *words, "--"), [], 0, 0
        for line in filter(None, text_of(told).split("\0")):
            added, deleted, path = line.split("\t", 2)
            paths.append(path)
            come, gone = come + (int(added) if added.isdigit() else 0), gone + (int(deleted) if deleted.isdigit() else 0)
        return {"paths": paths, "insertions": come, "deletions": gone}
