"""The desk that `bench/damages` damages: two projects that share nothing but their commits, and what is asked of it.

All damages are of the first side, `tools`, or of everything. A damage of one row of `tools` must leave the lines of `lib` as they were.
"""
import json

from desk_file import FIRST, line

# A comment that makes the file longer than a page, so that its text has pages of its own; and a pattern, which the engine may refuse.
FILE = """[access]
create = ["Registered-Users"]
submit = ["{group}"]
[label.Code-Review]
copyCondition = "changekind:NO_CODE_CHANGE"
values = {{0 = "None", 1 = "Good"}}
grant.{group} = [0, 1]
[submit-requirement.Branch]
submittableIf = "branch:^ma.n"
[submit-requirement.Code-Review]
submittableIf = "label:Code-Review=1,user=non_uploader AND label:Code-Review=1,group={group}"
""" + "# so that it is long\n" * 450
TOO_LARGE = '[submit-requirement.Large]\nsubmittableIf = "path:\\"^(a{1000}){1000}\\""\n'
CHANGES = 14
ACCOUNTS = [line("CreateAccount", f"n{number}", body={"name": name}) for number, name in ((2, "ann"), (3, "bob"), (4, "cal"), (5, "dan"))]


def commit(number):
    return f"{number:040x}"


class Side:
    """A project with a group of two accounts and CHANGES changes; its requests are told by a letter before their names."""

    def __init__(self, letter, project, group, owner, other, before):
        self.letter, self.project, self.group, self.owner, self.other, self.before = letter, project, group, owner, other, before

    def of_change(self, do, at, id=None, caller=None, body=None, **route):
        return line(do, id and f"{self.letter}-{id}", caller or self.owner, {} if id and body is None else body, change=self.before + at, **route)

    def of_project(self, do, id, body, **route):
        return line(do, f"{self.letter}-{id}", 1, body, **route)

    def reviews(self, id, at, caller, **body):
        return self.of_change("Review", at, id, caller, body, patch_set="current")

    def makes(self, id, own, parent):
        body = {"project": self.project, "branch": "main", "subject": "Fix", "commit": own, "parent": parent, "paths": ["src/a.rs", "src/b.rs"]}
        return line("CreateChange", f"{self.letter}-{id}", self.owner, body)

    def begins(self):
        """The project, its branch, and its changes in the states that the session wants."""
        good, file = {"Code-Review": 1}, FILE.format(group=self.group)
        return [
            self.of_project("PutGroup", "group", {"members": [self.owner, self.other]}, group=self.group),
            self.of_project("PutProject", "project", {"file": file}, project=self.project),
            self.of_project("RecordBase", "base", {"commit": FIRST}, project=self.project, branch="main"),
            *(self.makes(f"c{at}", commit(at), commit(at - 1) if at in (2, 13) else FIRST) for at in range(1, CHANGES + 1)),
            self.reviews("r1", 1, self.other, labels=good, comments={"src/a.rs": [{"line": 4, "message": "why", "unresolved": True}]}),
            self.of_change("Submit", 1, "s1", self.other),
            self.reviews("r2", 2, self.other, labels=good, message="so", comments={"src/a.rs": [{"message": "and"}]}),
            self.of_change("AddReviewer", 5, "r5", body={"reviewer": self.other}),
            self.of_change("Abandon", 8, "d8"),
            self.of_change("AddReviewer", 9, "r9", body={"reviewer": self.other, "state": "CC"}),
            self.of_change("AddReviewer", 10, "r10", body={"reviewer": self.other}),
            self.of_change("SetWip", 11, "w11"),
            self.reviews("r12", 12, self.other, labels=good), self.reviews("r13", 13, self.other, labels=good),
            self.of_change("Upload", 14, "u14", body={"commit": commit(40), "parent": FIRST, "kind": "REWORK", "paths": []}),
            self.reviews("r14", 14, self.other, labels=good),
        ]

    def questions(self):
        whole = [self.of_change(do, at) for at in (1, 2, 5, 14) for do in ("Change", "Requirements", "Threads", "Attention")]
        return [line("Branch", None, self.owner, None, project=self.project, branch="main"), *whole]

    def requests(self):
        """Requests that were sent before, an identity for another command, and each command: each about something that no other is about."""
        file = FILE.format(group=self.group)
        return [
            *self.begins()[0:1], self.begins()[3], self.begins()[CHANGES + 3], self.begins()[CHANGES + 4],
            self.of_project("CreateAccount", "base", {"name": "eve"}), self.of_project("CreateAccount", "taken", {"name": "admin"}),
            self.of_project("PutGroup", "new1", {"members": [self.other]}, group=f"More-{self.letter}"),
            self.of_project("PutGroup", "same1", {"members": [self.owner, self.other]}, group=self.group),
            self.of_project("PutProject", "new2", {"file": ""}, project=f"more-{self.letter}"), self.of_project("PutProject", "same2", {"file": file}, project=self.project),
            self.of_project("RecordBase", "new3", {"commit": commit(77)}, project=self.project, branch="next"),
            self.makes("new4", commit(99), commit(2)),
            self.reviews("new5", 2, self.owner, message="m", comments={"src/a.rs": [{"message": "so", "in_reply_to": 1}]}),
            self.of_change("Upload", 3, "new6", body={"commit": commit(98), "parent": FIRST, "kind": "REWORK", "paths": ["src/a.rs"]}),
            self.of_change("Upload", 14, "new7", body={"commit": commit(97), "parent": FIRST, "kind": "NO_CODE_CHANGE", "paths": []}),
            self.of_change("AddReviewer", 4, "new8", body={"reviewer": self.other}), self.of_change("RemoveReviewer", 5, "new9", account=self.other),
            self.of_change("SetWip", 6, "new10"), self.of_change("SetReady", 11, "new11"), self.of_change("Abandon", 7, "new12"), self.of_change("Restore", 8, "new13"),
            self.of_change("AddAttention", 9, "new14", body={"user": self.other, "reason": "look"}),
            self.of_change("RemoveAttention", 10, "new15", account=self.other, body={"reason": "done"}),
            self.of_change("Submit", 13, "new16", self.other),
            self.of_project("RecordBase", "new17", {"commit": commit(78)}, project=self.project, branch="main"), self.makes("twice", commit(2), FIRST),
        ]


TOOLS, LIB = Side("a", "tools", "Core", 2, 3, 0), Side("b", "lib", "Others", 4, 5, CHANGES)
BASE = ACCOUNTS + TOOLS.begins() + LIB.begins()
NEW_ACCOUNT = line("CreateAccount", "b-new", 1, {"name": "fay"})
# The healthy side first, so that its numbers don't rest on what the damaged one does.
HEALTHY = LIB.questions() + [NEW_ACCOUNT] + LIB.requests()
SESSION = HEALTHY + TOOLS.questions() + TOOLS.requests()
SHOWN = (
    ("show", "--change", "2"), ("show", "--change", str(CHANGES + 2)), ("show", "--change", "99"),
    ("joined", "--project", "tools", "--branch", "main"), ("joined", "--project", "lib", "--branch", "main"),
)


def name_of(sent):
    """What a line asks, and of which side."""
    said = json.loads(sent)
    return f"{said['do']} of {'lib' if sent in HEALTHY else 'tools'}"
