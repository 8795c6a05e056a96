"""Queries of Gerrit's, asked by ann, with plain filters over what the desk's questions and git say of a change: bench/index_truth compares the two. A module."""
import re
import subprocess


class Seen:
    """A change as the desk tells it, and its commit as git does."""

    def __init__(self, told, git=None):
        self.it, self.requirements, self.threads, self.attention = (told[part] for part in ("change", "requirements", "threads", "attention"))
        self.number, self.comments = self.it["change"], [said for thread in self.threads for said in thread["comments"]]
        self.unresolved, self.called = sum(thread["unresolved"] for thread in self.threads), [one["account"] for one in self.attention]
        self.is_open = self.it["status"] == "NEW"
        self.is_submittable = self.is_open and not self.it["work_in_progress"] and all(one["status"] != "UNSATISFIED" for one in self.requirements)
        self.message, self.paths = "", []
        if git:
            try:
                self.message = git(self.it["project"], "log", "-1", "--format=%B", self.it["commit"])
                self.paths = git(self.it["project"], "diff-tree", "-r", "--name-only", f"{self.it['commit']}^", self.it["commit"]).splitlines()
            except subprocess.CalledProcessError:
                pass  # It was made without git.

    def votes(self, label):
        return [(vote["account"], vote["value"]) for vote in self.it["votes"] if vote["label"] == label]

    def words(self):
        return re.findall(r"\w+", f"{self.it['subject']}\n{self.message}".lower())

    def said(self):
        return re.findall(r"\w+", "\n".join(one["message"] for one in self.comments).lower())


def has_vote(is_met, label="Code-Review"):
    return lambda one: any(is_met(account, value, one.it) for account, value in one.votes(label))


FILTERS = {
    "status:open": lambda one: one.is_open,
    "is:closed": lambda one: not one.is_open,
    "status:merged": lambda one: one.it["status"] == "MERGED",
    "status:abandoned": lambda one: one.it["status"] == "ABANDONED",
    "is:wip": lambda one: one.it["work_in_progress"],
    "is:open -is:wip": lambda one: one.is_open and not one.it["work_in_progress"],
    "is:submittable": lambda one: one.is_submittable,
    "-is:submittable is:open": lambda one: one.is_open and not one.is_submittable,
    "owner:self": lambda one: one.it["owner"] == 2,
    "owner:bob OR uploader:cal": lambda one: one.it["owner"] == 3 or one.it["uploader"] == 4,
    "reviewer:self": lambda one: 2 in one.it["reviewers"],
    "r:bob -r:cal": lambda one: 3 in one.it["reviewers"] and 4 not in one.it["reviewers"],
    "cc:self": lambda one: 2 in one.it["ccs"],
    "cc:4": lambda one: 4 in one.it["ccs"],
    "attention:self": lambda one: 2 in one.called,
    "is:open attention:bob": lambda one: one.is_open and 3 in one.called,
    "is:attention": lambda one: bool(one.called),
    "has:unresolved": lambda one: one.unresolved > 0,
    "unresolved:>1": lambda one: one.unresolved > 1,
    "commentby:cal": lambda one: 4 in [said["author"] for said in one.comments],
    "from:ann status:merged": lambda one: one.it["status"] == "MERGED" and (one.it["owner"] == 2 or 2 in [said["author"] for said in one.comments]),
    "project:tools": lambda one: one.it["project"] == "tools",
    "project:^app/.* branch:main": lambda one: one.it["project"].startswith("app/"),
    "projects:app": lambda one: one.it["project"].startswith("app"),
    "label:Code-Review=2": has_vote(lambda _, value, it: value == 2),
    "label:Code-Review=MAX project:tools": lambda one: one.it["project"] == "tools" and 2 in [value for _, value in one.votes("Code-Review")],
    "label:Code-Review=MIN project:tools": lambda one: one.it["project"] == "tools" and -2 in [value for _, value in one.votes("Code-Review")],
    "label:Code-Review>=1": has_vote(lambda _, value, it: value >= 1),
    "label:Code-Review<0": has_vote(lambda _, value, it: value < 0),
    "label:Code-Review=ANY": has_vote(lambda *_: True),
    "label:Code-Review=0": lambda one: not one.votes("Code-Review"),
    "label:Verified=+1,user=bob": has_vote(lambda account, value, it: value == 1 and account == 3, "Verified"),
    "label:Code-Review=2,user=non_uploader": has_vote(lambda account, value, it: value == 2 and account != it["uploader"]),
    "label:Code-Review=2,user=owner": has_vote(lambda account, value, it: value == 2 and account == it["owner"]),
    "-label:Code-Review=-2 label:Code-Review=2": lambda one: -2 not in [value for _, value in one.votes("Code-Review")] and 2 in [value for _, value in one.votes("Code-Review")],
    "message:fix": lambda one: "fix" in one.words(),
    "subject:push": lambda one: "push" in re.findall(r"\w+", one.it["subject"].lower()),
    "comment:why": lambda one: "why" in one.said(),
    "comment:\"done cal\"": lambda one: ("done", "cal") in zip(one.said(), one.said()[1:]),
    "file:^file1.*": lambda one: any(path.startswith("file1") for path in one.paths),
    "ext:rs": lambda one: any(path.endswith(".rs") for path in one.paths),
    "parser OR (nit is:open)": lambda one: "parser" in one.words() + one.said() or (one.is_open and "nit" in one.words() + one.said()),
    "change:3": lambda one: one.number == 3,
    "(owner:ann OR owner:bob) (is:merged OR is:wip) -cc:bob": lambda one: one.it["owner"] in (2, 3) and (one.it["status"] == "MERGED" or one.it["work_in_progress"]) and 3 not in one.it["ccs"],
    "NOT (status:open OR status:merged)": lambda one: one.it["status"] == "ABANDONED",
}
