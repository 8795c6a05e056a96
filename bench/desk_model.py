"""A model of the desk, written from its rules alone: it keeps all in dictionaries, and goes over all of it for each answer. `bench/model` compares the desk with it."""
import collections
import itertools
import json
import re

# A project file: of each label its values, copy condition and grants; the rights; of each submit requirement its conditions; the parent, and the
# requirements that children may override.
File = collections.namedtuple("File", "labels access requirements parent overridable", defaults=(None, ()))

# ---- project files: what the model knows of them, and their texts

LABELS = {
    "whole": {
        "Code-Review": (range(-2, 3), "is:MIN OR changekind:NO_CODE_CHANGE", {"Core": (-2, 2), "Registered-Users": (-1, 1)}),
        "Verified": (range(-1, 2), "has:unchanged-files AND NOT approverin:Bots", {"Bots": (-1, 1), "Core": (0, 1)}),
        "Notes": (range(0, 2), None, {"Registered-Users": (0, 1)}),
    },
    "other": {
        "Code-Review": (range(-2, 3), "is:MAX (changekind:TRIVIAL_REBASE OR uploaderin:Core)", {"Core": (-2, 2), "Bots": (-1, 0)}),
        "Verified": (range(-1, 2), "is:ANY", {"Bots": (-1, 1)}),
        "Notes": (range(0, 2), "-is:1", {"Core": (0, 1)}),
    },
    "narrow": {
        "Code-Review": (range(-1, 2), "is:1", {"Registered-Users": (-1, 1)}),
    },
    "easy": {
        "Code-Review": (range(-2, 3), "is:ANY", {"Registered-Users": (-2, 2)}),
        "Verified": (range(-1, 2), None, {"Registered-Users": (-1, 1)}),
        "Notes": (range(0, 2), None, {"Registered-Users": (0, 1)}),
    },
}
ACCESS = {
    "open": {"create": ["Registered-Users"], "upload": ["Core"], "submit": ["Core", "Bots"], "abandon": ["Bots"]},
    "closed": {"create": ["Core", "Bots"], "submit": ["Bots"]},
}
# (of each submit requirement: when it applies, when it is overridden, when it is met)
REQUIREMENTS = {
    "whole": {
        "Code-Review": (None, None, "label:Code-Review=MAX,user=non_uploader AND -label:Code-Review=MIN"),
        "Docs": ("path:^docs/.*", "label:Notes=1,group=Bots", "label:Verified>=1,count>=2"),
        "Talked": ("branch:main", "ownerin:Bots", "NOT has:unresolved"),
    },
    "other": {
        "Code-Review": ("is:false", "is:true", "is:true"),
        "Sent": (None, "label:Code-Review>0,user=owner", "uploaderin:Core OR file:ü OR label:Verified=ANY,user=3"),
    },
    "narrow": {"Two": ('branch:"^(main|release/.*)"', None, "label:Code-Review+1,count=2")},
    "easy": {"Read": ("-path:tower", "label:Notes=1", "label:Code-Review>0 AND -label:Code-Review=MIN"), "Talked": (None, None, "-has:unresolved")},
}


def shown(value):
    return f"+{value}" if value > 0 else str(value)


def text_of(labels, access, requirements, parent=None, overridable=()):
    """The text of a project file."""
    lines = [f'parent = "{parent}"'] if parent else []
    lines.append("[access]")
    lines += [f"{right} = {json.dumps(groups)}" for right, groups in access.items()]
    for name, (values, condition, grants) in labels.items():
        lines.append(f"[label.{name}]")
        if condition is not None:
            lines.append(f'copyCondition = "{condition}"')
        lines.append(f"[label.{name}.values]")
        lines += [f'"{shown(value)}" = "text {value}"' for value in values]
        lines.append(f"[label.{name}.grant]")
        lines += [f"{group} = [{least}, {greatest}]" for group, (least, greatest) in grants.items()]
    for name, conditions in requirements.items():
        lines.append(f"[submit-requirement.{name}]")
        lines += [f"{key} = {json.dumps(it, ensure_ascii=False)}" for key, it in zip(("applicableIf", "overrideIf", "submittableIf"), conditions) if it is not None]
        lines += ["canOverrideInChildProjects = true"] if name in overridable else []
    return "\n".join(lines) + "\n"


def by_text(files):
    return {text_of(*file): file for file in files}


EASY_FILE = text_of(LABELS["easy"], ACCESS["open"], REQUIREMENTS["easy"])
ROOTS = by_text(File(labels, access, REQUIREMENTS[name], None, may) for may in ((), ("Code-Review", "Talked", "Two")) for name, labels in LABELS.items() for access in ACCESS.values())
# Files that go on from others: little of their own, which takes the place of what they get, or counts for nothing.
OWN_LABELS = [{}, {"Notes": (range(-1, 2), "is:ANY", {"Bots": (-1, 1)})}, {"Code-Review": (range(-2, 3), None, {"Core": (-2, 2)}), "Own": (range(0, 2), None, {"Core": (0, 1)})}]
OWN_REQUIREMENTS = [
    {}, {"Code-Review": (None, None, "is:true"), "Own": ("branch:main", None, "label:Notes=1")}, {"Talked": (None, None, "label:Own=1"), "Docs": ("is:false", None, "is:true")},
    {"Sent": (None, None, "label:Elsewhere=1")}]
CHILDREN = by_text(
    File(labels, access, requirements, parent, may)
    for parent in ("tools", "kid", "lib/a", "gone")
    for labels, access, requirements, may in itertools.product(OWN_LABELS, ({}, {"create": ["Bots"], "submit": ["Core"]}), OWN_REQUIREMENTS, ((), ("Own", "Talked"))))
# Projects of which each is the parent of the next.
LINE = by_text(File({}, {}, {}, f"p{above}" if above else None) for above in range(9))
FILES = {**ROOTS, **CHILDREN, **LINE}
MOST_DEPTH = 8
BAD_FILES = {
    'parent = "a b"\n': {"reason": "BAD_NAME"},
    "parent = 3\n": {"reason": "UNKNOWN_KEY"},
    "[access\n": {"reason": "TOML"},
    'color = "red"\n': {"reason": "UNKNOWN_KEY"},
    '[submit-requirement.A]\nsubmittableIf = "label:B=MAX"\n': {"reason": "UNKNOWN_LABEL"},
    '[submit-requirement.A]\nsubmittableIf = "is:true or is:false"\n': {"reason": "EXPR", "expr": "BAD_TERM", "place": 8},
}

# ---- expressions

KINDS = {
    "NO_CHANGE": {"NO_CHANGE"},
    "NO_CODE_CHANGE": {"NO_CHANGE", "NO_CODE_CHANGE"},
    "TRIVIAL_REBASE": {"NO_CHANGE", "TRIVIAL_REBASE"},
    "TRIVIAL_REBASE_WITH_MESSAGE_UPDATE": {"NO_CHANGE", "NO_CODE_CHANGE", "TRIVIAL_REBASE", "TRIVIAL_REBASE_WITH_MESSAGE_UPDATE"},
    "MERGE_FIRST_PARENT_UPDATE": set(),
}


def holds(condition, is_met):
    """Whether a condition holds, where this says which terms do; AND binds by standing side by side, and no condition here mixes it with OR."""
    tokens = re.findall(r'[()]|[^\s():"]+:"[^"]*"|[^\s()]+', condition)

    def unary():
        token = tokens.pop(0)
        if token == "NOT":
            return not unary()
        if token == "(":
            value = several()
            tokens.pop(0)
            return value
        if token.startswith("-"):
            tokens.insert(0, token[1:])
            return not unary()
        key, value = token.split(":", 1)
        return is_met(key, value.strip('"'))

    def several():
        values, either = [unary()], False
        while tokens and tokens[0] != ")":
            if tokens[0] in ("AND", "OR"):
                either = tokens.pop(0) == "OR"
            values.append(unary())
        return any(values) if either else all(values)

    return several()


def copy_term(key, value, vote):
    """Whether a term of a copy condition holds for a vote."""
    if key == "is":
        if value == "ANY":
            return True
        bound = {"MIN": vote["least"], "MAX": vote["greatest"]}.get(value)
        return vote["value"] == (int(value) if bound is None else bound)
    if key == "changekind":
        return value == "REWORK" or vote["kind"] in KINDS[value]
    if key == "approverin":
        return vote["is_in"](value, vote["voter"])
    if key == "uploaderin":
        return vote["is_in"](value, vote["uploader"])
    return vote["unchanged"]


COMPARISONS = {
    "=": lambda value, asked: value == asked, ">=": lambda value, asked: value >= asked, ">": lambda value, asked: value > asked,
    "<=": lambda value, asked: value <= asked, "<": lambda value, asked: value < asked, "+": lambda value, asked: value == asked,
    "-": lambda value, asked: value == -asked,
}


def label_term(text, facts):
    """Whether a `label:` term holds for a change: as many accounts as it asks for have a vote that meets it."""
    name, by, asked, parts = re.fullmatch(r"([A-Za-z0-9]+(?:-[A-Za-z][A-Za-z0-9]*)*)(>=|<=|=|>|<|\+|-)([A-Z0-9+-]+)(.*)", text).groups()
    values = facts["labels"][name][0]
    met = {"MAX": lambda value: value == max(values), "MIN": lambda value: value == min(values), "ANY": lambda value: True}.get(
        asked, lambda value: COMPARISONS[by](value, int(asked)))
    accounts = {account for (label, account), value in facts["votes"].items() if label == name and met(value)}
    is_counted = lambda number: number >= 1
    for part in parts.split(",")[1:]:
        if part.startswith("count"):
            sign, least = re.fullmatch(r"count(>=|>|=)(\d+)", part).groups()
            is_counted = lambda number, sign=sign, least=least: COMPARISONS[sign](number, int(least))
        elif part == "user=non_uploader":
            accounts -= {facts["uploader"]}
        elif part == "user=owner":
            accounts &= {facts["owner"]}
        elif part.startswith("user="):
            accounts &= {int(part[5:])}
        else:
            accounts = {it for it in accounts if facts["is_in"](part.removeprefix("group="), it)}
    return is_counted(len(accounts))


def requirement_term(key, value, facts):
    """Whether a term of a submit requirement holds for a change."""
    if key == "is":
        return value == "true"
    if key == "label":
        return label_term(value, facts)
    if key in ("uploaderin", "ownerin"):
        return facts["is_in"](value, facts[key.removesuffix("in")])
    if key == "has":
        return facts["unresolved"]
    texts = [facts["branch"]] if key == "branch" else facts["paths"]
    if value.startswith("^"):
        return any(re.fullmatch(value[1:], text) for text in texts)
    return any(value in text.split("/") for text in texts) if key == "file" else value in texts


# ---- the desk

NUMBERS = {
    "UNKNOWN_CALLER": 1, "NOT_ADMIN": 2, "NO_PROJECT": 3, "NO_BRANCH": 4, "NO_CHANGE": 5, "NO_PATCH_SET": 6, "NO_ACCOUNT": 7, "NO_COMMENT": 8,
    "NOT_ALLOWED": 9, "CLOSED": 10, "SAME_STATE": 11, "WORK_IN_PROGRESS": 12, "STALE_PATCH_SET": 13, "NO_LABEL": 14, "VALUE_OUT": 15, "VOTE_RESTRICTED": 16, "COMMIT_KNOWN": 17, "UNKNOWN_PARENT": 18,
    "CHAIN_OUTDATED": 19, "CHAIN_ABANDONED": 20, "CHAIN_WIP": 21, "CHAIN_TOO_LONG": 22, "REQUIREMENT_UNSATISFIED": 23, "NOT_ELIGIBLE": 24, "NAME_TAKEN": 25, "BAD_FILE": 26, "LABEL_NARROWED": 27,
    "NO_PARENT": 29, "PARENT_FIXED": 30, "PARENT_DEPTH": 31, "EPOCH_AHEAD": 32,
}


class Refused(Exception):
    def __init__(self, name, **more):
        super().__init__(name)
        self.answer = {"number": NUMBERS[name], "refused": name, **more}


def unless(fails, name):
    if fails:
        raise Refused(name)


MOST_IN_CHAIN = 100
QUESTIONS = ("Branch", "Change", "Requirements", "Threads", "Attention")


class Desk:
    def __init__(self):
        self.names, self.groups, self.projects, self.bases, self.changes, self.stored = ["admin"], {"Administrators": {1}}, {}, {}, [], {}
        # Of each branch the numbers of the changes that joined it, in their order; and the least epoch whose requests are taken.
        self.joined, self.least = {}, 0

    def is_in(self, group, account):
        return group == "Registered-Users" or account in self.groups.get(group, ())

    def may(self, project, right, account):
        return any(self.is_in(group, account) for group in self.file(project).access.get(right, []))

    def file(self, project):
        """What a project's file amounts to, with its parent's."""
        own = self.projects[project]
        return self.inherited(own) if own.parent else own

    def inherited(self, own):
        above = self.file(own.parent)
        counting = {name: it for name, it in own.requirements.items() if name not in above.requirements or name in above.overridable}
        overridable = {name for name in {**above.requirements, **counting} if name in (own if name in counting else above).overridable}
        access = {right: above.access.get(right, []) + own.access.get(right, []) for right in {**above.access, **own.access}}
        return File({**above.labels, **own.labels}, access, {**above.requirements, **counting}, own.parent, overridable)

    def depth(self, project):
        above = self.projects[project].parent
        return 1 + (self.depth(above) if above else 0)

    def is_known(self, project, branch, commit):
        if commit in self.bases.get((project, branch), []):
            return True
        return any(c["project"] == project and c["branch"] == branch and any(p["commit"] == commit for p in c["patches"]) for c in self.changes)

    def take(self, line):
        """The answer to a line."""
        if line["do"] in QUESTIONS:
            return self.ask(line)
        identity, content = (line["caller"], epoch_of(line), line["id"]), content_of(line)
        if epoch_of(line) < self.least:
            return {"refused": "EPOCH_CLOSED"}
        if identity in self.stored:
            kept = self.stored[identity]
            return kept[1] if kept[0] == content else {"refused": "IDENTITY_REUSED"}
        try:
            unless(not 1 <= line["caller"] <= len(self.names), "UNKNOWN_CALLER")
            answer = getattr(self, line["do"])(line, line["caller"], line.get("body", {}))
        except Refused as refused:
            answer = refused.answer
        self.stored[identity] = (content, answer)
        return answer

    def ask(self, line):
        try:
            unless(not 1 <= line["caller"] <= len(self.names), "UNKNOWN_CALLER")
            if line["do"] == "Branch":
                return self.branch(line)
            return getattr(self, f"show_{line['do'].lower()}")(line["change"], self.change(line["change"]))
        except Refused as refused:
            return refused.answer

    def branch(self, line):
        unless(line["project"] not in self.projects, "NO_PROJECT")
        bases = self.bases.get((line["project"], line["branch"]), [])
        unless(not bases, "NO_BRANCH")
        joined = self.joined.get((line["project"], line["branch"]), [])
        return {"bases": list(bases), "joined": [{"change": number, "commit": self.current(number)["commit"]} for number in joined]}

    def show_change(self, number, change):
        last = change["patches"][-1]
        votes = [{"account": account, "label": label, "value": value} for (label, account), value in sorted(last["votes"].items())]
        return {
            "branch": change["branch"], "ccs": with_role(change, "CC"), "change": number, "commit": last["commit"],
            "current_patch_set": len(change["patches"]), "owner": change["owner"], "project": change["project"],
            "reviewers": with_role(change, "REVIEWER"), "status": change["state"], "subject": change["subject"], "updated": change["updated"],
            "uploader": last["uploader"], "votes": votes, "work_in_progress": change["wip"]}

    def show_requirements(self, number, change):
        labels, _, requirements, *_ = self.file(change["project"])
        last = change["patches"][-1]
        facts = {
            "labels": labels, "votes": last["votes"], "owner": change["owner"], "uploader": last["uploader"], "branch": change["branch"],
            "paths": last["paths"], "unresolved": any(it["unresolved"] for it in threads(change)), "is_in": self.is_in}
        return [{"name": name, "status": status(*requirements[name], facts)} for name in sorted(requirements)]

    def show_threads(self, number, change):
        return threads(change)

    def show_attention(self, number, change):
        return [{"account": account, "reason": reason, "request": request} for account, (reason, request) in sorted(change["attention"].items())]

    def unless_admin(self, caller):
        unless(not self.is_in("Administrators", caller), "NOT_ADMIN")

    def CreateAccount(self, line, caller, body):
        self.unless_admin(caller)
        unless(body["name"] in self.names, "NAME_TAKEN")
        self.names.append(body["name"])
        return {"account": len(self.names)}

    def PutGroup(self, line, caller, body):
        self.unless_admin(caller)
        unless(line["group"] == "Registered-Users", "NAME_TAKEN")
        unless(any(member > len(self.names) for member in body["members"]), "NO_ACCOUNT")
        self.groups[line["group"]] = set(body["members"])
        return {}

    def PutProject(self, line, caller, body):
        self.unless_admin(caller)
        if body["file"] in BAD_FILES:
            raise Refused("BAD_FILE", **BAD_FILES[body["file"]])
        project, own = line["project"], FILES[body["file"]]
        unless(project in self.projects and self.projects[project].parent != own.parent, "PARENT_FIXED")
        if own.parent:
            unless(own.parent not in self.projects, "NO_PARENT")
            unless(self.depth(own.parent) == MOST_DEPTH, "PARENT_DEPTH")
            known = {**self.file(own.parent).labels, **own.labels}
            if any(name not in known for conditions in own.requirements.values() for name in re.findall(r"label:([A-Za-z-]+)", " ".join(it for it in conditions if it))):
                raise Refused("BAD_FILE", reason="UNKNOWN_LABEL")
        labels = (self.inherited(own) if own.parent else own).labels
        for name, (values, _, _) in self.file(project).labels.items() if project in self.projects else []:
            unless(name not in labels or not set(values) <= set(labels[name][0]), "LABEL_NARROWED")
        self.projects[project] = own
        return {}

    def RecordBase(self, line, caller, body):
        self.unless_admin(caller)
        unless(line["project"] not in self.projects, "NO_PROJECT")
        unless(self.is_known(line["project"], line["branch"], body["commit"]), "COMMIT_KNOWN")
        self.bases.setdefault((line["project"], line["branch"]), []).append(body["commit"])
        return {}

    def CreateChange(self, line, caller, body):
        project, branch = body["project"], body["branch"]
        unless(project not in self.projects, "NO_PROJECT")
        unless(not self.bases.get((project, branch)), "NO_BRANCH")
        unless(not self.may(project, "create", caller), "NOT_ALLOWED")
        unless(self.is_known(project, branch, body["commit"]), "COMMIT_KNOWN")
        unless(not self.is_known(project, branch, body["parent"]), "UNKNOWN_PARENT")
        patch = {"commit": body["commit"], "parent": body["parent"], "paths": set(body["paths"]), "votes": {}, "uploader": caller}
        self.changes.append({
            "project": project, "branch": branch, "subject": body["subject"], "owner": caller, "patches": [patch], "comments": [], "state": "NEW",
            "wip": body.get("work_in_progress", False), "roles": {}, "attention": {}, "updated": self.request()})
        return {"change": len(self.changes), "patch_set": 1}

    def request(self):
        """The number of the request that is at hand."""
        return len(self.stored) + 1

    def call(self, change, account, reason, caller):
        """The rules call who is eligible, never the caller, and nobody on a change in work in progress; who is in stays as before."""
        if account in eligible(change) and account != caller and not change["wip"]:
            change["attention"].setdefault(account, (reason, self.request()))

    def runs(self, change, caller):
        return caller == change["owner"] or self.is_in("Administrators", caller)

    def change(self, number):
        unless(number > len(self.changes), "NO_CHANGE")
        return self.changes[number - 1]

    def Upload(self, line, caller, body):
        change = self.change(line["change"])
        project, last = change["project"], change["patches"][-1]
        unless(caller != change["owner"] and not self.may(project, "upload", caller), "NOT_ALLOWED")
        unless(change["state"] != "NEW", "CLOSED")
        unless(self.is_known(project, change["branch"], body["commit"]), "COMMIT_KNOWN")
        unless(not self.is_known(project, change["branch"], body["parent"]), "UNKNOWN_PARENT")
        labels = self.file(project).labels
        copied = {}
        for (label, account), value in last["votes"].items():
            if label not in labels or labels[label][1] is None:
                continue
            values, condition, _ = labels[label]
            vote = {"value": value, "voter": account, "least": min(values), "greatest": max(values), "kind": body["kind"], "uploader": caller,
                    "unchanged": last["paths"] == set(body["paths"]), "is_in": self.is_in}
            if holds(condition, lambda key, value, vote=vote: copy_term(key, value, vote)):
                copied[label, account] = value
        change["patches"].append({"commit": body["commit"], "parent": body["parent"], "paths": set(body["paths"]), "votes": copied, "uploader": caller})
        change["updated"] = self.request()
        if last["uploader"] not in eligible(change):
            change["attention"].pop(last["uploader"], None)
        for label, account in sorted(set(last["votes"]) - set(copied)):
            self.call(change, account, f"vote on {label} was not copied", caller)
        return {"change": line["change"], "copied": len(copied), "outdated": len(last["votes"]) - len(copied), "patch_set": len(change["patches"])}

    def Review(self, line, caller, body):
        change = self.change(line["change"])
        current = len(change["patches"])
        patch = current if line["patch_set"] == "current" else line["patch_set"]
        unless(patch > current, "NO_PATCH_SET")
        given = body.get("labels", {})
        if given:
            labels = self.file(change["project"]).labels
            unless(change["state"] != "NEW", "CLOSED")
            unless(patch != current, "STALE_PATCH_SET")
            unless(any(name not in labels for name in given), "NO_LABEL")
            unless(any(value not in labels[name][0] for name, value in given.items()), "VALUE_OUT")
            unless(any(not self.is_in_range(labels[name][2], caller, value) for name, value in given.items()), "VOTE_RESTRICTED")
        new = [{"path": path, **comment} for path, comments in sorted(body.get("comments", {}).items()) for comment in comments]
        stored = change["comments"]
        unless(any(comment["in_reply_to"] > len(stored) for comment in new if "in_reply_to" in comment), "NO_COMMENT")
        for name, value in given.items():
            change["patches"][-1]["votes"].pop((name, caller), None)
            if value != 0:
                change["patches"][-1]["votes"][name, caller] = value
        message = body.get("message", "")
        if any(given.values()):
            change["roles"][caller] = "REVIEWER"
        elif (new or message) and caller != change["owner"]:
            change["roles"].setdefault(caller, "CC")
        earlier = [thread for thread in threads(change) if any(it["id"] == comment.get("in_reply_to") for it in thread["comments"] for comment in new)]
        said = [{"path": "/PATCHSET_LEVEL", "message": message, "unresolved": False}] if message else []
        rows = [comment_row(comment, len(stored) + place, stored, caller, patch) for place, comment in enumerate(said + new, 1)]
        change["comments"] = stored + rows
        change["updated"] = self.request()
        self.attend_review(change, caller, earlier, rows)
        return {"comments": [row["id"] for row in rows]}

    def attend_review(self, change, caller, answered, rows):
        """Who is called by a review that answers these threads and makes these comments."""
        is_owner = caller == change["owner"]
        if change["state"] == "NEW" and not change["wip"]:
            change["attention"].pop(caller, None)
            for account in [] if is_owner else [change["owner"], change["patches"][-1]["uploader"]]:
                self.call(change, account, f"account {caller} replied on the change", caller)
            for comment in [it for thread in answered for it in thread["comments"]]:
                self.call(change, comment["author"], f"account {caller} replied in a thread", caller)
        elif change["state"] != "NEW":
            change["attention"].pop(caller, None)
            if not is_owner and any(row["unresolved"] for row in rows):
                self.call(change, change["owner"], f"account {caller} left an unresolved comment", caller)

    def AddReviewer(self, line, caller, body):
        change, account, role = self.change(line["change"]), int(body["reviewer"]), body.get("state", "REVIEWER")
        unless(account > len(self.names), "NO_ACCOUNT")
        unless(change["roles"].get(account) == role, "SAME_STATE")
        change["roles"][account] = role
        change["updated"] = self.request()
        if role == "REVIEWER" and change["state"] == "NEW":
            self.call(change, account, "Reviewer was added", caller)
        return {}

    def RemoveReviewer(self, line, caller, body):
        change, account = self.change(line["change"]), line["account"]
        unless(account > len(self.names), "NO_ACCOUNT")
        unless(caller != account and not self.runs(change, caller), "NOT_ALLOWED")
        unless(change["state"] != "NEW", "CLOSED")
        unless(account not in change["roles"], "SAME_STATE")
        del change["roles"][account]
        last = change["patches"][-1]
        last["votes"] = {key: value for key, value in last["votes"].items() if key[1] != account}
        change["updated"] = self.request()
        if account not in (change["owner"], last["uploader"]):
            change["attention"].pop(account, None)
        return {}

    def set_wip(self, line, caller, wip):
        change = self.change(line["change"])
        unless(not self.runs(change, caller), "NOT_ALLOWED")
        unless(change["state"] != "NEW", "CLOSED")
        unless(change["wip"] == wip, "SAME_STATE")
        change["wip"], change["updated"] = wip, self.request()
        return change

    def SetWip(self, line, caller, body):
        self.set_wip(line, caller, True)["attention"].clear()
        return {}

    def SetReady(self, line, caller, body):
        change = self.set_wip(line, caller, False)
        for account in with_role(change, "REVIEWER"):
            self.call(change, account, "Change is ready for review", caller)
        return {}

    def unless_may_abandon(self, change, caller):
        unless(not self.runs(change, caller) and not self.may(change["project"], "abandon", caller), "NOT_ALLOWED")

    def Abandon(self, line, caller, body):
        change = self.change(line["change"])
        self.unless_may_abandon(change, caller)
        unless(change["state"] != "NEW", "CLOSED")
        change["state"], change["updated"], change["attention"] = "ABANDONED", self.request(), {}
        return {}

    def Restore(self, line, caller, body):
        change = self.change(line["change"])
        self.unless_may_abandon(change, caller)
        unless(change["state"] == "MERGED", "CLOSED")
        unless(change["state"] == "NEW", "SAME_STATE")
        change["state"], change["updated"] = "NEW", self.request()
        return {}

    def current(self, number):
        """The current patch set of a change."""
        return self.changes[number - 1]["patches"][-1]

    def chain(self, number):
        """The changes that a submit of this one joins, ancestors first, found backwards; the first bad link refuses."""
        project, branch = (self.changes[number - 1][key] for key in ("project", "branch"))
        beside = [it for it, change in enumerate(self.changes, 1) if (change["project"], change["branch"]) == (project, branch)]
        in_branch = {*self.bases[project, branch], *(self.current(it)["commit"] for it in beside if self.changes[it - 1]["state"] == "MERGED")}
        chain = [number]
        while self.current(chain[0])["parent"] not in in_branch:
            unless(len(chain) == MOST_IN_CHAIN, "CHAIN_TOO_LONG")
            parent = self.current(chain[0])["parent"]
            link = next(it for it in beside if any(patch["commit"] == parent for patch in self.changes[it - 1]["patches"]))
            unless(self.current(link)["commit"] != parent, "CHAIN_OUTDATED")
            unless(self.changes[link - 1]["state"] == "ABANDONED", "CHAIN_ABANDONED")
            unless(self.changes[link - 1]["wip"], "CHAIN_WIP")
            chain.insert(0, link)
        return chain

    def Submit(self, line, caller, body):
        change = self.change(line["change"])
        unless(not self.may(change["project"], "submit", caller), "NOT_ALLOWED")
        unless(change["state"] != "NEW", "CLOSED")
        unless(change["wip"], "WORK_IN_PROGRESS")
        chain = self.chain(line["change"])
        for number in chain:
            for requirement in self.show_requirements(number, self.changes[number - 1]):
                if requirement["status"] == "UNSATISFIED":
                    raise Refused("REQUIREMENT_UNSATISFIED", change=number, requirement=requirement["name"])
        for number in chain:
            joining = self.changes[number - 1]
            joining["state"], joining["updated"], joining["attention"] = "MERGED", self.request(), {}
        self.joined.setdefault((change["project"], change["branch"]), []).extend(chain)
        return {"joined": chain}

    def CloseEpoch(self, line, caller, body):
        unless(not self.is_in("Administrators", caller), "NOT_ADMIN")
        unless(body["epoch"] > epoch_of(line), "EPOCH_AHEAD")
        unless(body["epoch"] <= self.least, "SAME_STATE")
        self.least = body["epoch"]
        return {}

    def AddAttention(self, line, caller, body):
        change, account = self.change(line["change"]), int(body["user"])
        unless(account > len(self.names), "NO_ACCOUNT")
        unless(change["state"] != "NEW", "CLOSED")
        unless(account not in eligible(change), "NOT_ELIGIBLE")
        unless(account in change["attention"], "SAME_STATE")
        change["attention"][account], change["updated"] = (body["reason"], self.request()), self.request()
        return {}

    def RemoveAttention(self, line, caller, body):
        change, account = self.change(line["change"]), line["account"]
        unless(account > len(self.names), "NO_ACCOUNT")
        unless(change["state"] != "NEW", "CLOSED")
        unless(account not in change["attention"], "SAME_STATE")
        del change["attention"][account]
        change["updated"] = self.request()
        return {}

    def is_in_range(self, grants, account, value):
        ranges = [ends for group, ends in grants.items() if self.is_in(group, account)]
        return min([0, *(least for least, _ in ranges)]) <= value <= max([0, *(greatest for _, greatest in ranges)])


def with_role(change, role):
    return sorted(account for account, it in change["roles"].items() if it == role)


def eligible(change):
    return {change["owner"], change["patches"][-1]["uploader"], *change["roles"]}


def comment_row(comment, number, stored, author, patch):
    """A comment as it is kept: whether it is unresolved is as the comment that it answers says, where it doesn't say."""
    answers = comment.get("in_reply_to")
    row = {"author": author, "id": number, "line": comment.get("line", 0), "message": comment["message"], "patch_set": patch, "path": comment["path"]}
    row["unresolved"] = comment.get("unresolved", stored[answers - 1]["unresolved"] if answers else False)
    return {**row, "in_reply_to": answers} if answers else row


def threads(change):
    """The threads of a change: of each comment that answers none, with all that answer it, directly or through others."""
    found = {}
    for comment in change["comments"]:
        root = comment["id"]
        while "in_reply_to" in change["comments"][root - 1]:
            root = change["comments"][root - 1]["in_reply_to"]
        found.setdefault(root, []).append(comment)
    return [{"comments": comments, "root": root, "unresolved": comments[-1]["unresolved"]} for root, comments in sorted(found.items())]


def status(applicable_if, override_if, submittable_if, facts):
    """How a submit requirement stands: the first that fits."""
    is_met = lambda key, value: requirement_term(key, value, facts)
    if applicable_if is not None and not holds(applicable_if, is_met):
        return "NOT_APPLICABLE"
    if override_if is not None and holds(override_if, is_met):
        return "OVERRIDDEN"
    return "SATISFIED" if holds(submittable_if, is_met) else "UNSATISFIED"


# Which members of a line say what its request is about; `change` alone, where none stand here. The others are ignored.
ROUTES = {
    "CreateAccount": (), "PutGroup": ("group",), "PutProject": ("project",), "RecordBase": ("project", "branch"), "CreateChange": (), "Review": ("change", "patch_set"),
    "RemoveReviewer": ("change", "account"), "RemoveAttention": ("change", "account"), "CloseEpoch": (),
}


def epoch_of(line):
    """The epoch of a request, the first where its line names none."""
    return line.get("epoch", 0)


def content_of(line):
    """What a line asks, however it is written."""
    body = {} if line["do"] in ("RemoveReviewer", "SetWip", "SetReady", "Abandon", "Restore", "Submit") else dict(line["body"])
    for key in ("members", "paths"):
        if key in body:
            body[key] = sorted(set(body[key]))
    for key, absent in (("work_in_progress", False), ("message", ""), ("labels", {}), ("comments", {})):
        if body.get(key) == absent:
            body.pop(key, None)
    for key in ("reviewer", "user"):
        if key in body:
            body[key] = int(body[key])
    if line["do"] == "AddReviewer":
        body.setdefault("state", "REVIEWER")
    where = {key: line[key] for key in ("do", *ROUTES.get(line["do"], ("change",)))}
    return json.dumps([where, body], sort_keys=True)
