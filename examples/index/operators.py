"""What the operators of Gerrit's query language mean for the tables of the index. A module; standard library.

    query = Query("is:open owner:self", names, caller=2, labels={"tools": {"Code-Review": [-2, 2]}})
    query.condition, query.values, query.limit

What can't be answered from what the desk and git tell is refused by its name, rather than answered wrongly. Of regular expressions only ^BEGINNING.* is taken, since Python's can
take without end.
"""
import re
import time

from amounts import age, compared, moment
from grammar import ALWAYS, NEVER, BadQuery, Reader, joined

STATUS = {"open": "NEW", "new": "NEW", "pending": "NEW", "merged": "MERGED", "abandoned": "ABANDONED"}
VOTE = re.compile(r"(?P<label>[A-Za-z][A-Za-z0-9-]*?)(?P<how>>=|<=|>|<|=|(?=[+-][0-9]))(?P<value>[+-]?[0-9]{1,2}|MAX|MIN|ANY)")
CHANGE = re.compile(r"(?:[^~\s]+~){0,2}(?:\d{1,10}|[iI][0-9a-f]{4,40})")
CALLED = "c.number IN (SELECT change FROM people WHERE role = 'ATTENTION')"
IS = {"wip": "c.wip = 1", "submittable": "c.submittable = 1", "attention": CALLED, "visible": "1", "private": "0", "ignored": "0", "assigned": "0", "unassigned": "1", "merge": "0",
      "cherrypick": "0"}
HAS = {"unresolved": "c.unresolved > 0", "attention": CALLED, "hashtag": "0", "topic": "0", "edit": "0"}
ALSO = {"p": "project", "repo": "project", "repository": "project", "repositories": "projects", "r": "reviewer", "m": "message", "o": "owner", "sha1": "commit", "since": "after",
        "until": "before", "ext": "extension", "dir": "directory", "intopic": "topic", "prefixtopic": "topic", "hashtag": "topic", "inhashtag": "topic", "prefixhashtag": "topic",
        "assignee": "topic", "size": "delta"}


def among(table, test, values):
    """What few changes have in another table: these are looked up first."""
    return f"c.number IN (SELECT change FROM {table} WHERE {test})", values


def each(table, test, values):
    """What many changes have in another table: each change is asked, the newest first, until there are enough."""
    return f"EXISTS (SELECT 1 FROM {table} WHERE change = c.number AND ({test}))", values


def words(columns, text, is_begin=False):
    """Words of a text, next to each other, of which the last one may be a beginning. FTS5 takes what stands in double quotes as words and as nothing else."""
    if not re.search(r"[^\W_]", text):
        raise BadQuery(f"there is no word in {text!r}")
    return "c.number IN (SELECT rowid FROM words WHERE words MATCH ?)", ["{" + columns + '} : "' + text.replace('"', '""').replace("\0", " ") + '"' + "*" * is_begin]


def beginning(text):
    """What stands behind a ^, and whether more may follow."""
    found = re.fullmatch(r"\^((?:[\w/ @:,=~-]|\\.)+)(\.\*)?\$?", text)
    if not found:
        raise BadQuery(f"of regular expressions only ^BEGINNING.* is taken, and not {text}")
    return re.sub(r"\\(.)", r"\1", found[1]), bool(found[2])


def named(column, text):
    """A name, or where it is ^BEGINNING.* all that begin so."""
    plain, has_more = beginning(text) if text.startswith("^") else (text, False)
    return (f"substr({column}, 1, ?) = ?", [len(plain), plain]) if has_more else (f"{column} = ?", [plain])


def of_path(text, test, values):
    """A condition for the paths of a change, each of which has the words of a text: so only changes are asked that have these next to each other."""
    met = each("paths", test, values)
    return joined("AND", [words("paths", text, is_begin=True), met]) if re.search(r"[^\W_]", text) else met


class Query:
    """A query of a caller's: its condition for a row `c` of changes with the values for it, and the limit that it says. `names.number` has the account of a name; `labels` are the
    values of each label of each project, least first."""

    def __init__(self, text, names, caller, labels):
        self.names, self.caller, self.labels, self.limit = names, caller, labels, None
        self.condition, self.values = Reader(text, self.term).read()

    def term(self, field, text):
        if text.startswith("^") and ALSO.get(field, field) in (None, "message", "subject", "directory"):  # Gerrit takes regular expressions there.
            raise BadQuery(f"^BEGINNING.* is taken behind project:, branch:, ref:, path: and file:, and not here: {text}")
        if field is None:
            return self.bare(text)
        meaning = getattr(self, "by_" + ALSO.get(field, field), None)
        if not meaning:
            raise BadQuery(f"the operator {field}: can't be answered here")
        return meaning(text)

    def bare(self, text):
        """A word without an operator: a number, a commit, a Change-Id, or as in Gerrit whatever has it."""
        if CHANGE.fullmatch(text):
            return joined("OR", [self.by_change(text), *([self.by_commit(text)] if re.fullmatch(r"\d{6,10}", text) else [])])
        if text.startswith("refs/"):
            return self.by_ref(text)
        found = [words("subject message comments", text), self.by_file(text), self.by_projects(text), ("c.branch = ?", [text])]
        if re.fullmatch(r"[0-9a-f]{6,40}", text):
            found.append(self.by_commit(text))
        if self.names.number(text) is not None:
            found += [self.by_owner(text), self.by_reviewer(text)]
        if VOTE.fullmatch(text):
            found.append(self.by_label(text))
        return joined("OR", found)

    # ---- people

    def account(self, text):
        if text in ("self", "me"):
            return self.caller
        found = self.names.number(text)
        if found is None:
            raise BadQuery(f"there is no account {text}")
        return found

    def role(self, role, text):
        return among("people", "account = ? AND role = ?", [self.account(text), role])

    def by_owner(self, text):
        return "c.owner = ?", [self.account(text)]

    def by_uploader(self, text):
        return "c.uploader = ?", [self.account(text)]

    def by_reviewer(self, text):
        return self.role("REVIEWER", text)

    def by_cc(self, text):
        return self.role("CC", text)

    def by_attention(self, text):
        return self.role("ATTENTION", text)

    def by_commentby(self, text):
        return self.role("WRITER", text)

    def by_from(self, text):
        return joined("OR", [self.by_owner(text), self.by_commentby(text)])

    def by_author(self, text):
        return words("author", text)

    def by_committer(self, text):
        return words("committer", text)

    # ---- where, and what

    def by_project(self, text):
        return named("c.project", text if text.startswith("^") else text.removesuffix(".git"))

    def by_projects(self, text):
        return "substr(c.project, 1, ?) = ?", [len(text), text]

    def by_branch(self, text):
        return named("c.branch", text.removeprefix("refs/heads/"))

    def by_ref(self, text):
        return named("'refs/heads/' || c.branch", text)

    def by_path(self, text):
        return of_path(beginning(text)[0] if text.startswith("^") else text, *named("path", text))

    def by_file(self, text):
        return self.by_path(text) if text.startswith("^") else of_path(text, "instr('/' || path || '/', ?)", [f"/{text}/"])

    def by_directory(self, text):
        return of_path(text, "instr('/' || lower(path), ?)", [f"/{text.strip('/').lower()}/"]) if text.strip("/") else ALWAYS

    def by_extension(self, text):
        end = "." + text.lstrip(".").lower()
        return of_path(end, "lower(substr(path, ?)) = ?", [-len(end), end])

    def by_message(self, text):
        return words("subject message", text)

    def by_subject(self, text):
        return words("subject", text)

    def by_comment(self, text):
        return words("comments", text)

    def by_topic(self, _):
        return NEVER  # A desk has no topics, hashtags and assignees, so no change has one.

    def by_change(self, text):
        if not CHANGE.fullmatch(text):
            raise BadQuery(f"{text} is no change")
        *where, last = text.split("~")
        project = [("c.project = ?", [where[0]])] if where else []
        branch = [("c.branch = ?", [where[1].removeprefix("refs/heads/")])] if len(where) > 1 else []
        if re.fullmatch(r"\d{1,10}", last):
            return joined("AND", [("c.number = ?", [int(last)]), *project, *branch])
        return joined("AND", [("c.change_id BETWEEN ? AND ?", ["I" + last[1:], "I" + last[1:] + "g"]), *project, *branch])

    def by_commit(self, text):
        if not re.fullmatch(r"[0-9a-f]{4,40}", text):
            raise BadQuery(f"{text} is no commit")
        return among("commits", "name BETWEEN ? AND ?", [text, text + "g"])

    # ---- states

    def by_status(self, text):
        if text.lower() == "closed":
            return "c.status <> 'NEW'", []
        found = [status for word, status in STATUS.items() if text and word.startswith(text.lower())]
        if not found:
            raise BadQuery(f"there is no status {text}")
        return "c.status = ?", [found[0]]

    def by_is(self, text):
        text = text.lower()
        if text in STATUS or text == "closed":
            return self.by_status(text)
        if text in ("owner", "uploader", "reviewer", "cc"):
            return getattr(self, f"by_{text}")("self")
        if text not in IS:
            raise BadQuery(f"is:{text} can't be answered here")
        return IS[text], []

    def by_has(self, text):
        if text not in HAS:
            raise BadQuery(f"has:{text} can't be answered here")
        return HAS[text], []

    def by_label(self, text):
        """Votes on the current patch set. A vote of 0 is none, so =0, <=0 and >=0 hold also where nobody voted."""
        said, *more = text.split(",")
        found = VOTE.fullmatch(said)
        if not found:
            raise BadQuery(f"label:{text} is no comparison of a label with a value")
        label, how, value = found["label"], found["how"] or "=", found["value"]
        test, values = self.of_value(label, how, value)
        for one in more:
            key, _, who = one.rpartition("=")
            if key not in ("", "user") or who == "non_contributor":
                raise BadQuery(f"label: with {one} can't be answered here")
            if who in ("owner", "non_uploader"):
                test += " AND account = c.owner" if who == "owner" else " AND account <> c.uploader"
            else:
                test, values = f"{test} AND account = ?", [*values, self.account(who)]
        met = each("votes", test, values)
        is_zero = not more and re.fullmatch(r"[+-]?0", value) and how in ("=", ">=", "<=")
        is_beyond = not more and re.fullmatch(r"[+-]?[1-9]\d?", value) and (how[0] == "<" if int(value) > 0 else how[0] == ">")
        return joined("OR", [met, (f"NOT {each('votes', 'label = ?', [])[0]}", [label])]) if is_zero or is_beyond else met

    def of_value(self, label, how, value):
        """The condition for a vote's value; MAX and MIN are those of the change's project."""
        if value == "ANY":
            return "label = ?", [label]
        if value not in ("MAX", "MIN"):
            return f"label = ? AND value {how} ?", [label, int(value)]
        at = -1 if value == "MAX" else 0
        known = [(project, labels[label][at]) for project, labels in self.labels.items() if labels.get(label)]
        if not known:
            raise BadQuery(f"the values of {label} aren't known here")
        test, values = joined("OR", [(f"(c.project = ? AND value {how} ?)", list(it)) for it in known])
        return f"label = ? AND {test}", [label, *values]

    # ---- numbers and times

    def by_added(self, text):
        return compared("c.insertions", text)

    def by_deleted(self, text):
        return compared("c.deletions", text)

    def by_delta(self, text):
        return compared("c.insertions + c.deletions", text)

    def by_unresolved(self, text):
        return compared("c.unresolved", text)

    def by_age(self, text):
        return "c.updated_at <= ?", [int(time.time()) - age(text)]

    def by_after(self, text):
        return "c.updated_at >= ?", [moment(text)]

    def by_before(self, text):
        return "c.updated_at <= ?", [moment(text)]

    def by_mergedafter(self, text):
        return "c.submitted_at >= ?", [moment(text)]

    def by_mergedbefore(self, text):
        return "c.submitted_at BETWEEN 1 AND ?", [moment(text)]

    def by_limit(self, text):
        if not re.fullmatch(r"[1-9]\d{0,8}", text):
            raise BadQuery(f"limit:{text} is no number above 0")
        self.limit = int(text)
        return ALWAYS
