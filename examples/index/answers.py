"""What the index answers, in the forms of Gerrit's REST API. A module; standard library."""
import datetime
import json
import re
import sqlite3
import time
import urllib.parse

from events import lines_of, named
from grammar import BadQuery
from operators import Query
from store import name_of, reader

MOST, MOST_START, MOST_QUERIES, SECONDS = 500, 1_000_000, 12, 5
LAST_SECOND = 253402300799  # of the year 9999
WITH_REVISIONS = {"CURRENT_REVISION", "ALL_REVISIONS", "CURRENT_COMMIT", "CURRENT_FILES", "DOWNLOAD_COMMANDS"}
ROLES = {"REVIEWER": "reviewers", "CC": "ccs"}


class Told(Exception):
    """An answer other than 200: its status and a line of text."""

    def __init__(self, status, text):
        super().__init__(text)
        self.status = status


class Names:
    """The users of a team's accounts.conf, also those who were removed, whose names stay; it is read again where it has changed."""

    def __init__(self, team):
        self.team, self.seen, self.lines = team, None, []

    def read(self):
        status = self.team.stat("accounts.conf")
        if status != self.seen:
            self.lines, self.seen = self.team.account_lines(), status
        return self.lines

    def number(self, text):
        """The account of a name, or of a number, which may be that of nobody."""
        found = [number for name, number, _ in self.read() if name == text]
        return found[-1] if found else int(text) if re.fullmatch(r"[1-9]\d{0,8}", text) else None

    def info(self, number):
        """Gerrit's AccountInfo."""
        name = next((name for name, it, _ in reversed(self.read()) if it == number), None)
        return {"_account_id": number, **({"name": name, "username": name} if name else {"name": f"account {number}"})}


def moment(seconds):
    """Gerrit's form of a time. What an author says of a commit's may be beyond the last one that has such a form."""
    return datetime.datetime.fromtimestamp(min(seconds, LAST_SECOND), datetime.timezone.utc).strftime("%Y-%m-%d %H:%M:%S.000000000")


def one_of(said, name, otherwise):
    return said.get(name, [otherwise])[-1]


class Answers:
    """What is answered to a path. Each request has one of these, with a connection of its own to the index."""

    def __init__(self, team, names, index_file, state):
        self.team, self.names, self.state = team, names, state
        try:
            self.kept = reader(index_file)
        except sqlite3.OperationalError as error:
            raise Told(503, "The index is being made; ask again.") from error

    def rows(self, text, values=()):
        """Rows; a query that takes too long is ended."""
        end = time.monotonic() + SECONDS
        self.kept.set_progress_handler(lambda: time.monotonic() > end, 10000)
        try:
            return self.kept.execute(text, values).fetchall()
        except sqlite3.OperationalError as error:
            raise Told(503, f"The query takes more than {SECONDS} seconds." if "interrupted" in str(error) else f"The index can't answer: {error}.") from error

    # ---- changes

    def changes(self, caller, said):
        queries = said.get("q", ["status:open"])
        if len(queries) > MOST_QUERIES:
            raise Told(400, f"more than {MOST_QUERIES} queries at once")
        found = [self.search(caller, text, said) for text in queries]
        return found[0] if len(found) == 1 else found

    def search(self, caller, text, said):
        try:
            asked = Query(text, self.names, caller, self.team.labels())
        except (BadQuery, ValueError) as error:
            raise Told(400, str(error)) from error
        count, start = one_of(said, "n", one_of(said, "limit", str(MOST))), one_of(said, "S", one_of(said, "start", "0"))
        if not re.fullmatch(r"[1-9][0-9]{0,8}", count) or not re.fullmatch(r"[0-9]{1,9}", start) or int(start) >= MOST_START:
            raise Told(400, f"n is 1 or more, and S is 0 to {MOST_START - 1}")
        count, start = min(int(count), asked.limit or MOST, MOST), int(start)
        found = self.rows(f"SELECT * FROM changes c WHERE {asked.condition} ORDER BY c.updated DESC, c.number DESC LIMIT ? OFFSET ?", [*asked.values, count + 1, start])
        shown = [self.change_info(row, set(said.get("o", []))) for row in found[:count]]
        if len(found) > count:
            shown[-1]["_more_changes"] = True
        return shown

    def change_info(self, row, options):
        """Gerrit's ChangeInfo."""
        told, info = json.loads(row["told"]), self.names.info
        it = told["change"]
        said = {
            "id": f"{urllib.parse.quote(it['project'], safe='')}~{it['change']}", "project": it["project"], "branch": it["branch"], "subject": it["subject"], "status": it["status"],
            "change_id": row["change_id"] or f"I{it['change']:040x}", "created": moment(row["created_at"]), "updated": moment(row["updated_at"]), "hashtags": [],
            "submittable": bool(row["submittable"]), "insertions": row["insertions"], "deletions": row["deletions"], "total_comment_count": row["comments"],
            "unresolved_comment_count": row["unresolved"], "has_review_started": not it["work_in_progress"], "_number": it["change"], "owner": info(it["owner"]),
            "current_revision_number": it["current_patch_set"], "updated_request": it["updated"], "labels": self.labels_of(it),
            "reviewers": {role: [info(account) for account in it[name]] for role, name in ROLES.items() if it[name]},
            "attention_set": {str(one["account"]): {"account": info(one["account"]), "reason": named(one["reason"], info), "last_update": moment(row["updated_at"])} for one in told["attention"]},
            "submit_requirements": [{**one, "is_legacy": False} for one in told["requirements"]]}
        if it["work_in_progress"]:
            said["work_in_progress"] = True
        if row["submitted_at"]:
            said["submitted"] = moment(row["submitted_at"])
        if options & WITH_REVISIONS:
            revisions = told["revisions"] | {str(it["current_patch_set"]): it["commit"]}
            said["current_revision"] = it["commit"]
            said["revisions"] = {name: self.revision(it, int(number)) for number, name in revisions.items() if "ALL_REVISIONS" in options or name == it["commit"]}
        return said

    def labels_of(self, it):
        """The votes on the current patch set, label by label."""
        labels, info = {}, self.names.info
        for vote in it["votes"]:
            label, value = labels.setdefault(vote["label"], {"all": []}), vote["value"]
            values = self.team.labels().get(it["project"], {}).get(vote["label"])
            label["all"].append({**info(vote["account"]), "value": value})
            word = "rejected" if values and value == values[0] else "approved" if values and value == values[-1] else "recommended" if value > 0 else "disliked"
            label[word] = info(vote["account"])
        return labels

    def revision(self, it, number):
        ref, url = f"refs/changes/{it['change'] % 100:02}/{it['change']}/{number}", f"{self.team.address}/{it['project']}.git"
        return {"_number": number, "kind": "REWORK", "ref": ref, "uploader": self.names.info(it["uploader"]), "fetch": {"http": {"url": url, "ref": ref}}}

    def change(self, _, number, said):
        found = self.rows("SELECT * FROM changes WHERE number = ?", [int(number)])
        if not found:
            raise Told(404, f"Not found: {number}")
        return self.change_info(found[0], {*said.get("o", []), "CURRENT_REVISION"})

    # ---- accounts, and what clients ask first

    def accounts(self, _, said):
        begin = one_of(said, "q", "").split(":")[-1].lower()
        found = sorted({number for name, number, gone in self.names.read() if not gone and (name.lower().startswith(begin) or str(number) == begin)})
        return [self.names.info(number) for number in found[:MOST]]

    def account(self, caller, text, _):
        number = caller if text in ("self", "me") else self.names.number(text)
        if number != caller and number not in [it for _, it, _ in self.names.read()]:
            raise Told(404, f"Account '{text}' not found")
        return self.names.info(number)

    def projects(self, *_):
        found = {name for (name,) in self.rows("SELECT DISTINCT project FROM changes")} | {*self.team.labels(), self.team.settings["project"]}
        return {name: {"id": urllib.parse.quote(name, safe=""), "state": "ACTIVE"} for name in sorted(found)}

    def version(self, *_):
        return "3.4.0"  # whose forms these are

    def server_info(self, *_):
        return {"accounts": {"visibility": "ALL"}, "auth": {"auth_type": "HTTP", "git_basic_auth_policy": "HTTP"}, "change": {"enable_attention_set": True},
                "gerrit": {"all_projects": "All-Projects", "all_users": "All-Users", "doc_search": False}}

    # ---- the index itself

    def index_state(self, *_):
        """How far behind the index is: when it last heard of the desk, whether it has all changes, how many it will ask for soon, and how long ago each open one was asked for."""
        now, state = time.time(), self.state()
        (row,) = self.rows("SELECT (SELECT count(*) FROM changes WHERE status = 'NEW') AS open, (SELECT max(number) FROM changes) AS last, (SELECT max(place) FROM events) AS place, "
                           "(SELECT count(*) FROM changes WHERE asked <= 1) AS waiting, (SELECT min(asked) FROM changes WHERE status = 'NEW' AND asked > 1) AS oldest")
        return {"heard_seconds_ago": round(now - state["heard"], 1) if state["heard"] else None, "has_all_changes": state["is_filled"], "waiting": row["waiting"], "open": row["open"],
                "last": row["last"] or 0, "open_asked_seconds_ago": round(now - row["oldest"], 1) if row["oldest"] else None, "place": f"{name_of(self.kept)}.{row['place'] or 0}"}

    def events(self, _, said):
        """What has happened behind a place, as lines of JSON; behind a place of another index file, or of none, from the beginning."""
        found = re.fullmatch(r"([0-9a-f]{12})\.(\d{1,15})", one_of(said, "after", ""))
        count = one_of(said, "n", str(MOST))
        if (one_of(said, "after", "") and not found) or not re.fullmatch(r"[1-9]\d{0,5}", count):
            raise Told(400, "after is a place that an event had, and n a number above 0")
        name = name_of(self.kept)
        rows = self.rows("SELECT e.place, e.change, e.type, e.at, e.what, c.told, c.change_id FROM events e LEFT JOIN changes c ON c.number = e.change "
                         "WHERE e.place > ? ORDER BY e.place LIMIT ?", [int(found[2]) if found and found[1] == name else 0, min(int(count), MOST)])
        return lines_of(rows, name, self.names.info, f"{self.team.address}/page/?change=")

    ROUTES = ((r"/changes/", changes), (r"/changes/(?:[^/~]+~)?(\d{1,10})/detail", change), (r"/accounts/", accounts), (r"/accounts/([^/]+)(?:/detail)?", account),
              (r"/projects/", projects), (r"/config/server/version", version), (r"/config/server/info", server_info), (r"/index/state", index_state),
              (r"/index/events", events))

    def answer(self, path, caller):
        """What is said to a path; Told where it isn't answered with 200."""
        parts = urllib.parse.urlsplit(path)
        try:
            said = urllib.parse.parse_qs(parts.query, keep_blank_values=True, max_num_fields=64)
        except ValueError as error:
            raise Told(400, "too many words behind the question mark") from error
        for route, answer in self.ROUTES:
            found = re.fullmatch(route, parts.path)
            if found:
                return answer(self, caller, *(urllib.parse.unquote(part) for part in found.groups()), said)
        raise Told(404, "Not found")
