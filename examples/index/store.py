"""What the index keeps of a desk, in SQLite with FTS5. A module; standard library. All of it can be asked again: the file may be removed at any moment, and is filled anew."""
import contextlib
import json
import os
import secrets
import sqlite3

VERSION = "1"
TABLES = """
CREATE TABLE meta (key TEXT PRIMARY KEY, value TEXT NOT NULL) WITHOUT ROWID;
CREATE TABLE changes (number INTEGER PRIMARY KEY, project TEXT NOT NULL, branch TEXT NOT NULL, subject TEXT NOT NULL, status TEXT NOT NULL, wip INTEGER NOT NULL, owner INTEGER NOT NULL,
  uploader INTEGER NOT NULL, patch_set INTEGER NOT NULL, commit_name TEXT NOT NULL, updated INTEGER NOT NULL, submittable INTEGER NOT NULL, unresolved INTEGER NOT NULL,
  comments INTEGER NOT NULL, change_id TEXT NOT NULL, insertions INTEGER NOT NULL, deletions INTEGER NOT NULL, created_at INTEGER NOT NULL, updated_at INTEGER NOT NULL,
  submitted_at INTEGER NOT NULL, asked REAL NOT NULL, told TEXT NOT NULL);
CREATE INDEX by_updated ON changes (updated);
CREATE INDEX by_status ON changes (status, updated);
CREATE INDEX by_owner ON changes (owner, updated);
CREATE INDEX by_branch ON changes (project, branch, updated);
CREATE INDEX by_change_id ON changes (change_id);
CREATE INDEX by_asked ON changes (asked);
CREATE INDEX by_asked_open ON changes (asked) WHERE status = 'NEW';
CREATE INDEX by_submittable ON changes (updated) WHERE submittable = 1;
CREATE TABLE people (account INTEGER NOT NULL, role TEXT NOT NULL, change INTEGER NOT NULL, PRIMARY KEY (account, role, change)) WITHOUT ROWID;
CREATE INDEX people_of ON people (change);
CREATE INDEX people_in ON people (role, change);
CREATE TABLE votes (label TEXT NOT NULL, value INTEGER NOT NULL, account INTEGER NOT NULL, change INTEGER NOT NULL, PRIMARY KEY (change, label, account)) WITHOUT ROWID;
CREATE TABLE paths (path TEXT NOT NULL, change INTEGER NOT NULL, PRIMARY KEY (change, path)) WITHOUT ROWID;
CREATE TABLE commits (name TEXT NOT NULL, change INTEGER NOT NULL, patch_set INTEGER NOT NULL, PRIMARY KEY (name, change)) WITHOUT ROWID;
CREATE INDEX commits_of ON commits (change);
CREATE VIRTUAL TABLE words USING fts5 (subject, message, comments, author, committer, paths);
CREATE TABLE events (place INTEGER PRIMARY KEY AUTOINCREMENT, change INTEGER NOT NULL, type TEXT NOT NULL, at INTEGER NOT NULL, what TEXT NOT NULL);
"""
PARTS = ("people", "votes", "paths", "commits")
AT_ONCE, SOON = 0, 1  # of `asked`: what was known counts for nothing; it is asked again before others


def remove(file):
    for end in ("", "-wal", "-shm"):
        with contextlib.suppress(FileNotFoundError):
            os.remove(file + end)


def opened(file):
    """The index, to be written to. One of another version, one that is damaged, or none, is made anew; each has a name of its own, by which places in its events are known."""
    for _ in range(2):
        kept = sqlite3.connect(file, isolation_level=None, check_same_thread=False)
        try:
            kept.executescript("PRAGMA journal_mode = WAL; PRAGMA synchronous = NORMAL;")
            if kept.execute("SELECT 1 FROM sqlite_schema WHERE name = 'meta'").fetchone() and kept.execute("SELECT value FROM meta WHERE key = 'version'").fetchone() == (VERSION,):
                kept.execute("SELECT max(number) FROM changes").fetchone()
                return kept
        except sqlite3.DatabaseError:
            pass
        kept.close()
        remove(file)
        make(file)
    raise sqlite3.DatabaseError(f"no index can be made in {file}")


def make(file):
    with contextlib.closing(sqlite3.connect(file, isolation_level=None)) as kept:
        kept.executescript(f"PRAGMA journal_mode = WAL; BEGIN; {TABLES} INSERT INTO meta VALUES ('version', '{VERSION}'), ('name', '{secrets.token_hex(6)}'); COMMIT;")


def reader(file):
    """The index, to be read alone."""
    kept = sqlite3.connect(f"file:{file}?mode=ro", uri=True, isolation_level=None, check_same_thread=False)
    kept.execute("PRAGMA query_only = 1")
    kept.row_factory = sqlite3.Row
    return kept


def name_of(kept):
    return kept.execute("SELECT value FROM meta WHERE key = 'name'").fetchone()[0]


@contextlib.contextmanager
def whole(kept):
    """All that is written within, or nothing."""
    kept.execute("BEGIN IMMEDIATE")
    try:
        yield
    except BaseException:
        kept.execute("ROLLBACK")
        raise
    kept.execute("COMMIT")


def take_out(kept, number):
    for part in PARTS:
        kept.execute(f"DELETE FROM {part} WHERE change = ?", (number,))
    kept.execute("DELETE FROM words WHERE rowid = ?", (number,))
    kept.execute("DELETE FROM changes WHERE number = ?", (number,))


def tell(kept, number, events, now):
    kept.executemany("INSERT INTO events (change, type, at, what) VALUES (?, ?, ?, ?)", [(number, kind, now, json.dumps(what, ensure_ascii=False)) for kind, what in events])


def put(kept, told, git, now, events=()):
    """Puts a change as the desk and git tell it in the place of what was known of it, with what has happened. `told` has the desk's answers by their names."""
    it, comments = told["change"], [said for thread in told["threads"] for said in thread["comments"]]
    number, requirements = it["change"], told["requirements"]
    before = kept.execute("SELECT updated, updated_at, submitted_at FROM changes WHERE number = ?", (number,)).fetchone()
    updated_at = before[1] if before and before[0] == it["updated"] else now if before else git["at"] or now
    submitted_at = 0 if it["status"] != "MERGED" else before[2] if before and before[2] else updated_at
    is_submittable = it["status"] == "NEW" and not it["work_in_progress"] and all(one["status"] != "UNSATISFIED" for one in requirements)
    kept_of_it = {"change": it, "requirements": requirements, "attention": told["attention"], "revisions": git["revisions"], "parents": git["parents"]}
    roles = {(account, "REVIEWER") for account in it["reviewers"]} | {(account, "CC") for account in it["ccs"]} | {(one["account"], "ATTENTION") for one in told["attention"]}
    roles |= {(said["author"], "WRITER") for said in comments}
    names = {commit: int(patch_set) for patch_set, commit in git["revisions"].items()} | {it["commit"]: it["current_patch_set"]}
    with whole(kept):
        take_out(kept, number)
        kept.execute(f"INSERT INTO changes VALUES ({', '.join('?' * 22)})", (
            number, it["project"], it["branch"], it["subject"], it["status"], it["work_in_progress"], it["owner"], it["uploader"], it["current_patch_set"], it["commit"], it["updated"],
            is_submittable, sum(thread["unresolved"] for thread in told["threads"]), len(comments), git["change_id"], git["insertions"], git["deletions"], git["created"] or updated_at,
            updated_at, submitted_at, now, json.dumps(kept_of_it, ensure_ascii=False, separators=(",", ":"))))
        kept.executemany("INSERT INTO people VALUES (?, ?, ?)", [(*one, number) for one in roles])
        kept.executemany("INSERT INTO votes VALUES (?, ?, ?, ?)", [(one["label"], one["value"], one["account"], number) for one in it["votes"]])
        kept.executemany("INSERT OR IGNORE INTO paths VALUES (?, ?)", [(path, number) for path in git["paths"]])
        kept.executemany("INSERT INTO commits VALUES (?, ?, ?)", [(name, number, patch_set) for name, patch_set in names.items()])
        kept.execute("INSERT INTO words (rowid, subject, message, comments, author, committer, paths) VALUES (?, ?, ?, ?, ?, ?, ?)",
                     (number, it["subject"], git["message"], "\n".join(said["message"] for said in comments), git["author"], git["committer"], "\n".join(git["paths"])))
        tell(kept, number, events, int(now))
