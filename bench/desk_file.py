"""What the tests of a desk in a file share: the program on a file, what its tables hold, and a short session that fills each of them.

The environment variable DESK_PROGRAM names the program, where it isn't that of this copy.
"""
import contextlib
import importlib.machinery
import importlib.util
import itertools
import json
import os
import re
import shutil
import sqlite3
import subprocess
import sys
import tempfile

TOP = os.path.dirname(os.path.dirname(os.path.realpath(__file__)))
PROGRAM = os.environ.get("DESK_PROGRAM") or os.path.join(TOP, "crates", "review_desk", "out", "review_desk")
TABLES = ("accounts", "members", "projects_2", "bases", "changes", "patches", "votes", "reviewers", "comments", "attention", "answers_3", "epochs", "desk")
STORE_FAULT = b"review_desk: store fault\n"
NO_MEMORY = re.compile(rb'"not_taken":"MEMORY"|out of memory')
CREATED, NOT_EMPTY = (0, b"desk created\n", b""), (1, b"", b"review_desk: not empty\n")


def check(is_right, *what):
    if not is_right:
        sys.exit(f"not as it should be: {what}")


def run(*words, sent=b"", program=None, seconds=120, **environment):
    """Runs the program: its status, its output, and what it said on standard error."""
    try:
        done = subprocess.run([program or PROGRAM, *words], input=sent, capture_output=True, env={**os.environ, **environment}, timeout=seconds, check=False)
    except subprocess.TimeoutExpired:
        sys.exit(f"not ended after {seconds} seconds: {words}")
    return done.returncode, done.stdout, done.stderr


def work_folder(runs_programs=False):
    """A temporary folder, in memory where there is such a place: what is tested doesn't depend on how long a disk takes. From some no program or library may be run."""
    places = [it for it in ("/dev/shm", tempfile.gettempdir(), os.path.dirname(PROGRAM)) if os.access(it, os.W_OK | os.X_OK)]
    usable = [it for it in places if not (runs_programs and os.statvfs(it).f_flag & os.ST_NOEXEC)]
    return tempfile.TemporaryDirectory(dir=usable[0] if usable else None)


def copy(file, to):
    """Copies a desk: the file, and its log where there is one."""
    for end in ("", "-wal"):
        if os.path.exists(file + end):
            shutil.copyfile(file + end, to + end)
        elif os.path.exists(to + end):
            os.remove(to + end)
    return to


def bytes_of(file):
    """What the file and its log hold."""
    return tuple(open(file + end, "rb").read() if os.path.exists(file + end) else None for end in ("", "-wal"))


@contextlib.contextmanager
def connected(file):
    """A connection of sqlite3 to a copy of a desk, so that the desk itself stays as it is."""
    with work_folder() as folder, contextlib.closing(sqlite3.connect(copy(file, os.path.join(folder, "copy")))) as conn:
        conn.text_factory = bytes
        yield conn


def tables(file, is_sound=True):
    """The rows of each table, in an order that doesn't tell when they were written. Unless it was damaged by hand, sqlite3 finds the file sound."""
    with connected(file) as conn:
        if is_sound:
            found = conn.execute("PRAGMA integrity_check").fetchall()
            check(found == [(b"ok",)], file, found)
        return {name: sorted(conn.execute(f"SELECT * FROM {name}"), key=repr) for name in TABLES}


def requests_in(rows):
    """How many requests are stored, by the rows of all tables."""
    return rows["desk"][0][1]


def difference(some, others):
    """The first table in which two desks differ, and its rows that only one of them has."""
    for name in TABLES:
        if some[name] != others[name]:
            return name, [row for row in some[name] if row not in others[name]], [row for row in others[name] if row not in some[name]]
    return None


# The sessions of scripts/program.txt that begin with the texts of a version, one after the other.
EARLIER = {1: ("a desk of version 1",), 2: ("a desk of version 1", "a desk of version 2, after a desk of version 1")}


def make_earlier(file, version):
    """Makes the desk of an earlier version that sessions of scripts/program.txt begin with."""
    with open(os.path.join(TOP, "scripts", "program.txt"), encoding="utf-8") as transcript:
        whole = transcript.read()
    with contextlib.closing(sqlite3.connect(file)) as conn:
        for session in EARLIER[version]:
            lines = whole.split(f"\n== {session}\n")[1].split("\n")
            for statement in itertools.takewhile(lambda it: it.startswith("sql d "), lines):
                conn.execute(statement.removeprefix("sql d "))
        conn.commit()


def load_model():
    """The model of the desk, with its random scripts, as a module."""
    sys.dont_write_bytecode = True
    loader = importlib.machinery.SourceFileLoader("model", os.path.join(TOP, "bench", "model"))
    model = importlib.util.module_from_spec(importlib.util.spec_from_loader("model", loader))
    loader.exec_module(model)
    return model


def text(answer):
    """An answer as the desk writes it."""
    return json.dumps(answer, ensure_ascii=False, sort_keys=True, separators=(",", ":")).encode() + b"\n"


def line(do, id=None, caller=1, body=None, **route):
    whole = {"caller": caller, **({"id": id} if id else {}), "do": do, **route, **({} if body is None else {"body": body})}
    return json.dumps(whole, separators=(",", ":")).encode() + b"\n"


FILE = """[access]
create = ["Registered-Users"]
submit = ["Core"]
[label.Code-Review]
copyCondition = "changekind:NO_CODE_CHANGE"
values = {0 = "None", 1 = "Good"}
grant.Core = [0, 1]
[submit-requirement.Code-Review]
submittableIf = "label:Code-Review=1,user=non_uploader"
"""
FIRST = "0" * 40


def change(id, commit, parent=FIRST, caller=2):
    body = {"project": "tools", "branch": "main", "subject": "Fix", "commit": commit, "parent": parent, "paths": ["src/a.rs", "src/b.rs"]}
    return line("CreateChange", id, caller, body)


# Ten requests, after which each table has a row.
TEN = [
    line("CreateAccount", "a1", body={"name": "ann"}),
    line("CreateAccount", "a2", body={"name": "bob"}),
    line("PutGroup", "g1", body={"members": [2, 3]}, group="Core"),
    line("PutProject", "p1", body={"file": FILE}, project="tools"),
    line("RecordBase", "b1", body={"commit": FIRST}, project="tools", branch="main"),
    change("c1", "a" * 40),
    line("Review", "v1", 3, {"labels": {"Code-Review": 1}, "comments": {"src/a.rs": [{"line": 4, "message": "why", "unresolved": True}]}}, change=1, patch_set="current"),
    line("Submit", "s1", 3, change=1),
    change("c2", "b" * 40, "a" * 40),
    line("Review", "v2", 3, {"labels": {"Code-Review": 1}, "message": "so"}, change=2, patch_set="current"),
]
