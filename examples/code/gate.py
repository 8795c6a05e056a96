"""The gate before a submit: it passes on what the desk may take, byte for byte, and tells what would go wrong in git before the desk says that a change has merged. A module.

A submit of an open change is turned away where it names another patch set than the current one, where git doesn't have the commit, and where it conflicts with the branch.
These are answers of the gate, with `not_submitted`: the desk was not asked, so the request's id is free. The hook's lock is held from the last look to the desk's answer, so that no
push makes a newer patch set in between, and no other submit goes first; a merge is tried before that, since it may take long. Who asks is the X-Account of the proxy alone.
"""
import collections
import contextlib
import fcntl
import json
import os
import re
import shutil
import signal
import socket
import subprocess
import sys
import tempfile
import threading
import time
import urllib.parse

from patch_sets import MOST_SECONDS, NotShown, environment

LOCK_SECONDS, DESK_SECONDS, MOST_ANSWER, MOST_TRIES = 20, 60, 64_000_000, 3
REFUSED = (400, 403, 404)  # what the desk answers to a question about a change where it refuses a submit as well
HERE = os.path.dirname(os.path.realpath(__file__))


class NoAnswer(Exception):
    """The desk gave no whole answer: a status of HTTP, and why."""

    def __init__(self, status, why):
        super().__init__(why)
        self.status = status


class DeskPort:
    """Where the desk itself listens. One connection for each request, as the proxy has it."""

    def __init__(self, port):
        self.port = port

    def pass_on(self, method, path, fields, body):
        """The desk's answer to a request as the bytes that it sent, head and all, once it is here whole."""
        head = "".join(f"{name}: {value}\r\n" for name, value in fields)
        sent = f"{method} {path} HTTP/1.1\r\n{head}Connection: close\r\n\r\n".encode("latin-1") + body
        try:
            with socket.create_connection(("127.0.0.1", self.port), DESK_SECONDS) as peer:
                peer.sendall(sent)
                told, end = bytearray(), time.monotonic() + DESK_SECONDS
                while part := peer.recv(65536):
                    told += part
                    if time.monotonic() > end or len(told) > MOST_ANSWER:
                        raise NoAnswer(504, "the desk's answer takes too long")
        except TimeoutError as error:
            raise NoAnswer(504, "the desk gave no answer in time") from error
        except OSError as error:
            raise NoAnswer(502, f"the desk isn't reached: {error}") from error
        head, _, text = bytes(told).partition(b"\r\n\r\n")
        length = re.search(rb"\r\ncontent-length: *(\d+)", head, re.I)
        if not length or int(length[1]) != len(text):
            raise NoAnswer(502, "the desk's answer was cut off")
        return bytes(told)

    def ask(self, path, account):
        """The status and the answer to a question."""
        told = self.pass_on("GET", path, [("Host", "desk"), ("X-Account", str(account))], b"")
        head, _, text = told.partition(b"\r\n\r\n")
        return int(head.split(b" ", 2)[1]), json.loads(text[5:]) if text.startswith(b")]}'\n") else {}


class Gate:
    """That of one team: its repository, its project, and its desk."""

    def __init__(self, patch_sets, project, desk, scratch):
        self.patch_sets, self.project, self.desk, self.scratch = patch_sets, project, desk, scratch
        self.trying, self.turns = threading.BoundedSemaphore(MOST_TRIES), collections.defaultdict(threading.Lock)

    def change(self, number, account):
        """A change as the desk tells it to who asks."""
        status, told = self.desk.ask(f"/changes/{number}", account)
        if status != 200:
            raise NotShown(status if status >= 400 else 502, told.get("refused") or told.get("not_taken") or "NO_CHANGE")
        return told

    @contextlib.contextmanager
    def lock(self):
        """Holds the lock of the hook that makes patch sets; raises NotShown where another has it for too long."""
        os.makedirs(os.path.join(self.patch_sets.repository, "desk"), exist_ok=True)
        end = time.monotonic() + LOCK_SECONDS
        with open(os.path.join(self.patch_sets.repository, "desk", "lock"), "a", encoding="utf-8") as file:
            while True:
                try:
                    fcntl.flock(file, fcntl.LOCK_EX | fcntl.LOCK_NB)
                    break
                except BlockingIOError:
                    if time.monotonic() > end:
                        raise NotShown(503, "BUSY") from None
                    time.sleep(0.03)
            yield

    def conflicts(self, it, account, tried=None):
        """Whether a change merges into its branch as `follow` will have that by then, and the paths that conflict, in the words of Gerrit's MergeableInfo.

        `tried` keeps what was found, by what was asked.
        """
        commit = self.patch_sets.of(it["change"]).get(it["current_patch_set"])
        if commit != it["commit"] or it["project"] != self.project:
            raise NotShown(404, "NO_COMMIT")
        path = "/".join(urllib.parse.quote(part, safe="") for part in (it["project"], "branches", it["branch"]))
        status, told = self.desk.ask(f"/projects/{path}", account)
        if status != 200:
            raise NotShown(503, told.get("not_taken") or told.get("refused") or "NO_BRANCH")
        asked, tried = json.dumps({"branch": it["branch"], "change": it["change"], "commit": commit, "bases": told["bases"], "joined": told["joined"]}), {} if tried is None else tried
        if asked not in tried:
            tried[asked] = self.try_merge(asked, account)
        return tried[asked]

    def try_merge(self, asked, account):
        """What the program try_merge says, in a process of its own, which is ended with all its own where it takes too long; its objects are thrown away. An account has one at a
        time, so that the others aren't all waited for where one asks for what takes long again and again."""
        with contextlib.ExitStack() as held:
            for place in (self.turns[account], self.trying):
                if not place.acquire(timeout=LOCK_SECONDS):
                    raise NotShown(503, "BUSY")
                held.callback(place.release)
            folder = tempfile.mkdtemp(dir=self.scratch)
            held.callback(shutil.rmtree, folder, ignore_errors=True)
            own = {**environment(), "GIT_OBJECT_DIRECTORY": folder, "GIT_ALTERNATE_OBJECT_DIRECTORIES": os.path.join(self.patch_sets.repository, "objects")}
            words = [sys.executable, os.path.join(HERE, "try_merge")]
            with subprocess.Popen(words, cwd=self.patch_sets.repository, env=own, stdin=subprocess.PIPE, stdout=subprocess.PIPE, start_new_session=True) as running:
                try:
                    told, _ = running.communicate(asked.encode(), timeout=MOST_SECONDS)
                except subprocess.TimeoutExpired as error:
                    os.killpg(running.pid, signal.SIGKILL)
                    raise NotShown(503, "TOO_SLOW") from error
        if running.returncode:
            raise NotShown(503, "NO_MERGE_TRIED")
        return json.loads(told)

    def why_not(self, number, account, named, tried):
        """Why a submit isn't passed on, as a status and an answer; nothing where it is. `named` is what If-Match says."""
        status, it = self.desk.ask(f"/changes/{number}", account)
        if status not in (200, *REFUSED):
            raise NotShown(503, it.get("not_taken") or "NO_ANSWER")
        if status in REFUSED or it["status"] != "NEW":
            return None
        if named and named not in ("*", f'"{it["current_patch_set"]}"'):
            return 412, {"not_submitted": "STALE_PATCH_SET", "current_patch_set": it["current_patch_set"]}
        if it["project"] != self.project:
            return None
        try:
            found = self.conflicts(it, account, tried)
        except NotShown as why:
            if why.word == "NO_COMMIT":
                return 409, {"not_submitted": "NO_COMMIT"}
            raise
        if found["mergeable"]:
            return None
        return 409, {"not_submitted": "CONFLICT", "paths": found["conflicts"]} if found["conflicts"] else {"not_submitted": "NOT_MERGEABLE", "why": found["why"]}

    def submit(self, number, account, fields, body):
        """The answer to a submit: the desk's as it sent it, or a status and what the gate says."""
        named, tried = [value.strip() for name, value in fields if name.lower() == "if-match"], {}
        if len(named) > 1 or not all(re.fullmatch(r'\*|"[1-9][0-9]{0,9}"', it) for it in named):
            return 400, {"not_submitted": "BAD_IF_MATCH"}
        asked = (number, account, named[0] if named else None, tried)
        why = self.why_not(*asked)
        if why:
            return why
        with self.lock():
            return self.why_not(*asked) or self.desk.pass_on("POST", f"/changes/{number}/submit", fields, body)
