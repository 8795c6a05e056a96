"""What the tests of examples/index share: a desk behind nginx with a repository and an index, each of which the test starts, kills and starts again. A module.

Hints go through the test, which loses some. ann, bob and cal are accounts 2 to 4 of the group Core, and admin is account 1.
"""
import contextlib
import json
import os
import random
import signal
import socket
import sqlite3
import subprocess
import sys
import tempfile
import threading
import time
import urllib.parse

from desk_file import check, copy
from desk_proxied import EXAMPLES, Proxied, free_ports, read, write

sys.path.insert(0, os.path.join(EXAMPLES, "client"))
from retry import Desk, NoAnswer, new_id, path_of  # noqa: E402

PASSWORDS = {"admin": "root", "ann": "pear", "bob": "plum", "cal": "fig"}
ACCOUNTS = {"ann": 2, "bob": 3, "cal": 4}
INDEX = os.path.join(EXAMPLES, "index", "desk_index")
FILE = """[access]
create = ["Core"]
upload = ["Core"]
submit = ["Core"]
abandon = ["Core"]
[label.Code-Review]
copyCondition = "is:MIN OR changekind:NO_CODE_CHANGE"
values = {-2 = "No", -1 = "Not yet", 0 = "None", 1 = "Good", 2 = "Yes"}
grant.Core = [-2, 2]
[label.Verified]
values = {-1 = "Fails", 0 = "None", 1 = "Builds"}
grant.Core = [-1, 1]
[submit-requirement.Code-Review]
submittableIf = "label:Code-Review=MAX AND -label:Code-Review=MIN"
"""
TALKED = '[submit-requirement.Talked]\nsubmittableIf = "-has:unresolved"\n'


class Indexed(Proxied):
    """The whole, in a folder as a team's. Changes and patch sets may be made at the desk's own port without git, or pushed."""

    def __init__(self, program, folder, seed, *options):
        self.program, self.folder, self.passwords, self.are_trusted, self.options = program, folder, PASSWORDS, False, options
        self.drawn, self.lost_share, self.lost, self.heard, self.file = random.Random(seed), 0.0, 0, 0, os.path.join(folder, "desk")
        self.repositories = os.path.join(folder, "git")
        self.desk_port, self.port = free_ports(2)
        self.serving = self.nginx = self.index = None
        self.last = 0  # a change that may be the last one
        subprocess.run([program, "init", self.file], check=True, stdout=subprocess.DEVNULL)
        self.set_up(ACCOUNTS)
        self.ear, (self.mouth, self.stdin) = socket.socket(socket.AF_UNIX, socket.SOCK_DGRAM), socket.socketpair(socket.AF_UNIX, socket.SOCK_DGRAM)
        self.ear.bind(os.path.join(folder, "hints.socket"))
        os.chmod(os.path.join(folder, "hints.socket"), 0o666)
        self.mouth.setblocking(False)
        threading.Thread(target=self.pass_hints_on, daemon=True).start()
        self.serve()
        self.proxy()
        self.set_up_desk()

    def set_up(self, accounts):
        super().set_up(accounts)
        write("".join(f"{name}:{{PLAIN}}{word}\n" for name, word in PASSWORDS.items()), self.folder, "users")  # which are looked at faster
        for place, part, name in (("more.d", "index", "index.conf"), ("http.d", "index", "around.conf")):
            os.makedirs(os.path.join(self.folder, place), exist_ok=True)
            write(read(EXAMPLES, part, name).replace("FOLDER", self.folder), self.folder, place, name)
        write(json.dumps({"desk_port": self.desk_port, "project": "tools", "port": self.port}), self.folder, "settings.json")
        write(FILE, self.folder, "project.toml")
        for project in ("tools", "app/core"):
            subprocess.run(["git", "init", "--quiet", "--bare", "--initial-branch=main", os.path.join(self.repositories, project + ".git")], check=True)

    def set_up_desk(self):
        for name in ACCOUNTS:
            self.must(1, "POST", "/accounts", {"name": name})
        self.must(1, "PUT", "/groups/Core", {"members": list(ACCOUNTS.values())})
        self.bases = {}
        for project in ("tools", "app/core"):
            self.must(1, "PUT", path_of("projects", project), {"file": FILE})
            self.bases[project] = self.begin_branch(project)
            self.must(1, "PUT", path_of("projects", project, "branches", "main"), {"commit": self.bases[project]})

    def begin_branch(self, project):
        tree = self.git(project, "mktree", sent="")
        commit = self.git(project, "commit-tree", tree, "-m", f"Begin {project}")
        self.git(project, "update-ref", "refs/heads/main", commit)
        return commit

    def git(self, project, *words, sent=None):
        people = {f"GIT_{role}_{part}": value for role in ("AUTHOR", "COMMITTER") for part, value in (("NAME", "Ann Lee"), ("EMAIL", "ann@example.org"), ("DATE", "@1790000000 +0000"))}
        ran = subprocess.run(["git", "-C", os.path.join(self.repositories, project + ".git"), *words], input=sent, capture_output=True, text=True, env={**os.environ, **people}, check=True)
        return ran.stdout.strip()

    # ---- what is started and killed

    def serve(self):
        self.serving = subprocess.Popen([self.program, "serve", self.file, "--port", str(self.desk_port), "--count", "4000000000"], stdout=subprocess.PIPE, text=True)
        check(self.serving.stdout.readline().startswith("listening"), "the desk doesn't start")

    def proxy(self):
        user = " user www-data;" if os.geteuid() == 0 else ""
        with contextlib.suppress(FileNotFoundError):
            os.remove(os.path.join(self.folder, "asked.socket"))  # of one that was killed
        self.nginx = subprocess.Popen(["nginx", "-p", self.folder, "-c", "nginx.conf", "-g", f"daemon off;{user}"], stderr=subprocess.DEVNULL)
        self.wait()

    def kill_nginx(self):
        """Kills nginx with its workers, which hold its port."""
        with open(f"/proc/{self.nginx.pid}/task/{self.nginx.pid}/children", encoding="utf-8") as file:
            for number in [self.nginx.pid, *map(int, file.read().split())]:
                with contextlib.suppress(ProcessLookupError):
                    os.kill(number, signal.SIGKILL)

    def begin_index(self):
        with open(os.path.join(self.folder, "index.log"), "ab") as log:
            self.index = subprocess.Popen([INDEX, self.folder, *self.options], stdin=self.stdin.fileno(), stderr=log)

    def kill(self, what):
        """Kills a program at once, with nginx its workers, and starts it again."""
        process = getattr(self, what)
        if what == "nginx":
            self.kill_nginx()
        process.kill()
        process.wait()
        if what == "serving":
            process.stdout.close()
        {"serving": self.serve, "nginx": self.proxy, "index": self.begin_index}[what]()

    def put_back(self, older):
        """Puts an older copy of the desk in its place."""
        self.serving.kill()
        self.serving.communicate()
        copy(older, self.file)
        self.serve()

    def end(self):
        for process in (self.index, self.nginx, self.serving):
            if process:
                if process is self.nginx and process.poll() is None:
                    self.kill_nginx()
                process.kill()
                process.wait()

    def pass_hints_on(self):
        """Loses some of the hints, and passes the others on as far as there is room."""
        while True:
            said = self.ear.recv(4096)
            if self.drawn.random() < self.lost_share:
                self.lost += 1
                continue
            self.heard += 1
            try:
                self.mouth.send(said)
            except OSError:
                self.lost += 1

    # ---- what is asked

    def at_desk(self, account, method, path, body=None, seconds=60):
        return Desk(f"http://127.0.0.1:{self.desk_port}", account=account, seconds=seconds).ask(method, path, body, None if method == "GET" else new_id())

    def must(self, account, method, path, body=None):
        status, told = self.at_desk(account, method, path, body)
        check(status == 200, method, path, body, status, told)
        return told

    def told(self, number):
        """A change as the desk's four questions tell it, or None."""
        status, it = self.at_desk(1, "GET", path_of("changes", number))
        if status == 404:
            return None
        return {"change": it, **{part: self.at_desk(1, "GET", path_of("changes", number, part))[1] for part in ("requirements", "threads", "attention")}}

    def all_told(self):
        found = []
        while told := self.told(len(found) + 1):
            found.append(told)
        return found

    def search(self, text, user="ann", **more):
        """The numbers of the changes that a query finds through the proxy; or its status and what it says."""
        status, _, said = self.fetch("GET", f"/changes/?{urllib.parse.urlencode({'q': text, **more})}", user)
        return [one["_number"] for one in json.loads(said[5:])] if status == 200 else (status, said)

    def rows(self, text, *values):
        """Rows of the index; none where it is just being made."""
        try:
            kept = sqlite3.connect(f"file:{os.path.join(self.folder, 'index.db')}?mode=ro", uri=True)
            try:
                return kept.execute(text, values).fetchall()
            finally:
                kept.close()
        except sqlite3.OperationalError:
            return []

    @staticmethod
    def until(is_so, what, seconds=120, pause=0.1):
        end = time.monotonic() + seconds
        while not (found := is_so()):
            check(time.monotonic() < end, "not yet after", seconds, "seconds", what() if callable(what) else what)
            time.sleep(pause)
        return found


def folder():
    """A temporary folder; this script ends by itself where it is told to end, so that it leaves nothing."""
    signal.signal(signal.SIGTERM, lambda *_: sys.exit(1))
    return tempfile.TemporaryDirectory(prefix="desk", ignore_cleanup_errors=True)


__all__ = ["ACCOUNTS", "FILE", "PASSWORDS", "TALKED", "Indexed", "NoAnswer", "folder", "new_id", "path_of"]
