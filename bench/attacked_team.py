"""What the cases of bench/attacks share: a team's folder as examples/team/start runs it, its users, and what they ask, commit and push. A module.

ann, bob and mallory are in the group Core, and may push, vote and submit; eve has an account and no rights; admin is account 1. mallory attacks from inside.
The branches are main and b1 to b20, each with a base; a case that joins changes takes a branch of its own by `new_branch`.
"""
import base64
import contextlib
import http.client
import json
import os
import random
import re
import signal
import socket
import ssl
import subprocess
import sys
import threading
import time

from desk_file import check
from desk_proxied import EXAMPLES

sys.path.insert(0, os.path.join(EXAMPLES, "client"))
from retry import new_id, path_of  # noqa: E402

TEAM = os.path.join(EXAMPLES, "team")
USERS = {"ann": "pear", "bob": "plum", "mallory": "sloe", "eve": "fig"}
ACCOUNTS = {"admin": 1, "ann": 2, "bob": 3, "mallory": 4, "eve": 5}
BRANCHES = ["main", *(f"b{number}" for number in range(1, 21))]
PREFIX = ")]}'\n"


TAKEN, TAKING = set(), threading.Lock()


def own_ports(count):
    """Ports that nobody listens at, that no other team of this program has, and that the system gives to no connection by itself, as teams are started while others run."""
    found = []
    with TAKING:
        while len(found) < count:
            port = random.randrange(10000, 32000)
            with contextlib.suppress(OSError), socket.create_server(("127.0.0.1", port)):
                if port not in TAKEN:
                    TAKEN.add(port)
                    found.append(port)
    return found


def told_by(text):
    """What an answer's body says: JSON behind Gerrit's prefix, else the text as it is."""
    return json.loads(text[len(PREFIX):]) if text.startswith(PREFIX) else text


class AttackedTeam:
    """A team's folder, started. Cases may be run at once in threads, each with a team of its own or one behind the other on a shared one."""

    def __init__(self, program, top, seed=1, is_smallest=True, branches=BRANCHES):
        self.program, self.top, self.path, self.is_smallest = program, top, os.path.join(top, "team"), is_smallest
        self.drawn, self.branches, self.free, self.clones, self.made = random.Random(seed), list(branches), list(branches[1:]), {}, 0
        self.desk_port, self.port = own_ports(2)
        self.repository, self.home = os.path.join(self.path, "git", "tools.git"), os.path.join(top, "home")
        os.makedirs(self.home)
        own = {"GIT_SSL_CAINFO": os.path.join(self.path, "tls.crt"), "GIT_TERMINAL_PROMPT": "0", "GIT_CONFIG_NOSYSTEM": "1", "HOME": self.home, "LC_ALL": "C.UTF-8"}
        self.environment = {**{name: it for name, it in os.environ.items() if not name.startswith("GIT_")}, **own}
        self.said, self.started = [], None

    # ---- what is started

    def begin(self, *more, seconds=90, environment=()):
        """Starts all that a team needs, and waits until it says where the page is. What it says from then on is in `said`."""
        words = [os.path.join(TEAM, "start"), self.path, "--program", self.program, "--port", str(self.port), "--desk-port", str(self.desk_port), "--as-root"]
        words += [word for branch in self.branches for word in ("--branch", branch)]
        self.started = subprocess.Popen([*words, *more], stdout=subprocess.PIPE, stderr=subprocess.STDOUT, text=True, env={**os.environ, **dict(environment)})
        ready = threading.Event()
        threading.Thread(target=self.listen, args=(self.started, ready), daemon=True).start()
        check(ready.wait(seconds) and self.started.poll() is None, "start doesn't start", self.said[-10:])

    def listen(self, started, ready):
        for line in started.stdout:
            self.said.append(line.rstrip("\n"))
            if line.startswith("the page is at"):
                ready.set()
        ready.set()

    def set_up(self):
        """Makes the users, gives the desk the project's file and its branches."""
        for name, password in USERS.items():
            self.command("add-user", name, "--password-on-input", "--group", "" if name == "eve" else "Core", sent=password + "\n")
        self.command("set-project")
        return self

    def end(self, how=signal.SIGINT):
        """Ends what was started: its status."""
        if self.started is None or self.started.poll() is not None:
            return self.started and self.started.returncode
        self.started.send_signal(how)
        return self.started.wait(60)

    def command(self, name, *words, sent="", status=0):
        """Runs a command of examples/team on the folder, and gives what it says. With a status of None it may end with any."""
        ran = subprocess.run([os.path.join(TEAM, name), self.path, *words], input=sent, stdout=subprocess.PIPE, stderr=subprocess.STDOUT, text=True, check=False)
        check(status is None or ran.returncode == status, name, words, ran.returncode, ran.stdout)
        return ran.stdout

    def children(self):
        """The processes that `start` started, by number, with their words."""
        found = {}
        with open(f"/proc/{self.started.pid}/task/{self.started.pid}/children", encoding="utf-8") as file:
            numbers = file.read().split()
        for number in numbers:
            with contextlib.suppress(FileNotFoundError, ProcessLookupError), open(f"/proc/{number}/cmdline", encoding="utf-8") as words:
                found[int(number)] = words.read().replace("\0", " ")
        return found

    def signal(self, part, how):
        """Sends a signal to each child whose words have the part, as `review_desk serve`, `nginx`, `follow`, `fcgiwrap`: how many there are."""
        numbers = [number for number, words in self.children().items() if part in words]
        for number in numbers:
            os.kill(number, how)
        return len(numbers)

    def log(self, name):
        """What a program has said so far: the text of FOLDER/log/NAME.log."""
        with open(os.path.join(self.path, "log", name + ".log"), encoding="utf-8", errors="replace") as file:
            return file.read()

    # ---- what is asked

    def context(self):
        return ssl.create_default_context(cafile=os.path.join(self.path, "tls.crt"))

    def password(self, user):
        if user == "admin":
            with open(os.path.join(self.path, "admin.netrc"), encoding="utf-8") as file:
                return file.read().split()[-1]
        return USERS[user]

    def authorization(self, user, password=None):
        word = f"{user}:{self.password(user) if password is None else password}"
        return {"Authorization": "Basic " + base64.b64encode(word.encode()).decode()}

    def ask(self, user, method, path, body=None, id=None, headers=(), password=None, seconds=60):
        """Asks the proxy once, as a user or as nobody (None): the status, the answer, and its fields. A POST or PUT without an id gets a new one. A body is JSON, unless it is bytes."""
        sent = {**(self.authorization(user, password) if user else {}), **({} if method == "GET" else {"Request-Id": id or new_id()}), **dict(headers)}
        peer = http.client.HTTPSConnection("127.0.0.1", self.port, timeout=seconds, context=self.context())
        try:
            peer.request(method, path, body if body is None or isinstance(body, bytes) else json.dumps(body), sent)
            answer = peer.getresponse()
            return answer.status, told_by(answer.read().decode(errors="replace")), answer.headers
        finally:
            peer.close()

    def desk_ask(self, account, method, path, body=None, id=None, seconds=60):
        """Asks straight at the desk's own port, as an account: the status and the answer."""
        peer = http.client.HTTPConnection("127.0.0.1", self.desk_port, timeout=seconds)
        try:
            fields = {"X-Account": str(account), **({} if method == "GET" else {"Request-Id": id or new_id()})}
            peer.request(method, path, None if body is None else json.dumps(body), fields)
            answer = peer.getresponse()
            return answer.status, told_by(answer.read().decode(errors="replace"))
        finally:
            peer.close()

    def connect(self, seconds=30):
        """A bare connection to the proxy, with TLS: what is sent over it is the case's own."""
        peer = http.client.HTTPSConnection("127.0.0.1", self.port, timeout=seconds, context=self.context())
        peer.connect()
        return peer.sock

    def vote(self, user, change, patch_set, value, label="Code-Review"):
        """Votes on a patch set: the status and the answer."""
        return self.ask(user, "POST", path_of("changes", change, "revisions", patch_set, "review"), {"labels": {label: value}})[:2]

    def submit(self, user, change):
        """Submits a change, with the changes below it: the status and the answer."""
        return self.ask(user, "POST", path_of("changes", change, "submit"), {})[:2]

    # ---- git

    def git(self, user, *words, cwd=None, status=0, password=None, sent=None, **more):
        """What a command of git says, with a user's name and password where it asks for one. With a status of None it may end with any; else it ends with 0, or not."""
        helper = f"!f() {{ echo username={user}; echo password={USERS.get(user, '') if password is None else password}; }}; f"
        own = ["-c", "credential.helper=", "-c", f"credential.helper={helper}", "-c", f"user.name={user}", "-c", f"user.email={user}@localhost"]
        ran = subprocess.run(["git", *own, *words], input=sent, stdout=subprocess.PIPE, stderr=subprocess.STDOUT, text=True, errors="replace",
                             env={**self.environment, **more}, cwd=cwd, check=False)
        check(status is None or (ran.returncode == 0) == (status == 0), "git", words, ran.returncode, ran.stdout)
        return ran.stdout

    def in_repository(self, *words, status=0):
        """What a command of git says in the bare repository itself, as who runs it, without its last line's end."""
        return self.git("admin", "-C", self.repository, *words, status=status).strip()

    def clone(self, user):
        """A fresh clone of a user, with the hook that writes footers: its folder."""
        self.made += 1
        folder = os.path.join(self.top, f"clone{self.made}.{user}")
        self.git(user, "clone", "--quiet", f"https://127.0.0.1:{self.port}/git/tools.git", folder)
        os.symlink(os.path.join(EXAMPLES, "git", "commit-msg"), os.path.join(folder, ".git", "hooks", "commit-msg"))
        return folder

    def clone_of(self, user):
        """A user's clone, which is made when it is first wanted."""
        if user not in self.clones:
            self.clones[user] = self.clone(user)
        return self.clones[user]

    def commit(self, user, clone, files, message=None, parent=None, date=None):
        """A commit with these files (texts or bytes; None removes one), on a parent, or where the clone is; without a message the last commit is amended. Its name."""
        if parent:
            self.git(user, "fetch", "--quiet", "origin", cwd=clone)
            self.git(user, "checkout", "--quiet", "--detach", "--force", parent, cwd=clone)
        for path, text in files.items():
            place = os.path.join(clone, path)
            if text is None:
                os.remove(place)
                continue
            os.makedirs(os.path.dirname(place), exist_ok=True)
            with open(place, "wb") as file:
                file.write(text if isinstance(text, bytes) else text.encode())
        self.git(user, "add", "-A", cwd=clone)
        how = ["--amend", "--no-edit"] if message is None else ["-m", message]
        self.git(user, "commit", "--quiet", "--allow-empty", *how, cwd=clone, **({"GIT_COMMITTER_DATE": date, "GIT_AUTHOR_DATE": date} if date else {}))
        return self.git(user, "rev-parse", "HEAD", cwd=clone).strip()

    def push(self, user, clone, branch="main", tip="HEAD", status=0, **more):
        """Pushes for review: what git says. With a status of 1 it must be turned away, with None it may."""
        return self.git(user, "push", "origin", f"{tip}:refs/for/{branch}", cwd=clone, status=status, **more)

    def change(self, user, files, message, parent="origin/main", branch="main", clone=None):
        """A change with these files, pushed for a branch: its number and its commit. The clone is the user's own, unless one is given."""
        clone = clone or self.clone_of(user)
        name = self.commit(user, clone, files, message, parent)
        said = self.push(user, clone, branch)
        found = re.findall(r"change (\d+), patch set 1: ", said)
        check(found, "a push made no change", said)
        return int(found[-1]), name

    def amended(self, user, files, branch="main", clone=None):
        """The clone's last change with other files, pushed as a new patch set: its number, its commit, and what git said."""
        clone = clone or self.clone_of(user)
        name = self.commit(user, clone, files)
        said = self.push(user, clone, branch)
        found = re.findall(r"change \d+, patch set (\d+): ", said)
        check(found, "a push made no patch set", said)
        return int(found[-1]), name, said

    def merged(self, user, files, message, branch, parent=None):
        """A change of a user that bob or ann has approved, submitted, and that git's branch has: its number and its commit."""
        number, name = self.change(user, files, message, parent or f"origin/{branch}", branch)
        voter = "ann" if user == "bob" else "bob"
        check(self.vote(voter, number, "current", 2)[0] == 200, "no vote on", number)
        status, told = self.submit(user, number)
        check(status == 200, "not submitted", number, status, told)
        self.until(lambda: self.has(branch, name), f"{branch} has change {number}")
        return number, name

    def new_branch(self, name=None):
        """A branch that no other case works on, with its base at the desk: the next one that is free, or one of them by its name."""
        check(self.free, "no branch is left: say more in BRANCHES")
        return self.free.pop(0 if name is None else self.free.index(name))

    def tip(self, branch="main"):
        """Where a branch of the repository is."""
        return self.in_repository("rev-parse", f"refs/heads/{branch}")

    def has(self, branch, commit):
        """Whether a branch of the repository has a commit."""
        return subprocess.run(["git", "-C", self.repository, "merge-base", "--is-ancestor", commit, f"refs/heads/{branch}"], capture_output=True, env=self.environment, check=False).returncode == 0

    @staticmethod
    def until(is_so, what, seconds=60):
        """Waits until something is so, and tells what isn't."""
        end = time.monotonic() + seconds
        while not is_so():
            check(time.monotonic() < end, "not yet after", seconds, "seconds", what)
            time.sleep(0.1)


__all__ = ["ACCOUNTS", "BRANCHES", "TEAM", "USERS", "AttackedTeam", "check", "new_id", "path_of"]
