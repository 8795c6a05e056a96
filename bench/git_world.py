"""What the tests of examples/git share: a desk in a file that is served, a bare repository with the hook, a clone, and stacks of commits that are amended."""
import atexit
import hashlib
import os
import shutil
import subprocess
import sys

from desk_file import TOP, check, run, tables
from desk_http import free_port

sys.dont_write_bytecode = True
sys.path.append(os.path.join(TOP, "examples", "client"))
import retry  # noqa: E402
from retry import Desk, new_id, path_of  # noqa: E402

EXAMPLE = os.path.join(TOP, "examples", "git")
HOOK, FOLLOW, SETTLE, NOTE_CHANGES = (os.path.join(EXAMPLE, name) for name in ("proc-receive", "follow", "settle", "note-changes"))
PROJECT = """[access]
create = ["Core"]
submit = ["Core"]
upload = ["Core"]
[label.Code-Review]
copyCondition = "changekind:TRIVIAL_REBASE OR changekind:NO_CODE_CHANGE"
values = {0 = "None", 1 = "Good"}
grant.Core = [0, 1]
[submit-requirement.Code-Review]
submittableIf = "label:Code-Review=1,user=non_uploader"
"""
ACCOUNTS = {"ann": 2, "bob": 3, "eve": 4}
retry.FIRST_PAUSE, retry.LONGEST_PAUSE = 0.02, 0.3
if not shutil.which("git"):
    print("passed over: there is no git here; apt-get install git")
    sys.exit(77)


class Commit:
    """A commit of a stack: its footer, its message, its files, and what it is called once it is made."""

    def __init__(self, key, files, title="Work"):
        self.change_id = "I" + hashlib.sha1(key.encode()).hexdigest()
        self.files, self.title, self.name, self.kind = files, f"{title} {key}", None, None

    def message(self):
        return f"{self.title}\n\nWhat it does.\n\nChange-Id: {self.change_id}\n"


class World:
    """A desk, a bare repository beside it, and a clone of that."""

    def __init__(self, folder, program):
        self.program, self.file, self.port, self.serving, self.seconds = program, os.path.join(folder, "desk"), free_port(), None, 1_700_000_000
        self.bare, self.clone, self.home = (os.path.join(folder, name) for name in ("tools.git", "clone", "home"))
        os.mkdir(self.home)
        run("init", self.file, program=program)
        self.serve()
        self.set_up_git()
        self.set_up_desk()

    def serve(self):
        """Serves the desk, always at the same port."""
        words = [self.program, "serve", self.file, "--port", str(self.port), "--count", "4000000000"]
        self.serving = subprocess.Popen(words, stdout=subprocess.PIPE, stderr=subprocess.PIPE, text=True)
        atexit.register(self.serving.kill)
        said = self.serving.stdout.readline()
        check(said == f"listening on 127.0.0.1:{self.port}\n", said)

    def kill_desk(self):
        self.serving.kill()
        self.serving.communicate()

    def rows(self):
        """The tables of the desk, which is ended."""
        self.kill_desk()
        run("apply", self.file, program=self.program)
        return tables(self.file)

    def environment(self, user):
        """That of git for a user; each commit is a second later than the one before, so names are the same in each run."""
        self.seconds += 1
        names = {f"GIT_{role}_{what}": f"{user}@example" for role in ("AUTHOR", "COMMITTER") for what in ("NAME", "EMAIL")}
        dates = {f"GIT_{role}_DATE": f"{self.seconds} +0000" for role in ("AUTHOR", "COMMITTER")}
        own = {"HOME": self.home, "GIT_CONFIG_NOSYSTEM": "1", "REMOTE_USER": user, "LC_ALL": "C.UTF-8"}
        return {**{name: value for name, value in os.environ.items() if not name.startswith("GIT_")}, **names, **dates, **own}

    def git(self, *words, user="ann", folder=None, sent=None, must=True, **more):
        """Runs git in the clone: what it prints. More words are of its environment."""
        environment = {**self.environment(user), **more}
        ran = subprocess.run(["git", *words], cwd=folder or self.clone, env=environment, input=sent, capture_output=True, text=True, errors="surrogateescape", check=False)
        check(not must or ran.returncode == 0, words, ran.returncode, ran.stdout, ran.stderr)
        return ran.stdout.strip()

    def set_up_git(self):
        folder = os.path.dirname(self.bare)
        self.git("init", "-q", "--bare", "-b", "main", self.bare, folder=folder)
        self.git("init", "-q", "-b", "main", self.clone, folder=folder)
        self.git("remote", "add", "origin", self.bare)
        self.base = self.commit(None, {"README": "A project.\n"}, "Begin")
        self.git("push", "-q", "origin", f"{self.base}:refs/heads/main")
        os.symlink(HOOK, os.path.join(self.bare, "hooks", "proc-receive"))
        settings = {"receive.procReceiveRefs": "refs", "transfer.hideRefs": "refs/desk", "desk.project": "tools", "desk.url": f"http://127.0.0.1:{self.port}", "desk.seconds": "20"}
        for name, value in settings.items():
            self.git("config", name, value, folder=self.bare)
        with open(os.path.join(self.bare, "accounts"), "w", encoding="utf-8") as file:
            file.write("# who is who\nann 2\n~^bob$ 3;\n~^e\\.ve$ 4;\n")

    def set_up_desk(self):
        for name, number in ACCOUNTS.items():
            self.must("POST", path_of("accounts"), {"name": name}, told={"account": number})
        self.must("PUT", path_of("groups", "Core"), {"members": [2, 3]}, told={})
        self.must("PUT", path_of("projects", "tools"), {"file": PROJECT}, told={})
        self.must("PUT", path_of("projects", "tools", "branches", "main"), {"commit": self.base}, told={})

    def ask(self, method, path, body=None, account=1):
        """The status and the answer; of a request that is new."""
        return Desk(f"http://127.0.0.1:{self.port}", account=account, seconds=60).ask(method, path, body, None if method == "GET" else new_id())

    def must(self, method, path, body=None, account=1, told=None):
        status, answer = self.ask(method, path, body, account)
        check(status == 200 and (told is None or answer == told), method, path, body, status, answer)
        return answer

    def branch(self, name="main"):
        return self.must("GET", path_of("projects", "tools", "branches", name))

    def vote(self, change, account=3):
        self.must("POST", path_of("changes", change, "revisions", "current", "review"), {"labels": {"Code-Review": 1}}, account)

    def commit(self, parent, files, message):
        """Makes a commit on another one."""
        if parent:
            self.git("checkout", "-q", "--detach", parent)
        for path, text in files.items():
            os.makedirs(os.path.dirname(os.path.join(self.clone, path)) or ".", exist_ok=True)
            with open(os.path.join(self.clone, path), "wb") as file:
                file.write(text if isinstance(text, bytes) else text.encode())
        self.git("add", "-A")
        self.git("commit", "-q", "--no-verify", "--allow-empty", "--cleanup=verbatim", "-F", "-", sent=message)
        return self.git("rev-parse", "HEAD")

    def build(self, parent, stack, begin=0):
        """Makes the commits of a stack anew, from one on: on the one below, or on a parent."""
        for at in range(begin, len(stack)):
            stack[at].name = self.commit(stack[at - 1].name if at else parent, stack[at].files, stack[at].message())

    def pushing(self, tip, user="ann", branch="main", **more):
        """Begins a push; its processes are a group of their own."""
        words = ["git", "push", "origin", f"{tip}:refs/for/{branch}"]
        environment = {**self.environment(user), **more}
        return subprocess.Popen(words, cwd=self.clone, env=environment, stdout=subprocess.PIPE, stderr=subprocess.STDOUT, text=True, start_new_session=True)

    def push(self, tip, user="ann", branch="main", is_taken=True, **more):
        """A push to its end: what git says of it."""
        pushing = self.pushing(tip, user, branch, **more)
        said = pushing.communicate(timeout=120)[0]
        check(is_taken is None or (pushing.returncode == 0) == is_taken, tip, user, branch, pushing.returncode, said)
        return said

    def follow(self, *words, status=0, program=FOLLOW, **more):
        """Follows once, by words such as branches and options: what is said."""
        branches = [it for it in words if not it.startswith("-")] or ["main"]
        words = [program, "--once", *(it for it in words if it.startswith("-")), self.bare, *branches]
        ran = subprocess.run(words, env={**self.environment("bob"), **more}, stdout=subprocess.PIPE, stderr=subprocess.STDOUT, text=True, check=False)
        check(status is None or ran.returncode == status, words, ran.returncode, ran.stdout)
        return ran.stdout

    def note_changes(self):
        """Makes the hook's notes anew: what is said."""
        ran = subprocess.run([NOTE_CHANGES, self.bare], env=self.environment("bob"), stdout=subprocess.PIPE, stderr=subprocess.STDOUT, text=True, check=False)
        check(ran.returncode == 0, ran.returncode, ran.stdout)
        return ran.stdout

    def patch_sets(self):
        """Of each change its patch sets, by commit, as git has them."""
        found = {}
        for line in self.git("for-each-ref", "--format=%(refname) %(objectname)", "refs/changes", folder=self.bare).splitlines():
            ref, name = line.split()
            check(ref.split("/")[2] == f"{int(ref.split('/')[3]) % 100:02}", ref)
            found.setdefault(int(ref.split("/")[3]), {})[int(ref.split("/")[4])] = name
        return found
