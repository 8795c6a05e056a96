"""What the commands of examples/team share: a team's folder, and what admin asks of its desk. A module; standard library and openssl.

Nothing here is proved, and no promise of the desk needs it. Whatever is stopped in the middle can be run again: each request has an id that stays until its
answer came, and each file is the old one or the new one. At no moment can another user of the machine read a file: each command that imports this module makes its
files for its own user alone, and where root starts nginx its workers get what they need by their group.
"""
import contextlib
import fcntl
import io
import json
import os
import pwd
import re
import secrets
import signal
import stat
import subprocess
import sys
import time
import tomllib

os.umask(0o077)
for stream in (sys.stdout, sys.stderr):  # A name or a path that the locale can't say ends no command.
    if isinstance(stream, io.TextIOWrapper):
        stream.reconfigure(errors="backslashreplace")

HERE = os.path.dirname(os.path.realpath(__file__))
EXAMPLES = os.path.dirname(HERE)
CHECKOUT = os.path.dirname(EXAMPLES)
sys.path[:0] = [os.path.join(EXAMPLES, "client"), os.path.join(EXAMPLES, "index")]
import hints  # noqa: E402
from retry import Desk, Kept, NoAnswer, NotOfTheDesk, new_id, path_of, this_day, write_whole  # noqa: E402

USUAL = {"port": 8443, "desk_port": 8473, "host": "", "projects": ["tools"], "branches": ["main"], "push_megabytes": 200, "hung_after": 90,
         "program": os.path.join(CHECKOUT, "crates", "review_desk", "out", "review_desk")}
NAME, ADMINS = re.compile(r"[A-Za-z0-9._-]{1,64}"), "Administrators"
ACCOUNT_LINE = re.compile(r"^(# )?~\^(\S+)\$ ([0-9]+);$", re.M)


def fail(text, status=1):
    print(f"{os.path.basename(sys.argv[0])}: {text}", file=sys.stderr)
    sys.exit(status)


def say_fault(kind, error, trace):
    """What the system refuses, as where the disk is full, is told in a line."""
    if issubclass(kind, OSError):
        print(f"{os.path.basename(sys.argv[0])}: {error}", file=sys.stderr)
    else:
        sys.__excepthook__(kind, error, trace)


sys.excepthook = say_fault


def printed(text: str) -> str:
    """A text for a terminal, a log or a mail: what others wrote, as a path, begins no line there, moves no cursor and turns no text around."""
    return "".join(it if it.isprintable() or it == "\n" else "?" for it in text)


def read(*path, otherwise=None):
    """What a file says. One that isn't there says what is given otherwise."""
    try:
        with open(os.path.join(*path), encoding="utf-8") as file:
            return file.read()
    except FileNotFoundError:
        if otherwise is None:
            raise
        return otherwise


def check_place(folder):
    """Ends a command whose folder is another user's, or stands where others could put one in its place: what is in it is believed, its programs are run, and files that root
    makes in it couldn't be read by who runs it."""
    with contextlib.suppress(FileNotFoundError):
        if (owner := os.stat(folder).st_uid) != os.geteuid():
            name = pwd.getpwuid(owner).pw_name if owner in {it.pw_uid for it in pwd.getpwall()} else owner
            fail(f"{folder} is a folder of the user {name}; run this as that user, as by: runuser -u {name} -- {sys.argv[0]} ..")
    for place in (folder, os.path.realpath(folder)):
        while (place := os.path.dirname(place)) != "/":
            with contextlib.suppress(FileNotFoundError):
                found = os.stat(place)
                if found.st_uid not in (0, os.geteuid()) or found.st_mode & (stat.S_IWOTH | stat.S_ISVTX) == stat.S_IWOTH:
                    fail(f"in {place} other users may put another folder in the place of {folder}; choose one where they can't")


class Team:
    """A folder with all that a team has: its desk, its users, its projects with their repositories, and what nginx reads. Projects that are said are added to those it has."""

    def __init__(self, folder, **settings):
        self.folder = os.path.abspath(folder)
        check_place(self.folder)
        if not settings and not os.path.exists(self.path("settings.json")):
            fail(f"{self.folder} is no team's folder: examples/team/start makes one", 2)
        kept = json.loads(read(self.folder, "settings.json", otherwise="{}"))
        self.settings = {**USUAL, **kept, **{name: value for name, value in settings.items() if value is not None}}
        had = kept.get("projects") or ([kept["project"]] if "project" in kept else [])
        self.projects = self.settings["projects"] = [*dict.fromkeys([*had, *(settings.get("projects") or ([] if had else USUAL["projects"]))])]
        self.settings["project"] = self.projects[0]
        self.desk = Desk(f"http://127.0.0.1:{self.settings['desk_port']}", account=1, seconds=30)
        self.seen, self.labels_seen = None, {}

    def path(self, *parts):
        return os.path.join(self.folder, *parts)

    @property
    def address(self):
        return f"https://{self.settings['host'] or '127.0.0.1'}:{self.settings['port']}"

    def repository(self, project):
        return self.path("git", project + ".git")

    def project_file(self, project):
        """The name of the project's file as it was set last: that of the first project is project.toml."""
        return "project.toml" if project == self.projects[0] else f"project.{project.replace('/', '%')}.toml"

    def write(self, text, *path, for_nginx=False, is_program=False):
        """Writes a file of the folder whole, so that nginx's workers can read it where it is for them, and nobody else ever."""
        place = self.path(*path)
        write_whole(place + ".whole", text)
        if for_nginx:
            self.let_nginx_read(*path[:-1], path[-1] + ".whole")
        if is_program:
            os.chmod(place + ".whole", 0o700)
        os.replace(place + ".whole", place)

    @contextlib.contextmanager
    def locked(self, name, seconds=0):
        """Holds a lock of the folder, which goes with the process. False where another holds it for so many seconds."""
        end = time.monotonic() + seconds
        with open(self.path(name), "w", encoding="utf-8") as file:
            while True:
                try:
                    fcntl.flock(file, fcntl.LOCK_EX | fcntl.LOCK_NB)
                except BlockingIOError:
                    if time.monotonic() < end:
                        time.sleep(0.1)
                        continue
                    yield False
                    return
                yield True
                return

    # ---- users

    def account_lines(self):
        """Of each line of accounts.conf: the user's name, the account's number, and whether the user has been removed."""
        return [(name.replace("\\.", "."), int(number), bool(gone)) for gone, name, number in ACCOUNT_LINE.findall(read(self.folder, "accounts.conf", otherwise=""))]

    def accounts(self):
        """The number of each user's account, by name, but for those who have been removed."""
        return {name: number for name, number, gone in self.account_lines() if not gone}

    def put_account(self, name, number, is_removed=False):
        """Writes a user's line; that of one who has been removed stays as a comment, so that the page knows the name and the number is known."""
        text = read(self.folder, "accounts.conf", otherwise="# The account of each user, by a pattern (docs/proxy.md). # ~^ begins the line of one who was removed.\n")
        pattern = f"~^{name.replace('.', chr(92) + '.')}$ "
        lines = [line for line in text.splitlines() if not line.removeprefix("# ").startswith(pattern)]
        line = f"{'# ' if is_removed else ''}{pattern}{number};"
        if line not in text.splitlines():
            self.write("\n".join([*lines, line]) + "\n", "accounts.conf")

    def has_password(self, name):
        return any(line.startswith(name + ":") for line in read(self.folder, "users", otherwise="").splitlines())

    def put_password(self, name, word):
        """Gives a user a password; None takes it away."""
        lines = [line for line in read(self.folder, "users", otherwise="").splitlines() if not line.startswith(name + ":")]
        if word is not None:
            secret = subprocess.run(["openssl", "passwd", "-6", "-stdin"], input=word + "\n", check=True, capture_output=True, text=True).stdout.strip()
            lines.append(f"{name}:{secret}")
        self.write("".join(f"{line}\n" for line in lines), "users", for_nginx=True)
        if name == "admin":
            self.write(f"machine 127.0.0.1 login admin password {word}\n", "admin.netrc")  # for curl --netrc-file

    def let_nginx_read(self, *path):
        """Where root starts nginx its workers are of another group, which may then read a file, look into a folder, or use a socket."""
        if os.geteuid() == 0:
            place = self.path(*path)
            os.chown(place, 0, nginx_user().pw_gid)
            os.chmod(place, 0o750 if os.path.isdir(place) else 0o640 if os.path.isfile(place) else 0o660)

    # ---- groups

    def groups(self):
        """The members of each group, by account. The folder alone knows them, since a desk tells nobody; so the proxy lets nobody put a group."""
        return {ADMINS: [1], **json.loads(read(self.folder, "groups.json", otherwise="{}"))}

    def put_group(self, group, members):
        """Has the desk give a group these members. Account 1 is always an administrator, as nobody could be made one again without it."""
        members = sorted({*members, *([1] if group == ADMINS else [])})
        self.do(f"group {group}", "PUT", path_of("groups", group), {"members": members})
        self.write(json.dumps({**self.groups(), group: members}) + "\n", "groups.json")
        if group == ADMINS:
            self.write_administrators()
            self.reload_nginx()

    def write_administrators(self) -> None:
        """The administrators' accounts, for nginx."""
        self.write("".join(f"{number} 1;\n" for number in sorted(set(self.groups()[ADMINS]))), "administrators.conf")

    def stat(self, *path):
        """What changes when a file does, or nothing where there is none."""
        with contextlib.suppress(FileNotFoundError):
            status = os.stat(self.path(*path))
            return status.st_mtime_ns, status.st_ino
        return None

    def labels_of(self, project: str) -> dict[str, list[int]]:
        """The values of each label of a project. A file that the desk has taken and that can't be read here has none."""
        try:
            said = tomllib.loads(read(self.folder, self.project_file(project), otherwise="")).get("label", {})
            return {label: sorted(int(value) for value in it.get("values", {})) for label, it in said.items()}
        except (ValueError, TypeError, AttributeError) as error:
            print(f"the labels of {self.project_file(project)} can't be read: {error}", file=sys.stderr)
            return {}

    def labels(self):
        """The values of each label of each project, least first, by the projects' files as they were set last."""
        status = [self.stat(self.project_file(project)) for project in self.projects]
        if status != self.seen:
            self.seen, self.labels_seen = status, {project: labels for project in self.projects if (labels := self.labels_of(project))}
        return self.labels_seen

    def has_index(self):
        return os.path.exists(self.path("examples", "index", "desk_index"))

    def write_page(self):
        """Names, labels, where the repositories are, and whether there is an index, for the page."""
        accounts, places = {number: name for name, number, _ in self.account_lines()}, {project: f"{self.address}/git/{project}.git" for project in self.projects}
        said = {"accounts": accounts, "labels": self.labels(), "git": places, "index": self.has_index()}
        self.write(json.dumps(said, indent=1) + "\n", "page", "team.json", for_nginx=True)

    def reload_nginx(self, how=signal.SIGHUP):
        """Has nginx read accounts.conf again, or by SIGUSR1 open its logs anew. Where it doesn't run it will when it starts."""
        with contextlib.suppress(FileNotFoundError, ValueError, ProcessLookupError):
            number = int(read(self.folder, "nginx.pid"))
            if read(f"/proc/{number}/comm").startswith("nginx"):
                os.kill(number, how)

    # ---- what admin asks of the desk

    def ask(self, method, path, body=None, id=None, epoch=None):
        try:
            return self.desk.ask(method, path, body, id, epoch)
        except (NoAnswer, NotOfTheDesk) as error:
            return fail(f"{error}\nIs it started? Run the same again then: nothing is done twice.")

    def do(self, name, method, path, body):
        """A request, kept in a file until its answer came: whoever runs the same again after a stop sends the same. Its answer, where it isn't refused."""
        kept, wanted = Kept(self.path("kept", name.replace("/", "%") + ".json")), {"method": method, "path": path, "body": body}
        request = kept_request(kept, wanted)
        status, told = self.ask(**request)
        kept.remove()  # A refusal, too, is the answer to this id alone: the same again asks under a new one.
        if told.get("refused") == "EPOCH_CLOSED" and request.get("epoch") != this_day():
            # It was kept for weeks, and nobody knows whether it was done then. What is asked here is always put whole, so to ask anew does no harm.
            status, told = self.ask(**kept_request(kept, wanted))
            kept.remove()
        hints.send(self.path("hints.socket"), method, path)
        if status != 200:
            fail(f"{name}: the desk says {json.dumps(told)}")
        return told


def kept_request(kept: Kept, wanted: dict[str, object]) -> dict[str, object]:
    """The request that is kept, where it asks for what is wanted; else a new one, which is kept from now on."""
    found = kept.read()
    return found if found and {name: found.get(name) for name in wanted} == wanted else kept.write({**wanted, "id": new_id(), "epoch": this_day()})


def nginx_user():
    """The user of nginx's workers where root starts it, as Debian has it: one to whom no other program's files belong."""
    return pwd.getpwnam("www-data")


def new_password():
    return secrets.token_urlsafe(9)


def password_fault(word):
    """What is wrong with a password, or nothing."""
    if len(word) < 8 or len(word.encode(errors="replace")) > 128 or not word.isprintable():
        return "a password is 8 to 128 characters that can be printed, of 128 bytes at most"
    return None


__all__ = ["ADMINS", "CHECKOUT", "EXAMPLES", "HERE", "Kept", "NAME", "Team", "check_place", "fail", "kept_request", "new_password", "nginx_user", "password_fault", "path_of", "printed", "read", "this_day"]
