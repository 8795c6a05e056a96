"""What `start` makes in a team's folder: the desk, a certificate, admin's password, the repository, and what nginx reads. A module; openssl and git.

What is made once stays as it is; what comes from examples/ is copied anew, so that what runs is what was there at the last start, whatever becomes of the checkout.
"""
import contextlib
import json
import os
import re
import shutil
import subprocess

from team import EXAMPLES, fail, new_password, read

PARTS = ("client", "code", "git", "index", "pack", "page", "proxy", "team")
OF_THE_DESK = ("accounts", "changes", "epochs", "groups", "projects", "git", "page")  # A project of such a name has its repository at /git/PROJECT.git alone.


def copy_programs(team):
    """The examples and the program of the desk, as FOLDER/examples and FOLDER/review_desk."""
    for part in PARTS if os.path.realpath(EXAMPLES) != os.path.realpath(team.path("examples")) else ():
        source, names = os.path.join(EXAMPLES, part), []
        if os.path.isdir(source):
            names = [it.name for it in os.scandir(source) if it.is_file()]
        os.makedirs(team.path("examples", part), exist_ok=True)
        for name in names:
            team.write(read(source, name), "examples", part, name, is_program=os.access(os.path.join(source, name), os.X_OK))
        for gone in {it.name for it in os.scandir(team.path("examples", part)) if it.is_file()} - set(names):
            os.remove(team.path("examples", part, gone))
    if os.access(team.settings["program"], os.X_OK):
        shutil.copyfile(team.settings["program"], team.path("review_desk.new"))
        os.chmod(team.path("review_desk.new"), 0o700)
        os.replace(team.path("review_desk.new"), team.path("review_desk"))
    elif not os.access(team.path("review_desk"), os.X_OK):
        fail(f"{team.settings['program']} isn't built: see docs/team.md, or say where it is with --program", 77)


def make_desk(team):
    """An empty desk, where there is none: `init` says so, also after one that was stopped."""
    made = subprocess.run([team.path("review_desk"), "init", team.path("tools.desk")], capture_output=True, text=True, check=False)
    if made.returncode and "not empty" not in made.stderr:
        fail(f"init: {made.stderr.strip()}; docs/operations.md says what to do")


CERTIFICATE = """[req]
prompt = no
distinguished_name = name
x509_extensions = more
[name]
CN = {name}
[more]
basicConstraints = critical, CA:FALSE
keyUsage = critical, digitalSignature
extendedKeyUsage = serverAuth
subjectKeyIdentifier = hash
subjectAltName = {names}
"""


def make_certificate(team):
    """A certificate for this machine alone: who trusts it trusts no other that is signed with its key."""
    host = team.settings["host"]
    if os.path.exists(team.path("tls.crt")) and os.path.exists(team.path("tls.key")):
        return
    names = ["IP:127.0.0.1", "DNS:localhost"]
    if host:
        names.append(("IP:" if host.replace(".", "").isdigit() or ":" in host else "DNS:") + host)
    team.write(CERTIFICATE.format(name=host[:64] or "127.0.0.1", names=",".join(names)), "tls.conf")
    words = ["openssl", "req", "-x509", "-config", "tls.conf", "-newkey", "ec", "-pkeyopt", "ec_paramgen_curve:P-256", "-nodes", "-keyout", "tls.key.made", "-out", "tls.crt.made", "-days", "825"]
    subprocess.run(words, check=True, cwd=team.folder, stderr=subprocess.DEVNULL)
    for name in ("tls.key", "tls.crt"):  # Whole or not there, also after a power cut.
        team.write(read(team.path(name + ".made")), name)
        os.remove(team.path(name + ".made"))


def make_admin(team):
    """Admin's name and password, which add-user changes as it does others'."""
    team.put_account("admin", 1)
    if not os.path.exists(team.path("admin.netrc")):
        team.put_password("admin", new_password())
        print(f"the password of the user admin is in {team.path('admin.netrc')}")


def git(*words, **more):
    ran = subprocess.run(["git", *words], check=False, capture_output=True, text=True, **more)
    if ran.returncode:
        fail(f"git {' '.join(words)}: {ran.stderr.strip()}")
    return ran.stdout.strip()


def make_repository(team, project, source):
    """A project's bare repository: what is imported, or one whose branches begin with an empty commit. Then the hook, where the desk is, and what is looked at in what is pushed."""
    place, branches = team.repository(project), team.settings["branches"]
    if not os.path.exists(place):
        os.makedirs(os.path.dirname(place), exist_ok=True)
        shutil.rmtree(place + ".new", ignore_errors=True)
        if source:
            git("clone", "--quiet", "--bare", "--no-local", source, place + ".new")
        else:
            git("init", "--quiet", "--bare", f"--initial-branch={branches[0]}", place + ".new")
            empty = git("-C", place + ".new", "mktree", stdin=subprocess.DEVNULL)
            person = {**os.environ, **{f"GIT_{role}_{part}": value for role in ("AUTHOR", "COMMITTER") for part, value in (("NAME", "admin"), ("EMAIL", "admin@localhost"))}}
            first = git("-C", place + ".new", "commit-tree", empty, "-m", "Begin", env=person)
            for branch in branches:
                git("-C", place + ".new", "update-ref", f"refs/heads/{branch}", first)
        os.rename(place + ".new", place)
    own = team.settings
    settings = {"receive.procReceiveRefs": "refs", "transfer.hideRefs": "refs/desk", "transfer.fsckObjects": "true", "core.fsync": "all",
                "receive.maxInputSize": str(own["push_megabytes"] << 20), "desk.project": project, "desk.url": f"http://127.0.0.1:{own['desk_port']}",
                "desk.accounts": team.path("accounts.conf"), "desk.page": f"{team.address}/page/?change=", "desk.hints": team.path("hints.socket"), "desk.mails": team.path("mails"), "desk.seconds": "20", "desk.epoch": "day", "receive.autogc": "false", "gc.auto": "0",
                "core.packedGitWindowSize": "64m", "core.packedGitLimit": "512m", "core.bigFileThreshold": "4m", "pack.threads": "1", "pack.windowMemory": "64m"}
    for name, value in settings.items():
        git("-C", place, "config", "--replace-all", name, value)
    hook, program = os.path.join(place, "hooks", "proc-receive"), team.path("examples", "git", "proc-receive")
    if not os.path.islink(hook) or os.readlink(hook) != program:
        with contextlib.suppress(FileNotFoundError):
            os.remove(hook)
        os.symlink(program, hook)


def write_nginx(team):
    """What nginx reads: the example files, with this team's addresses, and the page. Files that others put into more.d stay."""
    own, examples = team.settings, team.path("examples")
    words = {"127.0.0.1:8473": f"127.0.0.1:{own['desk_port']}", "127.0.0.1:8443": f"{'' if own['host'] else '127.0.0.1:'}{own['port']}", "/srv/proxy": team.folder}
    conf = read(examples, "proxy", "nginx.conf")
    for usual, word in words.items():
        conf = conf.replace(usual, word)
    team.write("# Written anew at each start: lines of your own belong into files of more.d, whose names end with .conf and stay.\n" + conf, "nginx.conf")
    words = {"FOLDER": team.folder, "MEGABYTES": str(own["push_megabytes"]),
             "REPOSITORIES": "|".join(re.escape(project + ".git") for project in team.projects if project.split("/")[0] not in OF_THE_DESK) or "(?!)"}
    team.write_administrators()
    for part, name, *place in (("proxy", "to_asked.conf"), ("proxy", "to_desk.conf"), ("team", "asked.conf", "asked.d"), ("team", "around_asked.conf", "http.d"), ("team", "git.params"), ("team", "git.conf", "more.d"), ("team", "people.conf", "more.d"), ("code", "code.conf", "more.d"), ("index", "index.conf", "more.d"),
                               ("index", "around.conf", "http.d")):
        text = read(examples, part, name, otherwise="")
        for usual, word in words.items():
            text = text.replace(usual, word)
        team.write(text, *place, name)
    for it in [*os.scandir(os.path.join(examples, "page")), *(it for it in os.scandir(os.path.join(examples, "git")) if it.name == "commit-msg")]:
        team.write(read(it.path), "page", it.name, for_nginx=True)
    team.write_page()


def set_up(team, source):
    """All of it; whatever was stopped before goes on."""
    os.chmod(team.folder, 0o700)
    team.write(json.dumps(team.settings, indent=1) + "\n", "settings.json")
    for part in ("asked.d", "git", "http.d", "log", "kept", "more.d", "page"):
        os.makedirs(team.path(part), exist_ok=True)
    if os.geteuid() == 0:
        print("started as root: so git runs as root, and whatever runs as www-data here is as good as root")
        os.chown(team.folder, 0, -1)
        team.let_nginx_read()
        os.chmod(team.folder, 0o710)
        team.let_nginx_read("page")
    copy_programs(team)
    make_desk(team)
    make_certificate(team)
    make_admin(team)
    for project in team.projects:
        make_repository(team, project, source if project == team.projects[-1] else None)
    write_nginx(team)


