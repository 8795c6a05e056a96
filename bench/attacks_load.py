"""Attacks by load and by stops: reads beside pushes that wait, a desk that hangs, programs killed again and again, words in the environment of who starts all. Cases of bench/attacks."""
import os
import signal
import subprocess
import sys
import threading
import time

from attacked_team import TEAM, check


def health(team, seconds=8):
    """What the health path says; 0 where it says nothing in time."""
    try:
        return team.ask(None, "GET", "/health", seconds=seconds)[0]
    except OSError:
        return 0


def reads_go_on_beside_pushes(team):
    """While the desk hangs and ten pushes wait for it, code is read as ever; then the desk is killed and started again, and pushes go through. Nothing is made twice."""
    team.end()
    team.begin("--hung-after", "6")
    users = ["ann", "bob", "mallory"]
    clones = {(user, number): team.clone(user) for user in users for number in range(4)}
    for (user, number), clone in clones.items():
        team.commit(user, clone, {f"{user}{number}": "waits\n"}, f"Add {user}{number}")
    check(health(team) == 200, "the desk's health")
    check(team.signal("review_desk serve", signal.SIGSTOP) == 1, "the desk is stopped")
    pushing = [threading.Thread(target=team.push, args=(user, clone), kwargs={"status": None}) for (user, _), clone in clones.items()]
    for thread in pushing:
        thread.start()
    time.sleep(1)
    begun = time.monotonic()
    check("refs/heads/main" in team.git("ann", "ls-remote", "origin", cwd=clones["ann", 0]), "nothing is read")
    check(os.path.exists(os.path.join(team.clone("eve"), ".git")), "nothing is cloned")
    check(time.monotonic() - begun < 8, "reads wait for pushes", time.monotonic() - begun)
    check(health(team, 2) != 200, "a desk that hangs is said to be well")
    team.until(lambda: health(team) == 200, "a desk that hangs is started again", 40)
    check(any("no answer" in line for line in team.said), "nothing is said of a desk that hung", team.said)
    for thread in pushing:
        thread.join()
    for (user, _), clone in clones.items():
        check("change " in team.push(user, clone), "a push after the desk hung")
    numbers = {int(ref.split("/")[3]) for ref in team.in_repository("for-each-ref", "--format=%(refname)", "refs/changes").split()}
    check(numbers == set(range(1, len(clones) + 1)) and team.desk_ask(1, "GET", f"/changes/{len(clones) + 1}")[0] == 404, "changes made twice or not", numbers)


def a_desk_that_works_is_not_hung(team):
    """A desk that is held for as long as it allows a peer isn't killed."""
    children = team.children()
    words = "import socket, sys, time\nit = socket.create_connection(('127.0.0.1', int(sys.argv[1])))\nfor _ in range(45):\n it.send(b'G')\n time.sleep(0.2)"
    held = subprocess.Popen([sys.executable, "-c", words, str(team.desk_port)])
    check(health(team, 30) == 200, "the desk answers behind who holds it")
    held.wait()
    check(children == team.children(), "something was killed", team.said)


def kills_end_nothing(team):
    """Programs that are killed again and again, many at once, are started again, and nothing ends the rest; a child without its program doesn't either."""
    clone = team.clone("ann")
    for _ in range(5):
        for number in team.children():
            if team.drawn.random() < 0.6:
                os.kill(number, signal.SIGKILL)
        time.sleep(0.3 + 0.7 * team.drawn.random())
        check(team.started.poll() is None, "all has ended", team.said[-5:])
    team.until(lambda: health(team) == 200, "the desk is well", 60)

    def reads():
        return "refs/heads/main" in team.git("ann", "ls-remote", "origin", cwd=clone, status=None)

    team.until(reads, "code is read", 60)
    program = os.path.join(team.path, "examples", "git", "follow")
    os.rename(program, program + ".away")
    team.signal("git/follow", signal.SIGKILL)
    time.sleep(3)
    check(team.started.poll() is None and reads(), "all has ended without follow", team.said[-5:])
    os.rename(program + ".away", program)
    number, commit = team.change("ann", {"after": "kills\n"}, "After kills", clone=clone)
    check(team.vote("bob", number, 1, 2)[0] == 200 and team.submit("ann", number)[0] == 200, "merged after kills")
    team.until(lambda: team.has("main", commit), "the branch follows", 60)


def nobody_pushes_as_another(team):
    """Words in the environment of who starts all don't say who pushes, nor does a field of the request."""
    team.end()
    team.begin(environment={"DESK_USER": "ann", "REMOTE_USER": "ann", "GIT_DIR": "/nowhere", "GIT_CONFIG_COUNT": "1", "GIT_CONFIG_KEY_0": "desk.account", "GIT_CONFIG_VALUE_0": "2"})
    clone = team.clone("eve")
    team.commit("eve", clone, {"eve": "was here\n"}, "From eve")
    check("NOT_ALLOWED" in team.push("eve", clone, status=1), "eve pushed as ann")
    fields = ["-c", "http.extraHeader=Desk-User: ann", "-c", "http.extraHeader=DESK_USER: ann", "-c", "http.extraHeader=Remote-User: ann", "-c", "http.extraHeader=X-Account: 2"]
    check("NOT_ALLOWED" in team.git("eve", *fields, "push", "origin", "HEAD:refs/for/main", cwd=clone, status=1), "eve pushed as ann by a field")
    number, _ = team.change("bob", {"bob": "was here\n"}, "From bob")
    check(team.desk_ask(1, "GET", f"/changes/{number}")[1]["owner"] == 3, "bob's change is another's")


def the_folder_keeps_what_runs(team):
    """What the checkout becomes changes nothing that runs, and lines of an administrator in more.d stay."""
    for part in ("git/proc-receive", "git/follow", "team/password"):
        check(os.path.realpath(os.path.join(team.path, "examples", part)).startswith(os.path.realpath(team.path)), "it runs from elsewhere", part)
    hook = os.path.realpath(os.path.join(team.repository, "hooks", "proc-receive"))
    check(hook.startswith(os.path.realpath(team.path)), "the hook is a link out of the folder", hook)
    own = os.path.join(team.path, "more.d", "own.conf")
    with open(own, "w", encoding="utf-8") as file:
        file.write('location = /own {\n    return 200 "own";\n}\n')
    team.end(signal.SIGKILL)
    team.begin()
    check(team.ask("ann", "GET", "/own")[1] == "own", "an administrator's lines are gone")
    with open(os.path.join(team.path, "nginx.conf"), encoding="utf-8") as file:
        check("more.d" in file.readline(), "nothing says that the file is written anew")


def a_stopped_beginning_goes_on(team):
    """`start`, killed at any moment while it sets a folder up, goes on when it is started again: one desk, one repository, and admin's password holds."""
    team.end(signal.SIGKILL)
    time.sleep(1)
    for name in os.listdir(team.path):
        place = os.path.join(team.path, name)
        subprocess.run(["rm", "-rf", place], check=True)
    words = [os.path.join(TEAM, "start"), team.path, "--program", team.program, "--port", str(team.port), "--desk-port", str(team.desk_port), "--as-root"]
    words += [word for branch in team.branches for word in ("--branch", branch)]
    for _ in range(8 if team.is_smallest else 60):
        started = subprocess.Popen(words, stdout=subprocess.DEVNULL, stderr=subprocess.DEVNULL)
        time.sleep(0.9 * team.drawn.random())
        started.kill()
        started.wait()
        check(os.stat(team.path).st_mode & 0o007 == 0 or not os.listdir(team.path), "the folder is open to others")
    team.begin()
    team.set_up()
    check(team.ask("admin", "GET", "/page/team.json")[0] == 200, "admin's password doesn't hold")
    number, _ = team.change("ann", {"first": "one\n"}, "First")
    check(number == 1, "changes were made before", number)


def refused_objects_go(team):
    """What was pushed and refused lies on the disk for a day, and no longer; what refs hold stays."""
    clone, files = team.clone("ann"), {"noise": os.urandom(2 << 20)}
    name = team.commit("ann", clone, files, "Refused")
    team.git("ann", "commit", "--quiet", "--amend", "--no-verify", "-m", "No footer", cwd=clone)
    name = team.git("ann", "rev-parse", "HEAD", cwd=clone).strip()
    check("Change-Id" in team.push("ann", clone, status=1), "it isn't refused")

    def is_there(commit):
        return subprocess.run(["git", "-C", team.repository, "cat-file", "-e", commit], capture_output=True, check=False).returncode == 0

    number, kept = team.change("ann", {"kept": "one\n"}, "Kept", clone=clone)
    team.command("sweep")
    check(is_there(kept), "what a change has is gone")
    for place in ("refs/desk/push",):
        check(team.in_repository("rev-parse", place) == kept, "what was pushed last is something else")
    team.command("sweep", "--older-than", "now")
    check(is_there(kept) and not is_there(name), "what was refused stays", number)
    check(team.in_repository("config", "receive.autogc") == "false" and team.in_repository("config", "transfer.fsckObjects") == "true", "the repository's settings")


CASES = {function.__name__: function for function in (reads_go_on_beside_pushes, a_desk_that_works_is_not_hung, kills_end_nothing, nobody_pushes_as_another, the_folder_keeps_what_runs,
                                                      a_stopped_beginning_goes_on, refused_objects_go)}
ALONE = set(CASES)
