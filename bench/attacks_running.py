"""What goes wrong while a team is run: copies that don't belong together, logs that fill the disk, units that are open, a firewall that lets others in. Cases of bench/attacks."""
import glob
import os
import re
import shutil
import signal
import subprocess
import threading
import time

from attacked_team import TEAM, check
from desk_proxied import EXAMPLES

RUN = os.path.join(EXAMPLES, "team", "run")


def said_by(*words, status=0, **more):
    """What a program says; it has to be there."""
    ran = subprocess.run(words, stdout=subprocess.PIPE, stderr=subprocess.STDOUT, text=True, check=False, **more)
    check(status is None or ran.returncode == status, words, ran.returncode, ran.stdout)
    return ran.stdout


def is_missing(command, package):
    """Whether a program isn't there, which is said."""
    if shutil.which(command):
        return False
    print(f"passed over: there is no {command} here; apt-get install {package}")
    return True


def copies_belong_together(team):
    """Copies that are made while all push, vote and submit are good, also where one before was killed; whatever is killed, the desk and the follower go on. A copy with a fault is told."""
    place, is_over, made = os.path.join(team.top, "copies"), threading.Event(), []
    clones = {user: team.clone(user) for user in ("ann", "mallory")}

    def work(user):
        while not is_over.is_set():
            number, _ = team.change(user, {f"{user}{len(made)}": "text\n"}, f"Add {user}{len(made)}", clone=clones[user])
            made.append(number)
            team.vote("bob", number, 1, 2)
            team.submit(user, number)

    threads = [threading.Thread(target=work, args=(user,)) for user in clones]
    for thread in threads:
        thread.start()
    try:
        for _ in range(4):
            ran = subprocess.Popen([os.path.join(TEAM, "back-up"), team.path, place], stdout=subprocess.DEVNULL, stderr=subprocess.DEVNULL)
            time.sleep(0.6 * team.drawn.random())
            ran.kill()
            ran.wait()
        copies = []
        for _ in range(2 if team.is_smallest else 8):
            copies.append(team.command("back-up", place, "--keep", "20").splitlines()[-1])
            time.sleep(1)
    finally:
        is_over.set()
        for thread in threads:
            thread.join()
    check(made and team.ask(None, "GET", "/health")[0] == 200, "the desk goes on", made)
    drill = os.path.join(team.path, "examples", "team", "drill")
    for copy in copies:
        check(": 0 faults in " in said_by(drill, copy), "a copy isn't whole", copy)
        check(os.stat(copy).st_mode & 0o077 == 0, "a copy is open to others", copy)
    number, commit = team.change("ann", {"behind": "copies\n"}, "Behind the copies", clone=clones["ann"])
    team.vote("bob", number, 1, 2)
    team.submit("ann", number)
    team.until(lambda: team.has("main", commit), "the follower goes on")
    commits = said_by("git", "-C", os.path.join(copies[-1], "git", "tools.git"), "for-each-ref", "--format=%(objectname)", "refs/changes").split()
    loose = [os.path.join(copies[-1], "git", "tools.git", "objects", it[:2], it[2:]) for it in commits]
    os.remove(next(it for it in loose if os.path.exists(it)))
    check(" 0 faults in " not in said_by(drill, copies[-1], status=None), "a copy without a commit is said to be good")
    check(os.listdir(os.path.join(team.path)).count("copying") == 0, "what was copied is left")


def who_looks_is_told(team):
    """The script of the timer tells a desk that is down, a disk that is full and copies that are old, and says nothing else."""
    look, place = os.path.join(TEAM, "look"), os.path.join(team.top, "none")
    os.makedirs(place)
    check("all is well" in said_by(look, team.path, "--free", "0"), "nothing is wrong")
    check("percent of the disk" in said_by(look, team.path, "--free", "101", status=1) and "no copy" in said_by(look, team.path, "--free", "0", "--copies", place, status=1), "faults")
    team.end(signal.SIGKILL)
    check("doesn't answer" in said_by(look, team.path, "--free", "0", status=1), "all is down")
    team.begin()


def a_conflict_is_settled(team):
    """Two changes that conflict and were both merged past the proxy hold up nobody else; who looks is told of the one that was passed over, and the page's commands bring it."""
    branch, clone, look = team.new_branch(), team.clone("ann"), [os.path.join(TEAM, "look"), team.path, "--free", "0"]
    numbers = []
    for text in ("one", "two"):
        numbers.append(team.change("ann", {"same": f"{text}\n"}, f"Say {text}", f"origin/{branch}", branch, clone)[0])
        check(team.vote("bob", numbers[-1], 1, 2)[0] == 200, "a vote")
    for number in numbers:
        check(team.desk_ask(2, "POST", f"/changes/{number}/submit", {})[0] == 200, "merged at the desk", number)
    team.until(lambda: f"change {numbers[1]} has merged and isn't in its branch" in said_by(*look, status=None), "who looks is told", 30)
    other, commit = team.change("ann", {"other": "goes on\n"}, "Go on", f"origin/{branch}", branch, clone)
    check(team.vote("bob", other, 1, 2)[0] == 200 and team.submit("ann", other)[0] == 200, "another change is submitted")
    team.until(lambda: team.has(branch, commit), "another change comes into the branch", 30)
    for words in (["fetch", "--quiet", "origin"], ["checkout", "--quiet", "--detach", f"origin/{branch}"], ["fetch", "--quiet", "origin", f"refs/changes/{numbers[1] % 100:02}/{numbers[1]}/1"]):
        team.git("ann", *words, cwd=clone)
    team.git("ann", "merge", "FETCH_HEAD", cwd=clone, status=1)
    merge = team.commit("ann", clone, {"same": "one and two\n"}, "Merge the two")
    team.in_repository("fetch", "--quiet", clone, merge)
    said_by(os.path.join(EXAMPLES, "git", "settle"), team.repository, branch, str(numbers[1]), merge)
    team.until(lambda: team.tip(branch) == merge, "the merge comes into the branch", 30)
    team.until(lambda: "all is well" in said_by(*look, status=None), "nothing is passed over any more", 30)


def logs_are_rotated(team):
    """logrotate takes the ready file; nginx goes on in a new file, and what the programs say isn't lost or grown again."""
    if is_missing("logrotate", "logrotate"):
        return
    with open(os.path.join(RUN, "logrotate.conf"), encoding="utf-8") as file:
        text = re.sub(r"su desk desk", "su root root" if os.geteuid() == 0 else "", file.read()).replace("/srv/team", team.path)
        text = text.replace("runuser -u desk -- ", "runuser -u root -- " if os.geteuid() == 0 else "")
    conf = os.path.join(team.top, "logrotate.conf")
    with open(conf, "w", encoding="utf-8") as file:
        file.write(text)
    os.chmod(conf, 0o600)
    team.ask("ann", "GET", "/page/team.json")
    said_by("logrotate", "--force", "--state", os.path.join(team.top, "state"), conf)
    check(os.path.exists(os.path.join(team.path, "access.log.1")), "access.log isn't rotated", os.listdir(team.path))
    team.ask("ann", "GET", "/changes/9")

    def is_in_new_file():
        with open(os.path.join(team.path, "access.log"), encoding="utf-8") as file:
            return "/changes/9" in file.read()

    team.until(is_in_new_file, "nginx writes to the new file", 10)
    check(team.ask("ann", "GET", "/page/team.json")[0] == 200 and os.stat(os.path.join(team.path, "access.log")).st_mode & 0o007 == 0, "after the rotation")


def units_are_shut_in(_):
    """systemd finds each unit well-formed, and its exposure under 4."""
    if is_missing("systemd-analyze", "systemd"):
        return
    for unit in glob.glob(os.path.join(RUN, "*.service")):
        said = said_by("systemd-analyze", "security", "--offline=yes", "--threshold=40", "--no-pager", unit)
        check(re.search(r"exposure level for \S+: [0-3]\.", said), "a unit is open", unit, said[-200:])
    with open(os.path.join(RUN, "team.service"), encoding="utf-8") as file:
        text = file.read()
    check("StartLimitIntervalSec=0" in text and "RestartSec=" in text, "a unit that gives up")


def firewall_and_jail_are_read(team):
    """nft takes the ready file, for a user that is there; fail2ban finds wrong passwords in nginx's log."""
    if not is_missing("nft", "nftables"):
        with open(os.path.join(RUN, "firewall.nft"), encoding="utf-8") as file:
            text = file.read().replace('"desk"', str(os.getuid()))
        ran = subprocess.run(["nft", "-c", "-f", "-"], input=text, capture_output=True, text=True, check=False)
        check(ran.returncode == 0 or "not permitted" in ran.stderr, "nft", ran.stderr)
    if not is_missing("fail2ban-regex", "fail2ban"):
        for _ in range(3):
            check(team.ask("ann", "GET", "/page/", password="guess")[0] == 401 and team.ask("nobody", "GET", "/page/", password="guess")[0] == 401, "a guess")
        with open(os.path.join(RUN, "fail2ban.conf"), encoding="utf-8") as file:
            text = file.read()
        wanted, dates = (re.search(rf"^{name} = (.*)$", text, re.M)[1] for name in ("failregex", "datepattern"))
        said = said_by("fail2ban-regex", "-d", dates, os.path.join(team.path, "access.log"), wanted)
        check(int(re.search(r"(\d+) matched", said)[1]) >= 6, "fail2ban sees no wrong passwords", said[-600:])


CASES = {function.__name__: function for function in (copies_belong_together, who_looks_is_told, a_conflict_is_settled, logs_are_rotated, units_are_shut_in, firewall_and_jail_are_read)}
ALONE = {"copies_belong_together", "who_looks_is_told", "a_conflict_is_settled"}
