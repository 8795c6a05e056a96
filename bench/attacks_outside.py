"""Attacks by who has no password, by another user of the machine, and what an operator's ordinary mistakes do. Cases of bench/attacks.

Those that need another user of the machine play nobody, for which they have to be run by root; otherwise they are passed over with a word.
"""
import base64
import contextlib
import http.client
import json
import os
import re
import shutil
import signal
import subprocess
import time

from attacked_team import TEAM, check, own_ports
from attacks_running import RUN, is_missing, said_by

AS_NOBODY = ["setpriv", "--reuid", "nobody", "--regid", "nogroup", "--clear-groups", "/usr/bin/python3", "-c"]
LISTEN = """
import socket, sys, time
end = time.monotonic() + 20
while time.monotonic() < end:
    try:
        listening = socket.create_server(("127.0.0.1", int(sys.argv[1])))
        break
    except OSError:
        pass
listening.settimeout(5)
while time.monotonic() < end:
    try:
        peer = listening.accept()[0]
        peer.settimeout(1)
        peer.recv(4000)
    except OSError:
        pass
"""
# In a network of its own, with the ready file's rules for the user 12345: who may listen at the desk's port, and who reaches it.
WALLED = """
ip link set lo up && nft -f - || exit 3
for who in '12345 12345' '65534 12345' '12345 65534'; do
    set -- $who
    setpriv --reuid $1 --regid $1 --clear-groups /usr/bin/python3 -c 'import socket
s = socket.create_server(("127.0.0.1", 8473)); s.settimeout(3); s.accept()[0].sendall(b"here")' 2> /dev/null & sleep 0.5
    setpriv --reuid $2 --regid $2 --clear-groups /usr/bin/python3 -c 'import socket; print(socket.create_connection(("127.0.0.1", 8473), 2).recv(4))' 2> /dev/null || echo nothing
    wait
done
"""


def is_not_root():
    if os.geteuid():
        print("passed over: another user of the machine can't be played where root doesn't run this")
    return os.geteuid() != 0


def started(*words, seconds=30):
    """What `start` says that has to end by itself, and its status."""
    ran = subprocess.run([os.path.join(TEAM, "start"), *words], stdout=subprocess.PIPE, stderr=subprocess.STDOUT, text=True, check=False, timeout=seconds)
    return ran.returncode, ran.stdout


def root_is_asked_for(team):
    """Root starts a team only where that was said: programs of the group of nginx's workers could be root then."""
    if not is_not_root():
        place = os.path.join(team.top, "of-root")
        check(started(place)[0] == 2 and not os.path.exists(place), "root started a team by itself")


def folders_of_others_are_not_believed(team):
    """In a folder that another user made, or could put in another's place, no command believes a setting, runs a program or follows a link; and root leaves nothing there."""
    if is_not_root():
        return
    place, precious, evil = os.path.join(team.top, "open", "team"), os.path.join(team.top, "precious"), os.path.join(team.top, "evil")
    os.makedirs(place)
    os.chmod(os.path.dirname(place), 0o1777)
    for file, text in ((precious, "precious\n"), (evil, f"#!/bin/sh\n: > {evil}.ran\n"), (os.path.join(place, "settings.json"), json.dumps({"program": evil}))):
        with open(file, "w", encoding="utf-8") as new:
            new.write(text)
    os.chmod(evil, 0o755)
    for name in ("start.lock", "users.lock", "copy.lock"):
        os.symlink(precious, os.path.join(place, name))
    shutil.chown(place, "nobody")
    found = sorted(os.listdir(place))
    for words in (["start", place, "--as-root"], ["add-user", place, "ann"], ["set-group", place, "Core"], ["remove-user", place, "ann"], ["set-project", place], ["sweep", place], ["close-epochs", place],
                  ["back-up", place, os.path.join(team.top, "of-others")], ["look", place]):
        ran = subprocess.run([os.path.join(TEAM, words[0]), *words[1:]], stdout=subprocess.PIPE, stderr=subprocess.STDOUT, text=True, check=False, timeout=30)
        check(ran.returncode == 1 and "of the user nobody" in ran.stdout, "a folder of another user is believed", words, ran.returncode, ran.stdout)
    check(not os.path.exists(evil + ".ran") and os.path.getsize(precious) == 9 and sorted(os.listdir(place)) == found, "something was run or written there")
    os.chmod(os.path.dirname(place), 0o777)
    shutil.chown(place, "root")
    status, said = started(place, "--as-root")
    check(status == 1 and "in the place of" in said, "a folder that others may replace is believed", status, said)


def who_else_listens_is_not_the_desk(team):
    """Where another user takes the desk's port while the desk restarts, all ends at once, and it is told. (That nobody asks him meanwhile is for the firewall's rule.)"""
    if is_not_root():
        return
    taking = subprocess.Popen([*AS_NOBODY, LISTEN, str(team.desk_port)], stdout=subprocess.PIPE, text=True)
    try:
        for number in range(20):
            with contextlib.suppress(FileNotFoundError):
                team.signal("review_desk serve", signal.SIGKILL)
            time.sleep(1)
            if team.started.poll() is not None:
                break
            team.until(lambda: team.started.poll() is not None or "review_desk serve" in str(team.children()), "the desk is started again", 40)
        else:
            print("who_else_listens_is_not_the_desk: the desk was sooner there each time")
            return
        check(team.started.poll() == 1, "start goes on beside another one's desk", team.said[-5:])
        check(any("another user's program listens" in it for it in team.said) or any("desk doesn't start" in it for it in team.said), "it isn't told", team.said[-5:])
    finally:
        taking.kill()
        taking.wait()


def firewall_is_for_both_ends(_):
    """By the ready file nobody else reaches the desk's port, and nobody else is reached there."""
    if is_not_root() or is_missing("nft", "nftables") or is_missing("ip", "iproute2"):
        return
    with open(os.path.join(RUN, "firewall.nft"), encoding="utf-8") as file:
        rules = file.read().replace('"desk"', "12345")
    ran = subprocess.run(["unshare", "--net", "sh", "-c", WALLED], input=rules, capture_output=True, text=True, check=False)
    if ran.returncode in (1, 3):
        print("passed over: no network of its own can be made here:", ran.stderr.strip())
        return
    check(ran.stdout.split() == ["b'here'", "nothing", "nothing"], "who reaches whom", ran.stdout, ran.stderr)


def another_address_is_not_shut_out(team):
    """What a peer writes into its fields doesn't have fail2ban shut another address out, nor overlook him."""
    sent = [
        '" password mismatch, client: 6.6.6.6, server: , request: "GET / HTTP/1.1", host: "a"',
        '" was not found in "x", client: 6.6.6.6, server: , request: "GET / HTTP/1.1", host: "a']
    names = ["zz", 'a" 401 1', "2020-01-01T00:00:00+00:00 6.6.6.6", "x\n2026-11-29T00:00:00+00:00 6.6.6.6 \"x\" \"GET\" 401 1", "[29/Nov/2020:00:00:00 +0000]", "é" * 30]
    for referer in sent:
        for name in names:
            fields = {"Authorization": "Basic " + base64.b64encode(f"{name}:guess".encode()).decode(), "Referer": referer, "User-Agent": referer}
            check(team.ask(None, "GET", "/page/", headers=fields)[0] == 401, "a guess", name)
    if is_missing("fail2ban-regex", "fail2ban"):
        return
    with open(os.path.join(RUN, "fail2ban.conf"), encoding="utf-8") as file:
        text = file.read()
    wanted, dates = (re.search(rf"^{name} = (.*)$", text, re.M)[1] for name in ("failregex", "datepattern"))
    said = said_by("fail2ban-regex", "-v", "-d", dates, os.path.join(team.path, "access.log"), wanted)
    found = re.findall(r"^\|\s+(\S+)\s+\w{3} (\w{3} .*)$", said, re.M)
    check({address for address, _ in found} == {"127.0.0.1"} and len(found) >= len(names) * len(sent), "who is shut out", found, said[-1500:])
    year = time.strftime("%Y")
    check(all(when.endswith(year) for _, when in found), "a guess is taken for an old one", found)


def logs_have_an_end(team):
    """Who has no password has nothing written by the megabyte; and what is too large goes."""
    log, long = os.path.join(team.path, "access.log"), "é" * 3900
    before, begun = os.path.getsize(log), time.monotonic()
    for authorization in ("", base64.b64encode(b"a" * 150 + b":x").decode(), base64.b64encode(b"a" * 3000 + b":x").decode()):
        peer = http.client.HTTPSConnection("127.0.0.1", team.port, timeout=30, context=team.context())
        for _ in range(100):
            fields = {"Referer": long, "User-Agent": long, **({"Authorization": "Basic " + authorization} if authorization else {})}
            peer.request("GET", "/" + "a" * 7000, headers={name: word.encode() for name, word in fields.items()})
            answer = peer.getresponse()
            answer.read()
            check(answer.status in (400, 401, 429), "a stranger is answered", answer.status)
        peer.close()
    check(os.path.getsize(log) - before < 300_000, "a stranger fills the disk", os.path.getsize(log) - before, "bytes for 300 requests in", time.monotonic() - begun)
    with open(os.path.join(team.path, "error.log"), "ab") as file:
        file.truncate(101 << 20)
    team.until(lambda: os.path.exists(os.path.join(team.path, "error.log.full")), "error.log is put away", 30)
    team.until(lambda: os.path.exists(os.path.join(team.path, "error.log")), "nginx writes a new one", 30)
    check(team.ask("ann", "GET", "/page/team.json")[0] == 200, "ann is answered")


def copies_outlive_clocks_and_neighbours(team):
    """A copy is made and stays beside copies of a time to come, and beside processes of others that are called as the desk is; one that can't be made leaves nothing."""
    place, ahead = os.path.join(team.top, "copies"), [f"2099-01-0{day}T00.00.00" for day in (1, 2, 3)]
    for name in ahead:
        os.makedirs(os.path.join(place, name))
        os.utime(os.path.join(place, name), (4_000_000_000, 4_000_000_000))
    look = [os.path.join(TEAM, "look"), team.path, "--free", "0", "--copies", place]
    check("no copy" in said_by(*look, status=1), "a copy of a time to come counts as new")
    neighbour = None if os.geteuid() else subprocess.Popen([*AS_NOBODY, "import time; time.sleep(60)", os.path.join(team.path, "review_desk"), "serve"])
    try:
        made = [team.command("back-up", place, "--keep", "2").strip() for _ in range(2)]
    finally:
        if neighbour:
            neighbour.kill()
            neighbour.wait()
    check(sorted(os.listdir(place)) == sorted(os.path.basename(it) for it in made), "the newest copies stay", os.listdir(place), made)
    check("all is well" in said_by(*look), "the copies are new")
    os.mkdir(os.path.join(team.path, "more.d", "no.conf"))
    os.mkfifo(os.path.join(team.path, "git", "tools.git", "pipe"))
    shutil.rmtree(os.path.join(team.path, "git", "tools.git", "objects"))
    team.command("back-up", place, status=None)
    check("new" not in os.listdir(place), "half a copy is left", os.listdir(place))


def removed_users_have_no_connection(team):
    """Who was removed is nobody also over a connection that is open; who has another name of an account isn't made."""
    peer = http.client.HTTPSConnection("127.0.0.1", team.port, timeout=30, context=team.context())
    said = []
    for step in range(2):
        try:
            peer.request("GET", "/page/team.json", headers=team.authorization("mallory"))
            answer = peer.getresponse()
            answer.read()
            said.append(answer.status)
        except http.client.RemoteDisconnected:
            said.append("closed")
        if step == 0:
            team.command("remove-user", "mallory")
    check(said[0] == 200 and said[1] in (401, "closed"), "a removed user goes on", said)
    check("is that of ann" in team.command("add-user", "ann2", "--account", "2", status=1), "an account has two names")
    team.command("add-user", "mallory2", "--account", "4", "--password-on-input", sent="a password\n")
    team.command("remove-user", "mallory", status=None)
    number, _ = team.change("ann", {"renamed": "who\n"}, "Add renamed")
    check(team.desk_ask(4, "POST", f"/changes/{number}/revisions/1/review", {"labels": {"Code-Review": 1}})[0] == 200, "who has a new name was taken out of the group")


def what_is_left_is_ended(team):
    """Where `start` and nginx's first process are killed at once, nginx's workers go on by themselves and hold the port: the same words end them, and go on."""
    numbers = [*team.children(), team.started.pid]
    for number in reversed(numbers):
        os.kill(number, signal.SIGKILL)
    team.started.wait()
    team.begin()
    check(team.ask("ann", "GET", "/page/team.json")[0] == 200, "ann is answered")
    check(team.change("ann", {"left": "over\n"}, "Add left")[0], "a push is taken")


def mistakes_are_told(team):
    """What can't be is told in a line, at once, and nothing of it is kept."""
    place, ports = os.path.join(team.top, "mistaken"), own_ports(2)
    usual = ["--program", team.program, "--as-root", "--port", str(ports[0]), "--desk-port", str(ports[1])]
    for words in (["--port", "0"], ["--port", "70000"], ["--port", str(ports[1])], ["--push-megabytes", "0"], ["--hung-after", "0"], ["--project", "../x"], ["--host", "a;b"],
                  ["--branch", "a b"], ["--import", "/nonexistent"], ["--program", "/nonexistent"]):
        status, said = started(place, *usual, *words)
        check(status in (1, 2, 77) and "Traceback" not in said and said.strip(), "a mistake", words, status, said)
        shutil.rmtree(place, ignore_errors=True)
    for name, *words in (("add-user", "a" * 57), ("add-user", "a b"), ("set-project", "/nonexistent"), ("set-project", "/dev/null"), ("back-up", "/proc/none"),
                          ("back-up", os.path.join(team.path, "copies")), ("set-group", "Core", "nobody")):
        said = team.command(name, *words, status=None)
        check("Traceback" not in said and said.strip(), "a mistake", name, words, said)
    check("is a new one" in team.command("add-user", "typo", "--group", "Coer"), "a group that wasn't there is made without a word")
    ran = subprocess.run([os.path.join(TEAM, "add-user"), os.path.join(team.top, "elsewhere"), "ann"], capture_output=True, text=True, check=False)
    check(ran.returncode == 2 and "no team's folder" in ran.stderr, "a user was made elsewhere", ran.returncode, ran.stderr)


CASES = {function.__name__: function for function in (root_is_asked_for, folders_of_others_are_not_believed, who_else_listens_is_not_the_desk, firewall_is_for_both_ends,
                                                      another_address_is_not_shut_out, logs_have_an_end, copies_outlive_clocks_and_neighbours, removed_users_have_no_connection,
                                                      what_is_left_is_ended,
                                                      mistakes_are_told)}
ALONE = {"what_is_left_is_ended", "who_else_listens_is_not_the_desk", "logs_have_an_end", "copies_outlive_clocks_and_neighbours", "removed_users_have_no_connection",
         "another_address_is_not_shut_out"}
