"""Attacks on who is who in a team: what another user of the machine can read, who comes back, who is locked out, and passwords that users change. Cases of bench/attacks."""
import os
import signal
import stat
import subprocess
import threading
import time

from attacked_team import ACCOUNTS, TEAM, check, path_of

ADMINISTRATORS = path_of("groups", "Administrators")
READER = """
import os, sys, time
found, end = {}, time.monotonic() + float(sys.argv[2])
def look(place, depth):
    try:
        for it in os.scandir(place):
            if it.is_dir(follow_symlinks=False):
                if depth < 3:
                    look(it.path, depth + 1)
            elif it.is_file(follow_symlinks=False) and it.path not in found:
                try:
                    found[it.path] = len(open(it.path, "rb").read())
                except OSError:
                    pass
    except OSError:
        pass
names = ["users", "admin.netrc", "tls.key", "groups.json", "settings.json", "tools.desk", "git/tools.git/config", "accounts.conf", "page/team.json"]
while time.monotonic() < end:
    look(sys.argv[1], 0)
    for name in [it + more for it in names for more in ("", ".new", ".whole", ".whole.new")]:
        try:
            found[name] = len(open(os.path.join(sys.argv[1], name), "rb").read())
        except OSError:
            pass
print(sorted(found))
"""


def nobody_reads(team):
    """While users are made, passwords set and all is started anew, another user of the machine reads no file of the folder, for a moment either; nor may the modes let him."""
    as_other = ["setpriv", "--reuid", "nobody", "--regid", "nogroup", "--clear-groups"] if os.geteuid() == 0 else []
    reading = subprocess.Popen([*as_other, "python3", "-c", READER, team.path, "6"], stdout=subprocess.PIPE, text=True) if as_other else None
    old = os.umask(0o000)
    try:
        for number in range(4):
            team.command("add-user", f"new{number}", "--password-on-input", sent="a password\n")
        team.command("add-user", "admin", "--password-on-input", sent="another one\n")
        team.command("set-group", "Core", "ann", "bob")
        team.command("remove-user", "new0")
        team.command("set-project")
        team.end(signal.SIGKILL)
        team.begin()
    finally:
        os.umask(old)
    if reading:
        said = reading.communicate()[0]
        check(said == "[]\n", "another user has read", said)
    open_to = 0o077 if os.geteuid() else 0o007
    check(not os.stat(team.path).st_mode & open_to, "the folder is open to others", oct(os.stat(team.path).st_mode))
    for folder, _, names in os.walk(team.path):
        for name in names:
            mode = os.lstat(os.path.join(folder, name)).st_mode
            check(stat.S_ISLNK(mode) or not mode & 0o007, "a file is open to others", folder, name, oct(mode))


def admin_is_not_locked_out(team):
    """No command takes admin out of Administrators, whoever is put into it."""
    team.command("add-user", "ann", "--group", "Administrators", "--password-on-input", sent="pear\n")
    for words in (["set-group", "Administrators"], ["set-group", "Administrators", "bob"], ["add-user", "bob", "--group", "Administrators", "--password-on-input"]):
        team.command(*words, sent="plum\n")
        check(team.desk_ask(1, "POST", "/accounts", {"name": f"made{time.monotonic_ns()}"})[0] == 200, "admin is no administrator any more", words)
    check(team.desk_ask(3, "POST", "/accounts", {"name": "madebybob"})[0] == 200, "bob is no administrator")
    check(team.desk_ask(2, "POST", "/accounts", {"name": "madebyann"})[0] == 403, "ann is an administrator still")
    team.command("set-group", "Administrators")
    check("admin stays" in team.command("remove-user", "admin", status=2), "admin was removed")


def refusals_are_not_for_ever(team):
    """What was refused once is taken when its cause is gone, by the same words."""
    check(team.desk_ask(1, "PUT", ADMINISTRATORS, {"members": [2]})[0] == 200, "Administrators are ann alone")
    for _ in range(3):
        check("NOT_ADMIN" in team.command("add-user", "fay", "--password-on-input", sent="a password\n", status=1), "fay was made")
        check("NOT_ADMIN" in team.command("set-project", status=1), "the project was set")
        check("NOT_ADMIN" in team.command("set-group", "Core", "ann", status=1), "the group was set")
    check(team.desk_ask(2, "PUT", ADMINISTRATORS, {"members": [1]})[0] == 200, "admin is one again")
    check("fay is account" in team.command("add-user", "fay", "--password-on-input", sent="a password\n"), "fay is refused for ever")
    team.command("set-project")
    check("ann, bob, mallory" in team.command("set-group", "Core", "ann", "bob", "mallory"), "the group")


def removed_members_stay_out(team):
    """Who was taken out of a group comes back by no other command, and nobody puts a group past the folder's list."""
    number, _ = team.change("ann", {"members": "who\n"}, "Add members")
    check(team.vote("mallory", number, 1, 1)[0] == 200, "mallory votes as a member")
    team.command("set-group", "Core", "ann", "bob")
    for path in ("/groups/Core", "/groups/Core?x", "/groups/%43ore", "//groups/Core", "/%67roups/Core"):
        status, told, _ = team.ask("admin", "PUT", path, {"members": [2, 3, 4]})
        check(status in (403, 404) and (status == 404 or "set-group" in told), "a group was put past the folder", path, status, told)
    team.command("add-user", "gil", "--password-on-input", sent="a password\n")
    team.command("add-user", "mallory", "--password-on-input", sent="sloe\n")
    team.command("set-project")
    check(team.vote("mallory", number, 1, 2)[0] == 403, "mallory came back")
    check("mallory" in team.command("set-group", "Core", "ann", "bob", "mallory"), "mallory is a member again")
    check(team.vote("mallory", number, 1, 2)[0] == 200, "mallory votes as a member again")


def removed_users_are_nobody(team):
    """Who was removed has no password, pushes nothing, is in no group and can't change a password; killed anywhere and run again it is the same. Made anew the account is the same."""
    clone, number = team.clone_of("mallory"), team.change("ann", {"removed": "who\n"}, "Add removed")[0]
    for _ in range(4):
        ran = subprocess.Popen([os.path.join(TEAM, "remove-user"), team.path, "mallory"], stdout=subprocess.DEVNULL, stderr=subprocess.DEVNULL)
        time.sleep(0.25 * team.drawn.random())
        ran.kill()
        ran.wait()
    team.command("remove-user", "mallory")
    check(team.ask("mallory", "GET", "/page/team.json")[0] == 401, "a removed user reads")
    check(team.ask("mallory", "POST", "/password", {"password": "mine again"}, headers={"Content-Type": "application/json"})[0] == 401, "a removed user changes a password")
    team.commit("mallory", clone, {"from": "mallory\n"}, "From mallory")
    check("Authentication failed" in team.push("mallory", clone, status=1) or "403" in team.push("mallory", clone, status=1), "a removed user pushes")
    check(team.desk_ask(4, "POST", path_of("changes", number, "revisions", 1, "review"), {"labels": {"Code-Review": 1}})[0] == 403, "a removed user is a member")
    check(team.ask("ann", "GET", "/page/team.json")[1].count("mallory") == 1, "the page doesn't know the name any more")
    check("no user" in team.command("set-group", "Core", "ann", "bob", "mallory", status=2), "a removed user was put into a group")
    check(team.command("add-user", "mallory", "--password-on-input", sent="sloe\n") == "mallory is account 4\n", "another account")
    team.until(lambda: team.vote("mallory", number, 1, 1)[0] == 200, "mallory is a user again", 10)
    check("there is no user zoe" in team.command("remove-user", "zoe", status=1), "who isn't there was removed")


def passwords_are_changed_by_their_user(team):
    """Who knows a password changes it, over the proxy, and nobody else does: not another user, nor another site's form."""
    json_field, path = {"Content-Type": "application/json"}, "/password"
    old, new = {"password": "pear"}, {"password": "a new password"}
    form = {"Content-Type": "application/x-www-form-urlencoded"}
    for user, password, headers, body, wanted in (
            (None, None, json_field, new, 401), ("ann", "wrong", json_field, new, 401), ("ann", None, {}, new, 415), ("ann", None, {"Content-Type": "text/plain"}, new, 415),
            ("ann", None, form, b"password=evil evil", 415), ("ann", None, json_field, {"password": "short"}, 400), ("ann", None, json_field, {"password": "with\na second line:$1$"}, 400),
            ("ann", None, json_field, {"password": 12345678}, 400), ("ann", None, json_field, b"{", 400), ("ann", None, json_field, b"[]", 400),
            ("ann", None, json_field, {"password": "x" * 129}, 400), ("ann", None, json_field, {"password": "x" * 9000}, 413)):
        status, told, _ = team.ask(user, "POST", path, body, headers=headers, password=password)
        check(status == wanted, "a change of a password", user, headers, body, status, told)
    check(team.ask("ann", "GET", path)[0] in (403, 405), "it is read")
    check(team.ask("ann", "POST", path, new, headers={**json_field, "X-Account": "1", "Remote-User": "admin", "REMOTE_USER": "admin"})[0] == 200, "ann's own")
    check(team.ask("ann", "GET", "/page/team.json", password="a new password")[0] == 200 and team.ask("ann", "GET", "/page/team.json")[0] == 401, "the new password alone holds")
    check(team.ask("admin", "GET", "/page/team.json")[0] == 200 and team.ask("bob", "GET", "/page/team.json")[0] == 200, "others have theirs")
    threads = [threading.Thread(target=team.ask, args=("bob", "POST", path, {"password": "plum plum plum"}), kwargs={"headers": json_field}) for _ in range(3)]
    for thread in threads:
        thread.start()
    team.command("add-user", "hal", "--password-on-input", sent="a password\n")
    for thread in threads:
        thread.join()
    with open(os.path.join(team.path, "users"), encoding="utf-8") as users:
        names = [line.split(":")[0] for line in users]
    check(sorted(names) == sorted({*ACCOUNTS, "hal", *names}), "users were lost or doubled", names)
    for name, password in (("ann", old["password"]), ("bob", "plum")):
        team.command("add-user", name, "--password-on-input", sent=password + "\n")


CASES = {function.__name__: function for function in (nobody_reads, admin_is_not_locked_out, refusals_are_not_for_ever, removed_members_stay_out, removed_users_are_nobody,
                                                      passwords_are_changed_by_their_user)}
ALONE = set(CASES)
