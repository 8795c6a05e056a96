"""Attacks with git on what is merged: code that nobody reviewed, votes kept for other code, a branch that is stopped, pushes that are, and who is believed to push. Cases of bench/attacks."""
import fcntl
import glob
import json
import os
import re
import subprocess
import time

from attacked_team import ACCOUNTS, TEAM, check, path_of

SETTLE = os.path.join(os.path.dirname(TEAM), "git", "settle")
TWICE = "".join(f"def {name}():\n    begin()\n    check()\n    end()\n\n\n" for name in ("first", "second"))


def raw_object(team, clone, kind, data):
    """Writes an object into a clone as it is, whatever git would say of it: its name."""
    words = ["git", "hash-object", "-t", kind, "-w", "--literally", "--stdin"]
    return subprocess.run(words, input=data, cwd=clone, env=team.environment, capture_output=True, check=True).stdout.decode().strip()


def tree_of(*entries):
    """A tree as git keeps it, of modes, names and objects."""
    return b"".join(f"{mode} {name}".encode() + b"\0" + bytes.fromhex(it) for mode, name, it in entries)


def commit_of_tree(team, clone, tree, subject):
    """A commit with a footer and with this tree, on what the clone has of main."""
    footer = "I" + os.urandom(20).hex()
    return team.git("ann", "commit-tree", tree, "-p", "origin/main", "-m", f"{subject}\n\nChange-Id: {footer}", cwd=clone).strip()


def made_past_the_hook(team, user, branch, commit, parent, kind=None, change=None, paths=("a",)):
    """A change that a user made at the desk's own port, or another patch set of one: its number."""
    body = {"commit": commit, "parent": parent, "paths": list(paths)}
    if change:
        status, told = team.desk_ask(ACCOUNTS[user], "POST", path_of("changes", change, "revisions"), {**body, "kind": kind})
    else:
        status, told = team.desk_ask(ACCOUNTS[user], "POST", path_of("changes", ""), {**body, "project": "tools", "branch": branch, "subject": "Words"})
    check(status == 200, "the desk made no change", status, told)
    return told["change"]


def merged_at_the_desk(team, change, voter="bob", owner="ann"):
    """Has a change approved and submitted past the gate."""
    for account, path, body in ((ACCOUNTS[voter], ("revisions", "current", "review"), {"labels": {"Code-Review": 2}}), (ACCOUNTS[owner], ("submit",), {})):
        status, told = team.desk_ask(account, "POST", path_of("changes", change, *path), body)
        check(status == 200, "the desk hasn't merged", change, path, status, told)


def passed_over(team, branch):
    """What is passed over in a branch: why, by change."""
    try:
        with open(os.path.join(team.repository, "desk", "passed-over", branch + ".json"), encoding="utf-8") as file:
            return {it["change"]: it["why"] for it in json.load(file)}
    except FileNotFoundError:
        return {}


def only_what_was_pushed(team):
    """Good code is approved; then the desk is told of other code as a trivial rebase of it, whose objects a refused push brought. It is merged in the desk, and never comes into git."""
    branch = team.new_branch()
    clone = team.clone("mallory")
    number, _ = team.change("mallory", {"good": "good\n"}, "Good", f"origin/{branch}", branch, clone)
    check(team.vote("bob", number, "current", 2)[0] == 200, "no vote")
    base = team.tip(branch)
    team.git("mallory", "checkout", "--quiet", "--detach", "--force", base, cwd=clone)
    with open(os.path.join(clone, "evil"), "w", encoding="utf-8") as file:
        file.write("evil\n")
    team.git("mallory", "add", "-A", cwd=clone)
    team.git("mallory", "commit", "--quiet", "--no-verify", "-m", "Evil", cwd=clone)
    evil = team.git("mallory", "rev-parse", "HEAD", cwd=clone).strip()
    check("has no Change-Id" in team.push("mallory", clone, branch, status=1), "a commit without a footer")
    made_past_the_hook(team, "mallory", branch, evil, base, "TRIVIAL_REBASE", number)
    status, told = team.desk_ask(ACCOUNTS["mallory"], "POST", path_of("changes", number, "submit"), {})
    check(status == 200, "the desk believes a kind that it is told at its own port", status, told)
    team.until(lambda: number in passed_over(team, branch), "that it is passed over is told")
    later, _ = team.merged("ann", {"later": "later\n"}, "Later", branch)
    check(not team.has(branch, evil), "code that nobody reviewed is in the branch")
    check("nobody has pushed it" in passed_over(team, branch)[number] and later not in passed_over(team, branch), passed_over(team, branch))
    check(f"change {number} is passed over" in team.log("follow"), "the log doesn't tell it")
    # Nor does it come along with a change that stands on it: the hook takes none of a commit that the branch doesn't have and that has no footer; and one made past it is passed over.
    on_it = team.commit("mallory", clone, {"on": "it\n"}, "On it", evil)
    check("has no Change-Id" in team.push("mallory", clone, branch, status=1), "a change on it")
    standing = made_past_the_hook(team, "mallory", branch, on_it, evil)
    merged_at_the_desk(team, standing, owner="mallory")
    team.in_repository("update-ref", f"refs/changes/{standing % 100:02}/{standing}/1", on_it)
    team.until(lambda: "stands on" in passed_over(team, branch).get(standing, ""), "what stands on it is passed over")
    check(not team.has(branch, evil) and not team.has(branch, on_it), "code that nobody reviewed came along")


def one_change_stops_nothing(team):
    """A change whose commit is nowhere is merged in the desk: all others go on, and one command ends it."""
    branch = team.new_branch()
    nowhere = made_past_the_hook(team, "ann", branch, os.urandom(20).hex(), team.tip(branch))
    merged_at_the_desk(team, nowhere)
    for number in range(2):
        team.merged("ann", {f"honest{number}": "honest\n"}, f"Honest {number}", branch)
    check("doesn't have its commit" in passed_over(team, branch)[nowhere], passed_over(team, branch))
    said = subprocess.run([SETTLE, team.repository, branch, str(nowhere)], capture_output=True, text=True, check=False)
    check(said.returncode == 0 and "will not come" in said.stdout, said)
    team.until(lambda: not passed_over(team, branch), "what was settled isn't told")


def conflicts_stop_nothing(team):
    """Two changes that conflict are merged in the desk, past the gate: the second is passed over with what stands on it, and all others go on, until a merge made by hand is brought."""
    branch, clone = team.new_branch(), team.clone("ann")
    base = team.tip(branch)
    found = [team.change("ann", {"same": f"{word}\n"}, f"The {word}", base, branch, clone) for word in ("first", "second")]
    (first, _), (second, commit) = found
    on_second, on_commit = team.change("ann", {"on": "second\n"}, "On the second", commit, branch, clone)
    for change in (first, second, on_second):
        merged_at_the_desk(team, change)
    team.until(lambda: {second, on_second} == set(passed_over(team, branch)), "both are passed over")
    team.merged("ann", {"third": "third\n"}, "Third", branch)
    check(not team.has(branch, commit), "a commit that conflicts is in the branch")
    team.git("ann", "fetch", "--quiet", "origin", cwd=clone)
    team.git("ann", "checkout", "--quiet", "--detach", "--force", f"origin/{branch}", cwd=clone)
    team.git("ann", "merge", "--quiet", "-s", "ours", "-m", "By hand", on_commit, cwd=clone)
    merge = team.git("ann", "rev-parse", "HEAD", cwd=clone).strip()
    team.in_repository("fetch", "--quiet", clone, merge)
    said = subprocess.run([SETTLE, team.repository, branch, str(second), merge], capture_output=True, text=True, check=False)
    check(said.returncode == 0 and team.tip(branch) == merge, said)
    team.until(lambda: not passed_over(team, branch), "what was settled isn't told")
    team.merged("ann", {"fourth": "fourth\n"}, "Fourth", branch)


def votes_for_other_code(team):
    """A patch set says the same patch, but changes another function, or more behind a NUL byte: the votes go. An honest rebase keeps them."""
    for name, good, evil in (("f", TWICE.replace("    check()\n", "    pass\n", 1), "    pass\n".join(TWICE.rsplit("    check()\n", 1))),
                             ("s", "echo installed\0\n", "echo installed\0; echo EVIL RAN\n"), ("h", "honest\n", "honest\n")):
        branch, clone = team.new_branch(), team.clone("mallory")
        team.merged("ann", {name: TWICE if name == "f" else "begin\n"}, f"Begin {name}", branch)
        number, commit = team.change("mallory", {name: good}, f"Change {name}", f"origin/{branch}", branch, clone)
        check(team.vote("bob", number, "current", 2)[0] == 200, "no vote")
        team.merged("ann", {"beside": "beside\n"}, "Beside", branch)
        message = team.git("mallory", "log", "-1", "--format=%B", commit, cwd=clone).strip()
        team.commit("mallory", clone, {name: evil}, message, f"origin/{branch}")
        said = team.push("mallory", clone, branch)
        kept = re.search(rf"change {number}, patch set 2: .*\((\w+), votes copied: (\d)", said)
        check(kept and kept[1] == ("TRIVIAL_REBASE" if name == "h" else "REWORK") and kept[2] == ("1" if name == "h" else "0"), "votes for other code", name, said)
        status, told = team.submit("mallory", number)
        check((status == 200) == (name == "h"), "submitted with a vote for other code", name, status, told)


def tiny_pushes(team):
    """Trees within trees, some hundred bytes with ten million paths or folders: refused at once, by a hook that takes no memory for it."""
    clone = team.clone("mallory")
    for leaf in (tree_of(*(("100644", f"f{n}", raw_object(team, clone, "blob", b"x")) for n in range(10))), b""):
        tree = raw_object(team, clone, "tree", leaf)
        for _ in range(7):
            tree = raw_object(team, clone, "tree", tree_of(*(("40000", f"d{n}", tree) for n in range(10))))
        bomb, begun = commit_of_tree(team, clone, tree, "Tiny"), time.monotonic()
        said = team.push("mallory", clone, tip=bomb, status=1)
        check(re.search("changes more than (500 paths|5000 folders)", said), "a tiny push", said)
        check(time.monotonic() - begun < 20, "a tiny push takes", time.monotonic() - begun)


def refused_objects_go(team):
    """What a refused push brought doesn't stay: `git gc` with a time removes it, and nothing that stands in a change."""
    clone, kept = team.clone("mallory"), team.change("ann", {"kept": "kept\n"}, "Kept")[1]
    tree = raw_object(team, clone, "tree", tree_of(("100644", "large", raw_object(team, clone, "blob", os.urandom(1 << 20)))))
    gone = team.git("mallory", "commit-tree", tree, "-p", "origin/main", "-m", "No footer", cwd=clone).strip()
    check("has no Change-Id" in team.push("mallory", clone, tip=gone, status=1), "a commit without a footer")
    team.in_repository("cat-file", "-e", gone)
    team.in_repository("gc", "--quiet", "--prune=now")
    team.in_repository("cat-file", "-e", kept)
    check(team.in_repository("cat-file", "-t", gone, status=None) != "commit", "what a refused push brought stays")


def what_is_pushed_is_looked_at(team):
    """Trees that a clone would be harmed by are refused, and don't stay."""
    clone = team.clone("mallory")
    blob = raw_object(team, clone, "blob", b"#!/bin/sh\necho ran\n")
    hooks = raw_object(team, clone, "tree", tree_of(("40000", "hooks", raw_object(team, clone, "tree", tree_of(("100755", "post-checkout", blob))))))
    modules = raw_object(team, clone, "blob", b'[submodule "m"]\n\tpath = m\n\turl = -u./payload\n')
    trees = {"a folder .git": (("40000", ".git", hooks),), "a folder .GIT": (("40000", ".GIT", hooks),), "an entry ..": (("100644", "..", blob),), "an entry .": (("100644", ".", blob),),
             "a submodule that is an option": (("100644", ".gitmodules", modules), ("160000", "m", "1" * 40)), "two entries of a name": (("100644", "a", blob), ("100644", "a", modules))}
    for name, entries in trees.items():
        bad = commit_of_tree(team, clone, raw_object(team, clone, "tree", tree_of(*entries)), name)
        said = team.push("mallory", clone, tip=bad, status=1)
        check("patch set 1" not in said and team.in_repository("cat-file", "-t", bad, status=None) != "commit", name, "was taken", said)


def committers(team):
    """With a table of mail addresses only who pushes is a commit's committer; without a line in it nothing is asked."""
    clone, table = team.clone("mallory"), os.path.join(team.path, "mails")
    with open(table, "w", encoding="utf-8") as file:
        file.write("# user address\nann ann@localhost\nmallory m@localhost\nmallory mallory@localhost\n")
    try:
        as_ann = {"GIT_COMMITTER_EMAIL": "ann@localhost", "GIT_COMMITTER_NAME": "ann"}
        team.git("mallory", "commit", "--quiet", "--allow-empty", "-m", "As ann", cwd=clone, **as_ann)
        said = team.push("mallory", clone, status=1)
        check("its committer is ann@localhost, which isn't mallory's" in said and "taken: m@localhost, mallory@localhost" in said, "a forged committer", said)
        bob = team.clone("bob")
        team.commit("bob", bob, {"bob": "bob"}, "Bob's")
        check("the user bob has no mail address here" in team.push("bob", bob, status=1), "a user without an address")
        on_mallorys, commit = team.change("mallory", {"own": "own"}, "Own")
        anns = team.clone("ann")
        team.git("ann", "fetch", "--quiet", "origin", f"refs/changes/{on_mallorys % 100:02}/{on_mallorys}/1", cwd=anns)
        team.change("ann", {"on": "it"}, "On another's", commit, clone=anns)
    finally:
        os.remove(table)
    check("patch set 1" in team.push("mallory", clone), "without a table")


def stale_locks(team):
    """Lock files that a killed git left stop no push."""
    number, _ = team.change("ann", {"lock": "one\n"}, "Locked")
    places = [f"refs/changes/{number % 100:02}/{number}/2.lock", "refs/desk/push.lock", f"refs/changes/{(number + 1) % 100:02}/{number + 1}/1.lock"]
    for place in places:
        os.makedirs(os.path.dirname(os.path.join(team.repository, place)), exist_ok=True)
        with open(os.path.join(team.repository, place), "w", encoding="utf-8"):
            pass
    check(team.amended("ann", {"lock": "two\n"})[0] == 2, "a patch set behind a stale lock")
    check(not [place for place in places if os.path.exists(os.path.join(team.repository, place))], "stale locks stay")
    check(not glob.glob(os.path.join(team.repository, "refs", "changes", "**", "*.lock"), recursive=True), "stale locks stay")


def a_push_that_waits(team):
    """A push that another one holds up is told so after a while, and is made when it is pushed again."""
    clone = team.clone("ann")
    team.commit("ann", clone, {"waits": "waits\n"}, "Waits")
    team.in_repository("config", "desk.seconds", "1")
    try:
        with open(os.path.join(team.repository, "desk", "lock"), "a", encoding="utf-8") as lock:
            fcntl.flock(lock, fcntl.LOCK_EX)
            check("another push is at work" in team.push("ann", clone, status=1), "a push that waits")
        check("patch set 1" in team.push("ann", clone), "pushed again")
    finally:
        team.in_repository("config", "desk.seconds", "20")


def names_of_refs(team):
    """A name that isn't UTF-8, isn't refs/for/BRANCH, or asks for what isn't taken, is refused in words, and nothing moves."""
    clone, before = team.clone("mallory"), team.in_repository("for-each-ref", "refs/heads")
    team.commit("mallory", clone, {"name": "name"}, "Name")
    for ref in (b"refs/for/\xff\xfe", b"refs/for/main\xc3", "refs/for/mäin".encode(), b"refs/for/main%submit", b"refs/for/main%r=\xff", b"refs/for/main%r=%00", b"refs/for/main%m=x", b"refs/heads/main",
                b"refs/changes/01/1/9", b"refs/replace/" + b"1" * 40):
        words = ["push", "origin", os.fsdecode(b"HEAD:" + ref)]
        said = team.git("mallory", *words, cwd=clone, status=1)
        check("Traceback" not in said and "proc-receive" not in said and any(word in said for word in ("not refs/for/BRANCH", "isn't taken", "nobody here is")), "a name", ref, said)
    check(team.in_repository("for-each-ref", "refs/heads") == before, "a branch moved")


def who_pushes(team):
    """A user's name in the environment of what is started says nothing of who pushes."""
    team.end()
    team.begin(environment={"DESK_USER": "ann", "REMOTE_USER": "ann"})
    number, _ = team.change("bob", {"whose": "bob's\n"}, "Whose")
    owner = team.ask("ann", "GET", path_of("changes", number))[1]["owner"]
    check(owner == ACCOUNTS["bob"], "all pushes are those of one user", owner)


CASES = {"only-what-was-pushed": only_what_was_pushed, "one-change-stops-nothing": one_change_stops_nothing, "conflicts-stop-nothing": conflicts_stop_nothing,
         "votes-for-other-code": votes_for_other_code, "tiny-pushes": tiny_pushes, "refused-objects-go": refused_objects_go,
         "what-is-pushed-is-looked-at": what_is_pushed_is_looked_at, "committers": committers, "stale-locks": stale_locks, "a-push-that-waits": a_push_that_waits,
         "names-of-refs": names_of_refs, "who-pushes": who_pushes}
ALONE = {"who-pushes"}
