"""Attacks of who belongs to the team: packs and trees that no git of an author writes, pushes and questions that hold others up, and what a reviewer isn't shown. Cases of bench/attacks."""
import contextlib
import glob
import hashlib
import json
import os
import random
import re
import shutil
import signal
import struct
import threading
import time
import zlib

from attacked_team import ACCOUNTS, check, path_of

KINDS, NONE, LARGEST = {"commit": 1, "tree": 2, "blob": 3}, "0" * 40, 0xffffff
EVIL = b"evil\n"


# ---- packs, byte by byte

def numbered(size, first=None):
    """A number as packs have it: seven bits in a byte; the first byte may have four, behind a kind."""
    found = bytearray()
    if first is not None:
        found.append(first << 4 | size & 15)
        size >>= 4
    while size or not found:
        found.append(size & 127)
        size >>= 7
    return bytes([it | 128 for it in found[:-1]] + [found[-1]])


def name_of(kind, data):
    return hashlib.sha1(f"{kind} {len(data)}\0".encode() + data).hexdigest()


def whole(kind, data):
    return numbered(len(data), KINDS[kind]) + zlib.compress(data)


def delta(base, base_size, size, steps):
    """An object that is told as steps from another one."""
    told = numbered(base_size) + numbered(size) + steps
    return numbered(len(told), 7) + bytes.fromhex(base) + zlib.compress(told)


def copied(size):
    """Steps that copy the first so many bytes of the other object."""
    return b"".join(b"\xff" + struct.pack("<I", at) + struct.pack("<I", min(LARGEST, size - at))[:3] for at in range(0, size, LARGEST))


def tree_of(*entries):
    return b"".join(mode + b" " + name + b"\0" + bytes.fromhex(it) for mode, name, it in entries)


def commit_of(tree, parent, message="Evil", more="", people="author m <m@localhost> 1700000000 +0000\ncommitter m <m@localhost> 1700000000 +0000\n"):
    return f"tree {tree}\nparent {parent}\n{people}{more}\n{message}\n\nChange-Id: I{os.urandom(20).hex()}\n".encode()


def pushed(team, objects, *commands, before=b"", words="report-status", user="mallory"):
    """Pushes a pack for (commit, ref): what git's server says."""
    lines = [f"{old} {new} {ref}".encode() for old, new, ref in (it if len(it) == 3 else (NONE, *it) for it in commands)]
    lines[0] += b"\0 " + words.encode()
    pack = b"PACK" + struct.pack(">II", 2, len(objects)) + b"".join(objects)
    body = before + b"".join(b"%04x%s" % (len(line) + 4, line) for line in lines) + b"0000" + pack + hashlib.sha1(pack).digest()
    return team.ask(user, "POST", "/git/tools.git/git-receive-pack", body, headers={"Content-Type": "application/x-git-receive-pack-request"}, seconds=300)[1]


def changes_at(team, commit):
    return team.in_repository("for-each-ref", "--points-at", commit, "--format=%(refname)", "refs/changes").split()


# ---- cases

def a_push_unfolds_to_gigabytes(team):
    """A pack of 20 KB whose delta stands for 2.6 GB is refused by git, in bounded memory, and pushes go on."""
    base, count = b"\0" * LARGEST, 160
    blob = name_of("blob", base)
    tree = tree_of((b"100644", b"a", blob))
    commit = commit_of(name_of("tree", tree), team.tip())
    steps = (b"\xf0" + b"\xff" * 3) * count
    said = pushed(team, [whole("commit", commit), whole("tree", tree), whole("blob", base), delta(blob, len(base), count * LARGEST, steps)], (name_of("commit", commit), "refs/for/main"))
    check("unpack" in said and "error" in said and "unpack ok" not in said, "some bytes were unfolded to gigabytes", said)
    team.change("ann", {"after": "it\n"}, "After it")


def a_message_of_megabytes(team):
    """What a commit says has bounds, since the messages of all patch sets are read where a footer is looked for."""
    tip = team.tip()
    tree = team.in_repository("rev-parse", f"{tip}^{{tree}}")
    for size, is_taken in ((60_000, True), (70_000, False), (50_000_000, False)):
        for place in ("message", "more"):
            text = ("word " * 12 + "\n") * (size // 61)
            said = "Long\n\n" + text if place == "message" else "Long"
            commit = commit_of(tree, tip, said, "".join(f"x-more {text[:size]}".splitlines()) + "\n" if place == "more" else "")
            told = pushed(team, [whole("commit", commit)], (name_of("commit", commit), "refs/for/main"))
            check(("ok refs/for/main" in told) == is_taken and (is_taken or "more than 64 KiB" in told), "a long commit", size, place, told)


def looking_holds_nobody_up(team):
    """A small push for which many folders are looked at for long: others push meanwhile."""
    parent, before, objects, empty = team.tip(), b"", [whole("tree", b"")], name_of("tree", b"")
    for at in range(25):
        more = tree_of(*((b"40000", b"d%07d" % (at * 4990 + number), empty) for number in range(4990)))
        steps = copied(len(before)) + b"".join(bytes([len(part)]) + part for part in (more[begin:begin + 127] for begin in range(0, len(more), 127)))
        objects.append(delta(name_of("tree", before), len(before), len(before) + len(more), steps))
        before += more
        objects.append(whole("commit", text := commit_of(name_of("tree", before), parent)))
        parent = name_of("commit", text)
    looked = threading.Thread(target=pushed, args=(team, objects, (parent, "refs/for/main")))
    looked.start()
    made = 0
    while looked.is_alive():
        team.change("ann", {f"beside{made}": "it\n"}, "Beside it")
        made += looked.is_alive()
    check(made > 2, "nobody pushes while a push is looked at")


def folders_of_other_modes(team):
    """git takes an entry of mode 40755 for a folder: so a file in it isn't hidden from a requirement on paths."""
    tip, blob = team.tip(), name_of("blob", EVIL)
    inner = tree_of((b"100644", b"evil.py", blob))
    for mode in (b"40755", b"40001", b"47777", b"40000040000", b"777", b"170000"):
        for outer in ((b"", b"deploy"), (b"deep", b"deploy")):
            tree = tree_of((mode, b"deploy", name_of("tree", inner)))
            top = tree_of((b"40000", b"deep", name_of("tree", tree))) if outer[0] else tree
            commit = commit_of(name_of("tree", top), tip)
            objects = [whole("commit", commit), *(whole("tree", it) for it in {top, tree, inner}), whole("blob", EVIL)]
            said = pushed(team, objects, (name_of("commit", commit), "refs/for/main"))
            check("ng refs/for/main" in said and not changes_at(team, name_of("commit", commit)), "a folder that the hook doesn't look into", mode, outer, said)


def what_no_git_writes(team):
    """Commits, shallow pushes and refs that no author's git makes: refused, with nothing moved."""
    tip, blob, branches = team.tip(), name_of("blob", EVIL), team.in_repository("for-each-ref", "refs/heads", "refs/tags", "refs/replace", "refs/notes")
    tree, people = tree_of((b"100644", b"evil", blob)), "author a <a@b> 1 +0000\ncommitter c <c@d> 1 +0000\n"
    name = name_of("tree", tree)
    raw = {"two trees": commit_of(f"{name}\ntree {name}", tip), "two authors": commit_of(name, tip, people="author b <b@b> 1 +0000\n" + people), "NUL": commit_of(name, tip, "Ev\0il"),
           "an encoding with line ends of its own": commit_of(name, tip, more="encoding UTF-7\n"), "a date too late": commit_of(name, tip, people=people.replace("> 1 ", "> 99999999999999999999 ")), "a parent that isn't there": commit_of(name, "12" * 20),
           "a merge": commit_of(name, f"{tip}\nparent {tip}"), "a footer twice": commit_of(name, tip, f"T\n\nChange-Id: I{os.urandom(20).hex()}").replace(b"\n\nChange-Id", b"\nChange-Id"),
           "a file that isn't there": commit_of(name_of("tree", tree_of((b"100644", b"evil", "34" * 20))), tip)}
    for what, commit in raw.items():
        trees = [whole("tree", tree), whole("tree", tree_of((b"100644", b"evil", "34" * 20)))] if "file" in what else [whole("tree", tree)]
        said = pushed(team, [whole("commit", commit), *trees, whole("blob", EVIL)], (name_of("commit", commit), "refs/for/main"))
        check("ng refs/for/main" in said and not changes_at(team, name_of("commit", commit)), what, "was taken", said)
    commit = commit_of(name, "56" * 20)
    objects, commit_name = [whole("commit", commit), whole("tree", tree), whole("blob", EVIL)], name_of("commit", commit)
    line = f"shallow {commit_name}".encode()
    said = pushed(team, objects, (commit_name, "refs/for/main"), before=b"%04x%s" % (len(line) + 4, line))
    check("shallow update not allowed" in said, "a shallow push was taken", said)
    commit = commit_of(name, tip)
    objects, commit_name = [whole("commit", commit), whole("tree", tree), whole("blob", EVIL)], name_of("commit", commit)
    for ref in (f"refs/replace/{tip}", "refs/heads/main", "refs/heads/new", "HEAD", "refs/changes/01/1/1", "refs/notes/commits", "refs/tags/v1", "refs/desk/push", "refs/for/main%wip,ready",
                "refs/for/main%r=../../users", "refs/for/main%topic", "refs/for/main%%", "refs/for/main%r=bob%2C", "refs/for/main%wip%wip", "refs/for/%wip", "refs/for/.", "refs/for/b", "x"):
        said = pushed(team, objects, (commit_name, ref))
        check(f"ng {ref}" in said, "a ref", ref, said)
    for old, ref in ((tip, "refs/heads/main"), (NONE, "refs/changes/01/1/1"), (NONE, "refs/for/main")):
        said = pushed(team, [], (old, NONE, ref))
        check(f"ng {ref}" in said, "something was deleted", ref, said)
    said = pushed(team, objects, (commit_name, "refs/for/main"), (commit_name, "refs/heads/main"), words="report-status atomic")
    check(said.count("ng ") == 2, "an atomic push", said)
    check(team.in_repository("for-each-ref", "refs/heads", "refs/tags", "refs/replace", "refs/notes") == branches and not changes_at(team, commit_name), "something moved")


def a_subject_in_a_terminal(team):
    """Who pushes on another's change reads its subject: nothing of it moves the cursor, or turns text around."""
    number, commit = team.change("mallory", {"subject": "it\n"}, "Fine\x1b[2K\x1b]0;x\x07\u202eenif\x9b1A")
    clone = team.clone("ann")
    team.git("ann", "fetch", "--quiet", "origin", f"refs/changes/{number % 100:02}/{number}/1", cwd=clone)
    team.commit("ann", clone, {"on": "it\n"}, "On it", commit)
    said = team.push("ann", clone)
    check("(already there)" in said and "Fine" in said and not re.search("[\x1b\x07\x9b\u202e]", said.replace("\x1b[K", "")), "a subject in a terminal", said)


def an_id_that_is_used_up(team):
    """An author uses up the id that the hook will draw for his next push: that push is refused once, and nobody else's is held up."""
    branch, clone = team.new_branch(), team.clone("mallory")
    number, _ = team.change("mallory", {"first": "it\n"}, "First", f"origin/{branch}", branch, clone)
    commit = team.commit("mallory", clone, {"second": "it\n"}, "Second", f"origin/{branch}")
    body = {"commit": commit, "parent": team.tip(branch), "paths": ["second"], "project": "tools", "branch": branch, "subject": "Second"}
    id = "push." + hashlib.sha256(json.dumps([ACCOUNTS["mallory"], "/changes/", body, 0], sort_keys=True).encode()).hexdigest()[:48]
    check(team.ask("mallory", "POST", path_of("changes", number, "revisions", 1, "review"), {"message": "Mine."}, id,
                   headers={"Request-Epoch": time.strftime("%Y%m%d", time.gmtime(time.time() - 600))})[0] == 200, "a review")
    check("IDENTITY_REUSED" in team.push("mallory", clone, branch, status=1), "the id is another one: say the hook's here")
    team.change("ann", {"ann": "it\n"}, "Ann's", f"origin/{branch}", branch)
    check("patch set 1" in team.push("mallory", clone, branch), "pushed again")


def another_message_keeps_no_vote(team):
    """After a +2 the message and the author are other ones: the vote goes. An objection stays."""
    branch, clone = team.new_branch(), team.clone("mallory")
    number, _ = team.change("mallory", {"typo": "it\n"}, "Fix typo", f"origin/{branch}", branch, clone)
    check(team.vote("bob", number, 1, 2)[0] == 200, "a vote")
    footer = re.search(r"Change-Id: (\S+)", team.git("mallory", "log", "-1", cwd=clone))[1]
    team.git("mallory", "commit", "--quiet", "--amend", "--author=bob <bob@localhost>", "-m", f"Reviewed by bob\n\nChange-Id: {footer}", cwd=clone)
    check("NO_CODE_CHANGE, votes copied: 0" in team.push("mallory", clone, branch) and team.submit("mallory", number)[0] == 409, "a vote for a message that nobody read")
    check(team.vote("ann", number, 2, -2)[0] == 200, "an objection")
    team.amended("mallory", {"typo": "other\n"}, branch, clone)
    check(team.vote("bob", number, 3, 2)[0] == 200 and team.submit("mallory", number)[0] == 409, "an objection went with a new patch set")


def one_user_tries_one_merge(team):
    """One user asks for a merge that takes long, over and over: one is tried at a time, and others submit beside it."""
    branch, drawn = team.new_branch(), random.Random(1)
    base = {f"d/f{at}": "".join(f"{drawn.random()}\n" for _ in range(20000)) for at in range(12)}
    team.merged("ann", base, "Base", branch)
    point = team.tip(branch)
    team.merged("ann", {path: text + "more\n" for path, text in base.items()}, "More", branch)
    other = {path: "".join(line if drawn.random() < 0.7 else f"{drawn.random()}\n" for line in text.splitlines(True)) for path, text in base.items()}
    number, _ = team.change("mallory", other, "Elsewhere", point, branch)
    fine, _ = team.change("bob", {"fine": "it\n"}, "Fine", f"origin/{branch}", branch)
    check(team.vote("ann", fine, 1, 2)[0] == 200, "a vote")
    team.in_repository("config", "desk.mergeContent", "true")  # Without it a merge takes no time worth speaking of.
    try:
        asking = [threading.Thread(target=team.ask, args=("mallory", "GET", path_of("changes", number, "revisions", "current", "mergeable"))) for _ in range(6)]
        for thread in asking:
            thread.start()
        most, status = 0, None
        while any(thread.is_alive() for thread in asking):
            most = max(most, tries(team))
            status = status or team.submit("bob", fine)[0]
    finally:
        team.in_repository("config", "--unset", "desk.mergeContent")
    check(status == 200, "others submit nothing", status)
    check(1 <= most <= 2, "one user's merges are tried at once", most)  # One is bob's.


def tries(team):
    """How many merges are tried at this moment."""
    found = 0
    for place in glob.glob("/proc/[0-9]*"):
        with contextlib.suppress(OSError), open(os.path.join(place, "cmdline"), "rb") as words:
            found += b"try_merge" in words.read() and os.readlink(os.path.join(place, "cwd")) == os.path.realpath(team.repository)
    return found


def one_user_waits_ten_times(team):
    """While the desk is held still one user has ten requests wait for it, and no more; another user's comes in between."""
    told = []
    check(team.signal("review_desk serve", signal.SIGSTOP) == 1, "no desk")
    try:
        asking = [threading.Thread(target=lambda user=user: told.append((user, team.ask(user, "GET", path_of("changes", 1))[0]))) for user in ["mallory"] * 30 + ["ann"]]
        for thread in asking:
            thread.start()
        team.until(lambda: len(told) == 20, "one user's requests are bounded", 20)
    finally:
        team.signal("review_desk serve", signal.SIGCONT)
    for thread in asking:
        thread.join()
    check(sorted(told).count(("mallory", 429)) == 20 and ("ann", 429) not in told, "others aren't taken", sorted(told))


def what_is_not_seen(team):
    """Characters that can't be seen are shown by their numbers; a line whose bytes alone are others is shown as a change."""
    if not shutil.which("chromium"):
        print("passed over: what_is_not_seen; apt-get install chromium")
        return
    from attacks_page import browser_of, opened  # pylint: disable=import-outside-toplevel
    branch, unseen = team.new_branch(), "\ufe0f\u034f\u17b4\u180b\u2800\u00a0\u2003\U0001d173\u200b\u00ad\r"
    team.merged("ann", {"bytes": b"first\nkey = '\xe9'\nlast\n"}, "Begin", branch)
    number, _ = team.change("mallory", {"bytes": b"first\nkey = '\xe8'\nlast\n", "code": f"is_admin{unseen} = 1\nx = '\u2714\ufe0f'\n"}, "Bytes", f"origin/{branch}", branch)
    browser = browser_of(team)
    try:
        page = opened(team, browser, "ann", f"diff.html?change={number}", "document.querySelectorAll('#files td.new').length > 1")
        marks = page.run("[...document.querySelectorAll('#files .unseen')].map((it) => it.textContent).join(' ')")
        check(marks == " ".join(f"‹U+{ord(it):04X}›" for it in unseen), "something that can't be seen isn't marked", marks)
        check(page.run("[...document.querySelectorAll('#files td.old, #files td.new')].filter((it) => it.textContent.startsWith('key')).length") == 2, "a changed line is shown as unchanged")
        check(not page.faults, "faults", page.faults)
    finally:
        browser.end()


CASES = {function.__name__: function for function in (
    a_push_unfolds_to_gigabytes, a_message_of_megabytes, looking_holds_nobody_up, folders_of_other_modes, what_no_git_writes, a_subject_in_a_terminal, an_id_that_is_used_up, another_message_keeps_no_vote,
    one_user_tries_one_merge, one_user_waits_ten_times, what_is_not_seen)}
