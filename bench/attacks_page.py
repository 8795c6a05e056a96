"""Attacks on what people see before they vote and submit, and on the gate before a submit: older tabs, conflicts, spellings, text that turns around, kills, races. Cases of bench/attacks."""
import concurrent.futures
import fcntl
import json
import os
import re
import signal
import subprocess
import sys
import threading
import time

from attacked_team import USERS, check, new_id, path_of
from attacks_proxy import sent_raw
from chromium import Browser, Page
from desk_proxied import EXAMPLES

sys.path.insert(0, os.path.join(EXAMPLES, "client"))
from retry import Desk  # noqa: E402

TURNING = re.compile("[\u202a-\u202e\u2066-\u2069]")
# How a submit may be written: {} stands for the change's number, {e} for it with each digit encoded. Also by other methods.
SPELLINGS = ["/changes/{}/submit", "/changes/{}/submit?x", "/changes/{}/submit?", "/changes/{}/submit?/changes/1/submit", "/changes/{}/submit/", "/changes/{}/submit//", "/changes//{}/submit", "//changes/{}/submit",
             "///changes///{}///submit", "/./changes/{}/submit", "/changes/./{}/submit", "/changes/{}/./submit", "/changes/{}/submit/.", "/changes/x/../{}/submit", "/page/../changes/{}/submit", "/git/../changes/{}/submit",
             "/changes/{}/revisions/../submit", "/changes/{}/x/../submit", "/changes/{e}/submit", "/changes/{e}/submit?a=/page/", "//changes/{e}/submit", "/%63hanges/{}/submit", "/changes/{}/%73ubmit", "/changes%2F{}/submit",
             "/changes/{}%2Fsubmit", "/changes%2F{}%2Fsubmit", "/changes/{}/submit%2F", "/changes/{}/submit%00", "/changes/{}/submit%0A", "/changes/{}/submit%20", "/changes/{}/submit#x", "/changes/{}#/submit", "/Changes/{}/Submit",
             "/changes/0{}/submit", "/changes/+{}/submit", "/changes/{}%0A/submit", "/changes/%20{}/submit", "/changes/{}.0/submit", "/changes/tools~{}/submit", "/a/changes/{}/submit", "/a/changes/{e}/submit?x", "/a//changes/{}/submit",
             "//a/changes/{}/submit", "/%61/changes/{}/submit", "/a/a/changes/{}/submit", "/a/../changes/{}/submit", "/x/../a/changes/{}/submit", "/a/%63hanges/{}/submit", "/a%2Fchanges/{}/submit", "/changes/{}/submit;x=1",
             "https://127.0.0.1/changes/{}/submit", "https://127.0.0.1/changes/{e}/submit", "http://x//changes/{}/submit", "/projects/tools/branches/passed-over/../../../../changes/{}/submit",
             "/projects/../changes/{}/submit/passed-over", "/changes/{}/submit%3Fx", "\\changes\\{}\\submit", "/changes/{}/revisions/current/commit/../../../submit", "/health/../changes/{}/submit"]


def opened(team, browser, user, where, ready):
    page = Page(browser, user, USERS[user], 1400, 1000)
    page.load(f"https://127.0.0.1:{team.port}/page/{where}", ready)
    return page


def browser_of(team):
    return Browser(os.path.join(team.top, f"chromium{new_id()}"))


def status_of(team, number):
    return team.desk_ask(1, "GET", path_of("changes", number))[1]["status"]


def named_submit(team, user, number, patch_set, id=None):
    return team.ask(user, "POST", path_of("changes", number, "submit"), {}, id, {"If-Match": f'"{patch_set}"'})[:2]


def a_tab_that_is_older_submits_nothing(team):
    """Who votes sees the message, the author and the files of the current patch set; a tab that shows an older one submits nothing, though the button is the same."""
    branch, browser = team.new_branch(), browser_of(team)
    number, _ = team.change("mallory", {"README": "Berthoglu\n"}, "Fix typo in README", f"origin/{branch}", branch)
    try:
        older = opened(team, browser, "ann", f"?change={number}", "document.querySelector('#commit-message').checkVisibility()")
        clone = team.clone_of("mallory")
        team.commit("mallory", clone, {"src/auth.py": "ok = True\n"})
        team.git("mallory", "commit", "--quiet", "--amend", "--author=Linus T <l@example.com>", "-m", f"Remove the authentication check\n\nChange-Id: {footer(team, clone)}", cwd=clone)
        team.push("mallory", clone, branch)
        check(team.vote("bob", number, 2, 2)[0] == 200, "a vote")
        older.click("[data-do=submit]")
        older.until("document.getElementById('answer').textContent.startsWith('There is a newer patch set 2: nothing was submitted.')")
        check(status_of(team, number) == "NEW", "a patch set was merged that nobody was shown")
        newer = opened(team, browser, "bob", f"?change={number}", "document.querySelector('#files a')")
        said = newer.run("document.body.innerText")
        for text in ("Remove the authentication check", "Linus T <l@example.com>", "src/auth.py", "mallory"):
            check(text in said, "a reviewer isn't shown", text, said)
        check("Fix typo" not in newer.run("document.getElementById('subject').innerText + document.title"), "the subject is that of patch set 1")
        newer.load(f"https://127.0.0.1:{team.port}/page/diff.html?change={number}", "document.querySelector('#files td.new')")
        check("ok = True" in newer.run("document.body.innerText"), "the code isn't shown")
        check(not older.faults and not newer.faults, "faults", older.faults, newer.faults)
    finally:
        browser.end()
    check(named_submit(team, "ann", number, 1) == (412, {"not_submitted": "STALE_PATCH_SET", "current_patch_set": 2}), "what a curl is told")
    check(named_submit(team, "ann", number, 2)[0] == 200, "the patch set that is shown isn't submitted")


def footer(team, clone):
    return re.search(r"Change-Id: (\S+)", team.git("ann", "log", "-1", cwd=clone))[1]


def what_turns_text_around_is_shown(team):
    """Characters that turn the text around, in a subject, a path, a message, code and a comment, are shown by their numbers, and none stands in a page as it is."""
    branch, browser, turn = team.new_branch(), browser_of(team), "\u202e\u2066x\u2069"
    number, _ = team.change("mallory", {f"src/{turn}gnp.py": f"if user{turn}:  # admins\n"}, f"Add {turn} a page\n\nWhy {turn} not <b>", f"origin/{branch}", branch)
    team.ask("mallory", "POST", path_of("changes", number, "revisions", 1, "review"), {"message": f"So {turn} it is."})
    try:
        isolated = "[...document.querySelectorAll('#subject bdi, #files td.new, #files a bdi')].every((it) => getComputedStyle(it).unicodeBidi.startsWith('isolate'))"
        for where, ready in ((f"?change={number}", "#files a"), (f"diff.html?change={number}", "#files td.new")):
            page = opened(team, browser, "ann", where, f"document.querySelector('{ready}')")
            said = page.run("document.body.innerText + document.title")
            check(not TURNING.search(said) and said.count("‹U+202E›") >= 3, "text is turned around", where, said)
            check(page.run(isolated), "not isolated", where)
            check(not page.faults, "faults", page.faults)
    finally:
        browser.end()


def a_conflict_is_told_before_it_is_merged(team):
    """A change that conflicts is refused with its paths before the desk says MERGED, in each spelling of a submit; also where `follow` hasn't moved the branch yet."""
    branch = team.new_branch()
    team.merged("bob", {"shared": "bob's\n"}, "Add shared", branch, f"origin/{branch}")
    number, _ = team.change("ann", {"shared": "ann's\n", "other": "more\n"}, "Add shared too", f"origin/{branch}~1", branch)
    check(team.vote("bob", number, 1, 2)[0] == 200, "a vote")
    refused = (409, {"not_submitted": "CONFLICT", "paths": ["shared"]})
    check(team.submit("ann", number) == refused, "a conflict isn't told", team.submit("ann", number))
    status, told, _ = team.ask("bob", "GET", path_of("changes", number, "revisions", "current", "mergeable"))
    check(status == 200 and not told["mergeable"] and told["conflicts"] == ["shared"], "not mergeable", status, told)
    told = {}
    for spelling in SPELLINGS:
        path = spelling.format(number, e="".join(f"%3{digit}" for digit in str(number)))
        for method in ("POST", "PUT", "post", "PATCH", "GET") if spelling == SPELLINGS[0] else ("POST",):
            fields = "".join(f"{name}: {word}\r\n" for name, word in {**team.authorization("ann"), "Request-Id": new_id(), "Content-Length": 2, "Connection": "close"}.items())
            said = sent_raw(team, f"{method} {path} HTTP/1.1\r\nHost: 127.0.0.1\r\n{fields}\r\n", b"{}")
            check(status_of(team, number) == "NEW" and " 200 " not in said, "a submit came past the gate", method, path, said)
            told.setdefault(spelling, said)
    asked = ["/changes/{e}/submit", "https://127.0.0.1/changes/{e}/submit", "/a/changes/{}/submit", "/a/changes/{e}/submit?x"]
    check(all(" 409 " in told[it] for it in SPELLINGS[:4] + asked), "the gate wasn't asked", told)
    held_back(team, branch)


def held_back(team, branch):
    """While `follow` is held still: what has joined in the desk counts as if the branch in git had it."""
    first, commit = team.change("bob", {"late": "bob's\n"}, "Add late", f"origin/{branch}", branch)
    beside, _ = team.change("ann", {"beside": "ann's\n"}, "Add beside", f"origin/{branch}", branch)
    last, _ = team.change("ann", {"late": "ann's\n"}, "Add late too", f"origin/{branch}", branch)
    check(team.vote("ann", first, 1, 2)[0] == team.vote("bob", beside, 1, 2)[0] == team.vote("bob", last, 1, 2)[0] == 200, "votes")
    check(team.signal("follow", signal.SIGSTOP) >= 1, "no follower")
    try:
        check(team.submit("bob", first)[0] == 200 and not team.has(branch, commit), "submitted, and not followed yet")
        check(team.submit("ann", last) == (409, {"not_submitted": "CONFLICT", "paths": ["late"]}), "a conflict with what the branch in git is behind")
        check(team.submit("ann", beside)[0] == 200, "one beside it isn't taken")
    finally:
        team.signal("follow", signal.SIGCONT)
    team.until(lambda: team.has(branch, commit), "the branch goes on")


def what_stands_on_what_was_passed_over_is_not_merged(team):
    """Past the gate, at the desk's own port, a change is merged that conflicts: git passes it over, the page says so, and a change upon it is refused; one beside it is taken."""
    branch = team.new_branch()
    team.merged("bob", {"fought": "bob's\n"}, "Add fought", branch, f"origin/{branch}")
    number, commit = team.change("ann", {"fought": "ann's\n"}, "Add fought too", f"origin/{branch}~1", branch)
    upon, _ = team.change("ann", {"upon": "it\n"}, "Upon it", commit, branch)
    check(all(team.vote("bob", it, 1, 2)[0] == 200 for it in (number, upon)), "votes")
    check(team.desk_ask(2, "POST", path_of("changes", number, "submit"), {})[0] == 200, "at its own port the desk takes it")
    passed = path_of("projects", "tools", "branches", branch, "passed-over")
    team.until(lambda: team.ask("eve", "GET", passed)[1] != [], "what was passed over is told")
    told = team.ask("eve", "GET", passed)[1]
    check([(it["change"], it["commit"]) for it in told] == [(number, commit)] and "fought" in told[0]["why"], "what is told", told)
    status, told = team.submit("ann", upon)
    check(status == 409 and told["not_submitted"] in ("NOT_MERGEABLE", "CONFLICT") and status_of(team, upon) == "NEW", "what stands on it is merged", status, told)
    browser = browser_of(team)
    try:
        page = opened(team, browser, "eve", f"?project=tools&branch={branch}", "document.querySelector('#passed-over li')")
        check(f"Change {number}: it conflicts" in page.run("document.getElementById('passed-over').innerText"), "the page of the branch doesn't say so")
        check(not page.faults, "faults", page.faults)
    finally:
        browser.end()
    team.merged("bob", {"beside": "it\n"}, "Beside it", branch)


def nothing_of_a_user_becomes_an_option(team):
    """Paths that look like options, patterns and drivers, and numbers that are none, in what the code server asks of git."""
    branch, mark = team.new_branch(), os.path.join(team.top, "ran")
    odd = {f"--output={mark}": "1\n", "-O": "2\n", ":(top)*": "3\n", "*": "4\n", "--": "5\n", ".gitattributes": "* diff=evil filter=evil merge=evil textconv\n"}
    odd[".gitmodules"] = "[submodule \"x\"]\n path = x\n url = ./x\n"
    number, _ = team.change("mallory", {**odd, "plain": "a\n"}, "--output=x", f"origin/{branch}", branch)
    team.amended("mallory", {"plain": "b\n", f"--output={mark}": "2\n"}, branch)
    base = path_of("changes", number, "revisions")
    status, told, _ = team.ask("bob", "GET", f"{base}/2/difference?base=1")
    check(status == 200 and told.count("diff --git") == 2 and "+b" in told, "between patch sets", status, told)
    status, told, _ = team.ask("bob", "GET", f"{base}/2/commit")
    check(status == 200 and {it["path"] for it in told["files"]} == {*odd, "plain"} and told["subject"] == "--output=x", "the files", status, told)
    status, told, _ = team.ask("bob", "GET", f"{base}/current/difference")
    check(status == 200 and told.count("diff --git") == 8, "the whole", status, told)
    odd_paths = [f"{base}/{more}" for more in ("--output=x/commit", "2%00/commit", "2%20--all/difference", "99/commit", "..%2F..%2F/commit")]
    odd_paths += [f"{base}/2/difference?{more}" for more in ("base=--all", "base=main", "base=1%0A--all", "context=-1", "context=9999999", "base=" + "9" * 5000)]
    odd_paths += [f"/changes/{number}%2F..%2F1/revisions", "/changes/*/revisions", f"/changes/-{number}/revisions/1/commit"]
    odd_paths += ["/projects/..%2F..%2Fsettings/branches/main/passed-over", "/projects/tools/branches/..%2F..%2F..%2Fsettings/passed-over"]
    for path in odd_paths:
        status, told, _ = team.ask("mallory", "GET", path)
        check(status in (400, 404) or told == [], "an odd path", path, status, told)
    check(not os.path.exists(mark), "an option of git's was run")
    for user, forged in (("eve", "1"), ("mallory", "2")):
        status, told, _ = team.ask(user, "POST", path_of("changes", number, "submit"), {}, None, {"X-Account": forged})
        check(told == {"number": 24, "refused": "NOT_ALLOWED"} or status in (403, 409), "who asks is not who gave the password", user, status, told)
    check(status_of(team, number) == "NEW", "submitted by who may not")


def pushes_race_with_submits(team):
    """While a new patch set is pushed the older one is submitted, by its number: what is merged is what was named, or nothing."""
    branch, clone, seen = team.new_branch(), team.clone("mallory"), {}
    with concurrent.futures.ThreadPoolExecutor(2) as pool:
        for at in range(8 if team.is_smallest else 50):
            number, first = team.change("mallory", {f"race{at}": "good\n"}, f"Race {at}", f"origin/{branch}", branch, clone)
            check(team.vote("bob", number, 1, 2)[0] == 200, "a vote")
            team.commit("mallory", clone, {f"race{at}": "evil\n"})
            pushing = pool.submit(team.push, "mallory", clone, branch, "HEAD", None)
            time.sleep(0.3 * team.drawn.random())
            status, told = named_submit(team, "ann", number, 1)
            pushing.result()
            it = team.desk_ask(1, "GET", path_of("changes", number))[1]
            is_right = it["commit"] == first and it["status"] == "MERGED" if status == 200 else it["status"] == "NEW" and told.get("not_submitted") == "STALE_PATCH_SET"
            check(is_right, "a patch set was submitted that wasn't named", status, told, it)
            seen[status] = seen.get(status, 0) + 1
    check(team.is_smallest or len(seen) == 2, "one of the two always came first: the race wasn't one", seen)


def a_killed_gate_acts_once(team):
    """The code server is killed at random during submits that are sent again under one id: each change is merged once, and all else goes on meanwhile."""
    branch, clone, numbers, gone = "main", team.clone("ann"), [], threading.Event()
    for at in range(4 if team.is_smallest else 12):
        numbers.append(team.change("ann", {f"once{at}": "text\n"}, f"Once {at}", "origin/main", branch, clone)[0])
        check(team.vote("bob", numbers[-1], 1, 2)[0] == 200, "a vote")

    def kill():
        while not gone.wait(0.05 + 0.25 * team.drawn.random()):
            team.signal("serve_code", signal.SIGKILL)

    killer = threading.Thread(target=kill)
    killer.start()
    try:
        with concurrent.futures.ThreadPoolExecutor(4) as pool:
            desk = Desk(f"https://127.0.0.1:{team.port}", user="ann", password=USERS["ann"], certificate=os.path.join(team.path, "tls.crt"), seconds=90)
            asked = [pool.submit(desk.ask, "POST", path_of("changes", number, "submit"), {}, f"gate.{number}") for number in numbers]
            time.sleep(3 if team.is_smallest else 20)
            check(team.ask("bob", "GET", path_of("changes", numbers[0]))[0] == 200, "with the code server down nothing else is answered")
            gone.set()
            told = [it.result() for it in asked]
    finally:
        gone.set()
        killer.join()
    check(told == [(200, {"joined": [number]}) for number in numbers], "submits that were sent again", told)
    joined = [it["change"] for it in team.desk_ask(1, "GET", "/projects/tools/branches/main")[1]["joined"]]
    check(sorted(joined) == numbers, "each once", joined)
    team.until(lambda: team.in_repository("log", "--format=%s", "main").count("Once") >= len(numbers), "git follows")


def a_hanging_push_holds_a_submit_up_for_a_while_only(team):
    """The hook's lock is held: a submit is told 503 within half a minute, reads go on, and once the lock is free the same request is taken."""
    number, _ = team.change("ann", {"held": "text\n"}, "Held", "origin/main")
    check(team.vote("bob", number, 1, 2)[0] == 200, "a vote")
    with open(os.path.join(team.repository, "desk", "lock"), "a", encoding="utf-8") as lock:
        fcntl.flock(lock, fcntl.LOCK_EX)
        begun = time.monotonic()
        with concurrent.futures.ThreadPoolExecutor(8) as pool:
            asked = [pool.submit(team.ask, user, "POST", path_of("changes", number, "submit"), {}, f"held.{at}") for at, user in enumerate(("ann", "ann", "bob", "mallory"))]
            check(team.ask("bob", "GET", path_of("changes", number, "revisions", 1, "commit"))[0] == 200, "code isn't shown while a push hangs")
            told = [it.result()[:2] for it in asked]
        check(told == [(503, {"not_taken": "BUSY"})] * 4 and 15 < time.monotonic() - begun < 45, "what is told", told, time.monotonic() - begun)
        check(status_of(team, number) == "NEW", "submitted without the lock")
    status, told, _ = team.ask("ann", "POST", path_of("changes", number, "submit"), {}, "held.0")
    check((status, told) == (200, {"joined": [number]}), "the same request once the lock is free", status, told)


def the_gate_tells_what_the_desk_tells(team):
    """What isn't turned away is the desk's own answer, byte for byte, and ids, bodies and epochs reach it as they came."""
    number, _ = team.change("ann", {"same": "text\n"}, "Same", "origin/main")
    path = path_of("changes", number, "submit")
    curl = ["curl", "-s", "--http1.1", "--cacert", os.path.join(team.path, "tls.crt"), "-u", f"ann:{USERS['ann']}", "-X", "POST", f"https://127.0.0.1:{team.port}{path}"]
    direct = ["curl", "-s", "-H", "X-Account: 2", "-X", "POST", f"http://127.0.0.1:{team.desk_port}{path}"]
    for fields in ([], ["Request-Id: a b"], ["Request-Id: same1", "Request-Id: same2"], ["Request-Id: " + "x" * 65], ["Request-Id: same3", "Request-Epoch: 01"], ["Request-Id: same5"],
                   ["Request-Id: same4", "Request-Epoch: 7"], ["Request-Id: same5", "Request-Epoch: 0", "Request-Epoch: 0"], ["Request-Id: same6", "Content-Type: text/plain"]):
        for body in ("{}", "", "{", "[]", '{"x": "' + "é" * 1000 + '"}', " " * 29_999):
            words = [word for field in fields for word in ("-H", field)] + ["--data-binary", "@-", "-w", "%{http_code} %{content_type}"]
            got, wanted = (subprocess.run([*it, *words], input=body.encode(), capture_output=True, check=True).stdout for it in (curl, direct))
            check(got == wanted, "another answer than the desk's", fields, body[:20], got[-300:], wanted[-300:])
    got = subprocess.run([*curl, "-H", "Request-Id: same7", "--data-binary", "@-"], input=b" " * 30_001, capture_output=True, check=True).stdout
    check(json.loads(got.split(b"\n")[1]) == {"fault": "TOO_LARGE"}, "a large body", got)


CASES = {function.__name__: function for function in (a_tab_that_is_older_submits_nothing, what_turns_text_around_is_shown, a_conflict_is_told_before_it_is_merged, what_stands_on_what_was_passed_over_is_not_merged,
                                                      nothing_of_a_user_becomes_an_option,
                                                      the_gate_tells_what_the_desk_tells, pushes_race_with_submits, a_killed_gate_acts_once, a_hanging_push_holds_a_submit_up_for_a_while_only)}
ALONE = {"a_killed_gate_acts_once", "a_hanging_push_holds_a_submit_up_for_a_while_only"}
NEEDS = {"chromium": "chromium"}
