"""Attacks on the index of a team: who reaches it, queries that take long or are no queries, hints that lie, words that look like options, and an index that hangs. Cases of bench/attacks."""
import concurrent.futures
import os
import signal
import socket
import stat
import subprocess
import sys
import time
import urllib.parse

from attacked_team import check, path_of

AS_NOBODY = ["setpriv", "--reuid", "65534", "--regid", "65534", "--clear-groups", sys.executable, "-c"]


def search(team, text, user="ann", **more):
    return team.ask(user, "GET", f"/changes/?{urllib.parse.urlencode({'q': text, **more})}", seconds=120)[:2]


def is_indexed(team, number):
    return team.ask("ann", "GET", f"/changes/{number}/detail")[0] == 200


def only_the_proxy_reaches_the_index(team):
    """No other user of the machine opens the index's file or sockets, and through the proxy nobody is somebody else to it."""
    for name in ("index.socket", "hints.socket", "index.db"):
        team.until(lambda name=name: os.path.exists(os.path.join(team.path, name)), name)
        mode = os.stat(os.path.join(team.path, name)).st_mode
        check(not stat.S_IMODE(mode) & (0o007 if stat.S_ISSOCK(mode) else 0o077), "others may open it", name, oct(mode))
        kind = "SOCK_DGRAM" if name.startswith("hints") else "SOCK_STREAM"
        ran = subprocess.run([*AS_NOBODY, f"import socket; socket.socket(socket.AF_UNIX, socket.{kind}).connect({os.path.join(team.path, name)!r})"], capture_output=True, text=True, check=False)
        check("PermissionError" in ran.stderr or "Operation not permitted" in ran.stderr, "another user reaches it", name, ran)
    for forged in ("X-Account: 1", "x-account: 1", "X_Account: 1"):
        name, value = forged.split(": ")
        for path in ("/accounts/self", "/a/accounts/self", "/accounts/me"):
            status, told, _ = team.ask("mallory", "GET", path, headers={name: value})
            check(status != 200 or told["name"] == "mallory", "mallory is somebody else", forged, path, told)
    check([team.ask(None, "GET", path)[0] for path in ("/changes/?q=1", "/a/changes/?q=1", "/index/events", "/accounts/self")] == [401] * 4, "without a password")
    for path in ("/groups/Core", "/a/groups/Core", "/a//groups/Core", "//a/groups/Core"):
        check(team.ask("admin", "PUT", path, {"members": [4]})[0] in (403, 404), "a group is put past the folder", path)
    check(team.ask("mallory", "POST", "/changes/?q=is:open", {})[0] == 403 and team.ask("mallory", "POST", "/index/state", {})[0] in (404, 405), "a POST to the index")


def a_query_is_bounded(team):
    """Queries that are deep, long, many or odd are refused or answered in a few seconds, and the desk is answered meanwhile; none reads what isn't the index's."""
    number, _ = team.change("ann", {"bounded": "x\n"}, "Bounded")
    team.until(lambda: is_indexed(team, number), "the change")
    odd = ["(" * 500, "-" * 2000, "NOT " * 300 + "a", "a " * 64, " OR ".join(["file:a"] * 64), " ".join(["-file:a -ext:b"] * 32), "x" * 3999, '"' * 99, "message:\"' OR 1=1 --\"", "a\0b", "owner:';DROP TABLE changes;--",
           "message:{subject} NEAR(a b)", "subject:*", "label:Code-Review=999999999999", "change:99999999999999999999", "limit:999999999999", "age:999999999y", "project:^((((a+)+)+)+)+$", "branch:^a\\", "path:^.*.*.*.*x",
           "comment:\U0001f600", "%", "_", "after:0000-00-00", "before:9999-12-31", "added:>=99999999999", "file:../../etc/passwd", "from:self OR " * 20 + "a"]
    with concurrent.futures.ThreadPoolExecutor(12) as pool:
        begun = [pool.submit(search, team, text, ("ann", "bob", "mallory")[at % 3], n=500) for at, text in enumerate(odd * 2)]
        for _ in range(5):
            check(team.ask("eve", "GET", path_of("changes", number))[0] == 200, "the desk waits for queries")
        said = [(text, it.result()) for text, it in zip(odd * 2, begun)]
    check(all(status in (200, 400, 414, 429) for _, (status, _) in said), "a query isn't answered", [it for it in said if it[1][0] not in (200, 400, 414, 429)])
    for more in ({"n": "-1"}, {"n": "0"}, {"S": "-1"}, {"S": "9" * 30}, {"n": "x"}, {"o": "X" * 5000}):
        check(search(team, "is:open", **more)[0] in (200, 400, 414), "a number", more)
    check(team.ask("ann", "GET", "/changes/?" + "q=1&" * 13 + "n=1")[0] == 400 and team.ask("ann", "GET", "/changes/?" + "x=1&" * 99)[0] == 400, "too many words")
    for path in ("/accounts/..%2f..%2fusers", "/index/../users", "/index/%2e%2e/settings.json", "/config/server/..%2f..%2fusers", "/index/events?after=../users", "/index/events?after=" + "a" * 12 + "." + "9" * 15, "/tools/hooks/..%2fusers",
                 "/tools/hooks/commit-msg/../../users", "/changes/1%0a/detail", "/index/events?n=0"):
        status, told, _ = team.ask("mallory", "GET", path)
        check(status in (400, 403, 404, 405) or "after=aaaa" in path, "a path", path, status, str(told)[:100])
    check("$6$" not in str(told), "passwords")


def hints_say_nothing(team):
    """Whoever may send hints, as nginx, can say what he likes: the index stays what the desk says, and answers."""
    number, _ = team.change("ann", {"hinted": "x\n"}, "Hinted")
    mouth = socket.socket(socket.AF_UNIX, socket.SOCK_DGRAM)
    for said in [b"POST /changes/999999999/submit", b"POST /changes/99999999999999999999/submit", b"PUT /projects/tools", b"POST /changes/-1/x", b"\xff\xfe", b"", b"POST /changes/1/revisions" * 2000, b"GET /x",
                 f"POST /changes/{number}/revisions".encode(), b"POST /changes/", b"POST " + b"/" * 4000, b"PUT /groups/%00", "POST /changes/١/submit".encode()] * 60:
        try:
            mouth.sendto(said, socket.MSG_DONTWAIT, os.path.join(team.path, "hints.socket"))
        except OSError:
            time.sleep(0.001)  # There is no room for more.
    team.vote("bob", number, 1, -2)
    team.until(lambda: search(team, f"change:{number} label:Code-Review=-2")[1] != [], "the index goes on")
    check(team.log("index").count("Traceback") == 0, "a hint is a fault", team.log("index")[-2000:])


def words_are_no_options(team):
    """Subjects, messages and paths that look like options, patterns or markup of git's, SQL's or FTS's are found as they are."""
    files = {"--output=owned": "x\n", ":(top)x": "x\n", "a'b\"c": "x\n", "*": "x\n", "-- ; DROP TABLE changes": "x\n"}
    number, _ = team.change("mallory", files, "--upload-pack=touch owned '); DROP TABLE changes; --\n\nSigned \" OR 1=1 {subject}: NEAR(x")
    team.until(lambda: is_indexed(team, number), "the change")
    for text in ("file:--output=owned", 'path:":(top)x"', "path:*", 'message:"DROP TABLE changes"', 'message:"OR 1=1"', 'file:"-- ; DROP TABLE changes"', "subject:upload-pack"):
        found = search(team, text)
        check(found[0] == 200 and number in [one["_number"] for one in found[1]], "not found", text, found)
    check(not any(os.path.exists(os.path.join(place, "owned")) for place in (team.path, team.repository, team.top)), "an option was taken")
    status, told, fields = team.ask("ann", "GET", "/index/events?n=500")
    check(status == 200 and fields["X-Content-Type-Options"] == "nosniff" and fields["Content-Type"].startswith("text/plain"), "events", fields)


def an_index_that_hangs_holds_nobody_up(team):
    """While the index stands still or is dead, votes, pushes and submits go on; when it goes on it has what was done meanwhile."""
    branch = team.new_branch()
    team.signal("desk_index", signal.SIGSTOP)
    with concurrent.futures.ThreadPoolExecutor(8) as pool:
        waiting = [pool.submit(search, team, "is:open", "mallory") for _ in range(8)]
        number, _ = team.merged("ann", {f"hangs{branch}": "x\n"}, "While it hangs", branch)
        other, _ = team.change("ann", {f"hangs2{branch}": "x\n"}, "Meanwhile", f"origin/{branch}", branch)
        check(team.vote("bob", other, 1, 1)[0] == 200, "a vote waits")
        team.signal("desk_index", signal.SIGCONT)
        check(all(it.result()[0] in (200, 429, 504) for it in waiting), "who waited", [it.result() for it in waiting])
    team.until(lambda: search(team, f"change:{number} is:merged")[1] != [] and search(team, f"change:{other} label:Code-Review=1")[1] != [], "what was done meanwhile")
    team.signal("desk_index", signal.SIGKILL)
    check(team.vote("bob", other, 1, 2)[0] == 200, "a vote with a dead index")
    team.until(lambda: search(team, f"change:{other} label:Code-Review=2")[0] == 200, "it is started again")
    team.until(lambda: search(team, f"change:{other} label:Code-Review=2")[1] != [], "what was done while it was dead")


CASES = {it.__name__: it for it in (only_the_proxy_reaches_the_index, a_query_is_bounded, hints_say_nothing, words_are_no_options, an_index_that_hangs_holds_nobody_up)}
