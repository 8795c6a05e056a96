"""How a branch is moved to what has merged, and what is passed over: the part of bench/git_pushes that looks at `follow` and `settle` of examples/git. A module."""
import itertools
import json
import os
import subprocess

from desk_file import check
from git_killed import write_killed
from git_world import FOLLOW, SETTLE, Commit, path_of


def beside(world, base, *names, content=None):
    """Changes on the same commit, each of which is submitted: their numbers and commits."""
    found = []
    for name in names:
        commit = world.commit(base, {content or name: f"{name}\n"}, f"{name}\n\nChange-Id: {Commit(name, {}).change_id}\n")
        world.push(commit)
        number = max(world.patch_sets())
        world.vote(number)
        world.must("POST", path_of("changes", number, "submit"), account=2, told={"joined": [number]})
        found.append((number, commit))
    return found


def tip_of(world):
    """Where the branch in git is, which the clone has then as well."""
    world.git("fetch", "-q", "origin", "main")
    return world.git("rev-parse", "main", folder=world.bare)


def stops(world):
    """Where a branch can't be moved forward the follower says so and leaves it, and goes on once that was mended."""
    tip = tip_of(world)
    hand = world.commit(tip, {"hand": "hand"}, "By hand\n")
    on_hand = world.commit(hand, {"on": "hand"}, f"On it\n\nChange-Id: {Commit('on it', {}).change_id}\n")
    world.git("fetch", "-q", world.clone, on_hand, folder=world.bare)
    world.git("update-ref", "refs/heads/main", hand, folder=world.bare)
    check("moved by hand" in world.follow(status=3), "moved by hand")
    check("UNKNOWN_PARENT" in world.push(on_hand, is_taken=False), "a change on what the desk doesn't have")
    world.git("update-ref", "refs/heads/main", tip, folder=world.bare)
    (left, left_commit), (right, right_commit) = beside(world, world.base, "left", "right")
    said = world.follow(status=3)
    check(f"change {left} has merged" in said and f"change {right} is passed over: its commit {right_commit} isn't ahead of the branch" in said, said)
    (on_left, on_left_commit), = beside(world, left_commit, "on left")
    said = world.follow(status=3)
    check(f"change {on_left} has merged" in said and tip_of(world) == on_left_commit, "what doesn't stand on it goes on", said)
    check([it["change"] for it in over(world)] == [right], over(world))
    tree = world.git("merge-tree", "--write-tree", on_left_commit, right_commit, folder=world.bare)
    merge = world.git("commit-tree", tree, "-p", on_left_commit, "-p", right_commit, "-m", "Merge", folder=world.bare)
    check("doesn't stand on main" in settle(world, right, right_commit, status=1), "what isn't ahead of the branch")
    check("has no commit" in settle(world, right, "f" * 40, status=1), "a commit that isn't there")
    check("hasn't merged" in settle(world, 10_000, status=1), "a change that isn't there")
    check(f"change {right} has come" in settle(world, right, merge), "a merge by hand")
    check(f"change {right} has come" in settle(world, right, merge), "once more")
    check(world.follow() == "" and over(world) == [] and world.branch()["bases"].count(merge) == 1, "after a merge by hand", over(world), world.branch())


def over(world, branch="main"):
    """What the repository says is passed over; without a file nothing was."""
    if not os.path.exists(os.path.join(world.bare, "desk", "passed-over", branch + ".json")):
        return []
    with open(os.path.join(world.bare, "desk", "passed-over", branch + ".json"), encoding="utf-8") as file:
        return json.load(file)


def settle(world, change, *words, status=0, program=SETTLE, **more):
    """Settles a change: what is said."""
    ran = subprocess.run([program, world.bare, "main", str(change), *words], env={**world.environment("bob"), **more}, stdout=subprocess.PIPE, stderr=subprocess.STDOUT, text=True, check=False)
    check(status is None or ran.returncode == status, "settle", change, words, ran.returncode, ran.stdout)
    return ran.stdout


def merges(world, folder, every):
    """With `--merge-if-necessary` it makes merge commits, which are no bases, and is killed at its steps. Two that conflict, and one whose commit isn't there, are passed over."""
    killed, option = write_killed(FOLLOW, os.path.join(folder, "follow")), "--merge-if-necessary"
    world.git("config", "desk.page", "https://desk/page/?change=", folder=world.bare)
    for counted, at in enumerate(itertools.count(1, every)):
        begin = tip_of(world)
        (_, one), (number, two) = beside(world, begin, f"one {at}", f"two {at}")
        count = len(world.branch()["bases"])
        said = world.follow(option, status=None, program=killed, KILL_AT=str(at))
        with open(os.path.join(world.bare, "mails"), "w", encoding="utf-8") as file:  # What is said of who reviewed is another then.
            file.write(f"ann ann@example\nbob bob{at}@example\n")
        world.follow(option)
        parents = world.git("log", "-1", "--format=%P", "main", folder=world.bare).split()
        check(parents == [one, two], at, said, parents)
        check(len(world.branch()["bases"]) == count and world.git("log", "-1", "--format=%s", "main", folder=world.bare) == f'Merge "two {at}"', at, world.branch())
        footers = world.git("log", "-1", "--format=%(trailers:unfold)", "main", folder=world.bare).splitlines()
        check(footers[1:] == [f"Reviewed-on: https://desk/page/?change={number}", f"Change-Id: {Commit(f'two {at}', {}).change_id}"] and footers[0].startswith("Reviewed-by: bob"), "footers", footers)
        if "steps left" in said:
            break
    os.remove(os.path.join(world.bare, "mails"))
    on_merges(world, option)
    by_paths(world, option)
    passes_over(world, option)
    refused_bases(world, option)
    settled(world, folder, option, every)
    return counted


def on_merges(world, option):
    """A change that stands on a merge stands on the change that this brought, for the desk. The branch may be moved back below merges: they come again."""
    begin, count = tip_of(world), len(world.branch()["bases"])
    for at in range(2):
        beside(world, tip_of(world), f"under {at}", f"beside {at}")
        world.follow(option)
    merge = tip_of(world)
    (number, commit), = beside(world, merge, "on a merge")
    check(world.follow(option) == f"main: change {number} has merged, {commit}\n" and len(world.branch()["bases"]) == count, "on a merge", over(world), world.branch()["bases"])
    world.git("update-ref", "refs/heads/main", begin, folder=world.bare)
    world.follow(option)
    tip_of(world)
    check(world.git("merge-base", commit, "main", folder=world.bare) == commit and world.git("diff", "--name-only", commit, "main", folder=world.bare) == "", "a branch that was moved back")
    world.git("update-ref", "refs/heads/main", merge, folder=world.bare)
    world.follow(option)
    check(tip_of(world) == commit, "a branch that was moved back to a merge")
    forged = world.git("commit-tree", f"{begin}^{{tree}}", "-p", commit, "-p", merge, "-m", "Forged", folder=world.bare)
    world.git("update-ref", "refs/heads/main", forged, folder=world.bare)
    check("moved by hand" in world.follow(option, status=3), "a merge that follow didn't make")
    world.git("update-ref", "refs/heads/main", commit, folder=world.bare)


def by_paths(world, option):
    """A path that two changes changed is a conflict, also if git could merge within it, and so is a name that differs in case alone. A rename carries no change into another path."""
    lines = "".join(f"line {n}\n" for n in range(40))
    base = world.commit(tip_of(world), {"file": lines, "old": lines, "mode": lines, "both": lines}, f"By paths\n\nChange-Id: {Commit('by paths', {}).change_id}\n")
    merged(world, base)
    world.follow(option)
    edit = lines.replace("line 30\n", "thirty\n")
    first, second = {"file": lines.replace("line 7\n", "seven\n"), "new/old": lines, "lower/a": "a", "both": edit}, [("file", edit), ("old", edit), ("mode", edit), ("LOWER/b", "b"), ("both", edit), ("free", "it")]
    world.git("checkout", "-q", "--detach", base)
    os.remove(os.path.join(world.clone, "old"))
    os.chmod(os.path.join(world.clone, "mode"), 0o755)
    merged(world, world.commit(None, first, f"First\n\nChange-Id: {Commit('by paths first', {}).change_id}\n"))
    numbers = {path: merged(world, world.commit(base, {path: text}, f"{path}\n\nChange-Id: {Commit(f'by paths {path}', {}).change_id}\n")) for path, text in second}
    world.follow(option, status=3)
    told = {it["change"]: it["why"] for it in over(world)}
    wanted = {"file": "file", "old": "old", "mode": "mode", "LOWER/b": "LOWER, lower"}
    check(told == {numbers[path]: f"it conflicts with the branch in {where}" for path, where in wanted.items()}, "by paths", told, numbers)
    tree = [line.split("\t")[1] for line in world.git("ls-tree", "-r", "main", folder=world.bare).splitlines()]
    check("free" in tree and "old" not in tree and not any(it.startswith("LOWER") for it in tree), "what came", tree)
    world.git("config", "desk.mergeContent", "true", folder=world.bare)
    world.follow(option, status=3)
    world.git("config", "--unset", "desk.mergeContent", folder=world.bare)
    check([it["change"] for it in over(world)] == [numbers["old"], numbers["LOWER/b"]], "within files", over(world))
    text = world.git("show", "main:file", folder=world.bare)
    check("seven" in text and "thirty" in text and world.git("ls-tree", "main", "mode", folder=world.bare).startswith("100755"), "within files", text)
    for path in ("old", "LOWER/b"):
        settle(world, numbers[path])
    check(world.follow(option) == "" and over(world) == [], "settled", over(world))


def merged(world, commit):
    """Has a commit pushed, approved and submitted: the number of its change."""
    world.push(commit)
    number = max(world.patch_sets())
    world.vote(number)
    world.must("POST", path_of("changes", number, "submit"), account=2)
    return number


def passes_over(world, option):
    """What nobody pushed for review, what isn't there, and what conflicts is passed over with what stands on it; all else goes on, in its order."""
    base = tip_of(world)
    (_, first), (south, south_commit) = beside(world, base, "north wind", "south wind", content="wind")
    stack = [Commit(f"over {n}", {f"over{n}": "one\n"}) for n in range(2)]
    world.build(south_commit, stack)
    world.push(stack[1].name)
    on_south = sorted(world.patch_sets())[-2:]
    for change in on_south:
        world.vote(change)
    world.must("POST", path_of("changes", on_south[1], "submit"), account=2, told={"joined": on_south})
    elsewhere = made_at_the_desk(world, "a" * 40, world.base)
    forged_commit = world.commit(base, {"evil": "evil"}, "Not reviewed\n")
    world.git("fetch", "-q", world.clone, forged_commit, folder=world.bare)
    forged = made_at_the_desk(world, forged_commit, world.base)
    on_forged_commit = world.commit(forged_commit, {"good": "good"}, f"On it\n\nChange-Id: {Commit('on forged', {}).change_id}\n")
    world.git("fetch", "-q", world.clone, on_forged_commit, folder=world.bare)
    on_forged = made_at_the_desk(world, on_forged_commit, forged_commit)
    world.git("update-ref", f"refs/changes/{on_forged % 100:02}/{on_forged}/1", on_forged_commit, folder=world.bare)
    # The commit of a change stands in the refs of another one: that says nothing of this one.
    world.git("update-ref", f"refs/changes/{on_forged % 100:02}/{on_forged}/2", forged_commit, folder=world.bare)
    (last, last_commit), = beside(world, base, "west wind")
    said = world.follow(option, status=3)
    told = {it["change"]: it["why"] for it in over(world)}
    check(sorted(told) == sorted([south, *on_south, elsewhere, forged, on_forged]), "what is passed over", told, said)
    check("conflicts with the branch in wind" in told[south] and f"stands on change {south}" in told[on_south[0]] and "doesn't have its commit" in told[elsewhere], told)
    check("so nobody has pushed it" in told[forged] and f"it stands on change {forged}" in told[on_forged], told)
    log = world.git("log", "--format=%H", "main", folder=world.bare).split()
    check(last_commit in log and first in log and not {south_commit, forged_commit, on_forged_commit, *(it.name for it in stack)} & set(log), "what goes on", last, log)
    check(all(f"change {change} is passed over" in said for change in told), said)
    world.git("update-ref", f"refs/changes/{forged % 100:02}/{forged}/1", forged_commit, folder=world.bare)
    world.follow(option, status=3)
    check(sorted(it["change"] for it in over(world)) == sorted([south, *on_south, elsewhere]), "what was pushed since", over(world))
    check("will not come" in settle(world, elsewhere) and "will not come" in settle(world, south), "settled")
    said = world.follow(option, status=3)
    check([it["change"] for it in over(world)] == on_south, "what stands on what doesn't come", over(world), said)
    tip = tip_of(world)
    theirs = world.git("commit-tree", f"{tip}^{{tree}}", "-p", tip, "-p", stack[1].name, "-m", "By hand", folder=world.bare)
    for change in on_south:
        settle(world, change, theirs)
    check(world.follow(option) == "" and over(world) == [] and tip_of(world) == theirs, "all is settled", over(world))
    check("may come again" in settle_undone(world, elsewhere) and f"change {elsewhere}" in world.follow(option, status=3), "undone")
    settle(world, elsewhere)


def settle_undone(world, change):
    return settle(world, change, "--undo")


def made_at_the_desk(world, commit, parent):
    """A change that was made past the hook, approved and merged."""
    body = {"project": "tools", "branch": "main", "subject": "Elsewhere", "commit": commit, "parent": parent, "paths": []}
    change = world.must("POST", path_of("changes", ""), body, 2)["change"]
    world.vote(change)
    world.must("POST", path_of("changes", change, "submit"), account=2)
    return change


def refused_bases(world, option):
    """The follower needs no administrator's account. `settle` does: a base that the desk refuses is asked for anew each time, so that it is taken once the account may."""
    begin = tip_of(world)
    world.git("config", "desk.account", "2", folder=world.bare)
    beside(world, begin, "one refused", "two refused")
    check("has merged" in world.follow(option), "an account without rights")
    (_, one), (two, _) = beside(world, tip_of(world), "left refused", "right refused", content="refused")
    world.follow(option, status=3)
    merge = world.git("commit-tree", f"{one}^{{tree}}", "-p", one, "-m", "By hand", folder=world.bare)
    for _ in range(2):
        check("the desk says NOT_ADMIN" in settle(world, two, merge, status=1), "an account that may not")
    world.must("PUT", path_of("groups", "Administrators"), {"members": [1, 2]}, told={})
    settle(world, two, merge)
    check(world.follow(option) == "" and tip_of(world) == world.branch()["bases"][-1] == merge, "an account that may, since")
    world.must("PUT", path_of("groups", "Administrators"), {"members": [1]}, told={})
    world.git("config", "desk.account", "1", folder=world.bare)


def settled(world, folder, option, every):
    """The command that settles a change is killed at its steps, and said again."""
    killed = write_killed(SETTLE, os.path.join(folder, "settle"))
    for at in itertools.count(1, every):
        (_, one), (two, two_commit) = beside(world, tip_of(world), f"left {at}", f"right {at}", content=f"hand {at}")
        world.follow(option, status=3)
        merge = world.git("commit-tree", f"{one}^{{tree}}", "-p", one, *(() if at % 2 else ("-p", two_commit)), "-m", f"By hand {at}", folder=world.bare)
        said = settle(world, two, merge, status=None, program=killed, KILL_AT=str(at))
        settle(world, two, merge)
        check(world.follow(option) == "" and tip_of(world) == merge and over(world) == [] and world.branch()["bases"].count(merge) == 1, "settled", at, said, over(world))
        if "steps left" in said:
            break
