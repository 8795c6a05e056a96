"""Attacks by what git costs: many refs, long messages, fetches, differences. Cases of bench/attacks."""
import concurrent.futures
import contextlib
import glob
import os
import random
import signal
import subprocess
import threading
import time

from attacked_team import check, path_of

FOOTERS = b"%(contents:trailers"  # what reads messages, in the words of git for-each-ref
LONG = "w\n" * 29_000  # nearly as long as a message may be, with many lines


def stack(team, clone, count, name, parent="origin/main"):
    """Commits of a clone, one on the other, each with a footer: the last one's name."""
    for at in range(count):
        team.commit(
            "mallory", clone, {f"{name}{at}": "it\n"}, f"{name} {at}", parent if at == 0 else None
        )
    return team.git("mallory", "rev-parse", "HEAD", cwd=clone).strip()


def timed(function, *words, **more):
    """How long a call takes, and what it returns."""
    begun = time.monotonic()
    told = function(*words, **more)
    return time.monotonic() - begun, told


def many_refs(team):
    """A push has 10 refs at most, and refuses more before it looks at anything.

    What several refs ask for is looked at once.
    """
    clone = team.clone("mallory")
    tip = stack(team, clone, 20, "refs")

    def push(count, status):
        refs = [f"{tip}:refs/for/main%topic=t{at}" for at in range(count)]
        return timed(team.git, "mallory", "push", "origin", *refs, cwd=clone, status=status)

    push(1, 0)
    alone, _ = push(1, 0)
    took, said = push(30, 1)
    check(
        said.count("a push has 10 refs at most") == 30 and took < alone + 1,
        "many refs",
        took,
        alone,
        said,
    )
    took, said = push(10, 0)
    check(took < 4 * alone, "ten refs of one commit", took, alone)


def long_messages(team):
    """Thousands of patch sets with long messages make no push slower: nobody reads them all."""
    team.change("ann", {"before": "it\n"}, "Before")
    tip, lines = team.tip(), []
    for number in range(100_001, 103_001):
        message = f"Long {number}\n\n{LONG}\nChange-Id: I{number:040x}\n"
        lines.append(
            f"commit refs/changes/{number % 100:02}/{number}/1\n"
            f"committer m <m@localhost> 1700000000 +0000\n"
            f"data {len(message)}\n{message}from {tip}\n\n"
        )
    words = ["-C", team.repository, "-c", "fastimport.unpackLimit=1", "fast-import", "--quiet"]
    team.git("admin", *words, sent="".join(lines))
    for at in range(3):
        most, *_ = watched(team, FOOTERS, team.change, "ann", {"after": f"{at}\n"}, f"After {at}")
        check(most == 0, "a push reads the messages of all patch sets", at)


def processes(team, word):
    """The processes of git's in the team's repository whose words have a word, as (limits,
    environment).
    """
    for place in glob.glob("/proc/[0-9]*"):
        with contextlib.suppress(OSError):
            with open(os.path.join(place, "cmdline"), "rb") as file:
                words = file.read().split(b"\0")
            if (
                words[0].endswith(b"git")
                and any(it == word or word == FOOTERS and FOOTERS in it for it in words)
                and os.readlink(os.path.join(place, "cwd")).startswith(
                    os.path.realpath(team.repository)
                )
            ):
                with open(os.path.join(place, "limits"), encoding="ascii") as limits, open(
                    os.path.join(place, "environ"), "rb"
                ) as environment:
                    found = limits.read(), environment.read()
                if found[1]:  # One that is just ending has none.
                    yield found


def watched(team, word, function, *words, **more):
    """Watches processes of git's while a call runs.

    The most at once, their limits and environments, and what the call returns.
    """
    most, seen = 0, set()
    with concurrent.futures.ThreadPoolExecutor(1) as pool:
        running = pool.submit(function, *words, **more)
        while not running.done():
            found = list(processes(team, word))
            most, seen = max(most, len(found)), seen | set(found)
    return most, seen, running.result()


def fetches_are_bounded(team):
    """A fetch takes bounded memory and time, looks for no new deltas, and one user has four at
    once.
    """
    clone, drawn = team.clone("mallory"), random.Random(1)
    block = bytes(drawn.choices(range(97, 123), k=4000))
    number, commit = team.change(
        "mallory",
        {**{f"f{at}": block * 1000 + b"%d" % at for at in range(8)}, "noise": os.urandom(24 << 20)},
        "Large",
        clone=clone,
    )
    other = team.clone("eve")
    _, seen, _ = watched(
        team,
        b"pack-objects",
        team.git,
        "eve",
        "fetch",
        "--quiet",
        "origin",
        f"refs/changes/{number % 100:02}/{number}/1",
        cwd=other,
    )
    check(
        seen
        and all(
            f"Max address space         {2 << 30}" in limits
            and "Max cpu time              300 " in limits
            for limits, _ in seen
        ),
        "a fetch without bounds",
        seen,
    )
    check(all(b"pack.window" in environment for _, environment in seen), "a fetch looks for deltas")
    check(
        team.git("eve", "rev-parse", "FETCH_HEAD", cwd=other).strip() == commit, "what was fetched"
    )
    readers = [number for number, words in team.children().items() if "fcgiwrap -f -c 16" in words]
    os.killpg(readers[0], signal.SIGSTOP)
    try:
        told = []
        asking = [
            threading.Thread(
                target=lambda: told.append(
                    team.ask("mallory", "GET", "/git/tools.git/info/refs?service=git-upload-pack")[
                        0
                    ]
                )
            )
            for _ in range(12)
        ]
        for thread in asking:
            thread.start()
        team.until(lambda: len(told) == 8, "one user's fetches are bounded", 20)
    finally:
        os.killpg(readers[0], signal.SIGCONT)
    for thread in asking:
        thread.join()
    check(sorted(told) == [200] * 4 + [429] * 8, "one user's fetches", told)


def differences_are_bounded(team):
    """A difference that takes too long is tried once, not at each load of a page; one user has
    two at once, each with 512 MiB; and another user's page is shown meanwhile.
    """
    drawn, numbers = random.Random(1), []
    clone = team.clone("mallory")
    for at in range(2):
        rows = [
            b"\n".join(bytes([it]) for it in drawn.choices(range(48, 58), k=2 << 20))
            for _ in range(2)
        ]
        _, parent = team.change("mallory", {f"rows{at}": rows[0]}, f"Rows {at}", clone=clone)
        numbers.append(
            team.change("mallory", {f"rows{at}": rows[1]}, f"Other rows {at}", parent, clone=clone)[
                0
            ]
        )
    plain, _ = team.change("ann", {"plain": "it\n"}, "Plain")

    def ask(number):
        return team.ask("mallory", "GET", path_of("changes", number, "revisions", 1, "commit"))[:2]

    def ask_all():
        with concurrent.futures.ThreadPoolExecutor(4) as pool:
            told = [pool.submit(ask, number) for number in numbers * 2]
            shown = [
                timed(
                    team.ask, "ann", "GET", path_of("changes", plain, "revisions", 1, "difference")
                )
                for _ in range(3)
            ]
            return shown, [it.result() for it in told]

    most, seen, (shown, told) = watched(team, b"-M", ask_all)
    check(most <= 3, "one user's differences at once", most)  # One is ann's.
    check(
        all(f"Max data size             {512 << 20}" in limits for limits, _ in seen),
        "a difference without bounds",
    )
    check(
        all(took < 5 and answer[0] == 200 for took, answer in shown),
        "another user's page",
        [took for took, _ in shown],
    )
    shown_not = [it[1].get("files_not_shown") for it in told if it[0] == 200]
    check(
        "TOO_SLOW" in shown_not
        and all(it[0] == 200 or it == (503, {"not_shown": "BUSY"}) for it in told),
        "what is told",
        told,
    )
    slow = (numbers * 2)[[it[1].get("files_not_shown") for it in told].index("TOO_SLOW")]
    took, again = timed(ask, slow)
    check(
        again[1].get("files_not_shown") == "TOO_SLOW" and took < 5,
        "tried at each load",
        took,
        again,
    )
    took, (status, text, _) = timed(
        team.ask, "bob", "GET", path_of("changes", slow, "revisions", 1, "difference")
    )
    check(
        (status, text) == (503, {"not_shown": "TOO_SLOW"}) and took < 5,
        "tried again for another user",
        took,
        status,
    )


def sweeping_ends(team):
    """What takes long to pack is packed without looking for deltas, so that the copy behind it
    isn't kept waiting.
    """
    number, kept = team.change("ann", {"kept": "kept\n"}, "Kept")
    file = os.path.join(team.top, "bin", "prlimit")
    os.makedirs(os.path.dirname(file))
    with open(file, "w", encoding="utf-8") as stand_in:
        stand_in.write(
            f'#!/bin/sh\necho "$@" >> {file}.said\nexit 137\n'
        )  # As if it took too much of a processor.
    os.chmod(file, 0o755)
    own = {**os.environ, "PATH": os.path.dirname(file) + os.pathsep + os.environ["PATH"]}
    program = os.path.join(team.path, "examples", "team", "sweep")
    said = subprocess.run(
        [program, team.path, "--older-than", "now"],
        env=own,
        capture_output=True,
        text=True,
        check=False,
    )
    check(said.returncode == 0, "sweep", said)
    with open(file + ".said", encoding="utf-8") as told:
        check("--cpu=240" in told.read(), "sweep without bounds")
    check(
        team.in_repository("cat-file", "-t", kept) == "commit"
        and team.in_repository("count-objects").startswith("0 objects"),
        "nothing was packed",
        number,
    )


CASES = {
    function.__name__: function
    for function in (
        many_refs,
        long_messages,
        fetches_are_bounded,
        differences_are_bounded,
        sweeping_ends,
    )
}
ALONE = {"differences_are_bounded"}
