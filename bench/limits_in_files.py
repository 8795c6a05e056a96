"""Numbers of rows and requests that no limit of a desk names, in a file: what `bench/limits` reaches there.

A statement that the program's own store refuses from some size on is told as a fault of the store, each time, though no store failed. So each case makes a desk
beyond sizes that a number of 8, 16 or 32 bits ends at, in part by sqlite3, and looks for the right answers, which are those of a small desk.
"""
import contextlib
import os
import sqlite3

from desk_file import CREATED, FIRST, line, make_earlier, run

FILE = '[access]\ncreate = ["Registered-Users"]\nsubmit = ["Registered-Users"]\n'
COMMIT = "c" * 40
MANY_ANSWERS, MANY_CHANGES, MANY_BRANCHES = 70_000, 65_536, 20
MOST_PROJECTS, MOST_BASES = 1000, 100_000
MIGRATED = (0, b"desk migrated\n", b"")


def commit(number):
    return f"{number:040x}"


def making(id, own, parent, project="p", branch="main"):
    return line("CreateChange", id, 1, {"project": project, "branch": branch, "subject": "s", "commit": own, "parent": parent, "paths": ["a"]})


def projects(*names):
    return [(line("PutProject", f"put-{name}", 1, {"file": FILE}, project=name), b"{}") for name in names]


def base(project, branch):
    return line("RecordBase", f"base-{project}-{branch}", 1, {"commit": FIRST}, project=project, branch=branch), b"{}"


def asked(program, file, pairs):
    """What is answered otherwise than these lines should be, or nothing."""
    end = run("apply", file, sent=b"".join(sent for sent, _ in pairs), program=program)
    got = end[1].splitlines()
    wrong = next((at for at, (_, answer) in enumerate(pairs) if at >= len(got) or got[at] != answer), None)
    if wrong is not None:
        return f"{pairs[wrong][0]!r} is answered {got[wrong][:200] if wrong < len(got) else None}, and not {pairs[wrong][1][:200]}; {end[2]}"
    return None if end[::2] == (0, b"") and len(got) == len(pairs) else f"it ends with {end[0]}, {end[2]} and {len(got)} answers"


def made(program, file):
    end = run("init", file, program=program)
    return None if end == CREATED else f"init: {end}"


def many_answers(version):
    """A desk of an earlier version with more stored requests than 16 bits count is migrated: each is answered as before."""
    def try_it(program, file):
        make_earlier(file, version)
        with contextlib.closing(sqlite3.connect(file)) as conn:
            (first,) = conn.execute("SELECT requests FROM desk").fetchone()
            rows = ((1, f"m{at}", first + at, "8:PutGroup,4:Core,1:3,1:2,1:3,1:4,", "7:Nothing,") for at in range(1, MANY_ANSWERS + 1))
            conn.executemany("INSERT INTO answers VALUES (?, ?, ?, ?, ?)", rows)
            conn.execute("UPDATE desk SET requests = ?", (first + MANY_ANSWERS,))
            conn.commit()
        end = run("migrate", file, program=program)
        if end != MIGRATED:
            return f"migrate: {end}"
        again = [(line("PutGroup", f"m{at}", 1, {"members": [2, 3, 4]}, group="Core"), b"{}") for at in (1, 65_536, MANY_ANSWERS)]
        new = [(line("PutGroup", "m65537", 1, {"members": [2]}, group="Core"), b'{"refused":"IDENTITY_REUSED"}')]
        new += [(line("CreateAccount", "new", 1, {"name": "new"}), b'{"account":5}'), (line("CreateAccount", "r1", 1, {"name": "ann"}), b'{"account":2}')]
        return asked(program, file, again + new) or counted(file, first + MANY_ANSWERS + 1)
    return try_it


def counted(file, wanted):
    with contextlib.closing(sqlite3.connect(file)) as conn:
        found = conn.execute("SELECT (SELECT count(*) FROM answers_3), (SELECT requests FROM desk)").fetchone()
    return None if found == (wanted, wanted) else f"{found} requests, and not {wanted}"


def one_commit(program, file):
    """One commit that was sent for 20 branches of a project and for 20 projects is known in each of them, and a change that stands on it there joins with it."""
    places = [("p", f"b{at}") for at in range(MANY_BRANCHES)] + [(f"p{at}", "main") for at in range(MANY_BRANCHES)]
    pairs = projects("p", *(project for project, _ in places[MANY_BRANCHES:])) + [base(*place) for place in places]
    for at, (project, branch) in enumerate(places):
        pairs.append((making(f"c{at}", COMMIT, FIRST, project, branch), b'{"change":%d,"patch_set":1}' % (at + 1)))
    for at, (project, branch) in enumerate(places):
        number = len(places) + at + 1
        pairs += [
            (making(f"again{at}", COMMIT, FIRST, project, branch), b'{"number":17,"refused":"COMMIT_KNOWN"}'),
            (making(f"on{at}", commit(at + 1), COMMIT, project, branch), b'{"change":%d,"patch_set":1}' % number),
            (line("Submit", f"s{at}", 1, {}, change=number), b'{"joined":[%d,%d]}' % (at + 1, number)),
        ]
    return made(program, file) or asked(program, file, pairs)


def many_changes(program, file):
    """A branch that as many changes joined as 16 bits count gets the next two, at their places."""
    wrong = made(program, file) or asked(program, file, [*projects("p"), base("p", "main")])
    if wrong:
        return wrong
    with contextlib.closing(sqlite3.connect(file)) as conn:
        numbers = range(1, MANY_CHANGES + 1)
        conn.executemany("INSERT INTO changes VALUES (?, 'p', 'main', 's', 1, 'MERGED', 0, ?, 2)", ((at, at) for at in numbers))
        conn.executemany("INSERT INTO patches VALUES (?, 1, ?, ?, 'REWORK', 1, 'a')", ((at, commit(at), commit(at - 1)) for at in numbers))
        conn.commit()
    last = MANY_CHANGES
    pairs = []
    for at in (last + 1, last + 2):
        pairs += [(making(f"c{at}", commit(at), commit(at - 1)), b'{"change":%d,"patch_set":1}' % at), (line("Submit", f"s{at}", 1, {}, change=at), b'{"joined":[%d]}' % at)]
    joined = b",".join(b'{"change":%d,"commit":"%040x"}' % (at, at) for at in range(1, last + 3))
    pairs.append((line("Branch", None, 1, None, project="p", branch="main"), b'{"bases":["%s"],"joined":[%s]}' % (FIRST.encode(), joined)))
    wrong = asked(program, file, pairs)
    with contextlib.closing(sqlite3.connect(file)) as conn:
        places = conn.execute("SELECT number, place FROM changes ORDER BY number DESC LIMIT 2").fetchall()
    return wrong or (None if places == [(last + 2, last + 2), (last + 1, last + 1)] else f"places {places}")


def last_rows(program, file):
    """The last of the projects and of the bases of one are taken, and no more, within a run and by the next; a file in place of another is, and a base of another project."""
    wrong = made(program, file) or asked(program, file, [*projects("p", "q"), base("p", "main"), base("q", "main")])
    if wrong:
        return wrong
    with contextlib.closing(sqlite3.connect(file)) as conn:
        conn.executemany("INSERT INTO projects_2 VALUES (?, ?, '')", ((f"more{at}", FILE) for at in range(MOST_PROJECTS - 3)))
        conn.executemany("INSERT INTO bases VALUES ('p', ?, 1, ?)", ((f"b{at}", FIRST) for at in range(MOST_BASES - 2)))
        conn.commit()
    put = lambda id, project, answer: (line("PutProject", id, 1, {"file": FILE}, project=project), answer)
    record = lambda id, project, answer: (line("RecordBase", id, 1, {"commit": f"{id:0>40}"}, project=project, branch="main"), answer)
    done, full = b"{}", b'{"number":28,"refused":"LIMIT"}'
    first = [put("1", "p", done), put("2", "last", done), put("3", "none", full), put("4", "p", done), put("5", "none", full)]
    first += [record("6", "p", done), record("7", "p", full), record("8", "q", done), record("9", "p", full)]
    again = [put("a1", "none", full), put("a2", "last", done), put("a3", "none", full), record("a4", "p", full), record("a5", "q", done), record("a6", "p", full)]
    return asked(program, file, first) or asked(program, file, again)


FEW = {"the last of 1,000 projects and of 100,000 bases": last_rows, "one commit in 40 branches": one_commit, "70,000 answers of version 2": many_answers(2)}
MANY = {"70,000 answers of version 1": many_answers(1), "65,538 changes of a branch": many_changes}


def are_met(program, cases, folder, clock):
    """Tries each case on a file of its own, prints what came of it, and says of each whether it is as it should be."""
    for at, (name, try_it) in enumerate(cases.items()):
        begun = clock()
        wrong = try_it(program, os.path.join(folder, f"desk-{at}"))
        print(f"{name}: {clock() - begun:.1f} s: {wrong or 'as it should be'}", flush=True)
        yield wrong is None
