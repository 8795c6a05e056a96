"""The parts of bench/page that look at lists of changes: what waits for who is signed in, searches, names, and what is shown where the index is behind or down."""
import os
import time

from desk_file import check
from desk_proxied import TOP
from page_reading import Reading
from paged_desk import ACCOUNTS, FILE, MARKUP, Paged


def lists(page):
    """The rows of each list, by its heading: what their cells say."""
    return page.run("Object.fromEntries([...document.querySelectorAll('#sections table')].map((it) => [it.getAttribute('aria-label'), "
                    "[...it.querySelectorAll('tbody tr')].map((row) => [...row.children].map((cell) => cell.innerText.replace(/\\s+/g, ' ').trim()))]))")


def look_at_lists(reading):
    """Without an index the head has the fields for numbers; with one the first page is the dashboard, which says whose turn it is and why, with names, and markup as text."""
    desk = reading.desk
    page = reading.open("cal", "?change=3", "#change")
    check(page.run("document.querySelectorAll('header form:not([hidden]) input').length") == 3, "the head without an index")
    desk.serve_index()
    number, _, closed = (desk.made(desk.base, {"docs/long.md": f"{count}\n"}, f"A subject with {'words' * 30} {MARKUP[4]} \u202eeert {count}\n", 3)[0] for count in range(3))
    desk.do("ann", "POST", f"/changes/{number}/reviewers", reviewer=4)
    desk.do("ann", "POST", f"/changes/{number}/revisions/1/review", message="So?")
    desk.do("ann", "POST", f"/changes/{closed}/reviewers", reviewer=4, state="CC")
    while desk.ask("GET", f"/changes/{closed}/detail", "ann")[0] != 200:
        time.sleep(0.1)
    desk.do("bob", "POST", f"/changes/{closed}/abandon")
    page.load(f"https://127.0.0.1:{desk.port}/page/", "document.querySelector('#sections table')")
    page.until("document.querySelectorAll('#sections table')[0]?.getAttribute('aria-label') === 'Your turn' && document.getElementById('sections').innerText.includes('Abandoned') && document.getElementById('behind').textContent.startsWith('What the desk said within')", is_reloaded=True)
    found = lists(page)
    turn = {row[0].split(":")[0]: row for row in found["Your turn"]}
    check({"3", "8"} <= set(turn) and turn["8"][0].endswith("Reviewer was added") and MARKUP[1] in turn["3"][0] and "▸you" in turn["8"][2], "whose turn it is", found)
    check("‹U+202E›eert" in turn["8"][0] and MARKUP[4] in turn["8"][0] and turn["8"][1].endswith("bob"), "text and names", turn["8"])
    check(page.run("document.querySelectorAll('main img, main svg, main script, main a[href^=javascript]').length") == 0, "markup")
    check([row[-1] for row in found["Recently closed"]] == ["Abandoned"], "what was closed", found)
    nodes = [node for node in page.call("Accessibility.getFullAXTree")["nodes"] if not node["ignored"] and node["role"]["value"] in ("searchbox", "textbox", "button", "link", "table", "columnheader")]
    check(len(nodes) > 20 and all(node.get("name", {}).get("value") for node in nodes), "names", [node["role"] for node in nodes if not node.get("name", {}).get("value")])
    narrow = "[...document.querySelectorAll('th')].filter((it) => it.checkVisibility()).length"
    before = page.run(narrow)
    page.resize(360, 800)
    check(page.run(narrow) < before, "what is aside is shown on a narrow screen")
    reading.end(page)


def search(reading):
    """By keys alone: a search, its results, one that isn't understood, and a number, which leads to its change; from there back by the head."""
    page = reading.open("ann", "changes.html", "#sections")

    def ask(text):
        page.run("document.querySelector('header input').value = ''; document.querySelector('header input').focus()")
        page.write(text)
        page.key("Enter")

    ask("status:open owner:bob subject")
    page.until("document.querySelector('#sections td')?.innerText.includes('A subject with')")
    check(page.run("document.title").startswith("Search: status:open owner:bob subject") and len(lists(page)["Changes that were found"]) == 2, "what was found", lists(page))
    ask("is:reviewed")
    page.until("document.getElementById('answer').textContent === \"is:reviewed can't be answered here\"")
    ask(MARKUP[0])
    page.until("document.title.includes('onerror')")
    page.until("document.querySelector('#sections p, #sections table') || document.getElementById('answer').textContent")
    ask("2")
    page.until("document.getElementById('change')?.checkVisibility()")
    check(page.run("document.querySelector('header [role=search]').checkVisibility() && !document.querySelector('header [name=project]').checkVisibility()"), "the head with an index")
    page.click("header a[href='changes.html']")
    page.until("document.querySelector('#sections table')")
    reading.end(page)


def do_without_index(reading):
    """Where the index is down the page says so, and a change is still shown; once it is back there are lists. Where the desk is down the page says how long."""
    desk = reading.desk
    page = reading.open("ann", "changes.html", "#sections table")
    desk.end_index()
    page.load(f"https://127.0.0.1:{desk.port}/page/changes.html?q=settings", "document.getElementById('answer').textContent.startsWith(\"The index doesn't answer\")")
    page.load(f"https://127.0.0.1:{desk.port}/page/?change=1", "document.getElementById('change').checkVisibility()")
    desk.serve_index()
    page.load(f"https://127.0.0.1:{desk.port}/page/changes.html?q=settings", "document.querySelector('#sections table')")
    desk.serving.kill()
    page.until("document.getElementById('behind').textContent.startsWith(\"The desk hasn't answered the index for\")", seconds=60, is_reloaded=True)
    reading.end(page)


WORK = [("ann", "Read the settings before the first request", 40), ("bob", "Cache what was read", 12), ("cal", "Say which file is wrong, and where", 3), ("ann", "Close the file where reading fails", 8),
        ("bob", "Name the field in each message", 120), ("ann", "Count lines from one", 5), ("cal", "Take paths with blanks", 31), ("bob", "Drop the old parser", 2)]


def fill(desk):
    """Changes of three users as a team has them on a usual day."""
    for name in ACCOUNTS:
        desk.do("admin", "POST", "/accounts", name=name)
    desk.do("admin", "PUT", "/groups/Core", members=list(ACCOUNTS.values()))
    desk.do("admin", "PUT", "/projects/tools", file=FILE)
    base = desk.commit(None, {"README": "A project.\n"}, "Begin\n")
    desk.git("update-ref", "refs/heads/main", base)
    desk.do("admin", "PUT", "/projects/tools/branches/main", commit=base)
    for number, (owner, subject, lines) in enumerate(WORK):
        desk.made(base, {f"src/part{number}.rs": "line\n" * lines}, f"{subject}\n", ACCOUNTS[owner])
    desk.do("ann", "POST", "/changes/6/wip")
    for change, user, account, state in ((1, "ann", 3, "REVIEWER"), (2, "bob", 2, "REVIEWER"), (3, "cal", 2, "REVIEWER"), (3, "cal", 3, "REVIEWER"), (4, "ann", 4, "REVIEWER"), (5, "bob", 4, "REVIEWER"), (7, "cal", 2, "CC")):
        desk.do(user, "POST", f"/changes/{change}/reviewers", reviewer=account, state=state)
    question = {"src/part0.rs": [{"line": 3, "message": "Why twice?", "unresolved": True}]}
    for change, user, body in ((1, "bob", {"comments": question, "labels": {"Code-Review": -1}}), (4, "cal", {"labels": {"Code-Review": 2, "Verified": 1}}), (8, "ann", {"labels": {"Code-Review": 2, "Verified": 1}}),
                               (3, "bob", {"labels": {"Code-Review": 1}}), (3, "ann", {"labels": {"Verified": 1}, "message": "It builds."})):
        desk.do(user, "POST", f"/changes/{change}/revisions/1/review", **body)


def take_pictures(program, folder, browser):
    """Pictures of a dashboard, for docs/search.md and the README."""
    desk = Paged(program, folder)
    try:
        fill(desk)
        desk.serve_index()
        while desk.ask("GET", "/changes/8/detail", "ann")[0] != 200:
            time.sleep(0.1)
        desk.do("bob", "POST", "/changes/8/submit")
        for name, width, height in (("search-dashboard", 1400, 900), ("search-narrow", 360, 900)):
            page = Reading(desk, browser).open("ann", "changes.html", "#sections table", width, height)
            page.until("document.getElementById('sections').innerText.includes('Merged') && document.getElementById('behind').textContent.startsWith('What the desk said')", is_reloaded=True)
            picture = page.picture()
            with open(os.path.join(TOP, "docs", f"{name}.png"), "wb") as file:
                file.write(picture)
            print(f"docs/{name}.png: {len(picture):,} bytes")
    finally:
        desk.end()


PARTS = [look_at_lists, search, do_without_index]
