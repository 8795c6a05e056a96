"""The parts of bench/page that look at code: the page of a difference, and what is told before a submit."""
import re
import signal

from desk_file import check
from paged_desk import MARKUP, PARSER, TURNED, changed


def rows(page, path):
    """What a file's rows say, cell by cell; a cell that isn't shown says nothing."""
    return page.run(f"[...[...document.querySelectorAll('.file')].find((it) => it.querySelector('summary').textContent.includes({path!r})).querySelectorAll('tr')]"
                    ".map((row) => [...row.children].map((cell) => cell.innerText))")


def look_at_code(reading):
    """The difference of a patch set: old beside new, with a comment at its line; and code, paths and subjects of others as text."""
    page = reading.open("bob", "diff.html?change=1", "#files article")
    found = rows(page, "src/parser.rs")
    check(["41", "    let field_41 = next(line, 41);", "41", "    let settings = read_settings(line)?;"] in found, "a line that was changed", found)
    check(["", "", "42", "    let field_41 = settings.next(41);"] in found, "a line that is new", found)
    at = [row[2:3] for row in found].index(["42"])
    check("Why is the file read twice here?" in found[at + 1][0], "the comment under its line", found[at + 1])
    check(page.run("document.getElementById('subject').innerText").startswith("Change 1: Read the settings before"), "the subject")
    reading.end(page)
    odd = reading.open("ann", "diff.html?change=3", "#files td.new")
    said = odd.run("document.body.innerText")
    shown = re.sub("[\u202a-\u202e\u2066-\u2069]", lambda found: f"‹U+{ord(found[0]):04X}›", TURNED)
    for text in (shown, MARKUP[2], MARKUP[0], "‹U+202E›txt.rs", "‹U+202E›eert", "Binary files"):
        check(text in said, "as text", text, said)
    check(not re.search("[\u202a-\u202e\u2066-\u2069]", said), "a character that turns the text around stands in the page as it is")
    check(odd.run("document.querySelectorAll('main img, main svg, main script').length") == 0, "markup")
    reading.end(odd)


def look_at_odd_files(reading):
    """Modes, links, a moved file, a name in quotes, bytes that are no UTF-8, and a line's end that is taken away: all of it is told."""
    page = reading.open("bob", "?change=7", "#files a")
    said = page.run("[...document.querySelectorAll('#files tr')].map((row) => row.innerText.replace(/\\s+/g, ' ').trim())")
    wanted = ['docs/"ü" x new +1 −0', "was docs/settings.md docs/all settings.md +0 −0", "src/cache.rs executable +1 −1", "src/latin.rs new +1 −0", "src/link new link +1 −0"]
    check(sorted(said) == sorted(wanted), "the files", said)
    page.load(f"https://127.0.0.1:{reading.desk.port}/page/diff.html?change=7", "document.querySelector('#files td')")
    check(["1", "// nothing yet", "1", "// nothing yet (no line end)"] in rows(page, "src/cache.rs"), "a line's end", rows(page, "src/cache.rs"))
    check("new mode 100755" in page.run("document.getElementById('files').innerText"), "a mode")
    for path, row in (("latin", ["", "", "1", "caf\ufffd"]), ("link", ["", "", "1", "/etc/passwd (no line end)"]), ('docs/"ü"', ["", "", "1", "x"])):
        check(row in rows(page, path), "a row", path, rows(page, path))
    check("rename from docs/settings.md" in page.run("document.getElementById('files').innerText"), "a rename")
    reading.end(page)


def write_at_lines(reading):
    """Two comments at lines, which outlive a reload, are sent as one review; the answer is lost, and what is sent again acts once."""
    page, desk = reading.open("cal", "diff.html?change=1", "#files article"), reading.desk
    before, drafts = len(desk.comments(1)), "document.querySelectorAll('.file textarea').length"
    for line, text in ((41, "<b>What</b> if it fails?"), (36, "And here?")):
        page.click(f"[aria-label='Comment on line {line}']")
        page.until("document.activeElement.tagName === 'TEXTAREA'")
        page.write(text)
    page.until("document.getElementById('send').textContent === 'Send 2 comments'")
    check(len(desk.comments(1)) == before and not page.sent, "nothing is sent yet")
    page.reload(f"{drafts} === 2")
    page.lost = "answer"
    page.click("#send")
    reading.told(page, "No answer came.")
    page.reload("document.getElementById('send').textContent === 'Send again'")
    page.click("#send")
    reading.told(page, "Sent.")
    check(page.sent[0] == page.sent[1] and len(page.sent) == 2, "the same again", page.sent)
    made = [(it["path"], it["line"], it["message"]) for it in desk.comments(1)[before:]]
    check(sorted(made) == [("src/parser.rs", 36, "And here?"), ("src/parser.rs", 41, "<b>What</b> if it fails?")], "each once", made)
    check(page.run(f"{drafts} === 0 && document.getElementById('send').hidden"), "drafts are left")
    page.faults = [it for it in page.faults if "ConnectionReset" not in it]
    answer_by_keys(reading, page)
    for thread in desk.tell("/changes/1/threads"):
        if thread["unresolved"]:
            last = thread["comments"][-1]
            desk.do("ann", "POST", "/changes/1/revisions/1/review", comments={last["path"]: [{"line": last["line"], "in_reply_to": last["id"], "message": "Done.", "unresolved": False}]})
    reading.end(page)


def answer_by_keys(reading, page):
    """An answer to a thread, by keys alone, on a narrow screen, where old and new stand below each other."""
    page.resize(360, 800)
    check(page.run("getComputedStyle(document.querySelector('.file tr')).display") == "grid", "one column")
    page.run("[...document.querySelectorAll('.file article')].find((it) => it.innerText.includes('And here?')).querySelector('button').focus()")
    page.key("Enter")
    page.until("document.activeElement.tagName === 'TEXTAREA'")
    page.write("Here too.")
    for _ in range(400):
        if page.run("document.activeElement.id") == "send":
            break
        page.key("Tab")
    check(page.run("document.activeElement.id") == "send", "the button isn't reached by keys")
    page.key("Enter")
    reading.told(page, "Sent.")
    check([it["message"] for it in reading.desk.comments(1)].count("Here too.") == 1, "the answer")


def move_comments(reading):
    """A new patch set: comments and drafts of the one before stand where their lines are now, and the page of an older one says that there is a newer one."""
    desk = reading.desk
    page = reading.open("bob", "diff.html?change=4", "#files td.new")
    page.click("[aria-label='Comment on line 12']")
    page.until("document.activeElement.tagName === 'TEXTAREA'")
    page.write("Not sent yet.")
    desk.do("bob", "POST", "/changes/4/revisions/1/review", comments={"src/parser.rs": [{"line": 11, "message": "Spell it out.", "unresolved": False}]})
    now = "// one\n// two\n" + changed(PARSER, 10, "    let field_11 = named(line, \"eleven\");\n")
    desk.amended(4, desk.base, {"src/parser.rs": now}, "Say which file is wrong, and where\n\nNow with a place.\n")
    page.load(f"https://127.0.0.1:{desk.port}/page/diff.html?change=4", "document.querySelector('#files textarea')")
    check("patch set 1" in page.run("document.getElementById('note').textContent"), "nothing says that a draft was moved")
    found = [[cell.split("\n")[0] for cell in row] for row in rows(page, "src/parser.rs")]
    lines = [row[2] if len(row) == 4 else row[0] for row in found]
    check(lines[lines.index("13") + 1].startswith("Resolved, said of patch set 1, line 11"), "the comment at its line", lines)
    check(page.run("[...document.querySelectorAll('#files tr')].find((it) => it.querySelector('textarea')).previousElementSibling.children[2].innerText") == "14", "the draft at its line")
    page.load(f"https://127.0.0.1:{desk.port}/page/diff.html?change=4&base=1&patch_set=2", "document.querySelector('#files td.new')")
    check(["", "", "1", "// one"] in rows(page, "src/parser.rs"), "between patch sets")
    page.run("localStorage.setItem('berthoglu drafts 3 4 2', JSON.stringify([{path: 'gone.rs', line: 3, unresolved: true, message: 'Of a file that went.'}]))")
    page.load(f"https://127.0.0.1:{desk.port}/page/diff.html?change=4", "document.querySelector('#elsewhere textarea')")
    check(page.run("document.querySelector('#elsewhere textarea').value") == "Of a file that went.", "a draft would be sent that isn't shown")
    page.run("localStorage.removeItem('berthoglu drafts 3 4 2')")
    page.load(f"https://127.0.0.1:{desk.port}/page/diff.html?change=4&patch_set=1", "document.querySelector('#files td.new')")
    check("isn't the current patch set, which is 2" in page.run("document.getElementById('note').textContent"), "an older one")
    check(page.run("document.querySelectorAll('td.number button').length") == 0, "comments on an older one")
    reading.end(page)
    page = reading.open("cal", "?change=4", "#commit-message")
    check("Say which file is wrong, and where" in page.run("document.getElementById('subject').innerText + document.title"), "the subject of the current patch set")
    check("Now with a place." in page.run("document.getElementById('commit-message').innerText"), "its message")
    reading.end(page)


def submit_what_is_shown(reading):
    """A tab that shows an older patch set submits nothing, and says which one is there; loaded, it does, and a lost answer is told again."""
    page, desk = reading.open("ann", "?change=6", "#commit-message"), reading.desk
    desk.amended(6, desk.base, {"docs/new.md": "One.\n", "src/auth.rs": "// no check\n"}, "Remove the authentication check\n")
    desk.do("bob", "POST", "/changes/6/revisions/2/review", labels={"Code-Review": 2, "Verified": 1})
    reading.submit(page)
    reading.told(page, "There is a newer patch set 2: nothing was submitted. Load it")
    check(desk.tell("/changes/6")["status"] == "NEW", "a patch set was submitted that wasn't shown")
    check(not page.run("document.getElementById('kept').checkVisibility()"), "the request is kept, though nothing was submitted")
    page.run("document.body.dataset.old = 1")
    page.click("#answer a")
    page.until("!document.body.dataset.old && document.querySelector('#commit-message')?.checkVisibility()")
    check("Remove the authentication check" in page.run("document.getElementById('subject').innerText"), "what would be submitted isn't shown")
    page.lost = "answer"
    reading.submit(page)
    reading.told(page, "No answer came.")
    check(desk.tell("/changes/6")["status"] == "MERGED", "it was taken")
    page.click("[data-do=submit]")
    reading.told(page, "Merged: change 6.")
    check(page.sent[-1] == page.sent[-2] and [it["change"] for it in desk.tell("/projects/tools/branches/main")["joined"]].count(6) == 1, "merged once", page.sent)
    page.faults = [it for it in page.faults if "ConnectionReset" not in it]
    reading.end(page)


def see_conflict(reading):
    """A change that conflicts with what has merged says so, with the path; it isn't merged, and stays open."""
    desk = reading.desk
    desk.do("bob", "POST", "/changes/5/revisions/1/review", labels={"Code-Review": 2})
    page = reading.open("ann", "?change=5", "#conflicts")
    check("Merge conflict" in page.run("document.getElementById('subject').innerText") and "src/parser.rs" in page.run("document.getElementById('conflicts').innerText"), "the conflict isn't shown")
    reading.submit(page)
    reading.told(page, "Nothing was submitted: it conflicts with what the branch has, in src/parser.rs.")
    check(desk.tell("/changes/5")["status"] == "NEW", "it was merged")
    check(not page.run("document.getElementById('kept').checkVisibility()"), "the request is kept, though nothing was submitted")
    reading.end(page)


def do_without_code(reading):
    """Where the code server is down the page says so, takes no submit, and does all else; once it is back the code is there."""
    desk = reading.desk
    desk.end_code()
    page = reading.open("bob", "?change=5", "#change")
    page.until("document.getElementById('code-note').textContent.startsWith(\"The code can't be shown, and Submit is off: what shows the one and takes the other doesn't answer (502).\")")
    check(page.run("document.querySelector('[data-do=submit]').disabled"), "Submit isn't off")
    page.click("#message")
    page.write("Without code.")
    page.click("#send")
    reading.told(page, "Done.")
    reading.end(page)
    page.load(f"https://127.0.0.1:{desk.port}/page/diff.html?change=5", "document.getElementById('answer').textContent.includes('(502)')")
    desk.serve_code()
    page.load(f"https://127.0.0.1:{desk.port}/page/diff.html?change=5", "document.querySelector('#files td.new')")
    reading.end(page)
    desk.code.send_signal(signal.SIGSTOP)  # one that hangs holds up nothing but the code
    page = reading.open("cal", "?change=5", "#change")
    check(page.run("document.querySelector('[data-do=submit]').disabled && document.getElementById('code-note').textContent === 'Loading the code …'"), "Submit doesn't wait for the code")
    desk.code.send_signal(signal.SIGCONT)
    page.until("document.getElementById('commit-message').checkVisibility() && !document.querySelector('[data-do=submit]').disabled")
    reading.end(page)


FIRST, LAST = [look_at_code, look_at_odd_files, write_at_lines, move_comments], [submit_what_is_shown, see_conflict, do_without_code]
