"""Who pushes, and what a pushed commit has to be, before the desk is asked. A module."""
import os
import pwd
import re

from paths import LooksAlike, TooLarge, paths_of
from repository import Commit, Piped, commits, git, setting, tip_of

MOST_COMMITS, MOST_PATHS, MOST_BYTES, MOST_SAID = 100, 500, 512, 65_536
CHANGE_ID, CONTROL, NO_UTF_8 = re.compile(r"I[0-9a-f]{40}"), re.compile(r"[\x00-\x1f\x7f]"), re.compile(r"[\ud800-\udfff]")
# Encodings in which ASCII is itself: in another one a byte of a name or a message may be a line's end, or the end of all, for git and not for other programs.
ENCODINGS = re.compile(r"(UTF-?8|(US-)?ASCII|ISO[-_]?8859[-_]\d+|LATIN-?\d+|(CP|WINDOWS-)125\d|KOI8-[RU]|EUC-(JP|KR|TW|CN)|GB(K|2312|18030)|BIG5|S(HIFT)?[-_]?JIS)?", re.I)
ONCE = (b"tree", b"author", b"committer", b"encoding", b"gpgsig")  # what stands in a commit's head once
FOOTERS = "put the hook commit-msg into .git/hooks of your clone, then git commit --amend, or for a commit further down git rebase -i with reword"


class Refused(Exception):
    """Why something that was pushed isn't taken, and what helps."""

    def __init__(self, why, help=""):
        super().__init__(why)
        self.help = help


def user_name():
    """Who pushes: as the web server says, as a forced command of ssh says, or whose process this is. Behind a web server nothing else is looked at."""
    if name := os.environ.get("REMOTE_USER"):
        return name
    if "REQUEST_METHOD" in os.environ:
        raise Refused("the web server doesn't say who pushes", "it has to ask for a password, and to give REMOTE_USER to git http-backend")
    try:
        return os.environ.get("DESK_USER") or pwd.getpwuid(os.getuid()).pw_name
    except KeyError as error:
        raise Refused(f"the user of number {os.getuid()} has no name here") from error


def accounts():
    """The account of each user, by lines such as `ann 2` or, as the proxy's, `~^ann$ 2;`."""
    with open(setting("desk.accounts", "accounts"), encoding="utf-8") as file:
        found = (re.fullmatch(r"(?:~\^)?([^\s$]+)\$?\s+(\d+);?", line.strip()) for line in file)
        return {it[1].replace("\\.", "."): int(it[2]) for it in reversed([*found]) if it}  # the first line of a name counts


def account_of(user):
    """The account of a user."""
    known = accounts()
    if user not in known:
        raise Refused(f"desk.accounts has no account for the user {user}")
    return known[user]


def mails():
    """The mail addresses of each user, by lines such as `ann ann@example.org`; nothing where there is no line, or no file."""
    found = {}
    try:
        with open(setting("desk.mails", "mails"), encoding="utf-8") as file:
            for words in (line.split() for line in file if not line.lstrip().startswith("#")):
                if words:
                    found.setdefault(words[0], []).extend(words[1:])
    except FileNotFoundError:
        pass
    return found


def check_committers(found, user):
    """Refuses a commit whose committer isn't who pushes, where the table of addresses says who has which. What is a patch set already was looked at when it was pushed."""
    table = mails()
    if not table:
        return
    known, own = set(git("for-each-ref", "--format=%(objectname)", "refs/changes").split()), table.get(user, [])
    for commit in found:
        if commit.name not in known and commit.mail.lower() not in [it.lower() for it in own]:
            if not own:
                raise Refused(f"{where(commit)}: the user {user} has no mail address here", "an administrator has to put a line with it into the file that desk.mails says")
            raise Refused(f"{where(commit)}: its committer is {commit.mail}, which isn't {user}'s",
                          f"taken: {', '.join(own)}; git config user.email {own[0]}, then git commit --amend --no-edit, or git rebase --force-rebase for commits further down")


def where(commit):
    return f"commit {commit.name[:10]} ({commit.subject})"


def check(commit):
    """The paths that a commit changes, of one that the desk can take; else Refused."""
    if len(commit.parents) != 1:
        raise Refused(f"{where(commit)} {'is a merge' if commit.parents else 'has no parent'}", "the desk takes commits with one parent: rebase in place of merging")
    if not ENCODINGS.fullmatch(commit.encoding):
        raise Refused(f"{where(commit)} is in the encoding {commit.encoding[:40]}", "git config i18n.commitEncoding UTF-8, then git commit --amend")
    if not commit.change_ids:
        raise Refused(f"{where(commit)} has no Change-Id footer", FOOTERS)
    if len(commit.change_ids) > 1 or not CHANGE_ID.fullmatch(commit.change_ids[0]):
        raise Refused(f"{where(commit)} hasn't one Change-Id footer, I and 40 hexadecimal digits", f"it has {', '.join(commit.change_ids)[:1000]}; {FOOTERS}")
    try:
        paths = paths_of(commit, git("rev-parse", f"{commit.parents[0]}^{{tree}}").strip(), MOST_PATHS, MOST_BYTES)
    except TooLarge as error:
        raise Refused(f"{where(commit)} changes {error}", f"the desk takes {MOST_PATHS} paths of {MOST_BYTES} bytes: make several changes of it") from error
    except LooksAlike as error:
        path, other = error.args
        raise Refused(f"{where(commit)} adds {path} beside {other}, which differs in case alone",
                      "where upper and lower case aren't told apart one is written over the other: give it another name") from error
    if any(CONTROL.search(path) or NO_UTF_8.search(path) for path in paths):
        raise Refused(f"{where(commit)} has a path that the desk doesn't take", f"it takes UTF-8 of at most {MOST_BYTES} bytes without control characters")
    return paths


def check_heads(names: str) -> None:
    """Refuses commits that say too much, or one thing twice, before one of them is looked at: of two committers git tells the last one, and other programs the first one."""
    for name, size in zip(names.split(), git("cat-file", "--batch-check=%(objectsize)", sent=names).split()):
        if int(size) > MOST_SAID:
            raise Refused(f"commit {name[:10]} has more than {MOST_SAID >> 10} KiB, without its files", "shorten its message")
    with Piped("cat-file", "--batch") as reading:
        for name in names.split():
            bytes_told = int(reading.line(name.encode() + b"\n").split()[2])
            head = reading.told.read(bytes_told + 1).partition(b"\n\n")[0]
            words = [line.partition(b" ")[0] for line in head.split(b"\n")]
            for word in ONCE:
                if words.count(word) > 1:
                    raise Refused(f"commit {name[:10]} has more than one line {word.decode()}", "git commit --amend --no-edit makes it anew")


LOOKED: dict[tuple[str, str, str], "list[tuple[Commit, list[str]]] | Refused"] = {}  # what was found in this push


def pushed(tip, branch, user):
    """The commits that a user pushes and that the branch doesn't have, parents first, each with its paths, if the desk can take each of them. They are looked at once, however
    many refs of a push ask for them."""
    asked = (tip, branch, user)
    if asked not in LOOKED:
        try:
            LOOKED[asked] = look_at(*asked)
        except Refused as refused:
            LOOKED[asked] = refused
    found = LOOKED[asked]
    if isinstance(found, Refused):
        raise found
    return found


def look_at(tip, branch, user):
    if not tip_of(branch):
        raise Refused(f"the repository has no branch {branch}")
    check_heads(git("rev-list", f"--max-count={MOST_COMMITS + 1}", tip, "--not", f"refs/heads/{branch}", "--"))
    found = list(commits(f"--max-count={MOST_COMMITS + 1}", tip, "--not", f"refs/heads/{branch}", "--"))
    if not found:
        raise Refused(f"{branch} has these commits already")
    if len(found) > MOST_COMMITS:
        raise Refused(f"more than {MOST_COMMITS} commits that {branch} doesn't have", f"rebase onto {branch}, or push a part first and have it merged")
    check_committers(found, user)
    checked = [(commit, check(commit)) for commit in found]
    if len({commit.change_ids[0] for commit in found}) < len(found):
        raise Refused("two commits have the same Change-Id footer", "squash them, or give one of them another footer")
    return checked
