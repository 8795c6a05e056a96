"""Asks the program of a damaged desk all that there is to ask, and judges each answer, each end and what is left of the tables."""
import collections
import contextlib
import http.client
import json
import os
import re
import resource
import select
import shutil
import sqlite3
import subprocess

from damaged_desk import BASE, HEALTHY, SESSION, SHOWN, name_of
from damaged_rows import REFUSALS
from desk_file import CREATED, NOT_EMPTY, PROGRAM, bytes_of, check, copy, difference, run, tables
from desk_http import Asked, ask, free_port

SECONDS = 10
MEMORY = 2**30
# What a run may take at most, in KiB: so much, and so many times the file.
LEAST_KIB, TIMES = 160_000, 40
TEXTS = ("not a desk", "wrong version", "store fault", "damaged", "pattern", "no such change", "no such project", "no such branch")
FAULTS = {f"review_desk: {text}\n".encode() for text in TEXTS}
WARNING = re.compile(rb"review_desk: warning: this file has more [^\n]*\n")
NUMBERED = ("CreateAccount", "CreateChange")
# A change whose project or branch is no name may be one of any branch, and a patch set whose change or number is none may be one of any change: these stop
# what meets their commit in another project.
MEETING = {("changes", "project"), ("changes", "branch"), ("patches", "change"), ("patches", "patch")}
STOPPED = ("CreateChange", "Upload", "Submit"), b'{"not_taken":"DAMAGED"}\n'


def copy_all(file, to):
    """Copies a desk and what may stand beside it."""
    copy(file, to)
    for end in ("-journal", "-shm"):
        with contextlib.suppress(FileNotFoundError):
            os.remove(to + end)
        if os.path.exists(file + end):
            shutil.copyfile(file + end, to + end)
    return to


class Ended(Exception):
    """A run that ended, or didn't, as none may."""


class Running:
    """The program with these words; each wait has its limit."""

    def __init__(self, *words):
        self.words = words
        self.process = subprocess.Popen([PROGRAM, *words], stdin=subprocess.PIPE, stdout=subprocess.PIPE, stderr=subprocess.PIPE, bufsize=0)
        self.is_warned = None

    def told(self):
        """A line of its output; nothing where it has ended."""
        if not select.select([self.process.stdout], [], [], SECONDS)[0]:
            self.stop("no line")
        return self.process.stdout.readline()

    def ask(self, sent):
        with contextlib.suppress(BrokenPipeError):
            self.process.stdin.write(sent)
        return self.told()

    def end(self, sent=None):
        """Its status, its output, and what it says of faults; whether it warned is kept."""
        try:
            out, err = self.process.communicate(sent, timeout=SECONDS)
        except subprocess.TimeoutExpired:
            self.stop("no end")
        warning = WARNING.match(err)
        self.is_warned = warning is not None
        return self.process.returncode, out, err[warning.end():] if warning else err

    def stop(self, what):
        self.process.kill()
        self.process.wait()
        for stream in (self.process.stdin, self.process.stdout, self.process.stderr):
            stream.close()
        raise Ended(f"{what} after {SECONDS} seconds", *self.words[:1])


class Desks:
    """Damaged desks, what each is asked, and what came of it."""

    def __init__(self, folder):
        resource.setrlimit(resource.RLIMIT_AS, (MEMORY, resource.getrlimit(resource.RLIMIT_AS)[1]))
        self.file, self.whole, self.other, self.before = (os.path.join(folder, name) for name in ("desk", "whole", "other", "before"))
        self.found, self.kinds = collections.Counter(), collections.defaultdict(collections.Counter)
        self.faults, self.greatest, self.greatest_of, self.turn = [], 0, None, 0
        check(run("init", self.whole) == CREATED, "init")
        end = run("apply", self.whole, sent=b"".join(BASE))
        check(end[0] == 0 and not re.search(b"refused|fault", end[1]), "base", end)
        copy(self.whole, self.file)
        answers = run("apply", self.file, sent=b"".join(SESSION))[1].splitlines(keepends=True)
        check(len(answers) == len(SESSION) and not any(b"not_taken" in it for it in answers), "session", answers)
        self.wanted = dict(zip(SESSION, answers))
        self.shown = {words: run(words[0], self.whole, *words[1:]) for words in SHOWN}

    def wrong(self, damage, *what):
        self.faults.append((damage.name(), *what))
        print("not as it should be:", damage.name(), *what, flush=True)

    def count(self, damage, what):
        self.found[what] += 1
        self.kinds[damage.name()][what] += 1

    def try_one(self, damage):
        """Damages a desk and asks it everything; nothing where sqlite3 refuses to do the damage."""
        copy_all(self.whole, self.file)
        try:
            damage.act(self.file)
        except REFUSALS as error:
            self.found["damages that sqlite3 refuses"] += 1
            return self.kinds[damage.name()].update([f"refused by sqlite3: {error}"])
        for part in (self.look, self.serve, self.apply):
            try:
                part(damage)
            except Ended as error:
                self.wrong(damage, *error.args)
        self.measure(damage)
        self.found["damaged desks"] += 1

    def measure(self, damage):
        """Whether a run took more memory than any before it, and then more than it may."""
        size = resource.getrusage(resource.RUSAGE_CHILDREN).ru_maxrss
        files = sum(len(it or b"") for it in bytes_of(self.file)) // 1024
        # A process counts what its parent had when it began.
        own = resource.getrusage(resource.RUSAGE_SELF).ru_maxrss
        if size > max(self.greatest, own, LEAST_KIB + TIMES * files):
            self.wrong(damage, f"{size} KiB of memory for files of {files}")
        if size > self.greatest:
            self.greatest, self.greatest_of = size, damage.name()

    # ---- commands that are no lines

    def look(self, damage):
        """`show`, `joined` and `init`, none of which changes a table."""
        was = bytes_of(copy_all(self.file, self.other))
        for words, right in self.shown.items():
            asked = Running(words[0], self.other, *words[1:])
            status, out, err = asked.end()
            self.judge_end(damage, words[0], status, err)
            if not err and damage.warns is not None and damage.warns != asked.is_warned:
                self.wrong(damage, words[0], "warns" if asked.is_warned else "doesn't warn")
            is_right = (status, out, err) == right
            self.found[f"{words[0]} as without damage"] += is_right
            if damage.is_one and not is_right and ("lib" in words or words[-1] not in ("2", "tools", "main")):
                self.neighbour(damage, " ".join(words), out or err)
        end = Running("init", self.other).end()
        self.judge_end(damage, "init", *end[::2], NOT_EMPTY[2])
        self.compare(damage, "show, joined and init", was, end == CREATED)

    def serve(self, damage):
        """One line of the session, another for each desk, over HTTP."""
        sent = SESSION[self.turn % len(SESSION)]
        self.turn += 1
        port = free_port()
        was = bytes_of(copy_all(self.file, self.other))
        serving = Running("serve", self.other, "--port", str(port), "--count", "1")
        status, answer = None, None
        if serving.told().startswith(b"listening"):
            try:
                status, answer = ask(port, Asked(sent), SECONDS)
            except (OSError, http.client.HTTPException) as error:
                self.wrong(damage, "serve", sent, error)
        code, _, err = serving.end()
        self.judge_end(damage, "serve", code, err)
        if answer:
            self.judge(damage, sent, answer, "serve")
            if (status == 503) != (b"not_taken" in answer):
                self.wrong(damage, "serve", sent, status, answer)
            if b"not_taken" in answer or b'"id"' not in sent:
                self.compare(damage, sent, was)

    # ---- lines

    def apply(self, damage):
        applying, now, told = Running("apply", self.file), None, {}
        for sent in SESSION:
            was = now or bytes_of(self.file)
            answer = applying.ask(sent)
            now = bytes_of(self.file)
            if not answer:
                break
            told[sent] = answer
            self.judge(damage, sent, answer, "apply")
            if (b"not_taken" in answer or b'"id"' not in sent) and now != was:
                self.compare(damage, sent, was, False, self.file)
        status, _, err = applying.end()
        self.judge_end(damage, "apply", status, err)
        if len(told) < len(SESSION) and not err:
            self.wrong(damage, "ended with no word", status)
        self.again(damage, told, err)

    def again(self, damage, told, fault):
        """All is sent once more: what was answered is answered alike."""
        status, out, err = Running("apply", self.file).end(b"".join(SESSION))
        self.judge_end(damage, "apply", status, err)
        for sent, answer in zip(SESSION, out.splitlines(keepends=True)):
            if b'"id"' not in sent or b"not_taken" in told.get(sent, b"not_taken") or answer == told[sent]:
                continue
            if b"not_taken" in answer:
                self.count(damage, "answered, and not taken again")
                if damage.is_sound:
                    self.wrong(damage, "answered, and not taken again", sent, told[sent], answer)
            else:
                self.wrong(damage, "answered otherwise again", sent, told[sent], answer)
        if told and err and not fault:
            self.count(damage, "a desk that answered isn't opened again")

    # ---- judging

    def judge(self, damage, sent, answer, by):
        wanted = self.wanted[sent]
        try:
            said = json.loads(answer)
        except ValueError:
            return self.wrong(damage, by, sent, answer)
        cause = said.get("not_taken") if isinstance(said, dict) else None
        if (told := self.told(damage, sent)) and answer != told and not (by == "serve" and self.is_numbered_anew(sent) and "number" not in said and not cause):
            self.wrong(damage, by, sent, answer, told)
        if answer == wanted or (by == "serve" and json.loads(sent)["do"] in NUMBERED and "number" not in said and not cause):
            self.count(damage, "answers as without damage")
        elif cause:
            self.judge_cause(damage, sent, cause)
        else:
            self.count(damage, "other answers")
            if damage.is_strict and not (by == "apply" and self.is_numbered_anew(sent)):
                self.wrong(damage, by, sent, answer, wanted)
        if damage.is_one and sent in HEALTHY and answer != wanted and by == "apply":
            self.neighbour(damage, name_of(sent), answer)

    def told(self, damage, sent):
        """What must be answered, where that is told."""
        if damage.told is None:
            return None
        wanted = next((answer for id, answer in damage.told.items() if f'-{id}"'.encode() in sent or f'"{id}"'.encode() in sent), None)
        return wanted or (None if damage.told else self.wanted[sent])

    def judge_cause(self, damage, sent, cause):
        self.count(damage, f"not taken: {cause}")
        is_lawful = {"STORE": damage.is_refused or not damage.is_sound, "DAMAGED": True, "MEMORY": not damage.is_sound, "FULL": damage.may_be_full, "PATTERN": damage.may_match or not damage.is_sound}
        if not is_lawful.get(cause):
            self.wrong(damage, sent, cause)

    @staticmethod
    def is_numbered_anew(sent):
        """Whether an answer has a number that rests on whether other requests were taken."""
        return json.loads(sent)["do"] in NUMBERED

    def neighbour(self, damage, asked, answer):
        """A line that needs none of what is damaged, and is answered otherwise; not where the file isn't opened, or the greatest number was wanted."""
        is_needed = damage.column == "number" and asked.startswith(NUMBERED)
        if answer.startswith(b"review_desk: store fault") or is_needed:
            return
        commands, stopped = STOPPED
        if (damage.table, damage.column) not in MEETING or not asked.startswith(commands) or answer != stopped:
            self.wrong(damage, "a neighbour is disturbed", asked, answer)

    def judge_end(self, damage, word, status, err, *more):
        is_right = (status in (0, 1) and not err) or (status == 1 and err in (*FAULTS, *more)) or (status == 1 and err == b"review_desk: out of memory\n" and not damage.is_sound)
        if not is_right:
            self.wrong(damage, word, "ends with", status, err[:300])
        if err:
            self.count(damage, f"{word} told {err.decode(errors='replace').strip().removeprefix('review_desk: ')}")

    def compare(self, damage, sent, was, is_made=False, file=None):
        """Whether the tables are as they were, where sqlite3 can read them."""
        file = file or self.other
        if bytes_of(file) == was:
            return
        for end, it in zip(("", "-wal"), was):
            with contextlib.suppress(FileNotFoundError):
                os.remove(self.before + end)
            if it is not None:
                with open(self.before + end, "wb") as out:
                    out.write(it)
        with contextlib.suppress(sqlite3.Error, UnicodeError):
            before = tables(self.before, False)
            try:
                found = "a desk was made of it" if is_made else difference(before, tables(file, False))
            except (sqlite3.Error, UnicodeError) as error:
                found = error
            if found:
                self.wrong(damage, "tables after", sent, found)
