"""Damages of the files of a desk, as `bench/damages` does them: bytes, pages, ends, logs of other files, and files that SQLite makes otherwise."""
import contextlib
import os
import sqlite3
import struct
import subprocess

from damaged_desk import ACCOUNTS, BASE, HEALTHY
from damaged_rows import Damage
from desk_file import PROGRAM, check, copy, line, run

PAGE = 4096
LOG_HEAD, FRAME_HEAD = 32, 24
# Places of the first page that say how the file is read.
HEADS = {
    "page size": (16, 2), "form": (18, 2), "reserved": (20, 1), "shares": (21, 3), "pages": (28, 4), "first free page": (32, 4), "free pages": (36, 4), "schema's form": (44, 4),
    "largest root": (52, 4), "encoding": (56, 4),
}


class FileDamage(Damage):
    """What is done to the bytes of a desk's files, by a function of the file's name."""

    def __init__(self, kind, change, is_strict=False, is_sound=False):
        super().__init__("the file", None, kind, None, False, is_strict)
        self.act, self.is_sound, self.may_be_full = change, is_sound, not is_sound


def changed(change):
    """A function that changes the bytes of a file by another one."""
    def act(file):
        with open(file, "rb") as held:
            held = bytearray(held.read())
        held = change(held)
        with open(file, "wb") as out:
            out.write(held)
    return act


def put(held, at, new):
    held[at : at + len(new)] = new[: len(held) - at]
    return held


def exchanged(held, one, other):
    first, second = held[one : one + PAGE], held[other : other + PAGE]
    return put(put(held, one, second), other, first)


def cut(drawn, size):
    at = drawn.choice((drawn.randrange(size), drawn.randrange(size // PAGE) * PAGE, drawn.choice((0, 1, 16, 99, 100, 512, PAGE - 1))))
    return FileDamage(f"cut at {at}", changed(lambda held: held[:at]))


def turned(drawn, size):
    """Bytes turned over, set to nothing, or drawn: anywhere, or in a page's head."""
    at = drawn.choice((drawn.randrange(size), drawn.randrange(size // PAGE) * PAGE + drawn.randrange(64)))
    count, way = drawn.choice((1, 1, 2, 8, 64, 700)), drawn.choice(("bit", "over", "nothing", "drawn"))
    masks = [1 << drawn.randrange(8) if way == "bit" else 255 if way == "over" else drawn.randrange(256) for _ in range(count)]

    def change(held):
        for place, mask in zip(range(at, min(at + count, len(held))), masks):
            held[place] = 0 if way == "nothing" else mask if way == "drawn" else held[place] ^ mask
        return held
    return FileDamage(f"{count} bytes from {at}: {way}", changed(change))


def head(drawn, size):
    """A number of the file's head is another one."""
    name = drawn.choice(sorted(HEADS))
    at, length = HEADS[name]
    value = drawn.choice((0, 1, 2, 3, 256 ** length - 1, drawn.randrange(256 ** length), 512 % 256 ** length, size // PAGE + 1))
    return FileDamage(f"head: {name} {value}", changed(lambda held: put(held, at, (value % 256 ** length).to_bytes(length, "big"))))


def pages(drawn, size):
    """Pages exchanged, copied over others, without a byte that isn't zero, or taken away."""
    one, other = (drawn.randrange(size // PAGE) * PAGE for _ in range(2))
    way = drawn.choice(("exchanged", "copied", "zeroed", "gone"))
    change = {
        "exchanged": lambda held: exchanged(held, one, other), "copied": lambda held: put(held, one, held[other : other + PAGE]),
        "zeroed": lambda held: put(held, one, bytes(PAGE)), "gone": lambda held: held[:one] + held[one + PAGE :],
    }[way]
    return FileDamage(f"pages {one // PAGE + 1} and {other // PAGE + 1}: {way}", changed(change))


def pointed(drawn, size):
    """Where a page may name another it names itself, the first, or any: so trees and chains may have rings."""
    page = drawn.randrange(size // PAGE)
    named = drawn.choice((page + 1, 1, 0, drawn.randrange(1, size // PAGE + 1), size // PAGE + 9, 2**31, 2**32 - 1))
    at = page * PAGE + drawn.choice((0, 8, PAGE - 4, drawn.randrange(PAGE - 4)))
    return FileDamage(f"page {page + 1} names {named} at {at % PAGE}", changed(lambda held: put(held, at, struct.pack(">I", named))))


def cells(drawn, size):
    """A cell whose length or place is another one, up to the greatest."""
    page = drawn.randrange(size // PAGE) * PAGE
    which, way = drawn.random(), drawn.choice(("place", "length", "count"))
    new = drawn.choice((b"\xff" * 8 + b"\x7f", b"\x87\xff\xff\xff\x7f", b"\x81\x00", b"\x00", bytes(drawn.randrange(256) for _ in range(3))))

    def change(held):
        start = page + (100 if page == 0 else 0)
        count, begin = struct.unpack_from(">H", held, start + 3)[0], start + (12 if held[start] in (2, 5) else 8)
        if way == "count" or not 0 < count < 2000:
            return put(held, start + 3, new[:2].ljust(2, b"\xff"))
        at = begin + 2 * int(which * count)
        return put(held, at, new[:2].ljust(2, b"\xff")) if way == "place" else put(held, page + struct.unpack_from(">H", held, at)[0], new)
    return FileDamage(f"page {page // PAGE + 1}: {way} of a cell {new.hex()}", changed(change))


BYTES = (cut, turned, turned, head, pages, pointed, pointed, cells)


# ---- logs of other files, and logs that are changed

class Logs:
    """Desks with a log that isn't copied in yet: one that goes on from the whole desk, others that don't."""

    def __init__(self, folder, whole):
        self.logs = {}
        for name, sent in (("of the desk", HEALTHY), ("of another desk", None), ("of an empty desk", [])):
            file = os.path.join(folder, "logged")
            if name == "of the desk":
                copy(whole, file)
            else:
                check(run("init", file)[0] == 0 and (sent is not None or run("apply", file, sent=b"".join(BASE[::-1] + ACCOUNTS))[0] == 0), "a log")
            self.logs[name] = self.stopped(file, sent or [line("CreateAccount", f"m{number}", 1, {"name": f"m{number}"}) for number in range(40)])
            for end in ("", "-wal"):
                os.remove(file + end)
        file = os.path.join(folder, "made")
        with contextlib.closing(sqlite3.connect(file)) as conn:
            conn.executescript("PRAGMA journal_mode = WAL; CREATE TABLE other (x); INSERT INTO other SELECT hex(randomblob(900)) FROM pragma_function_list;")
            with open(file + "-wal", "rb") as log:
                self.logs["of SQLite's own"] = log.read()

    @staticmethod
    def stopped(file, sent):
        """The log as it is after these lines, the program killed."""
        process = subprocess.Popen([PROGRAM, "apply", file], stdin=subprocess.PIPE, stdout=subprocess.PIPE)
        process.stdin.write(b"".join(sent))
        process.stdin.flush()
        for _ in sent:
            process.stdout.readline()
        process.kill()
        process.communicate()
        with open(file + "-wal", "rb") as log:
            return log.read()

    def damages(self):
        for name in self.logs:
            yield self.beside(name, "whole", lambda log: log)

    def beside(self, name, what, change):
        def act(file):
            with open(file + "-wal", "wb") as log:
                log.write(change(bytearray(self.logs[name])))
        return FileDamage(f"a log {name}, {what}", act)

    def draw(self, drawn):
        """A log, changed in its head, in a frame, at its end, or in the order of its frames."""
        name = drawn.choice(sorted(self.logs))
        size, value = max(len(self.logs[name]), LOG_HEAD + 2), drawn.randrange(256)
        way, at = drawn.choice(("cut", "turned", "head", "frame's head", "frame twice", "bytes")), drawn.randrange(size)
        frame = LOG_HEAD + drawn.randrange(max(1, size // (PAGE + FRAME_HEAD))) * (PAGE + FRAME_HEAD)
        change = {
            "cut": lambda log: log[:at], "turned": lambda log: put(log, at, bytes([value])), "head": lambda log: put(log, at % LOG_HEAD, bytes([value])),
            "frame's head": lambda log: put(log, frame + at % FRAME_HEAD, bytes([value])), "frame twice": lambda log: log[:frame] + log[LOG_HEAD:frame] + log[frame:],
            "bytes": lambda log: bytes((value * place) % 251 for place in range(at)),
        }[way]
        return self.beside(name, f"{way} at {at}", change)
