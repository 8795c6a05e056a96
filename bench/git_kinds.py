"""The kinds of patch sets that git shows when a change is rebased, honestly or with something else in it: the part of bench/git_pushes that tries to keep votes. A module."""
import os
import re

from desk_file import check
from git_world import Commit

LINES = "".join(f"line {n}\n" for n in range(40))
TWICE = "".join(f"def {name}():\n    begin()\n    check()\n    end()\n\n\n" for name in ("first", "second"))
OPENED = TWICE.replace("    check()\n", "    pass\n", 1)
ELSEWHERE = "    pass\n".join(TWICE.rsplit("    check()\n", 1))
CRLF, BINARY = LINES.replace("\n", "\r\n"), bytes(range(256)) * 8
ONE, TWO, THREE = "1" * 40, "2" * 40, "3" * 40
TRIVIAL, REWORK = "TRIVIAL_REBASE", "REWORK"
WITHIN = "a rebase only where git may merge within files"


def edit(text, line, to):
    """A text with another line of a number."""
    lines = text.splitlines(keepends=True)
    return "".join([*lines[:line], to, *lines[line + 1:]])


def cases():
    """Of each its name, the files before, what the change makes of them (None takes one away), what the new parent has besides, the files of the new patch set, and its kind."""
    seven, thirty = edit(LINES, 7, "seven\n"), edit(LINES, 30, "thirty\n")
    both = edit(seven, 30, "thirty\n")
    a, top = {"a": LINES}, {"top": "of all\n"}
    crlf = {"a": CRLF}
    return [
        ("an honest rebase", a, {"a": seven}, {"a": thirty}, {"a": both}, WITHIN),
        ("lines that come before it", a, {"a": seven}, {"a": "new\n" * 9 + LINES}, {"a": "new\n" * 9 + seven}, WITHIN),
        ("more than the change", a, {"a": seven}, {"a": thirty}, {"a": edit(both, 20, "twenty\n")}, REWORK),
        ("less than the change", a, {"a": seven}, {"a": thirty}, {"a": thirty, "b": "b"}, REWORK),
        ("what the new parent has is taken out again", a, {"a": seven}, {"a": thirty}, {"a": seven}, REWORK),
        ("the hunk in another function", {"f": TWICE}, {"f": OPENED}, top, {"f": ELSEWHERE}, REWORK),
        ("the hunk in another function, at the same line", {"f": TWICE}, {"f": OPENED}, {"f": "x\n" + TWICE}, {"f": "x\n" + ELSEWHERE}, REWORK),
        ("the hunk where it was", {"f": TWICE}, {"f": OPENED}, {"f": "x\n" + TWICE}, {"f": "x\n" + OPENED}, WITHIN),
        ("what stands behind a NUL byte", {"s": "begin\n"}, {"s": "begin\necho installed\0\n"}, top, {"s": "begin\necho installed\0; echo EVIL RAN\n"}, REWORK),
        ("a NUL byte", {"s": "begin\n"}, {"s": "begin\necho installed\0\n"}, top, {"s": "begin\necho installed\0\n"}, TRIVIAL),
        ("a binary file", {"b": BINARY}, {"b": BINARY + b"1"}, top, {"b": BINARY + b"1"}, TRIVIAL),
        ("another binary file", {"b": BINARY}, {"b": BINARY + b"1"}, top, {"b": BINARY + b"2"}, REWORK),
        ("a binary file of both", {"b": BINARY}, {"b": BINARY + b"1"}, {"b": b"0" + BINARY}, {"b": b"0" + BINARY + b"1"}, REWORK),
        ("a new name", a, {"a": None, "b": LINES}, top, {"a": None, "b": LINES}, TRIVIAL),
        ("a new name that the new parent gave", a, {"a": seven}, {"a": None, "b": LINES}, {"b": seven}, REWORK),
        ("another new name", a, {"a": None, "b": LINES}, top, {"a": None, "c": LINES}, REWORK),
        ("a mode beside an edit", {"s": LINES}, {"s": ("100755", LINES)}, {"s": thirty}, {"s": ("100755", thirty)}, WITHIN),
        ("a mode that the new parent gave", {"s": LINES}, {"s": seven}, {"s": ("100755", LINES)}, {"s": ("100755", seven)}, WITHIN),
        ("a mode that nobody saw", {"s": LINES}, {"s": seven}, top, {"s": ("100755", seven)}, REWORK),
        ("a link", {"l": ("120000", "a")}, {"l": ("120000", "b")}, top, {"l": ("120000", "b")}, TRIVIAL),
        ("a link to elsewhere", {"l": ("120000", "a")}, {"l": ("120000", "b")}, top, {"l": ("120000", "/etc")}, REWORK),
        ("a link in place of a file", {"l": "a"}, {"l": "b"}, top, {"l": ("120000", "b")}, REWORK),
        ("a submodule", {"m": ("160000", ONE)}, {"m": ("160000", TWO)}, top, {"m": ("160000", TWO)}, TRIVIAL),
        ("another commit of a submodule", {"m": ("160000", ONE)}, {"m": ("160000", TWO)}, top, {"m": ("160000", THREE)}, REWORK),
        ("a submodule of both", {"m": ("160000", ONE)}, {"m": ("160000", TWO)}, {"m": ("160000", THREE)}, {"m": ("160000", TWO)}, REWORK),
        ("line ends", crlf, {"a": edit(CRLF, 7, "seven\r\n")}, {"a": edit(CRLF, 30, "thirty\r\n")}, {"a": edit(edit(CRLF, 7, "seven\r\n"), 30, "thirty\r\n")}, WITHIN),
        ("another line end", a, {"a": seven}, top, {"a": edit(LINES, 7, "seven\r\n")}, REWORK),
        ("line ends that the new parent gave", {**a, ".gitattributes": "* text=auto\n"}, {"a": seven}, crlf, {"a": edit(CRLF, 7, "seven\r\n")}, REWORK),
        ("no line end", a, {"a": LINES + "end"}, top, {"a": LINES + "end\n"}, REWORK),
        ("white space", a, {"a": edit(LINES, 7, "  seven\n")}, top, {"a": edit(LINES, 7, "\tseven\n")}, REWORK),
        ("a driver that the attributes name", {**a, ".gitattributes": "* merge=union\n"}, {"a": seven}, {"a": edit(LINES, 7, "SEVEN\n")}, {"a": edit(LINES, 7, "SEVEN\nseven\n")}, REWORK),
        ("the same beside attributes", {**a, ".gitattributes": "* merge=union\n"}, {"a": seven}, {"a": thirty}, {"a": both}, WITHIN),
        ("a text that the attributes call binary", {**a, ".gitattributes": "* binary\n"}, {"a": seven}, {"a": thirty}, {"a": both}, WITHIN),
        ("a folder in place of a file", {"d": LINES}, {"d": None, "d/x": "x"}, top, {"d": None, "d/x": "x"}, TRIVIAL),
        ("a folder that the new parent has in place of the file", {"d": LINES}, {"d": seven}, {"d": None, "d/x": "x"}, {"d/y": "y"}, REWORK),
        ("the same edit in the new parent", a, {"a": seven}, {"a": seven}, {"a": seven}, TRIVIAL),
        ("a file that is gone", {**a, "b": "b"}, {"b": None}, {"a": thirty}, {"b": None}, TRIVIAL),
        ("a file that is gone, and that the new parent has changed", {**a, "b": "b"}, {"b": None}, {"b": "c"}, {"b": None}, REWORK),
        ("an honest rebase of another file", a, {"b": "b"}, {"a": thirty}, {"b": "b"}, TRIVIAL),
        ("a file that both changed, and one that one did", {**a, "b": "b"}, {"a": seven, "b": "c"}, {"a": thirty}, {"a": both, "b": "c"}, WITHIN),
        ("a new file of both, of the same text", a, {"n": "n"}, {"n": "n", "a": thirty}, {"n": "n", "a": thirty}, TRIVIAL),
        ("a new file of both", a, {"n": LINES}, {"n": thirty}, {"n": thirty}, REWORK),
        ("a hunk in a function that moved", {"f": TWICE}, {"f": OPENED}, {"f": TWICE.replace("first", "zeroth") + TWICE}, {"f": TWICE.replace("first", "zeroth") + OPENED}, WITHIN),
        ("an edit carried into another name", {"a": LINES}, {"a": seven}, {"a": None, "sub/a": LINES}, {"a": None, "sub/a": seven}, REWORK),
        ("a folder that both filled", {"d/a": "a"}, {"d/b": "b"}, {"d/c": "c"}, {"d/b": "b", "d/c": "c"}, TRIVIAL),
        ("a folder that both emptied", {"d/a": "a", "d/b": "b"}, {"d/a": None}, {"d/b": None}, {"d/a": None, "d/b": None}, TRIVIAL),
        ("a file in place of a folder that the new parent filled", {"d/a": "a"}, {"d/a": None, "d": "d"}, {"d/b": "b"}, {"d/a": None, "d/b": None, "d": "d"}, REWORK),
        ("names of other bytes", {"é ü": LINES}, {"é ü": seven}, {"é ü": thirty}, {"é ü": both}, WITHIN),
    ]


def commit_of(world, parent, files, message):
    """A commit of files: texts, bytes, or modes with those; a submodule's is the commit."""
    lines, own = [], {"GIT_INDEX_FILE": os.path.join(world.home, "index")}
    for path, what in files.items():
        mode, what = what if isinstance(what, tuple) else ("100644", what)
        if mode != "160000":
            with open(os.path.join(world.home, "file"), "wb") as file:
                file.write(what if isinstance(what, bytes) else what.encode())
            what = world.git("hash-object", "-w", "--no-filters", os.path.join(world.home, "file"))
        lines.append(f"{mode} {what}\t{path}\n")
    world.git("read-tree", "--empty", **own)
    world.git("update-index", "--index-info", sent="".join(lines), **own)
    return world.git("commit-tree", world.git("write-tree", **own), "-p", parent, "-F", "-", sent=message)


def rebases(world, step):
    """Each case, pushed: the kind that is told, and whether the vote is kept. What both sides changed is tried again where git may merge within files. With a step only some of
    them are tried."""
    counted = 0
    for is_within in (False, True):
        world.git("config", "desk.mergeContent", "true" if is_within else "false", folder=world.bare)
        for number, case in list(enumerate(cases()))[is_within * (step // 2)::step]:
            if not is_within or case[2].keys() & case[3].keys():
                rebase(world, f"{number} {'within' * is_within}", *case[:-1], {WITHIN: TRIVIAL if is_within else REWORK}.get(case[-1], case[-1]))
                counted += 1
    world.git("config", "--unset", "desk.mergeContent", folder=world.bare)
    return counted


def rebase(world, key, name, before, change, beside, after, kind):
    base, changed, other = (Commit(f"kinds {key} {word}", {}) for word in ("base", "change", "beside"))

    def with_files(*parts):
        files = {"README": "A project.\n"}
        for part in parts:
            files.update(part)
        return {path: what for path, what in files.items() if what is not None}

    base_name = commit_of(world, world.base, with_files(before), base.message())
    first = commit_of(world, base_name, with_files(before, change), changed.message())
    world.push(first)
    found = world.patch_sets()
    voted = next(change for change, patch_sets in found.items() if first in patch_sets.values())
    world.vote(voted)
    parent = commit_of(world, base_name, with_files(before, beside), other.message())
    second = commit_of(world, parent, with_files(before, beside, after), changed.message())
    said = world.push(second)
    told = re.findall(rf"change {voted}, patch set 2: .* \((\w+), votes copied: (\d), outdated: (\d)\)", said)
    check(told == [(kind, *(("1", "0") if kind == TRIVIAL else ("0", "1")))], key, name, kind, said)


__all__ = ["rebases"]
