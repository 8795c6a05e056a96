"""Damages of the rows of a desk, as `bench/damages` does them in SQL: the file stays sound, and the store has nothing to refuse."""
import contextlib
import re
import sqlite3
import struct

from damaged_desk import TOO_LARGE, commit
from desk_file import FIRST, TABLES

# Which rows are of the first side, so that the other side needs none of them.
OF_TOOLS = {
    "accounts": "number IN (2, 3)", "members": "grp = 'Core'", "projects_2": "name = 'tools'", "bases": "project = 'tools'", "changes": "project = 'tools'",
    **{table: "change <= 14" for table in ("patches", "votes", "reviewers", "comments", "attention")}, "answers_3": "id LIKE 'a-%'", "epochs": "1", "desk": "1",
}
# By these columns rows are found: one that is damaged isn't found, as if it weren't there.
FINDING = {
    "accounts": ("number", "name"),
    "members": ("grp", "account"),
    "projects_2": ("name",),
    "bases": ("project", "branch", "place", "commit_name"),
    "changes": ("number", "project", "branch", "place"),
    "patches": ("change", "patch", "commit_name"),
    "votes": ("change", "patch"),
    "reviewers": ("change",),
    "comments": ("change",),
    "attention": ("change",),
    "answers_3": ("caller", "epoch", "id"),
    "epochs": (),
    "desk": (),
}
# These have one row, which is of no side.
WHOLE = ("epochs", "desk")
# Any text is a text of these.
FREE = (("answers_3", "content"), ("projects_2", "file"))
NUMBERS = {
    "0": "0",
    "-1": "-1",
    "7": "7", "2^31": str(2**31), "2^53": str(2**53), "2^63-1": str(2**63 - 1), "-2^63": str(-(2**63)),
    "a fraction": "1.5",
    "a text": "'x'",
    "a blob": "x'00'",
    "NULL": "NULL",
}
TEXTS = {
    "an empty text": "''",
    "no name": "'no such'",
    "a line feed": "'a' || char(10) || 'a'",
    "a NUL": "'a' || char(0)",
    "9,000 bytes": f"'{'a' * 9000}'",
    "no UTF-8": "CAST(x'6180' AS TEXT)",
    "a number": "7", "a fraction": "1.5", "a blob": "x'ff'", "NULL": "NULL",
}
# Values that no column of this kind holds in any desk.
NEVER = ("-1", "-2^63", "2^63-1", "a fraction", "a text", "a blob", "NULL", "no UTF-8", "a number")
# Of these any number is read, though no desk has so many requests.
REQUESTS = ("updated", "request", "requests")
# What SQLite changes, or refuses, as long as the table says what its columns are.
LOOSE = {"INTEGER": ("NULL",), "TEXT": ("a number", "a fraction", "NULL")}
ROWS = {
    "accounts": (999, "more"),
    "members": ("Core", 77),
    "projects_2": ("more", "x = 1", ""),
    "bases": ("tools", "main", 9, commit(50)),
    "changes": (99, "tools", "main", "Fix", 2, "NEW", 0, 0, 5),
    "patches": (2, 9, commit(51), FIRST, "REWORK", 2, "a"),
    "votes": (2, 1, "Code-Review", 2, 7),
    "reviewers": (2, 77, "REVIEWER"),
    "comments": (2, 9, 1, "a", 0, 2, "m", 0, 0, 5),
    "attention": (2, 77, "look", 5), "answers_3": (1, 0, "more", 999, "x", "x"), "epochs": (3,), "desk": (3, 3),
}
# Rows that fit to no others, by the table that they stand in, and what they are.
ODD = [
    ("accounts", "other numbers", "UPDATE accounts SET number = number + 100 WHERE number > 1"),
    ("accounts", "no administrator", "DELETE FROM accounts WHERE number = 1"),
    ("members", "a member -1", "INSERT INTO members VALUES ('Core', -1)"),
    ("members", "a member that is no account", "UPDATE members SET account = 900 WHERE account = 3"),
    ("projects_2", "no project file", "UPDATE projects_2 SET file = 'x = 1'"), ("projects_2", "no labels", "UPDATE projects_2 SET file = ''"),
    ("projects_2", "a parent that isn't there", "UPDATE projects_2 SET parent = 'gone'"), ("projects_2", "its own parent", "UPDATE projects_2 SET parent = name"),
    ("projects_2", "a pattern too large", f"UPDATE projects_2 SET file = '{TOO_LARGE}'"),
    ("bases", "equal places", "DELETE FROM bases; INSERT INTO bases VALUES ('tools', 'main', 2, 'x')"),
    ("bases", "a gap", "UPDATE bases SET place = 2"), ("changes", "a place and no merge", "UPDATE changes SET place = 5 WHERE number = 2"),
    ("changes", "MERGED without a place", "UPDATE changes SET status = 'MERGED' WHERE number = 2"),
    ("changes", "a state OPEN", "UPDATE changes SET status = 'OPEN' WHERE number = 2"),
    ("changes", "the owner is no account", "UPDATE changes SET owner = 900"),
    ("changes", "the project isn't there", "UPDATE changes SET project = 'gone' WHERE number = 2"),
    ("changes", "a later request", "UPDATE changes SET updated = 900000"), ("patches", "own parent", "UPDATE patches SET parent = commit_name"),
    ("patches", "parents in a ring", f"UPDATE patches SET parent = '{commit(13)}' WHERE change = 12"),
    ("patches", "no patch set 1", "UPDATE patches SET patch = patch + 5"),
    ("patches", "one commit everywhere", f"UPDATE patches SET commit_name = '{commit(2)}'"),
    ("patches", "a path twice", "UPDATE patches SET paths = 'a' || char(10) || 'a'"),
    ("votes", "no such label", "UPDATE votes SET label = 'Gone'"),
    ("votes", "of no account", "UPDATE votes SET account = 900"),
    ("votes", "a value of 99", "UPDATE votes SET value = 99"),
    ("reviewers", "no such role", "UPDATE reviewers SET role = 'BOSS'"),
    ("comments", "answers to none", "UPDATE comments SET answers_to = 9"),
    ("comments", "answers to itself", "UPDATE comments SET answers_to = number"),
    ("comments", "no comment 1", "UPDATE comments SET number = number + 5"), ("attention", "a later request", "UPDATE attention SET request = 900000"),
    ("answers_3", "another reply", "UPDATE answers_3 SET reply = '7:Account,9:999999999,'"),
    ("answers_3", "half a reply", "UPDATE answers_3 SET reply = substr(reply, 1, length(reply) / 2)"),
    ("answers_3", "a length beyond 2^64", "UPDATE answers_3 SET reply = '99999999999999999999999:Account,'"),
    ("answers_3", "later requests", "UPDATE answers_3 SET request = request + 1000000"),
    ("answers_3", "the next request is taken", "UPDATE answers_3 SET request = (SELECT requests + 1 FROM desk) WHERE id = 'n2'"),
    ("answers_3", "of a later epoch", "UPDATE answers_3 SET epoch = 1"),
    ("epochs", "a later epoch", "UPDATE epochs SET least = 1"),
    ("desk", "too few requests", "UPDATE desk SET requests = 3"),
    ("desk", "the last request", f"UPDATE desk SET requests = {2**53 - 1}"),
    ("desk", "version 1", "UPDATE desk SET version = 1"),
    ("desk", "version 9 and no number", "UPDATE desk SET version = 9, requests = 'x'"),
]
# Changes of the first side whose commits the other side has, too.
SHARED = [
    ("changes", "an odd state, of a shared commit", "UPDATE changes SET status = 'OPEN' WHERE number = 12"),
    ("changes", "an odd owner, of a shared commit", "UPDATE changes SET owner = -1 WHERE number IN (2, 12)"),
]
# Rows that others name, taken away from the first side.
MISSING = [
    ("accounts", "number = 3"),
    ("members", "grp = 'Core' AND account = 3"),
    ("projects_2", "name = 'tools'"),
    ("bases", "project = 'tools'"),
    ("changes", "number = 2"),
    ("changes", "number = 13"),
    ("patches", "change = 2"),
    ("patches", "change = 14 AND patch = 1"),
    ("patches", "change = 14 AND patch = 2"),
    ("votes", "change = 2"),
    ("reviewers", "change = 2"),
    ("comments", "change = 2 AND number = 1"),
    ("attention", "change = 2"), ("answers_3", "id = 'a-c2'"), ("epochs", "1"), ("desk", "1"),
]

# Where the store itself refuses a write: to a view, and of a number that stands once. Of more requests than there are answers only numbers are left out.
REFUSED, COUNTED = ("a view", "the next request is taken", "too few requests"), (("answers_3", "request"), ("desk", "requests"))
NO_ANSWERS = 10_000
# Damages of which it is told what comes (docs/operations.md): all as ever, or just this answer to the lines under these ids.
DAMAGED = b'{"not_taken":"DAMAGED"}\n'
TOLD = [
    # A desk that counts requests in 32 bits tells a fault of the store that nobody had.
    *(("desk", f"{count} requests", f"UPDATE desk SET requests = {count}", {}) for count in (2**31 - 2, 2**31 - 1, 2**31, 2**32 - 2, 2**40)),
    # Else the next change would get the votes, comments and patch sets of the lost one.
    ("changes", "the last one lost", "DELETE FROM changes WHERE number = (SELECT max(number) FROM changes)", {"new4": DAMAGED, "twice": DAMAGED}),
    # A commit of a change that doesn't read is never told as unknown: it can't be sent a second time, nor is a child told UNKNOWN_PARENT.
    *(("changes", f"a {column} that is no name", f"UPDATE changes SET {column} = 'no such' WHERE number = 2", {"new4": DAMAGED, "twice": DAMAGED}) for column in ("project", "branch")),
    *(("changes", f"{kind}, of a commit that is sent again", f"UPDATE changes SET {set_to} WHERE number = 2", {"a-new4": DAMAGED, "a-twice": DAMAGED})
      for kind, set_to in (("an odd state", "status = 'OPEN'"), ("an odd owner", "owner = -1"), ("an odd flag", "wip = 7"))),
]

# How a damage is refused that sqlite3 doesn't do, or that finds no place in what another left.
REFUSALS = (sqlite3.Error, sqlite3.Warning, UnicodeError, struct.error, IndexError)


class Damage:
    """What is done to a desk: where, what kind, in SQL; whether one row of the first side alone; whether an answer to its side is the right one or none."""

    def __init__(self, table, column, kind, sql, is_one=False, is_strict=False, told=None):
        self.table, self.column, self.kind, self.sql, self.is_one, self.is_strict = table, column, kind, sql, is_one, is_strict
        self.is_sound, self.may_be_full, self.may_match = True, table == "desk", kind == "a pattern too large"
        self.is_refused = kind in REFUSED or ((table, column) in COUNTED and not is_beyond(table, kind))
        # What must be answered to the lines under some ids, and whether all others are answered as ever; None where that isn't told.
        self.told = told
        # Whether the tables are those of a desk alone no more, of which the program warns; None where that isn't told here.
        self.warns = None

    def name(self):
        return f"{self.table}{'.' + self.column if self.column else ''}: {self.kind}{' in one row' if self.is_one else ''}"

    def act(self, file):
        """Damages a file, or says by sqlite3.Error that its rules refuse that."""
        with contextlib.closing(sqlite3.connect(file, isolation_level=None)) as conn:
            conn.executescript(self.sql)


def is_beyond(table, kind):
    """Whether a desk says that it has more requests than it has answers."""
    return table == "desk" and (kind in NUMBERS and NUMBERS[kind].isdigit() and int(NUMBERS[kind]) > NO_ANSWERS or kind.isdigit() and int(kind) > NO_ANSWERS)


def loosened(conn, table, sql):
    """SQL that runs while the table says of no column what it is, and has it say so again."""
    told = conn.execute("SELECT sql FROM sqlite_schema WHERE name = ?", (table,)).fetchone()[0]
    loose = re.sub(r" NOT NULL|(?<!PRIMARY KEY)(?<= )(?:INTEGER|TEXT)(?! PRIMARY)", "", told)
    say = "PRAGMA writable_schema = ON; UPDATE sqlite_schema SET sql = '{}' WHERE name = '{}'; PRAGMA writable_schema = RESET; "
    return say.format(loose, table) + f"{sql}; " + say.format(told, table)


def without_rules(conn, table):
    """SQL that makes a table anew, its columns of no type and no rule."""
    names = ", ".join(row[1] for row in conn.execute(f"PRAGMA table_info({table})"))
    return f"CREATE TABLE other ({names}); INSERT INTO other SELECT * FROM {table}; DROP TABLE {table}; ALTER TABLE other RENAME TO {table}"


def columns(file):
    """Each column, with its type."""
    with contextlib.closing(sqlite3.connect(file)) as conn:
        return [(table, name, kind) for table in TABLES for _, name, kind, *_ in conn.execute(f"PRAGMA table_info({table})")]


def drawn_value(drawn, among):
    """A column of the first side with a number that is drawn, or with a character more, less, or another."""
    table, name, kind = drawn.choice(among)
    at, new = drawn.randrange(1, 60), drawn.choice(("''", "'9'", "':'", "','", "' '", "char(10)", "'\"'", "char(228)", "'x'"))
    number, rest = drawn.choice((drawn.randrange(40), drawn.randrange(-9, 2000), drawn.randrange(2**63))), at + drawn.randrange(3)
    value = str(number) if kind == "INTEGER" else f"substr({name}, 1, {at}) || {new} || substr({name}, {rest})"
    one = drawn.choice((f" AND rowid % 7 = {drawn.randrange(7)}", ""))
    return Damage(table, name, value, f"UPDATE OR IGNORE {table} SET {name} = {value} WHERE {OF_TOOLS[table]}{one}", table not in WHOLE and name not in FINDING[table])


def is_never(table, name, what):
    """Whether a value that reads is none that such a column holds, and none by which its row is found."""
    is_free = (table, name) in FREE or (what == "2^63-1" and name in REQUESTS) or (table, name, what) == ("votes", "value", "-1")
    return what in NEVER and name not in FINDING[table] and not is_free


def of_columns(file):
    """Each value that is none of its column, in one row of the first side and in all rows."""
    with contextlib.closing(sqlite3.connect(file)) as conn:
        for table, name, kind in columns(file):
            for what, value in (NUMBERS if kind == "INTEGER" else TEXTS).items():
                for at in (0, 1, None):
                    those = f"FROM {table} WHERE {OF_TOOLS[table]}"
                    one = f" WHERE rowid = (SELECT rowid {those} ORDER BY rowid LIMIT 1 OFFSET {at} % (SELECT count(*) {those}))"
                    sql = f"UPDATE OR IGNORE {table} SET {name} = {value}{'' if at is None else one}"
                    is_one, is_strict = at is not None and table not in WHOLE, is_never(table, name, what)
                    if what in LOOSE[kind]:
                        yield Damage(table, name, f"{what} that the table allows", f"{without_rules(conn, table)}; {sql}", is_one, is_strict)
                    yield Damage(table, name, what, loosened(conn, table, sql) if what in LOOSE[kind] else sql, is_one, is_strict)


def of_tables():
    """Rows missing, rows more, tables missing, tables of another form."""
    for table, where in MISSING:
        yield Damage(table, None, f"missing where {where}", f"DELETE FROM {table} WHERE {where}", table not in WHOLE)
    for table, row in ROWS.items():
        for which, order in (("the first row", "ORDER BY rowid LIMIT 1"), ("the last row", "ORDER BY rowid DESC LIMIT 1"), ("all rows", "")):
            yield Damage(table, None, f"{which} missing", f"DELETE FROM {table} WHERE rowid IN (SELECT rowid FROM {table} {order})")
        yield Damage(table, None, "a row more", f"INSERT INTO {table} VALUES ({', '.join(map(repr, row))})")
        yield Damage(table, None, "no table", f"DROP TABLE {table}")
        yield Damage(table, None, "a column more", f"ALTER TABLE {table} ADD COLUMN more")
        yield Damage(table, None, "a view", f"ALTER TABLE {table} RENAME TO other; CREATE VIEW {table} AS SELECT * FROM other")
        twice = f"CREATE TABLE other AS SELECT * FROM {table}; INSERT INTO other SELECT * FROM {table}"
        yield Damage(table, None, "no keys, and all rows twice", f"{twice}; DROP TABLE {table}; ALTER TABLE other RENAME TO {table}")
    for table, kind, sql in ODD:
        yield Damage(table, None, kind, sql)
    for table, kind, sql in SHARED:
        yield Damage(table, None, kind, sql, True)


def of_told():
    """Those of which it is told what comes."""
    for table, kind, sql, told in TOLD:
        yield Damage(table, None, kind, sql, told=told)
