"""Desks whose files SQLite makes otherwise than the program does, as `bench/damages` asks them: the same rows in tables, pages and texts of other forms."""
import contextlib
import os
import re
import shutil
import sqlite3

from damaged_files import FileDamage
from damaged_rows import Damage

# What is made beside the tables of a desk.
BESIDE = {
    "a table": "CREATE TABLE more (x)", "an index": "CREATE INDEX more ON accounts (name)", "a falling index": "CREATE INDEX more ON changes (number DESC)",
    "a partial index": "CREATE INDEX more ON answers_3 (reply) WHERE request > 5",
    "an index of an expression": "CREATE INDEX more ON answers_3 (length(reply))",
    "a view": "CREATE VIEW more AS SELECT name FROM accounts",
    "a view of itself": "CREATE VIEW more AS SELECT * FROM more", "a trigger": "CREATE TRIGGER more AFTER INSERT ON answers_3 BEGIN DELETE FROM accounts; END",
    "a trigger that refuses": "CREATE TRIGGER more BEFORE INSERT ON desk BEGIN SELECT RAISE(ABORT, 'no'); END",
    "a generated column": "ALTER TABLE votes ADD COLUMN more INTEGER AS (value * 2) VIRTUAL",
    "a table with a stored generated column": "CREATE TABLE more (x, y AS (x || x) STORED); INSERT INTO more VALUES (1)",
    "a table with all rules": 
        "CREATE TABLE more (x INTEGER PRIMARY KEY AUTOINCREMENT, y TEXT COLLATE NOCASE DEFAULT 'a' CHECK (y <> 'b') REFERENCES accounts (name), z REAL UNIQUE);"
        "INSERT INTO more (y) VALUES ('ann')",
    "a table without rowids": "CREATE TABLE more (x TEXT PRIMARY KEY, y) WITHOUT ROWID; INSERT INTO more VALUES ('a', 1)",
    "a strict table": "CREATE TABLE more (x ANY, y INT) STRICT; INSERT INTO more VALUES (1, 2)",
    "a table of text search": "CREATE VIRTUAL TABLE more USING fts5 (x); INSERT INTO more VALUES ('a b')",
    "statistics": "ANALYZE",
    "a table of 1,500 columns": "CREATE TABLE more (" + ", ".join(f"c{number}" for number in range(1500)) + ")",
    "a nested check": f"CREATE TABLE more (x CHECK ({'(' * 80}x{')' * 80}))",
    "a default of 100,000 bytes": f"CREATE TABLE more (x DEFAULT '{'a' * 100_000}')",
    "600 tables": ";".join(f"CREATE TABLE more{number} (x)" for number in range(600)),
    "a name of a reserved kind": "CREATE TABLE \"select from\"\"where\" (\"a b\" TEXT)",
}
# What the list of tables says otherwise.
SAID = {
    "a table with no text": "UPDATE sqlite_schema SET sql = NULL WHERE name = 'votes'",
    "a table with another text": "UPDATE sqlite_schema SET sql = 'SELECT 1' WHERE name = 'votes'",
    "a text cut short": "UPDATE sqlite_schema SET sql = substr(sql, 1, 40) WHERE name = 'changes'",
    "two tables in one tree": "UPDATE sqlite_schema SET rootpage = (SELECT rootpage FROM sqlite_schema WHERE name = 'accounts') WHERE name = 'members'",
    "a tree at page 0": "UPDATE sqlite_schema SET rootpage = 0 WHERE name = 'votes'",
    "a tree at page 1": "UPDATE sqlite_schema SET rootpage = 1 WHERE name = 'votes'",
    "a tree beyond the file": "UPDATE sqlite_schema SET rootpage = 99999 WHERE name = 'votes'",
    "a negative tree": "UPDATE sqlite_schema SET rootpage = -1 WHERE name = 'votes'",
    "a table that is an index": "UPDATE sqlite_schema SET type = 'index' WHERE name = 'votes'",
    "another name": "UPDATE sqlite_schema SET name = 'more', tbl_name = 'more' WHERE name = 'votes'",
    "a name twice": "UPDATE sqlite_schema SET name = 'accounts', tbl_name = 'accounts' WHERE name = 'members'",
    "a name that is a blob": "UPDATE sqlite_schema SET name = x'ff' WHERE name = 'votes'",
    "an index less": "DELETE FROM sqlite_schema WHERE type = 'index' AND tbl_name = 'answers_3'",
    "no list": "DELETE FROM sqlite_schema",
    "a text of 9,000 parentheses": f"UPDATE sqlite_schema SET sql = 'CREATE TABLE votes (x CHECK ({'(' * 9000}1{')' * 9000}))' WHERE name = 'votes'",
    "a text of 500,000 bytes": f"UPDATE sqlite_schema SET sql = sql || '{' ' * 500_000}' WHERE name = 'votes'",
}
# What the tables' own texts say in place of something.
TEXTS = {
    "without rowids": (r"(PRIMARY KEY.*)\)$", r"\1) WITHOUT ROWID", 1),
    "strict": (r"\)$", ") STRICT"),
    "without regard to case": (r"TEXT", "TEXT COLLATE NOCASE"),
    "of no types": (r"(?<! )(?: INTEGER(?! PRIMARY)| TEXT)", ""),
    "of text": (r"INTEGER(?! PRIMARY)", "TEXT"),
    "of fractions": (r"INTEGER(?! PRIMARY)", "REAL"),
    "without keys": (r", (?:PRIMARY KEY|UNIQUE) \([^)]*\)", ""),
    "that may be NULL": (r" NOT NULL", ""),
    "with a check": (r"\)$", ", CHECK (1))"),
    "counted": (r"INTEGER PRIMARY KEY", "INTEGER PRIMARY KEY AUTOINCREMENT"),
    "of falling keys": (r"(PRIMARY KEY \([^)]*)\)", r"\1 DESC)"),
    "that replace": (r"(UNIQUE \([^)]*\))", r"\1 ON CONFLICT REPLACE"),
    "of names in quotes": (r"^CREATE TABLE (\w+)", r'CREATE TABLE "\1"'),
    "with a column more": (r"\(", "(more DEFAULT 'x', ", 1),
    "with a generated column": (r"(, PRIMARY KEY \(|, UNIQUE \(|\)$)", r", more AS (1) VIRTUAL\1", 1),
}
# How the file is kept.
KEPT = {
    **{f"pages of {size}": f"PRAGMA page_size = {size}" for size in (512, 1024, 8192, 65536)},
    "UTF-16le": "PRAGMA encoding = 'UTF-16le'",
    "UTF-16be": "PRAGMA encoding = 'UTF-16be'",
    "auto_vacuum": "PRAGMA auto_vacuum = 1",
    "auto_vacuum, a part at a time": "PRAGMA auto_vacuum = 2",
    "no more than SQLite's own": "PRAGMA user_version = 7; PRAGMA application_id = 9",
    "UTF-16le, pages of 512, auto_vacuum": "PRAGMA encoding = 'UTF-16le'; PRAGMA page_size = 512; PRAGMA auto_vacuum = 1",
}
JOURNALS = ("delete", "truncate", "persist", "wal", "memory", "off")


def texts_of(conn):
    """The texts that make the tables of a desk, in their order."""
    return [(name, sql) for name, sql in conn.execute("SELECT name, sql FROM sqlite_schema WHERE type = 'table' AND sql IS NOT NULL ORDER BY rowid")]


# Tables of earlier versions, whose places among the others a desk of version 3 leaves free, by the tables that they stand behind.
EARLIER = {
    "members": "CREATE TABLE projects (name TEXT NOT NULL, file TEXT NOT NULL, PRIMARY KEY (name))",
    "attention": "CREATE TABLE answers (caller INTEGER NOT NULL, id TEXT NOT NULL, request INTEGER NOT NULL, content TEXT NOT NULL, reply TEXT NOT NULL, PRIMARY KEY (caller, id), UNIQUE (request))",
}


def made_anew(file, begin, of_text=None, journal="delete"):
    """Makes the desk anew with SQLite alone: with these settings, and with each table's text changed. The tables get the places in SQLite's list that `init` gives them."""
    made = file + "-made"
    with contextlib.closing(sqlite3.connect(file)) as old, contextlib.closing(sqlite3.connect(made, isolation_level=None)) as new:
        new.executescript(begin)
        new.execute(f"PRAGMA journal_mode = {journal}")
        new.execute("BEGIN")
        for name, sql in texts_of(old):
            new.execute(re.sub(of_text[0], of_text[1], sql, *of_text[2:]) if of_text else sql)
            if name in EARLIER:
                new.execute(EARLIER[name])
            columns = [row[1] for row in old.execute(f"PRAGMA table_info({name})")]
            for row in old.execute(f"SELECT * FROM {name}"):
                new.execute(f"INSERT INTO {name} ({', '.join(columns)}) VALUES ({', '.join('?' * len(row))})", row)
        new.execute("DROP TABLE projects")
        new.execute("DROP TABLE answers")
        new.execute("COMMIT")
    for end in ("", "-wal", "-shm"):
        if os.path.exists(file + end):
            os.remove(file + end)
    os.rename(made, file)


def half_written(file):
    """The file as a stop of SQLite leaves it in the middle of a transaction, its journal beside it."""
    with contextlib.closing(sqlite3.connect(file, isolation_level=None)) as conn:
        conn.executescript("PRAGMA journal_mode = delete; PRAGMA cache_size = 1; PRAGMA cache_spill = 1")
        conn.executescript("BEGIN; UPDATE answers_3 SET content = content || 'x'; UPDATE accounts SET name = name || 'x'")
        copies = [shutil.copyfile(file + end, f"{file}-copy{end}") for end in ("", "-journal")]
        conn.execute("ROLLBACK")
    for end, it in zip(("", "-journal"), copies):
        os.replace(it, file + end)


def as_ever(kind, act):
    """A file that is kept otherwise, with the tables of a desk alone."""
    kept = FileDamage(kind, act, is_strict=True, is_sound=True)
    kept.warns = False
    return kept


def forms():
    for kind, sql in BESIDE.items():
        beside = Damage("beside the tables", None, kind, sql)
        beside.warns = True
        yield beside
    for kind, sql in SAID.items():
        said = Damage("the list of tables", None, kind, f"PRAGMA writable_schema = ON; {sql}")
        said.is_sound = False
        yield said
    for kind, text in TEXTS.items():
        yield FileDamage(f"tables {kind}", lambda file, text=text: made_anew(file, "", text), is_sound=True)
    for kind, begin in KEPT.items():
        yield as_ever(kind, lambda file, begin=begin: made_anew(file, begin))
    for journal in JOURNALS:
        yield as_ever(f"journal mode {journal}", lambda file, journal=journal: made_anew(file, "", None, journal))
    yield FileDamage("a journal of SQLite's beside it", half_written)
