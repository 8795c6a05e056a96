"""How a query of Gerrit's language is put together of its terms: AND, OR, NOT and parentheses. A module; standard library. What a term means is in operators.py.

A condition is a text of SQL with a list of values for its question marks. No word of a user's stands in the text.
"""
import re

MOST_TERMS, MOST_DEPTH, MOST_CHARACTERS = 64, 16, 4000
TOKEN = re.compile(r"""\s*(?:(?P<paren>[()])|(?P<minus>-)(?=\S)|(?:(?P<field>[a-z_]+):)?(?:"(?P<quoted>[^"]*)"|\{(?P<braced>[^{}]*)\}|(?P<word>[^\s()"{}]+)))""")
ALWAYS, NEVER = ("1", []), ("0", [])


class BadQuery(Exception):
    """What of a query isn't understood, or can't be answered here."""


def joined(how, conditions):
    """Conditions of which all hold (AND), or one (OR)."""
    if len(conditions) == 1:
        return conditions[0]
    return "(" + f" {how} ".join(text for text, _ in conditions) + ")", [value for _, values in conditions for value in values]


def tokens_of(text):
    """The tokens of a query, as matches of TOKEN."""
    if len(text) > MOST_CHARACTERS:
        raise BadQuery(f"the query has more than {MOST_CHARACTERS} characters")
    found, place, text = [], 0, text.rstrip()
    while place < len(text):
        token = TOKEN.match(text, place)
        if not token:
            raise BadQuery(f"no query from here on: {text[place:place + 40]}")
        found.append(token)
        place = token.end()
    return found


class Reader:
    """Reads a query. AND binds closer than OR, and what stands side by side is joined by AND. `condition_of` makes a condition of a field, which is None for a bare word, and a text."""

    def __init__(self, text, condition_of):
        self.tokens, self.condition_of, self.at, self.terms = tokens_of(text), condition_of, 0, 0

    def read(self):
        """The condition of the whole query."""
        if not self.tokens:
            return ALWAYS
        condition = self.either(0)
        if self.at < len(self.tokens):
            raise BadQuery("nothing opens )")
        return condition

    def is_next(self, *operators):
        """Whether the next token is one of these operators."""
        token = self.tokens[self.at] if self.at < len(self.tokens) else None
        return token is not None and not token["field"] and token["word"] in operators

    def either(self, depth):
        parts = [self.both(depth)]
        while self.is_next("OR"):
            self.at += 1
            parts.append(self.both(depth))
        return joined("OR", parts)

    def both(self, depth):
        parts = [self.one(depth)]
        while self.at < len(self.tokens) and self.tokens[self.at]["paren"] != ")" and not self.is_next("OR"):
            self.at += self.is_next("AND")
            parts.append(self.one(depth))
        return joined("AND", parts)

    def one(self, depth):
        if depth > MOST_DEPTH or self.terms >= MOST_TERMS:
            raise BadQuery(f"the query has more than {MOST_TERMS} terms, or more than {MOST_DEPTH} parentheses and NOTs within each other")
        if self.at >= len(self.tokens) or self.is_next("AND", "OR"):
            raise BadQuery("something is missing at an operator")
        token = self.tokens[self.at]
        is_not = token["minus"] or self.is_next("NOT")
        self.at += 1
        if is_not:
            condition, values = self.one(depth + 1)
            return f"NOT {condition}", values
        if token["paren"] == "(":
            return self.inner(depth)
        if token["paren"]:
            raise BadQuery("nothing opens )")
        self.terms += 1
        text = next(it for it in (token["quoted"], token["braced"], token["word"]) if it is not None)
        if not token["field"] and token["word"] and re.fullmatch(r"[a-z_]+:", text):
            raise BadQuery(f"nothing stands behind {text}")
        condition, values = self.condition_of(token["field"], text)
        return f"({condition})", values

    def inner(self, depth):
        """What stands in parentheses, of which the first has been read."""
        condition, values = self.either(depth + 1)
        if self.at >= len(self.tokens) or self.tokens[self.at]["paren"] != ")":
            raise BadQuery("a parenthesis isn't closed")
        self.at += 1
        return f"({condition})", values
