"""The log that the nodes of a cluster share, in etcd. A module; standard library only.

The entry at position N is the key `log/N` of 15 digits, and the key `tail` says the last position.
Positions are 1, 2, 3 and so on without a gap. An append is a transaction that goes on from the
tail it knows, so no two entries get one position. etcd confirms it once a majority of its nodes
has it on the disk. Other keys: `name`, which log this is; `check/N/NAME`, the sum of a node's
answers up to N; `node/NAME`, how far a node is; `out/N`, the answer of an entry that all nodes
leave out.

In a log whose name begins with `2-` an entry is the SHA-256 of the whole entry before it, a line's
end, and the request; the key `last` has that of the last entry. So whoever has an entry sees
whether the next one was appended behind that very entry. Logs of earlier programs have requests
alone.

Nothing here is proved. What is asked of etcd twice may be done twice: then an entry stands in the
log twice, and each desk takes the second as a repeat.
"""
import base64
import hashlib
import http.client
import json
import re
import secrets
import time
from collections.abc import Iterator
from typing import Any, NamedTuple

from etcd import IS_ABSENT, PATIENCE, Asked, Etcd, NoLog, add_log_words, bytes_of, coded, text_in

__all__ = ["Entry", "Log", "Lost", "NoLog", "Truncated", "add_log_words", "key_of", "new_name"]


class Entry(NamedTuple):
    """An entry: what it says of the one before it, where it does, and its own sum."""

    position: int
    request: bytes
    before: str | None = None
    here: str = ""


# etcd takes at most 128 operations and 1.5 MB in one transaction.
PAGE, OPERATIONS, BYTES = 200, 100, 800_000
# In reading, after a silence of so long a majority is asked whether there is more.
SILENCE = 5
CHAINED, FIRST = "2-", "0" * 64
EARLY = "by etcd's key `tail` the log ends at {}, before its last entry"
LOST = "it has lost what it had: it ends at {}, and this desk has the entry at {}"


class Truncated(Exception):
    """The log no longer has the entry behind this position."""


class Lost(Exception):
    """The log ends before a position that was read, or its next entry follows another one."""


def new_name(is_empty: bool) -> str:
    """Returns a name for a log that has none: only an empty one can begin to be chained."""
    return (CHAINED if is_empty else "") + secrets.token_hex(16)


def key_of(kind: str, position: int) -> str:
    return f"{kind}/{position:015}"


def number_in(told: Asked) -> int:
    text = text_in(told) or "0"
    if not re.fullmatch("0|[1-9][0-9]{0,14}", text):
        raise NoLog(f"etcd's key `tail` has no position: {text[:40]}")
    return int(text)


class Log(Etcd):
    """The log, by the addresses of etcd's nodes, the nearest first."""

    def __init__(self, addresses: list[str], certificates: str | None = None) -> None:
        super().__init__(addresses, certificates)
        self.tail, self.last = 0, FIRST
        # None as long as nobody has asked, and empty where the log has no name yet.
        self.name: str | None = None

    def is_chained(self, seconds: float = 30) -> bool:
        if self.name is None:
            self.name = self.get("name", seconds) or ""
        return self.name.startswith(CHAINED)

    # ---- appending

    def append(self, requests: list[bytes], seconds: float = 30, least: int = 0) -> tuple[int, int]:
        """Appends requests behind one another, as many as one transaction takes.

        Returns the position of the first, and how many were appended. Where the log's name is known
        it has to be that one. A log that ends before `least` has lost entries, and nothing is
        appended. An entry that is there is never written over, whatever the tail says.
        """
        some = self.fitting(requests)
        end, is_chained = time.monotonic() + seconds, self.is_chained(seconds)
        if not self.tail or self.tail < least:
            self.look_at_end(seconds)
        while True:
            if self.tail < least:
                raise NoLog(LOST.format(self.tail, least))
            asked, last = self.transaction(requests[:some], is_chained)
            told = self.call("/v3/kv/txn", asked, end - time.monotonic())
            if told.get("succeeded"):
                self.tail, self.last = self.tail + some, last
                return self.tail - some + 1, some
            self.learn(told, is_chained)

    def fitting(self, requests: list[bytes]) -> int:
        """Returns how many of the requests one transaction takes, and at least one."""
        some, size = 0, 0
        while some < min(len(requests), OPERATIONS):
            size += len(requests[some]) + len(FIRST) + 1
            if some and size > BYTES:
                break
            some += 1
        return some

    def transaction(self, requests: list[bytes], is_chained: bool) -> tuple[Asked, str]:
        """Returns what is asked of etcd, and the sum of the last entry that it puts."""
        puts, before, last = [], self.last, self.tail + len(requests)
        for position, request in enumerate(requests, self.tail + 1):
            value = before.encode() + b"\n" + request if is_chained else request
            before = hashlib.sha256(value).hexdigest()
            puts.append((key_of("log", position), base64.b64encode(value).decode()))
        puts.append(("tail", coded(str(last))))
        free = {"key": coded(key_of("log", self.tail + 1))}
        compare = [
            {"key": coded("tail"), **self.is_still(str(self.tail), self.tail > 0)},
            {**free, "range_end": coded(key_of("log", last + 1)), **IS_ABSENT},
        ]
        if self.name:
            compare.append({"key": coded("name"), **self.is_still(self.name)})
        if is_chained:
            puts.append(("last", coded(before)))
            compare.append({"key": coded("last"), **self.is_still(self.last, self.tail > 0)})
        success = [{"request_put": {"key": coded(key), "value": value}} for key, value in puts]
        return {"compare": compare, "success": success, "failure": self.asks_end()}, before

    @staticmethod
    def is_still(text: str, is_there: bool = True) -> Asked:
        return {"target": "VALUE", "value": coded(text)} if is_there else IS_ABSENT

    @staticmethod
    def asks_end() -> list[Asked]:
        return [{"request_range": {"key": coded(key)}} for key in ("tail", "name", "last")]

    def learn(self, told: Asked, is_chained: bool) -> None:
        """Goes on from where the log ends now, or raises NoLog where it isn't as it was."""
        tail, name, last = (it["response_range"] for it in told["responses"])
        if self.name and text_in(name) != self.name:
            raise NoLog(f"the log isn't {self.name} any more")
        now, before = number_in(tail), text_in(last) or FIRST
        # Another front was quicker, or this is a second try of what was done. Else the log isn't as
        # it was, and is looked at anew before the next append.
        if now <= self.tail:
            has_changed = is_chained and now == self.tail and before != self.last
            self.tail = 0
            raise NoLog("the last entry isn't the one it was" if has_changed else EARLY.format(now))
        self.tail, self.last = now, before

    def look_at_end(self, seconds: float) -> None:
        """Looks where the log ends, behind which it must have no entry."""
        self.end(seconds)
        told = self.call("/v3/kv/txn", {"success": self.asks_end()}, seconds)
        tail, _, last = (it["response_range"] for it in told["responses"])
        self.tail, self.last = number_in(tail), text_in(last) or FIRST

    # ---- where it ends and begins

    def end(self, seconds: float = 30) -> int:
        """Returns the position of the last entry, behind which the log has none."""
        last = self.head(seconds)
        behind = self.first(last, seconds)
        # What another front has appended meanwhile has moved the tail too.
        if behind and behind > (now := self.head(seconds)):
            raise NoLog(EARLY.format(now))
        return last

    def head(self, seconds: float = 30) -> int:
        """Returns the position of the last entry, as a majority says now."""
        return number_in(self.call("/v3/kv/range", {"key": coded("tail")}, seconds))

    def first(self, after: int = 0, seconds: float = 30) -> int | None:
        """Returns the position of the first entry behind another that the log has, or None."""
        asked = {"key": coded(key_of("log", after + 1)), "range_end": coded("log0")}
        more = {"limit": "1", "keys_only": True}
        found = self.call("/v3/kv/range", {**asked, **more}, seconds).get("kvs")
        return position_in(found[0]) if found else None

    # ---- reading

    def read(self, after: int) -> Iterator[Entry | None]:
        """Gives each entry behind a position, in order, and then those to come. Never ends.

        None where nothing came for a while. Raises Truncated where entries were given up, and Lost
        where the log ends before what was read.
        """
        while True:
            address = self.order()[0]
            peer = self.connection(address, PATIENCE[0])
            try:
                is_chained = self.is_chained(PATIENCE[0])
                self.look_at_loss(after)
                for entry in entries_at(peer, after, is_chained):
                    after = entry.position
                    yield entry
            except TimeoutError:
                yield None
                if self.is_behind(after):
                    self.failed[address] = time.monotonic()
            except (OSError, http.client.HTTPException, ValueError, KeyError, NoLog):
                self.failed[address] = time.monotonic()
            finally:
                peer.close()
            time.sleep(0.05)

    def look_at_loss(self, after: int) -> None:
        """Looks, before a node of etcd is read, whether a majority has what was read."""
        try:
            end = self.head(PATIENCE[0])
        except NoLog:
            # Without a majority a node of etcd still tells what it has.
            return
        if end < after:
            raise Lost(LOST.format(end, after))

    def is_behind(self, after: int) -> bool:
        """Returns whether the log has more than a silent node of etcd has told, as far as known."""
        try:
            return self.head(PATIENCE[0]) > after
        except NoLog:
            return True

    def delete_to(self, last: int) -> None:
        """Gives up all entries up to a position, and what is kept of them."""
        for end in [*range(1000, last, 1000), last]:
            self.delete("log/", key_of("log", end + 1))
        for kind in ("check", "out"):
            self.delete(kind + "/", key_of(kind, last + 1))


def position_in(found: Asked) -> int:
    return int(base64.b64decode(found["key"])[4:])


def follows(found: Asked, after: int, is_chained: bool) -> Entry:
    """Returns the entry of a key, which has to be the one behind a position."""
    if position_in(found) != after + 1:
        raise Truncated(f"behind {after} the log goes on at {position_in(found)}")
    value = bytes_of(found)
    here = hashlib.sha256(value).hexdigest()
    if not is_chained:
        return Entry(after + 1, value, None, here)
    before, end, request = value.partition(b"\n")
    if not end or not re.fullmatch(rb"[0-9a-f]{64}", before):
        raise Lost(f"the entry at {after + 1} is none of this log's")
    return Entry(after + 1, request, before.decode(), here)


def entries_at(peer: http.client.HTTPConnection, after: int, is_chained: bool) -> Iterator[Entry]:
    """Gives the entries behind a position by one node of etcd, and then watches from their end.

    That node may be behind others: it has a beginning of the log.
    """
    peer.connect()
    peer.sock.settimeout(SILENCE)
    while told := page(peer, after):
        for found in told.get("kvs", []):
            yield (entry := follows(found, after, is_chained))
            after = entry.position
        if not told.get("kvs"):
            break
    revision = str(int(told["header"]["revision"]) + 1)
    watch: dict[str, Any] = {"key": coded("log/"), "range_end": coded("log0")}
    watch.update(filters=["NODELETE"], start_revision=revision, fragment=True)
    peer.request("POST", "/v3/watch", json.dumps({"create_request": watch}))
    answer = peer.getresponse()
    while (line := answer.readline()) and not (told := json.loads(line)["result"]).get("canceled"):
        for event in told.get("events", []):
            if position_in(event["kv"]) != after + 1:
                return
            yield (entry := follows(event["kv"], after, is_chained))
            after = entry.position


def page(peer: http.client.HTTPConnection, after: int) -> Asked:
    asked = {"key": coded(key_of("log", after + 1)), "range_end": coded("log0")}
    more = {"limit": str(PAGE), "serializable": True}
    peer.request("POST", "/v3/kv/range", json.dumps({**asked, **more}))
    told: Asked = json.loads(peer.getresponse().read())
    return told
