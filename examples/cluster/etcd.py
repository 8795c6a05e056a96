"""etcd, by its own gateway: JSON over HTTP. A module; standard library only.

What is asked of etcd twice may be done twice. Nothing here is proved.
"""
import argparse
import base64
import http.client
import json
import os
import queue
import ssl
import time
from typing import Any

# First each node of etcd gets a short time: of what was on its way to a leader that died nothing is
# heard. Who gave no answer is asked after the others for so long.
PATIENCE, LATELY = (2, 8), 20
IS_WRONG_EVERYWHERE = (3, 11)
IS_ABSENT = {"target": "CREATE", "create_revision": "0"}
Asked = dict[str, Any]


class NoLog(Exception):
    """etcd gave no answer. What was to be appended may be appended, now or some seconds later."""


def coded(text: str) -> str:
    return base64.b64encode(text.encode()).decode()


def bytes_of(found: Asked) -> bytes:
    """Returns the value of a key that was found."""
    return base64.b64decode(found.get("value", ""))


def text_in(told: Asked) -> str | None:
    """Returns the value of the first key found, or None."""
    return bytes_of(told["kvs"][0]).decode() if told.get("kvs") else None


def add_log_words(parser: argparse.ArgumentParser) -> None:
    """Adds the words by which programs are told where the log is."""
    nodes = "etcd's nodes, the nearest first"
    folder = "has ca.crt, node.crt and node.key; without it etcd is spoken to without TLS"
    parser.add_argument("--log", required=True, nargs="+", metavar="HOST:PORT", help=nodes)
    parser.add_argument("--certificates", metavar="FOLDER", help=folder)


class Etcd:
    """etcd, by the addresses of its nodes, the nearest first."""

    def __init__(self, addresses: list[str], certificates: str | None = None) -> None:
        self.addresses = addresses
        self.tls: ssl.SSLContext | None = None
        self.idle: dict[str, queue.LifoQueue[http.client.HTTPConnection]] = {
            address: queue.LifoQueue() for address in addresses
        }
        self.failed: dict[str, float] = {}
        if certificates:
            paths = [os.path.join(certificates, it) for it in ("ca.crt", "node.crt", "node.key")]
            self.tls = ssl.create_default_context(cafile=paths[0])
            self.tls.load_cert_chain(paths[1], paths[2])
            revoked = os.path.join(certificates, "revoked.pem")
            if os.path.exists(revoked):
                self.tls.load_verify_locations(revoked)
                self.tls.verify_flags |= ssl.VERIFY_CRL_CHECK_LEAF

    def connection(self, address: str, seconds: float) -> http.client.HTTPConnection:
        if self.tls:
            return http.client.HTTPSConnection(address, timeout=seconds, context=self.tls)
        return http.client.HTTPConnection(address, timeout=seconds)

    def order(self) -> list[str]:
        """Returns the addresses as they were given, but last those that gave no answer lately."""
        now = time.monotonic()
        is_late = {it: now - since < LATELY for it, since in self.failed.items()}
        return sorted(self.addresses, key=lambda it: is_late.get(it, False))

    def ask(self, address: str, path: str, asked: Asked, seconds: float) -> tuple[int, Asked]:
        """Returns the status and the answer of one node of etcd, over a connection that is kept."""
        while True:
            try:
                peer, is_new = self.idle[address].get_nowait(), False
                peer.sock.settimeout(seconds)
            except queue.Empty:
                peer, is_new = self.connection(address, seconds), True
            try:
                peer.request("POST", path, json.dumps(asked))
                answer = peer.getresponse()
                told = json.loads(answer.read())
                if peer.sock:
                    self.idle[address].put(peer)
                return answer.status, told
            except (ConnectionError, http.client.HTTPException):
                peer.close()
                if is_new:
                    raise
                # That node was started again since: a connection more is tried.
            except (OSError, ValueError):
                peer.close()
                raise

    def call(self, path: str, asked: Asked, seconds: float = 30) -> Asked:
        """Returns the answer of the first node that gives one, or raises NoLog."""
        end, why = time.monotonic() + seconds, "no time"
        for patience in PATIENCE:
            for address in self.order():
                left = min(patience, end - time.monotonic())
                if left <= 0:
                    raise NoLog(why)
                try:
                    status, told = self.ask(address, path, asked, left)
                except (OSError, http.client.HTTPException, ValueError) as error:
                    why, self.failed[address] = str(error), time.monotonic()
                    continue
                if status == 200:
                    return told
                why = str(told)
                if isinstance(told, dict) and told.get("code") in IS_WRONG_EVERYWHERE:
                    raise NoLog(why)
        raise NoLog(why)

    def get(self, key: str, seconds: float = 30) -> str | None:
        """Returns the text of a key, or None."""
        return text_in(self.call("/v3/kv/range", {"key": coded(key)}, seconds))

    def get_all(self, kind: str, seconds: float = 30) -> dict[str, str]:
        """Returns the text of each key of a kind, by what stands behind the stroke."""
        asked = {"key": coded(kind + "/"), "range_end": coded(kind + "0")}
        found = self.call("/v3/kv/range", asked, seconds).get("kvs", [])
        names = [base64.b64decode(it["key"]).decode()[len(kind) + 1 :] for it in found]
        return {name: bytes_of(it).decode() for name, it in zip(names, found)}

    def put(self, key: str, text: str, seconds: float = 30) -> None:
        self.call("/v3/kv/put", {"key": coded(key), "value": coded(text)}, seconds)

    def delete(self, key: str, end: str | None = None) -> None:
        rest = {"range_end": coded(end)} if end else {}
        self.call("/v3/kv/deleterange", {"key": coded(key), **rest})

    def claim(self, key: str, text: str, seconds: float = 30) -> str:
        """Sets a key that nobody has set; returns what it is set to."""
        asked = {
            "compare": [{"key": coded(key), **IS_ABSENT}],
            "success": [{"request_put": {"key": coded(key), "value": coded(text)}}],
            "failure": [{"request_range": {"key": coded(key)}}],
        }
        told = self.call("/v3/kv/txn", asked, seconds)
        if told.get("succeeded"):
            return text
        return text_in(told["responses"][0]["response_range"]) or ""
