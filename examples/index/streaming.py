"""Events of an index, one behind the other, each at least once: what stream_events and mail_attention share. A module; standard library.

The place behind the last event that was done with stands in a file. Who is killed goes on there; the event at which it was killed comes again.
"""
import base64
import contextlib
import http.client
import json
import os
import socket
import ssl
import sys
import time
import urllib.parse

from retry import write_whole

PAUSE, SECONDS, COUNT = 1, 60, 200


class NotAnswered(Exception):
    """The index gave no answer."""


class OverHTTPS:
    """Asks through the proxy, as a user with a password."""

    def __init__(self, url, user, password, certificate=None):
        self.url, self.context = urllib.parse.urlsplit(url), ssl.create_default_context(cafile=certificate)
        self.fields = {"Authorization": "Basic " + base64.b64encode(f"{user}:{password}".encode()).decode()}

    def connection(self):
        return http.client.HTTPSConnection(self.url.hostname, self.url.port, timeout=SECONDS, context=self.context)

    def ask(self, path):
        """The text of an answer."""
        peer = self.connection()
        try:
            peer.request("GET", path, headers=self.fields)
            answer = peer.getresponse()
            text = answer.read().decode()
        except (OSError, http.client.HTTPException) as error:
            raise NotAnswered(f"no answer: {error}") from error
        finally:
            peer.close()
        if answer.status != 200:
            raise NotAnswered(f"{answer.status} {text.strip()[:200]}")
        return text


class InFolder(OverHTTPS):
    """Asks at the socket of a team's folder, which only its own user and the proxy's may open, as admin."""

    def __init__(self, folder):
        self.place, self.fields = os.path.join(folder, "index.socket"), {"X-Account": "1"}

    def connection(self):
        peer = http.client.HTTPConnection("index", timeout=SECONDS)
        peer.sock = socket.socket(socket.AF_UNIX)
        peer.sock.settimeout(SECONDS)
        with contextlib.suppress(OSError):  # What isn't connected says so when it is asked.
            peer.sock.connect(self.place)
        return peer


def events(index, place_file, is_from_now=False, is_once=False):
    """The events behind the place that a file says; it says the next one once its event was done with. Without a file they begin at the first one, or now."""
    place, said = None, None
    while True:
        try:
            if place is None:
                place = start(index, place_file, is_from_now)
            text, why = index.ask(f"/index/events?{urllib.parse.urlencode({'after': place, 'n': COUNT})}"), None
            lines = text.split("\n")[:-1]  # not splitlines, which ends a line also where a comment has U+2028
        except NotAnswered as error:
            lines, why = [], str(error)
        if why != said:
            print(why or "the index answers", file=sys.stderr, flush=True)
            said = why
        for line in lines:
            event = json.loads(line)
            yield event, line
            place = event["place"]
            write_whole(place_file, place)
        if not lines and is_once and not why:
            return
        if not lines:
            time.sleep(PAUSE)


def start(index, place_file, is_from_now):
    """Where to go on."""
    with contextlib.suppress(FileNotFoundError), open(place_file, encoding="utf-8") as file:
        return file.read().strip()
    if not is_from_now:
        return ""
    place = json.loads(index.ask("/index/state")[5:])["place"]
    write_whole(place_file, place)
    return place
