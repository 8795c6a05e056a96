"""Hints for the index: that somebody has asked something of the desk, and what. A module; standard library.

A hint is a datagram at a socket of a team's folder, such as `POST /changes/7/submit`. nginx sends one for each request that may have changed something, as a line of a log; the
hook and the commands, which ask the desk at its own port, send theirs by `send`. Nobody waits for it, and it may be lost, doubled or forged: it says what to ask the desk about,
and nothing else.
"""
import contextlib
import os
import re
import socket
import threading

HINT = re.compile(rb"\b(POST|PUT) (/\S*)$")
MOST = 10_000  # hints that wait


def send(place, method, path):
    """Sends a hint, where somebody listens."""
    if not place:
        return
    with contextlib.suppress(OSError), socket.socket(socket.AF_UNIX, socket.SOCK_DGRAM) as mouth:
        mouth.setblocking(False)
        mouth.sendto(f"{method} {path}".encode(), place)


def listening_at(place):
    """A socket that hints are sent to, in place of one that was left."""
    with contextlib.suppress(FileNotFoundError):
        os.remove(place)
    ear = socket.socket(socket.AF_UNIX, socket.SOCK_DGRAM)
    ear.bind(place)
    return ear


class Ear:
    """Hears hints as they come, since a socket keeps only a few; each is waiting once, until it is taken."""

    def __init__(self, ear):
        self.ear, self.waiting, self.has_come = ear, {}, threading.Condition()
        threading.Thread(target=self.hear, daemon=True).start()

    def hear(self):
        while True:
            said = HINT.search(self.ear.recv(4096).rstrip())
            if said:
                self.add((said[1].decode(), said[2].decode(errors="replace")))

    def add(self, hint):
        with self.has_come:
            if len(self.waiting) < MOST:
                self.waiting[hint] = True
            self.has_come.notify()

    def next(self, seconds):
        """The hint that has waited longest, a method and a path; None where none comes in so long."""
        with self.has_come:
            if not self.waiting:
                self.has_come.wait(seconds)
            hint = next(iter(self.waiting), None)
            self.waiting.pop(hint, None)
            return hint
