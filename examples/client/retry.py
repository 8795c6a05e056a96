"""Sends requests to a desk, and each of them again under the same id until its answer came. A module; standard library only.

    from retry import Desk, new_id, path_of
    desk = Desk("http://127.0.0.1:8473", account=2)                                                          # straight at the desk
    desk = Desk("https://desk.example:8443", user="ann", password="pear", certificate="tls.crt")             # at the proxy before it
    status, told = desk.ask("POST", path_of("changes", 1, "submit"), id=new_id())

`ask` gives the HTTP status and the answer of the desk, a refusal too. It raises NoAnswer where none came in time: then the request was taken, or it wasn't, and the
same call with the same id and epoch finds out. It raises NotOfTheDesk where sending again can't help, as where a password is wrong.

A program that may be killed before its answer came, and has to go on where it was, keeps the request in a file meanwhile:

    kept = Kept("request.json")
    request = kept.read() or kept.write({"method": "POST", "path": "/changes/1/submit", "id": new_id()})
    status, told = desk.ask(**request)
    ...                                                                                                      # what the answer is for
    kept.remove()
"""
import base64
import http.client
import json
import os
import random
import secrets
import ssl
import time
import urllib.parse

FIRST_PAUSE, LONGEST_PAUSE = 0.1, 5


class NoAnswer(Exception):
    """No answer of the desk came in time. The request may have been taken."""


class NotOfTheDesk(Exception):
    """What stands before the desk turned the request away, and would do so again."""


class Lost(Exception):
    """One sending brought no answer of the desk. It may say in how many seconds to send again."""

    def __init__(self, why: object, seconds: float = 0) -> None:
        super().__init__(why)
        self.seconds = seconds


def new_id():
    """An id for a new request. Nobody else draws the same."""
    return secrets.token_hex(16)


def this_day() -> int:
    """The epoch of a team's requests: the day in UTC, as 20261201. A request keeps the one that it was made in, however often it is sent. It is the day of ten minutes ago, so that
    a clock that is ahead by less makes no request of tomorrow, which the proxy would turn away."""
    return int(time.strftime("%Y%m%d", time.gmtime(time.time() - 600)))


def path_of(*segments):
    """The path with these segments: a slash within a branch's name is encoded."""
    return "/" + "/".join(urllib.parse.quote(str(segment), safe="") for segment in segments)


class Desk:
    """A desk, and who asks: an account, straight at the desk, or a user with a password, at the proxy before it."""

    def __init__(self, url, account=None, user=None, password=None, certificate=None, seconds=60):
        self.url, self.seconds = urllib.parse.urlsplit(url), seconds
        self.tls = ssl.create_default_context(cafile=certificate) if self.url.scheme == "https" else None
        if user is None:
            self.fields = {"X-Account": str(account)}
        else:
            self.fields = {"Authorization": "Basic " + base64.b64encode(f"{user}:{password}".encode()).decode()}

    def ask(self, method, path, body=None, id=None, epoch=None):
        """The status and the answer of the desk to a request, or to a question, which needs no id. A request is of epoch 0 where none is said."""
        fields = {**self.fields, **({"Request-Id": id} if id else {}), **({} if epoch is None else {"Request-Epoch": str(epoch)})}
        text = None if body is None else json.dumps(body, ensure_ascii=False).encode()
        end, pause = time.monotonic() + self.seconds, FIRST_PAUSE
        while True:
            try:
                return self.send(method, path, text, fields, max(1, end - time.monotonic()))
            except ssl.SSLCertVerificationError as error:
                raise NotOfTheDesk(error) from error
            except (OSError, http.client.HTTPException, Lost) as error:
                least = getattr(error, "seconds", 0)
                if time.monotonic() + max(pause, least) > end:
                    raise NoAnswer(f"no answer from {self.url.geturl()}: {error}") from error
            time.sleep(least + pause * random.uniform(0.5, 1))
            pause = min(2 * pause, LONGEST_PAUSE)

    def send(self, method, path, text, fields, seconds):
        """Sends once. What the desk didn't take is as good as lost: it is to be sent again."""
        if self.tls:
            peer = http.client.HTTPSConnection(self.url.hostname, self.url.port, timeout=seconds, context=self.tls)
        else:
            peer = http.client.HTTPConnection(self.url.hostname, self.url.port, timeout=seconds)
        try:
            peer.request(method, path, text, fields)
            answer = peer.getresponse()
            if answer.length is None and not answer.chunked:
                raise Lost("an answer without its length, which may have been cut off")
            told = answer.read()
        finally:
            peer.close()
        is_of_the_desk = told.startswith(b")]}'\n")
        if is_of_the_desk and answer.status not in (429, 503):
            return answer.status, json.loads(told[5:])
        if is_of_the_desk or answer.status >= 500 or answer.status in (408, 429):
            again = answer.headers.get("Retry-After", "")
            raise Lost(f"{answer.status} {answer.reason} {told[5:].decode().strip() if is_of_the_desk else ''}".strip(), int(again) if again.isdecimal() else 0)
        raise NotOfTheDesk(f"{answer.status} {answer.reason} from what stands before the desk")


def write_whole(file, text):
    """Writes a file, so that after a stop it is the old one or the new one."""
    os.makedirs(os.path.dirname(os.path.abspath(file)), exist_ok=True)
    with open(file + ".new", "w", encoding="utf-8") as new:
        new.write(text)
        new.flush()
        os.fsync(new.fileno())
    os.replace(file + ".new", file)
    folder = os.open(os.path.dirname(os.path.abspath(file)), os.O_RDONLY)
    os.fsync(folder)
    os.close(folder)


class Kept:
    """A request that stands in a file from before it is sent until what it is for has been done."""

    def __init__(self, file):
        self.file = file

    def read(self):
        """The request that is kept, or None."""
        try:
            with open(self.file, encoding="utf-8") as file:
                return json.load(file)
        except FileNotFoundError:
            return None

    def write(self, request):
        """Keeps a request, and gives it."""
        write_whole(self.file, json.dumps(request))
        return request

    def remove(self):
        os.remove(self.file)
