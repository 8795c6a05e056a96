"""The part of bench/proxied that compares: each route of docs/http.md is answered by the desk itself, byte for byte, with an index beside it, without one, and with one that is down. A module."""
import http.client
import json
import os
import re
import signal
import subprocess
import tempfile
import time

from desk_file import check
from desk_proxied import EXAMPLES, TOP, Proxied, read, write

USERS = {f"user{number}": "pear" for number in range(12)}  # all are account 2: so many requests are too many of one name
PLACES = {"group": ["Core"], "project": ["tools", "a%2Fb"], "branch": ["main", "release%2F1.0"], "change": ["1", "99"], "patch_set": ["current"], "account": ["2"]}
MORE = ["/", "/nothing", "/changes", "/changes/", "/changes/x", "/changes/1/", "/changes//1", "/changes/%31", "/changes/1?x=1", "/changes/1/detail/x", "/projects", "/projects/", "/groups/", "/tools.git", "/accounts/",
        "/accounts/self", "/index", "/index/state", "/config", "/config/server/version", "/changes/1/detail", "/%61/changes/1", "/a/a/changes/1"]
FILE = '[access]\ncreate = ["Administrators"]\nsubmit = ["Administrators"]\n[label.Code-Review]\nvalues = {0 = "None", 1 = "Good"}\ngrant.Administrators = [0, 1]\n'
OF_THE_INDEX = re.compile(r"(/a)?/(changes/|projects/|accounts/.+|index/.+|config/server/.+|changes/[^/]+/detail)")


def routes():
    """The paths of docs/http.md, with something in each of their places, and some that are none."""
    found = []
    for path in re.findall(r"^\| (?:GET|POST|PUT) `(/[^`]*)` \|", read(TOP, "docs", "http.md"), re.M):
        for at in (0, -1):
            way = path
            for name, words in PLACES.items():
                way = way.replace("{" + name + "}", words[at])
            found.append(way)
    return [*dict.fromkeys(found + MORE)]


class Compared(Proxied):
    """A desk behind nginx, whose authors are trusted, with or without an index."""

    def __init__(self, program, folder):
        super().__init__(program, folder, 100000, {"admin": "root", **USERS}, dict.fromkeys(USERS, 2), are_trusted=True)
        self.count, self.index = 0, None

    def set_up(self, accounts):
        super().set_up(accounts)
        conf = read(self.folder, "nginx.conf")  # All of these are one account, which asks more in a minute than a user does in a day.
        for usual, more in (("burst=120", "burst=12000"), ("burst=60 ", "burst=12000 ")):
            check(usual in conf, "no limit", usual)
            conf = conf.replace(usual, more)
        write(conf, self.folder, "nginx.conf")
        write("".join(f"{name}:{{PLAIN}}{word}\n" for name, word in self.passwords.items()), self.folder, "users")  # which are looked at faster

    def add_index(self):
        for place, name in (("more.d", "index.conf"), ("http.d", "around.conf")):
            os.makedirs(os.path.join(self.folder, place))
            write(read(EXAMPLES, "index", name).replace("FOLDER", self.folder), self.folder, place, name)
        write(json.dumps({"desk_port": self.desk_port}), self.folder, "settings.json")
        with open(os.path.join(self.folder, "index.log"), "ab") as log:
            self.index = subprocess.Popen([os.path.join(EXAMPLES, "index", "desk_index"), self.folder], stdin=subprocess.DEVNULL, stderr=log)
        while not os.path.exists(os.path.join(self.folder, "index.socket")):
            time.sleep(0.05)
        for name in ("index.socket", "hints.socket"):
            os.chmod(os.path.join(self.folder, name), 0o666)  # where root starts nginx its workers are another user
        self.nginx.send_signal(signal.SIGHUP)
        while self.fetch("GET", "/index/state", "admin")[0] != 200:
            time.sleep(0.1)

    def twice(self, method, path, body, prefix):
        """What nginx answers, and what the desk itself does: under one id, so that a request is taken once."""
        self.count += 1
        fields, user = {"Request-Id": f"r{self.count}"} if method in ("POST", "PUT") else {}, f"user{self.count % len(USERS)}"
        status, head, text = self.fetch(method, prefix + path, user, body, fields=fields)
        peer = http.client.HTTPConnection("127.0.0.1", self.desk_port, timeout=60)
        peer.request(method, path, None if body is None else json.dumps(body), {**fields, "X-Account": "2"})
        answer = peer.getresponse()
        told = (answer.status, answer.getheader("Content-Type"), answer.getheader("Allow"), answer.read().decode())
        peer.close()
        return (status, head["Content-Type"], head["Allow"], text), told

    def end(self):
        if self.index:
            self.index.kill()
            self.index.wait()
        super().end()


def compare(it, must, with_index, is_whole):
    """Compares all routes by all methods, as they are and behind /a."""
    for path in routes():
        for method, body in (("GET", None), ("POST", {}), ("PUT", {"commit": "x"}), ("DELETE", None))[:4 if is_whole else 2]:
            for prefix in ("", "/a") if is_whole or with_index != "a stopped index" else ("",):
                if path == "/" or (method != "GET" and path == "/%61/changes/1"):
                    continue  # That is the page; and of code, of which nginx tells itself.
                got, told = it.twice(method, path, body, prefix)
                if method == "GET" and with_index and OF_THE_INDEX.fullmatch(path):
                    must(f"{with_index}: {method} {prefix}{path}", got[0] in ((502,) if with_index == "a stopped index" else (200, 404)), True)
                else:
                    must(f"{with_index or 'no index'}: {method} {prefix}{path}", got, told)


def look_at_routes(program, must, is_whole):
    """Compares without an index, with one, and with one that was stopped: how many answers were compared."""
    with tempfile.TemporaryDirectory() as folder:
        it = Compared(program, folder)
        try:
            body = {"project": "tools", "branch": "main", "subject": "One", "commit": "a" * 40, "parent": "0" * 40, "paths": []}
            for method, path, said in (("POST", "/accounts", {"name": "ann"}), ("PUT", "/projects/tools", {"file": FILE}), ("PUT", "/projects/tools/branches/main", {"commit": "0" * 40}), ("POST", "/changes/", body)):
                must(f"{method} {path}", it.ask(method, path, "admin", f"first{path}".replace("/", "."), said)[0], 200)
            compare(it, must, "", is_whole)
            it.add_index()
            compare(it, must, "an index", is_whole)
            it.index.kill()
            it.index.wait()
            compare(it, must, "a stopped index", is_whole)
        finally:
            it.end()
    return it.count
