"""Who has a node's key, and what it is good for: a node that is shut out, names that no node has, what is no request, one who writes too much. A module of bench/cluster."""
import contextlib
import http.client
import json
import os
import shutil
import signal
import ssl
import subprocess

from cluster_start import Started, ports_from
from cluster_world import EXAMPLE, Log, NoLog, check, until
from etcd_log import key_of

CERTIFICATES = os.path.join(EXAMPLE, "certificates")


def certificates(*words, status=0):
    ran = subprocess.run([CERTIFICATES, "cluster/certificates", *words], capture_output=True, text=True, check=False)
    check(ran.returncode == status, words, ran.returncode, ran.stderr)
    return ran.stdout + ran.stderr


def no_requests(started):
    """What has no id of its form gets into no log, and is told its fault."""
    head = started.log().head()
    for n, fields in ((1, {}), (2, {"Request-Id": "x y"}), (3, {"Request-Id": ""})):
        told = raw(started, n, "/accounts", {"name": "nobody"}, fields)
        check(told == (400, {"fault": "NO_REQUEST_ID"}), fields, told)
    check(started.log().head() == head, "what is no request is in the log")


def raw(started, n, path, body, fields, port=0):
    peer = http.client.HTTPConnection("127.0.0.1", started.first + 10 * n + port, timeout=60)
    try:
        peer.request("POST", path, json.dumps(body), {"X-Account": "1", **fields})
        answer = peer.getresponse()
        text = answer.read()
        return answer.status, json.loads(text[5:]) if text.startswith(b")]}'") else text.decode()
    finally:
        peer.close()


def odd_names(started):
    """Sums that are told under names that no node has stop nobody."""
    log = started.log()
    position = log.head()
    for at in range(1, 5):
        log.put(f"node/x{at}", str(position + 5))
        for ahead in range(1, 8):
            log.put(f"{key_of('check', position + ahead)}/x{at}", "a lie")
    for at in range(3):
        check(started.ask(1 + at, f"o{at}", "/accounts", {"name": f"odd{at}"})[0] == 200, "behind a lie", at)
    until(lambda: log.get_all(key_of("check", log.head())), "sums of the nodes", seconds=60)
    check(started.ask(2, "o9", "/accounts", {"name": "odd9"})[0] == 200, "all nodes go on")
    for kind in ("node/x", "check/"):
        log.delete(kind, kind[:-1] + chr(ord(kind[-1]) + 1))


def shut_out(started):
    """The third node's certificate is revoked: with it nobody reads or writes the log, or comes to a node's port. What it renewed before is shut out too."""
    certificates("--renew", "three", "127.0.0.1")
    old = Log([f"127.0.0.1:{started.first + 14}"], "cluster/3/certificates")
    renewed = Log([f"127.0.0.1:{started.first + 14}"], "cluster/certificates/three")
    check(old.head() == renewed.head() > 0, "before it is shut out")
    check("three is shut out" in certificates("--revoke", "three"), "revoked")
    check("no certificate was made for four" in certificates("--revoke", "four", status=1), "nobody's")
    for n, name in ((1, "one"), (2, "two")):
        shutil.copy(f"cluster/certificates/{name}/revoked.pem", f"cluster/{n}/certificates/revoked.pem")
        for program in ("failover", "etcd"):
            started.kill(n, program, signal.SIGTERM)
    log = Log([f"127.0.0.1:{started.first + 10 * n + 4}" for n in (1, 2)], "cluster/1/certificates")
    until(lambda: is_there(log), "the two others have a log")
    for folder in ("cluster/3/certificates", "cluster/certificates/three"):
        for n in (1, 2):
            with contextlib.suppress(NoLog):
                check(False, "the log of one who is shut out", folder, Log([f"127.0.0.1:{started.first + 10 * n + 4}"], folder).head(3))
        status = at_port(started, folder)
        check(status == 400, "a node's port, for one who is shut out", folder, status)
    check(at_port(started, "cluster/2/certificates") == 404, "a node's port, for another node")
    head = log.head()
    for at in range(3):
        check(started.ask(1 + at % 2, f"s{at}", "/accounts", {"name": f"shut{at}"})[0] == 200, "the others go on", at)
    check(log.head() == head + 3, "and append", head, log.head())


def at_port(started, folder):
    """The status that the first node's port for other nodes gives to who shows a certificate."""
    context = ssl.create_default_context(cafile="cluster/1/certificates/ca.crt")
    context.load_cert_chain(f"{folder}/node.crt", f"{folder}/node.key")
    peer = http.client.HTTPSConnection("127.0.0.1", started.first + 13, timeout=20, context=context)
    try:
        peer.request("GET", "/changes/1", None, {"X-Account": "1"})
        return peer.getresponse().status
    finally:
        peer.close()


def is_there(log):
    with contextlib.suppress(NoLog):
        return log.head(3) > 0
    return False


def looked_at(started):
    """`manage look` tells the days that certificates are good for, and ends with status 1 where they end soon."""
    words = [os.path.join(EXAMPLE, "manage"), "look", "--certificates", "cluster/1/certificates", "--log", *started.log().addresses]
    ran = subprocess.run(words, capture_output=True, text=True, check=False)
    days = json.loads(ran.stdout)["days"]
    check(ran.returncode == 0 and len(days) == 4 and set(days.values()) <= {824, 825}, "days", ran)
    if shutil.which("faketime"):
        ran = subprocess.run(["faketime", "+800 days", *words], capture_output=True, text=True, check=False)
        check(ran.returncode == 1 and "renew them" in ran.stderr, "days, much later", ran)


def too_much(started):
    """An account that writes more than its share is told when to come back, and others are answered; later the request is taken."""
    front = os.path.join(EXAMPLE, "front")
    port = started.first + 59
    words = [front, "cluster/1/tools.desk", "--port", str(port), "--desk", str(started.first + 11), "--bytes", "200000", "--bytes-a-second", "20000"]
    words += ["--certificates", "cluster/1/certificates", "--log", *started.log().addresses]
    ran = subprocess.Popen(["setpriv", "--pdeathsig", "KILL", *words], stderr=subprocess.DEVNULL)
    try:
        large = {"name": "x" * 100_000}
        until(lambda: is_answered(started), "the front is up")
        told = [raw(started, 0, "/accounts", large, {"Request-Id": f"m{at}"}, port=59) for at in range(4)]
        check([status for status, _ in told].count(429) >= 1 and told[0][0] == 400, "one who writes too much", [it[0] for it in told])
        refused = next(text for status, text in told if status == 429)
        check(refused["not_taken"] == "TOO_MANY_REQUESTS" and 0 < refused["retry_after"] < 60, told)
        other = raw(started, 0, "/accounts", {"name": "n"}, {"Request-Id": "m9", "X-Account": "2"}, port=59)
        check(other[0] in (200, 403, 404, 409), "another account", other)
        until(lambda: raw(started, 0, "/accounts", {"name": "later"}, {"Request-Id": "m8"}, port=59)[0] == 200, "and later", seconds=60)
    finally:
        ran.kill()
        ran.wait()


def is_answered(started):
    with contextlib.suppress(OSError):
        return raw(started, 0, "/", {}, {}, port=59)


def main(said):
    started = Started(said.program, ports_from())
    try:
        started.start()
        check(started.ask(1, "a1", "/accounts", {"name": "ann"}) == (200, {"account": 2}), "ann")
        looked_at(started)
        no_requests(started)
        too_much(started)
        odd_names(started)
        shut_out(started)
    finally:
        started.end()
    print("keys: who is shut out is, names that no node has stop nobody, what is no request isn't kept, and who writes too much is told so")
