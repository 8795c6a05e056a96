"""Attacks on the proxy of a team: code that git's hook never saw, who asks, a password that is guessed, connections and bodies that stop the others. Cases of bench/attacks."""
import concurrent.futures
import json
import os
import re
import resource
import socket
import ssl
import subprocess
import time

from attacked_team import check, new_id, path_of

CREATE = {"project": "tools", "branch": "main", "subject": "Past the hook", "paths": ["README"]}
UPLOAD = {"kind": "TRIVIAL_REBASE", "paths": ["README"]}
# How a path may be written: {} stands for the change's number. What a desk routes is spelled otherwise in its numbers alone, and behind a question mark.
SPELLINGS = r"""
    /changes/{}/revisions /changes/{}/revisions?x /changes/{}/revisions? /changes/{}/revisions/ /changes/{}/revisions// /changes//{}/revisions //changes/{}/revisions
    /./changes/{}/revisions /changes/./{}/revisions /changes/{}/./revisions /changes/x/../{}/revisions /page/../changes/{}/revisions /changes/%3{}/revisions
    /changes/%3{}/revisions?a=/page/ /%63hanges/{}/revisions /changes/{}/revi%73ions /changes%2F{}/revisions /changes/{}%2Frevisions /changes/{}/revisions%2F
    /changes/{}/revisions%00 /changes/{}/revisions%0A /changes/{}/revisions%20 /changes/{}/revisions#x /Changes/{}/Revisions /changes/0{}/revisions /changes/{}/revisions;x=1
    /changes/%0A{}/revisions /a/changes/{}/revisions /a/changes/%3{}/revisions?x /a//changes/{}/revisions //a/changes/{}/revisions /%61/changes/{}/revisions
    /a/a/changes/{}/revisions /a/../changes/{}/revisions /a/changes/ /a/changes/?x //a//changes/ /a%2Fchanges/{}/revisions /a/%63hanges/{}/revisions https://127.0.0.1/changes/{}/revisions https://127.0.0.1/changes/%3{}/revisions /changes/{}/revisions%3Fx
    /changes/{}%20/revisions \changes\{}\revisions /changes/{}/revisions\ /git/../changes/{}/revisions /health/../changes/{}/revisions /changes/ /changes/?x /changes//
    /changes/. /changes/x/.. //changes/ /%63hanges/ /changes/%2E /changes/#x https://127.0.0.1/changes/ /changes /changes/%20 /page/../changes/
""".split()
METHODS = ["POST", "PUT", "PATCH", "post", "POSTS"]


def sent_raw(team, head, body=b"", seconds=20):
    """The first line of what the proxy answers to a request that is sent as it stands."""
    peer = team.connect(seconds)
    try:
        peer.sendall(head.encode("latin-1") + body)
        answer = b""
        while b"\r\n" not in answer and (more := peer.recv(65536)):
            answer += more
        return answer.decode(errors="replace").split("\r\n")[0]
    except (TimeoutError, ConnectionError, ssl.SSLError) as error:
        return f"nothing: {error}"
    finally:
        peer.close()


def status_for(team, user, path="/page/team.json", **more):
    """The status that a user is answered with, or why no answer comes."""
    try:
        return team.ask(user, "GET", path, **more)[0]
    except OSError as error:
        return error


def only_the_hook_makes_patch_sets(team):
    """No spelling of a path by which a desk makes changes or patch sets comes through the proxy, and pushes still do."""
    number, commit = team.change("ann", {"guarded": "good\n"}, "Add guarded")
    check(number < 10, "the spellings are for one digit", number)
    check(team.vote("bob", number, 1, 2)[0] == 200, "a vote")
    before, forged = team.desk_ask(1, "GET", f"/changes/{number}")[1], "f" * 40
    said = {}
    for spelling in SPELLINGS:
        for method in METHODS if spelling in SPELLINGS[:1] else METHODS[:1]:
            path, is_new = spelling.format(number), "revisions" not in spelling.lower()
            body = json.dumps({**CREATE, "commit": forged, "parent": commit} if is_new else {**UPLOAD, "commit": forged, "parent": team.tip()}).encode()
            sent = {**team.authorization("mallory"), "Request-Id": new_id(), "Content-Length": len(body), "Connection": "close", "X-Account": "2"}
            fields = "".join(f"{name}: {word}\r\n" for name, word in sent.items())
            said[method, path] = sent_raw(team, f"{method} {path} HTTP/1.1\r\nHost: 127.0.0.1\r\n{fields}\r\n", body)
            check(team.desk_ask(1, "GET", f"/changes/{number}")[1] == before, "a patch set came past the hook", method, path, said[method, path])
    check(team.desk_ask(1, "GET", f"/changes/{number + 1}")[0] == 404, "a change came past the hook", said)
    check(all(" 403 " in said["POST", spelling.format(number)] for spelling in SPELLINGS[:3] + ["/changes/", "/changes/?x"]), "what is refused isn't told", said)
    check(not any(" 200 " in it for it in said.values()), "a spelling was accepted", said)
    status, told, _ = team.ask("ann", "POST", path_of("changes", number, "revisions"), {})
    check(status == 403 and "git push" in told, "no word of what to do", status, told)
    check("change " in team.amended("ann", {"guarded": "better\n"})[2], "a push makes a patch set no more")



def who_asks_is_who_gave_the_password(team):
    """No way to write the field X-Account, and no smuggled request, makes a desk believe another caller."""
    body = b'{"name":"forged"}'
    usual = {**team.authorization("mallory"), "Content-Length": str(len(body)), "Connection": "close"}
    forms = ["X-Account: 1", "x-account: 1", "X-ACCOUNT:1", "X-Account : 1", "X_Account: 1", "X-Account:\t1", " X-Account: 1", "X-Account: 4\r\nX-Account: 1", "X-Account: 1\r\n 1",
             "Connection: X-Account\r\nX-Account: 1", "X-Account\0: 1", "Content-Length: 0", "Transfer-Encoding: chunked", "Transfer-Encoding: chunked\r\nTransfer-Encoding: identity",
             "Transfer-Encoding: xchunked", "Transfer-Encoding : chunked"]
    for form in forms:
        fields = "".join(f"{name}: {word}\r\n" for name, word in usual.items())
        smuggled = b"POST /accounts HTTP/1.1\r\nX-Account: 1\r\nRequest-Id: smuggled\r\nContent-Length: 17\r\n\r\n" + body
        said = sent_raw(team, f"POST /accounts HTTP/1.1\r\nHost: a\r\nRequest-Id: {new_id()}\r\n{form}\r\n{fields}\r\n", body + smuggled, 5)
        check(" 200 " not in said, "mallory made an account as admin", form, said)
    status, told = team.desk_ask(1, "POST", "/accounts", {"name": "forged"})
    check(status == 200, "an account was made by a forged caller", status, told)


def no_file_of_the_folder_is_served(team):
    """Neither passwords nor keys nor the desk's file are read over the proxy, by whatever path."""
    for path in ("users", "admin.netrc", "tls.key", "tools.desk", "settings.json", "git/tools.git/config", "more.d/git.conf", "git/tools.git/desk/lock"):
        for way in ("/{}", "/page/../{}", "/page/..%2f{}", "/page/%2e%2e/{}", "/page/....//{}", "/page//{}", "/page../{}", "/git/../{}", "/git/..%2f{}", "/git/tools.git/../../{}",
                    "/page/team.json/../../{}"):
            status, told, _ = team.ask("mallory", "GET", way.format(path))
            check(status in (400, 403, 404, 405), "a file of the folder is served", way.format(path), status, told)


def guesses_are_slowed(team):
    """Passwords can't be guessed by the thousand, and others aren't slowed by who tries; each wrong one is logged as fail2ban reads it."""
    begun, count = time.monotonic(), 450

    def guess(number):
        return status_for(team, "ann", password=f"guess{number}")

    with concurrent.futures.ThreadPoolExecutor(24) as pool:
        guessed = [pool.submit(guess, number) for number in range(count)]
        status = status_for(team, "bob")
        looked = [it.result() for it in guessed].count(401)
    check(status == 200, "bob is turned away meanwhile", status)
    check(looked <= 260 + 50 * (time.monotonic() - begun), "so many guesses were looked at", looked, "in", time.monotonic() - begun)
    with open(os.path.join(team.path, "access.log"), encoding="utf-8") as log:
        check(re.search(r' 127\.0\.0\.1 "ann" ".*" 401 ', log.read()), "a wrong password isn't logged")
    time.sleep(2)
    check(status_for(team, "ann") == 200, "ann is turned away afterwards")


def half_sent_heads_stop_nobody(team):
    """More connections than a proxy has by itself, each with half a head and no password: users are answered all the same, and the connections are closed."""
    count = 1500
    soft, hard = resource.getrlimit(resource.RLIMIT_NOFILE)
    if hard < 2 * count:
        print(f"half_sent_heads_stop_nobody: fewer connections, as no more than {hard} files may be open here")
        count = hard // 3
    resource.setrlimit(resource.RLIMIT_NOFILE, (max(soft, min(hard, 3 * count)), hard))
    half = []
    for number in range(count):
        peer = socket.create_connection(("127.0.0.1", team.port))
        if number % 10 == 0:
            peer = team.context().wrap_socket(peer, server_hostname="127.0.0.1")
            peer.sendall(b"GET /page/ HTTP/1.1\r\nHost: ")
        half.append(peer)
    begun = time.monotonic()
    check(status_for(team, "ann", seconds=20) == 200, "ann isn't answered beside half-sent heads")
    print(f"ann is answered {time.monotonic() - begun:.1f} s after {count} half-sent heads")
    half[0].settimeout(40)
    check(half[0].recv(1000) == b"", "a half-sent head is waited for")
    for peer in half:
        peer.close()


def bodies_are_bounded(team):
    """A push that announces more than is allowed is turned away at once, also in pieces; and a large one that is allowed is taken."""
    for fields in ({"Content-Length": str(100 << 30)}, {"Content-Length": str((200 << 20) + 1)}):
        head = "".join(f"{name}: {word}\r\n" for name, word in {**team.authorization("ann"), **fields, "Content-Type": "application/x-git-receive-pack-request"}.items())
        said = sent_raw(team, f"POST /git/tools.git/git-receive-pack HTTP/1.1\r\nHost: a\r\n{head}\r\n")
        check(" 413 " in said, "a body is waited for", fields, said)
    for path in ("/changes/1/submit", "/git/tools.git/git-upload-pack", "/password", "/page/"):
        said = sent_raw(team, f"POST {path} HTTP/1.1\r\nHost: a\r\nContent-Length: 20000000\r\n{'Authorization: ' + team.authorization('ann')['Authorization']}\r\n\r\n")
        check(" 413 " in said or " 405 " in said, "a body is waited for", path, said)
    check(team.in_repository("config", "receive.maxInputSize") == str(200 << 20), "git takes more than the proxy")
    number, _ = team.change("ann", {"large": os.urandom(3 << 20)}, "Add a large file", clone=team.clone("ann"))
    check(number, "a push of three mebibytes isn't taken")


def certificate_is_no_authority(team):
    """Who trusts the proxy's certificate trusts no other that its key has signed; TLS before 1.2 isn't spoken; git, curl and python take it."""
    said = subprocess.run(["openssl", "x509", "-in", os.path.join(team.path, "tls.crt"), "-noout", "-text"], check=True, capture_output=True, text=True).stdout
    check("CA:FALSE" in said and "CA:TRUE" not in said and "TLS Web Server Authentication" in said, "the certificate", said)
    curl = ["curl", "-s", "-o", "/dev/null", "-w", "%{http_code}", "--cacert", os.path.join(team.path, "tls.crt"), f"https://127.0.0.1:{team.port}/health"]
    check(subprocess.run(curl, check=True, capture_output=True, text=True).stdout == "200", "curl")
    check("refs/heads/main" in team.git("ann", "ls-remote", f"https://127.0.0.1:{team.port}/git/tools.git"), "git")
    old = subprocess.run(["openssl", "s_client", "-connect", f"127.0.0.1:{team.port}", "-tls1_1", "-cipher", "ALL:@SECLEVEL=0"], stdin=subprocess.DEVNULL, capture_output=True, text=True, check=False)
    check("Cipher is (NONE)" in old.stdout or old.returncode, "TLS 1.1 is spoken", old.stdout[-500:])


CASES = {function.__name__: function for function in (only_the_hook_makes_patch_sets, who_asks_is_who_gave_the_password, no_file_of_the_folder_is_served, guesses_are_slowed, bodies_are_bounded,
                                                      certificate_is_no_authority, half_sent_heads_stop_nobody)}
ALONE = {"half_sent_heads_stop_nobody", "guesses_are_slowed", "only_the_hook_makes_patch_sets"}
