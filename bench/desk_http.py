"""What the tests of a desk over HTTP share: a delivery's line as a request, the program that serves, and what it answers."""
import atexit
import http.client
import json
import socket
import subprocess
import urllib.parse

ROUTES = {
    "CreateAccount": ("POST", "/accounts"), "PutGroup": ("PUT", "/groups/{group}"), "PutProject": ("PUT", "/projects/{project}"),
    "RecordBase": ("PUT", "/projects/{project}/branches/{branch}"), "Branch": ("GET", "/projects/{project}/branches/{branch}"), "CreateChange": ("POST", "/changes/"),
    "Change": ("GET", "/changes/{change}"), "Requirements": ("GET", "/changes/{change}/requirements"), "Threads": ("GET", "/changes/{change}/threads"),
    "Attention": ("GET", "/changes/{change}/attention"), "Upload": ("POST", "/changes/{change}/revisions"),
    "Review": ("POST", "/changes/{change}/revisions/{patch_set}/review"), "AddReviewer": ("POST", "/changes/{change}/reviewers"),
    "RemoveReviewer": ("POST", "/changes/{change}/reviewers/{account}/delete"), "SetWip": ("POST", "/changes/{change}/wip"), "SetReady": ("POST", "/changes/{change}/ready"),
    "Abandon": ("POST", "/changes/{change}/abandon"), "Restore": ("POST", "/changes/{change}/restore"), "Submit": ("POST", "/changes/{change}/submit"),
    "AddAttention": ("POST", "/changes/{change}/attention"), "RemoveAttention": ("POST", "/changes/{change}/attention/{account}/delete"),
    "CloseEpoch": ("POST", "/epochs/close"),
}


class Asked:
    """A line of `apply` as a request over HTTP."""

    def __init__(self, line):
        said = json.loads(line)
        self.method, path = ROUTES[said["do"]]
        self.path = path.format(**{name: urllib.parse.quote(str(value), safe="") for name, value in said.items()})
        self.fields = {"X-Account": str(said["caller"])}
        self.body = None
        if self.method != "GET":
            self.fields.update({"Request-Id": said["id"], **({"Request-Epoch": str(said["epoch"])} if "epoch" in said else {})})
            self.body = json.dumps(said.get("body", {}), ensure_ascii=False).encode()


def free_port():
    with socket.socket() as found:
        found.bind(("127.0.0.1", 0))
        return found.getsockname()[1]


def serve(program, file, count=4_000_000_000):
    """A process that serves a desk, and its port, once it listens. It ends with the script at the latest."""
    port = free_port()
    process = subprocess.Popen([program, "serve", file, "--port", str(port), "--count", str(count)], stdout=subprocess.PIPE, stderr=subprocess.PIPE)
    atexit.register(process.kill)
    said = process.stdout.readline()
    if said != f"listening on 127.0.0.1:{port}\n".encode():
        raise SystemExit(f"serve says {said!r} {process.communicate()!r}")
    return process, port


def ask(port, asked, seconds=60):
    """The status and the line of JSON of the answer. OSError and HTTPException say that there is none."""
    peer = http.client.HTTPConnection("127.0.0.1", port, timeout=seconds)
    try:
        peer.request(asked.method, asked.path, asked.body, asked.fields)
        answer = peer.getresponse()
        text = answer.read()
    finally:
        peer.close()
    if not text.startswith(b")]}'\n"):
        raise http.client.HTTPException(text)
    return answer.status, text[5:]
