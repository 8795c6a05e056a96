"""A desk that is served behind nginx, as examples/proxy sets it up, with the page of examples/page: what the tests of these share."""
import base64
import http.client
import json
import os
import re
import shutil
import socket
import ssl
import subprocess
import sys
import time

TOP = os.path.dirname(os.path.dirname(os.path.realpath(__file__)))
EXAMPLES = os.path.join(TOP, "examples")
MISSING = 77


def pass_over_without(**packages):
    """Ends the script with its own status where a command isn't there, and says which of Debian's packages has it."""
    os.environ["PATH"] += os.pathsep + "/usr/sbin"  # where Debian has nginx and fcgiwrap, and root alone looks
    for command, package in packages.items():
        if not shutil.which(command):
            print(f"passed over: there is no {command} here; apt-get install {package}")
            sys.exit(MISSING)


def free_ports(count):
    held = [socket.create_server(("127.0.0.1", 0)) for _ in range(count)]
    ports = [it.getsockname()[1] for it in held]
    for it in held:
        it.close()
    return ports


def read(*path):
    with open(os.path.join(*path), encoding="utf-8") as file:
        return file.read()


def write(text, *path):
    """Writes a file that nginx's workers read as well, whatever the umask is: where root starts it they are other users."""
    with open(os.path.join(*path), "w", encoding="utf-8") as file:
        file.write(text)
    os.chmod(os.path.join(*path), 0o644)


# What docs/proxy.md says to take away for a desk without git.
HOOK_ALONE = re.compile(r"^        if \(\$is_of_code\) \{\n.*\n        \}\n", re.M)


class Proxied:
    """A desk in a folder, served, and nginx before it. Passwords are by name, and accounts too, but for admin's. Where authors are trusted they make changes through nginx."""

    def __init__(self, program, folder, count, passwords, accounts, are_trusted=False):
        self.folder, self.passwords, self.are_trusted = folder, passwords, are_trusted
        self.desk_port, self.port = free_ports(2)
        desk = os.path.join(folder, "desk")
        subprocess.run([program, "init", desk], check=True, stdout=subprocess.DEVNULL)
        self.serving = subprocess.Popen([program, "serve", desk, "--port", str(self.desk_port), "--count", str(count)], stdout=subprocess.PIPE, text=True)
        self.serving.stdout.readline()
        self.set_up(accounts)
        self.nginx = subprocess.Popen(["nginx", "-p", folder, "-c", "nginx.conf", "-g", "daemon off;"], stderr=subprocess.DEVNULL)
        self.wait()

    def set_up(self, accounts):
        """Puts all that nginx reads into the folder."""
        conf = read(EXAMPLES, "proxy", "nginx.conf").replace("127.0.0.1:8473", f"127.0.0.1:{self.desk_port}").replace("127.0.0.1:8443", f"127.0.0.1:{self.port}")
        conf = conf.replace("/srv/proxy", self.folder)
        for name in ("to_asked.conf", "to_desk.conf", "administrators.conf"):
            write(read(EXAMPLES, "proxy", name), self.folder, name)
        write(HOOK_ALONE.sub("", conf) if self.are_trusted else conf, self.folder, "nginx.conf")
        lines = "".join(f"~^{name}$ {number};\n" for name, number in accounts.items())
        write(read(EXAMPLES, "proxy", "accounts.conf") + lines, self.folder, "accounts.conf")
        secrets = {name: subprocess.run(["openssl", "passwd", "-6", word], check=True, capture_output=True, text=True).stdout for name, word in self.passwords.items()}
        write("".join(f"{name}:{secret}" for name, secret in secrets.items()), self.folder, "users")
        key = ["openssl", "req", "-x509", "-newkey", "rsa:2048", "-nodes", "-keyout", "tls.key", "-out", "tls.crt", "-days", "1", "-subj", "/CN=desk", "-addext", "subjectAltName=IP:127.0.0.1"]
        subprocess.run(key, check=True, cwd=self.folder, stderr=subprocess.DEVNULL)
        shutil.copytree(os.path.join(EXAMPLES, "page"), os.path.join(self.folder, "page"))
        for path in ("", "page"):
            os.chmod(os.path.join(self.folder, path), 0o755)
        for file in os.scandir(os.path.join(self.folder, "page")):
            os.chmod(file.path, 0o644)

    def wait(self):
        for _ in range(100):
            try:
                socket.create_connection(("127.0.0.1", self.port)).close()
                break
            except OSError:
                time.sleep(0.05)

    def connect(self, seconds=100):
        """A connection to nginx, whose certificate nobody has signed."""
        context = ssl.SSLContext(ssl.PROTOCOL_TLS_CLIENT)  # A default one reads all that the system trusts, each time.
        context.check_hostname, context.verify_mode = False, ssl.CERT_NONE
        return http.client.HTTPSConnection("127.0.0.1", self.port, timeout=seconds, context=context)

    def fetch(self, method, path, user=None, body=None, password=None, fields=()):
        """The status, the fields and the text of an answer."""
        sent = dict(fields)
        if user:
            word = f"{user}:{self.passwords[user] if password is None else password}"
            sent["Authorization"] = "Basic " + base64.b64encode(word.encode()).decode()
        peer = self.connect()
        peer.request(method, path, None if body is None else json.dumps(body), sent)
        answer = peer.getresponse()
        text = answer.read().decode()
        peer.close()
        return answer.status, answer.headers, text

    def ask(self, method, path, user, id=None, body=None, password=None, fields=()):
        """The status, and the JSON of the answer where it is one of the desk."""
        status, _, text = self.fetch(method, path, user, body, password, {**dict(fields), **({"Request-Id": id} if id else {})})
        return status, json.loads(text[5:]) if text.startswith(")]}'\n") else None

    def end(self):
        self.nginx.terminate()
        self.nginx.wait()
        self.serving.kill()
        self.serving.wait()
