"""The programs that `start` runs: each is started again when it ends, and the desk also where it hangs. A module; standard library and setpriv.

Nothing here is proved, and no promise of the desk needs it: whatever is ended at any moment goes on where it was.
"""
import contextlib
import http.client
import os
import select
import signal
import socket
import subprocess
import threading
import time

from team import fail, printed

# fcgiwrap leaves its own children behind when it is ended; this ends all of its group, also where `start` was killed. What stands behind & would have no standard input of its own.
GROUP = ["sh", "-c", 'exec 3<&0; trap "trap - TERM; kill 0" TERM; "$@" <&3 3<&- & wait', "sh"]
LOOK_EVERY = 10


class Child:
    """A program that is started again when it ends: a second later, or longer where it ended soon. One that rests begins after ten minutes, and again so many seconds after it
    ended well. It is ended where this one is. One that has a port isn't started where another user's program listens there: what that says would be believed, so
    all ends. One that listens at a socket is given that as its standard input: it is there before the program and stays where that ends, so who comes meanwhile waits, and what
    was said meanwhile to one that takes datagrams is heard."""

    def __init__(self, team, name, words, socket_file=None, rests=None, port=None, kind=socket.SOCK_STREAM):
        self.team, self.name, self.words, self.pause, self.rests, self.port = team, name, words, 1, rests, port
        self.process, self.due, self.begun, self.log = None, time.monotonic() + 600 if rests else 0, 0, team.path("log", name + ".log")
        self.listening = listening_at(team, socket_file, kind) if socket_file else None

    def check_port(self):
        # Asked once more at the end: a program that is just ending may be heard, and be gone when it is looked whose it is.
        if self.port and is_listened_at(self.port) and not is_own(self.port) and is_listened_at(self.port):
            fail(f"another user's program listens at port {self.port}, which {self.name} is for: all ends, so that nobody believes it; end that program")

    def start(self):
        self.check_port()
        with open(self.log, "ab") as log:
            words = ["setpriv", "--pdeathsig", "TERM", *self.words]
            self.process = subprocess.Popen(words, stdin=self.listening or subprocess.DEVNULL, stdout=log, stderr=log, start_new_session=True)
        if self.name != "desk":  # Where memory runs out the system ends others before the desk, for which all wait.
            with contextlib.suppress(OSError), open(f"/proc/{self.process.pid}/oom_score_adj", "w", encoding="ascii") as score:
                score.write("300")
        self.begun, self.watched = time.monotonic(), os.pidfd_open(self.process.pid)

    def wait_until(self, is_ready):
        """Waits until the program is ready, as long as it runs: a large desk takes long to open. Where it ends before, all ends."""
        while not is_ready():
            if self.process.poll() is not None:
                fail(f"{self.name} doesn't start; {self.log} says:\n{self.last_words()}")
            if time.monotonic() - self.begun > 60:
                print(f"{self.name} isn't ready yet; it is waited for", flush=True)
                self.begun = time.monotonic()
            time.sleep(0.1)

    def ended(self):
        status = self.process.wait()
        self.end_group()
        os.close(self.watched)
        self.process = None
        if status == 0 and self.rests:
            self.due = time.monotonic() + self.rests
            return
        if self.rests:
            self.due = time.monotonic() + 600
            print(f"{self.name} ended with status {status}, and is run again in ten minutes; {self.log} says:\n{self.last_words()}", flush=True)
            return
        self.pause = 60 if self.name.startswith("follow") and status == 3 else 0 if time.monotonic() - self.begun > 10 else min(max(1, 2 * self.pause), 30)
        self.due = time.monotonic() + self.pause
        print(f"{self.name} ended with status {status}, and is started again in {self.pause} s; {self.log} says:\n{self.last_words()}", flush=True)

    def last_words(self):
        with open(self.log, encoding="utf-8", errors="replace") as log:
            return printed("".join("  " + line for line in log.readlines()[-5:]))

    def end(self):
        if self.process:
            self.process.terminate()
            with contextlib.suppress(subprocess.TimeoutExpired):
                self.process.wait(10)
            self.end_group()
            self.process.wait()

    def end_group(self):
        """Ends what a program has left behind when it ended, as a worker that holds its port."""
        with contextlib.suppress(ProcessLookupError):
            os.killpg(self.process.pid, signal.SIGKILL)


def listening_at(team, name, kind):
    """A socket of the folder that nginx's workers may use, in place of one that was left."""
    listening = socket.socket(socket.AF_UNIX, kind)
    with contextlib.suppress(FileNotFoundError):
        os.remove(team.path(name + ".new"))
    listening.bind(team.path(name + ".new"))
    if kind == socket.SOCK_STREAM:
        listening.listen(512)
    team.let_nginx_read(name + ".new")
    os.rename(team.path(name + ".new"), team.path(name))
    return listening


def end_left(team):
    """Ends what an earlier `start` of this folder has left, whoever holds its lock now: the programs of this user that write to its logs."""
    for number in filter(str.isdigit, os.listdir("/proc")):
        with contextlib.suppress(OSError):
            if os.readlink(f"/proc/{number}/fd/1").startswith(team.path("log") + os.sep):
                os.kill(int(number), signal.SIGKILL)


def is_listened_at(port):
    with contextlib.suppress(OSError), socket.create_connection(("127.0.0.1", port), 5):
        return True
    return False


def is_own(port):
    """Whether a program of this user listens at a port of 127.0.0.1; where nothing tells whose one is, whether any does."""
    with contextlib.suppress(FileNotFoundError), open("/proc/net/tcp", encoding="utf-8") as lines:
        places = [f"{address}:{port:04X}" for address in ("0100007F", "7F000001", "00000000")]
        return any(words[1] in places and words[3] == "0A" and words[7] == str(os.geteuid()) for words in map(str.split, lines))
    return is_listened_at(port)


def bound(file, open_anew, most=100 << 20):
    """Keeps a log from filling the disk, whatever peers without a password have it say: beyond so many bytes it becomes FILE.full, in place of the one before."""
    def look():
        while True:
            with contextlib.suppress(OSError):
                if os.stat(file).st_size > most:
                    os.replace(file, file + ".full")
                    open_anew()
            time.sleep(LOOK_EVERY)

    threading.Thread(target=look, daemon=True).start()


def answers(port, seconds):
    """Whether the desk answers at its port in so many seconds, to a question that it has no route for."""
    peer = http.client.HTTPConnection("127.0.0.1", port, timeout=seconds)
    try:
        peer.request("GET", "/")
        return peer.getresponse().read() is not None
    except (OSError, http.client.HTTPException):
        return False
    finally:
        peer.close()


class Health:
    """Asks a desk each ten seconds, and kills it where it gave nobody an answer for as long as the settings' hung_after says: then it hangs, and is started again.

    By itself the desk gives a connection 30 seconds, and all else waits behind it; so the usual 90 seconds are three peers that do their worst, and a question waits for one. A desk that
    is busy answers others, and nginx says so at a socket with each answer: so one that has a long queue isn't taken for one that hangs."""

    def __init__(self, desk, port, hung_after, answered: socket.socket | None = None) -> None:
        self.desk, self.port, self.hung_after, self.answered, self.other_heard = desk, port, hung_after, answered, 0.0

    def watch(self):
        threading.Thread(target=self.look, daemon=True).start()
        if self.answered:
            threading.Thread(target=self.hear, daemon=True).start()

    def hear(self) -> None:
        """Notes when the desk answered somebody."""
        while self.answered and self.answered.recv(4096):
            self.other_heard = time.monotonic()

    def look(self):
        process, heard = None, 0
        while True:
            if self.desk.process is not process:
                process, heard = self.desk.process, None
            if process and answers(self.port, self.hung_after / 3):
                heard = time.monotonic()
            elif process and heard and process is self.desk.process and time.monotonic() - max(heard, self.other_heard) > self.hung_after:
                print(f"the desk gave no answer for {self.hung_after} s: it is killed, and started again", flush=True)
                with contextlib.suppress(ProcessLookupError):
                    process.kill()
            time.sleep(min(self.hung_after / 3, LOOK_EVERY))


def watch(running):
    """Starts again whatever ends, until this program is told to end."""
    while True:
        ended, watched = select.poll(), {child.watched: child for child in running if child.process}
        for number in watched:
            ended.register(number, select.POLLIN)
        for child in running:
            if not child.process:
                child.check_port()  # While it is down nobody else may be taken for it.
        due = [time.monotonic() + 0.1 if child.port else child.due for child in running if not child.process]
        for found, _ in ended.poll(1000 * max(0, min(due) - time.monotonic()) if due else None):
            watched[found].ended()
        for child in running:
            if not child.process and child.due <= time.monotonic():
                child.start()
