"""What front, feeder and tools say to a desk and to a feeder. A module; standard library only."""
import contextlib
import json
import os
import re
import signal
import socket
from collections.abc import Iterator
from typing import Any

LENGTH = re.compile(rb"(?i)\r\ncontent-length: *(\d+)")
# The only entry that is no request. No front appends it: who sends it is told by the desk that it
# is none.
UPGRADE = re.compile(rb"UPGRADE (\d{1,9})")


def tell(port: int, request: bytes, seconds: float = 40) -> bytes | None:
    """Returns the whole answer of the desk at a port.

    None where there was no answer: then the request was taken, or it wasn't.
    """
    try:
        with socket.create_connection(("127.0.0.1", port), timeout=seconds) as peer:
            peer.sendall(request)
            # So that the desk waits for nothing more, whatever stands in the request.
            peer.shutdown(socket.SHUT_WR)
            answer = b""
            while more := peer.recv(65536):
                answer += more
                head, end, body = answer.partition(b"\r\n\r\n")
                length = LENGTH.search(head)
                if end and length and len(body) >= int(length[1]):
                    return answer if is_of_desk(answer) else None
    except OSError:
        pass
    return None


def is_of_desk(answer: bytes) -> bool:
    """Returns whether an answer has the form of a desk's."""
    try:
        return told(answer) is not None
    except (ValueError, IndexError):
        return False


def told(answer: bytes) -> tuple[int, Any]:
    """Returns the status and the JSON of an answer."""
    body = answer.partition(b"\r\n\r\n")[2]
    if not body.startswith(b")]}'\n"):
        raise ValueError("no answer of a desk")
    return int(answer[9:12]), json.loads(body[5:])


def subscribe(desk_file: str, asked: dict[str, Any]) -> Iterator[dict[str, Any]]:
    """Gives the lines that the feeder of a desk tells at its socket."""
    with socket.socket(socket.AF_UNIX) as peer:
        peer.connect(desk_file + ".socket")
        peer.sendall(json.dumps(asked).encode() + b"\n")
        for line in peer.makefile("rb"):
            yield json.loads(line)


def end_listener(port: int) -> None:
    """Kills the program that listens at a port here, so that its supervisor starts it again."""
    with open("/proc/net/tcp", encoding="utf-8") as lines:
        rows = [line.split() for line in lines]
    sockets = {
        f"socket:[{row[9]}]" for row in rows if row[1].endswith(f":{port:04X}") and row[3] == "0A"
    }
    for number in filter(str.isdigit, os.listdir("/proc")):
        with contextlib.suppress(OSError):
            opened = os.listdir(f"/proc/{number}/fd")
            if any(os.readlink(f"/proc/{number}/fd/{it}") in sockets for it in opened):
                os.kill(int(number), signal.SIGKILL)
